-- The causes of a log, as `hlc audit` tells them: each clock rule that an event's stamp breaks, in a row of its own.
--
-- It reads a table `events` with a row for each event: its node; seq, by which it stands among the events of that node, and where that is equal
-- by line; line, the name that it has in answers; kind: local, send, receive, or, of a receive at which the clock doesn't count, merge (the clock isn't read there) or merge-clock; the
-- message that it sends or receives; reading, what its clock read, or NULL; and the stamp (l, c) that it claims. A message is sent once.
create view causes as
with at_node as (
    select line, node, kind, message, l, c,
        case when kind = 'merge' then 0 else coalesce(reading, case when l < 1 then 1 else l end) end as reading,
        case when kind in ('merge', 'merge-clock') then 0 else 1 end as ticks,
        lag(line) over own as own_line, lag(l) over own as own_l, lag(c) over own as own_c
    from events
    window own as (partition by node order by seq, line)
), beside as (
    select at_node.*, sent.line as sent_line, sent.l as sent_l, sent.c as sent_c,
        own_l is null or sent.l > own_l or (sent.l = own_l and sent.c > own_c) as sent_is_later
    from at_node left join events as sent
        on at_node.kind in ('receive', 'merge', 'merge-clock') and sent.kind = 'send' and sent.message = at_node.message
), seen as (
    select beside.*, case when sent_is_later then sent_l else own_l end as seen_l, case when sent_is_later then sent_c else own_c end as seen_c
    from beside
), ruled as (
    -- The stamp that the rule gives. 4294967295 is the greatest C, after which comes the next L; of a packed stamp with B bits for C it is 2^B - 1.
    select seen.*,
        case when seen_l is null or reading > seen_l then reading when seen_c + ticks > 4294967295 then seen_l + 1 else seen_l end as rule_l,
        case when seen_l is null or reading > seen_l or seen_c + ticks > 4294967295 then 0 else seen_c + ticks end as rule_c
    from seen
)
select line, node, 'behind' as rule, cast(null as bigint) as of_line, cast(null as bigint) as rule_l, cast(null as bigint) as rule_c
from ruled where l < reading
union all
select line, node, 'not-above', own_line, cast(null as bigint), cast(null as bigint)
from ruled where own_l > l or (own_l = l and own_c + ticks > c)
union all
select line, node, 'not-above', sent_line, cast(null as bigint), cast(null as bigint)
from ruled where sent_l > l or (sent_l = l and sent_c + ticks > c)
union all
select line, node, 'ahead', cast(null as bigint), rule_l, rule_c
from ruled where l > rule_l or (l = rule_l and c > rule_c);
