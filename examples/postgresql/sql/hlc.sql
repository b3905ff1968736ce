create extension hlc;

-- Stamps rise. They are bigint, so they are compared and indexed as numbers, and max() is the latest.
select hlc_now() < hlc_now() as rises;
select hlc_node(), current_setting('hlc.unit') as unit, current_setting('hlc.bits') as bits;

-- A column default. Where text is compared, all servers have to do it alike: the collation "C".
create table notes (
    id   text primary key,
    body text,
    hlc  bigint not null default hlc_now(),
    node text collate "C" not null default hlc_node()
);
insert into notes (id, body) values ('bread', '1 loaf'), ('pears', '2'), ('milk', '1 l');
select id, body, node from notes order by hlc, id;

-- A write of this server and one that comes from another are put in the same way: the last writer stays. If stamps are equal, it is the one of the
-- greater node.
prepare put (text, text, bigint, text) as
    insert into notes as old values ($1, $2, $3, $4)
    on conflict (id) do update set body = excluded.body, hlc = excluded.hlc, node = excluded.node
    where (excluded.hlc, excluded.node) > (old.hlc, old.node);
execute put('bread', '2 loaves', hlc_now(), hlc_node());
select id, body, node from notes order by hlc, id;

-- A message from a server whose clock is 100 ms ahead. Its receive is above it, and so is all that is written here later.
select hlc_pack(hlc_l(hlc_now()) + 100, 3) as carried \gset
select hlc_merge(:carried, 'us-1') > :carried as above_the_message;
execute put('bread', 'none', :carried - 1, 'us');
execute put('pears', '3', :carried - 1, 'us');
execute put('pears', '4', :carried - 2, 'us');
execute put('pears', '5', :carried - 1, 'ap');
execute put('milk', '2 l', hlc_now(), hlc_node());
select id, body, node from notes order by hlc, id;
select hlc > :carried as above_the_message from notes where id = 'milk';

-- What is sent takes a stamp of its own, above the rows that go with it.
select hlc_send('eu-1') > max(hlc) as above_the_rows from notes;

-- No event has the stamp 0. With it nothing comes, and the event is a local one.
select hlc_merge(0, 'nothing') > max(hlc) as above_the_rows from notes;

-- A row that is updated takes a new stamp.
update notes set body = '2', hlc = hlc_now(), node = hlc_node() where id = 'pears';
select id, body, node from notes order by hlc, id;

-- Stamps as pairs, to the greatest that a bigint has.
select hlc_l(hlc_pack(1700000000123, 7)) as l, hlc_c(hlc_pack(1700000000123, 7)) as c, hlc_pack(1700000000123, 7) as packed;
select hlc_pack((1::bigint << 47) - 1, 65535) = 9223372036854775807 as greatest;
select hlc_now() is null as never, hlc_pack(null, 0) is null as packed, hlc_merge(null, 'us-2') is null as merged;

-- What is refused changes nothing.
\set VERBOSITY terse
select hlc_merge(hlc_pack(hlc_l(hlc_now()) + 100000, 0), 'us-3');
select hlc_l(hlc_now()) - extract(epoch from clock_timestamp()) * 1000 < 1000 as near_the_clock;
\set VERBOSITY sqlstate
select hlc_merge(hlc_pack(hlc_l(hlc_now()) + 100000, 0), 'us-3');
\set VERBOSITY terse
select hlc_merge(-1, 'us-4');
select hlc_send('');
select hlc_send(repeat('x', 257));
select hlc_pack(1, 65536);
select hlc_pack(1::bigint << 47, 0);
select hlc_pack(-1, 0);
select hlc_l(-1);
set hlc.bits = 8;

-- Who may put rows needn't be who may take the clock along.
create role hlc_writer;
set role hlc_writer;
select hlc_now() > 0 as may_write;
select hlc_merge(0, 'us-5');
reset role;
drop role hlc_writer;
drop table notes;
drop extension hlc;
