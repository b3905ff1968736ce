-- A table whose rows have a last writer: of two rows of one id the one with the greater stamp stays, and if stamps are equal, the one of the greater
-- node. A row that another node wrote takes the clock along, so what is written here later is above it.
create table notes (
    id text primary key,
    body text,
    hlc integer not null default (hlc_now()),
    node text not null default (hlc_node())
);

create trigger notes_keep_the_last before insert on notes
when exists (select 1 from notes where id = new.id and (hlc, node) >= (new.hlc, new.node))
begin
    select raise(ignore);
end;

create trigger notes_merge_the_clock after insert on notes
when new.node <> hlc_node()
begin
    select hlc_merge(new.hlc, new.node || '@' || new.hlc);
end;
