-- The causes of a log, by PostgreSQL: psql -q -f examples/sql/postgresql.sql
create table log (place bigint generated always as identity, kind text, node text, reading bigint, l bigint, c bigint, message text);
\copy log (kind, node, reading, l, c, message) from 'examples/sql/log.csv' (format csv, header)
create view events as select place + 1 as line, place as seq, log.* from log;
\i examples/sql/causes.sql
select * from causes order by line;
