-- The causes of a log, by SQLite: sqlite3 < examples/sql/sqlite.sql
create table log (kind text, node text, reading integer, l integer, c integer, message text);
.import --csv --skip 1 examples/sql/log.csv log
create view events as select rowid + 1 as line, rowid as seq, log.* from log;
.read examples/sql/causes.sql
select * from causes order by line;
