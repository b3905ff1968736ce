#!/usr/bin/env bash
# Builds the extension in a folder of its own, and tries what README.md promises: two files with 1,000 random rows each are merged into one another, in
# either order, and all come out equal. Nothing is left, unless a folder is named that the logs go to.
set -euo pipefail
here=$(CDPATH='' cd -- "$(dirname -- "$(readlink -f -- "${BASH_SOURCE[0]}")")" && pwd)
room=$(mktemp -d)
trap 'rm -rf "$room"' EXIT
words=(-l:libhlc.a)
[ ! -e "$here/../../include/hlc.h" ] || words=("-I$here/../../include" "$here/../../crates/hlc_c/out/libhlc.a")
cc -std=c11 -O2 -Wall -Wextra -Werror -fPIC -shared "$here/hlc.c" "${words[@]}" -Wl,--exclude-libs,ALL -pthread -o "$room/hlc.so"
cd "$room"

# Runs SQL on a file, by a process that has the clock of a node. It begins at the bound that the process before it left, up to a window ahead of the
# system's clock: so that comes up to it first, or a few processes in a row would be too far ahead.
on() {
    local node=$1 file=$2
    shift 2
    sleep 0.15
    sqlite3 -batch -bail -cmd '.load ./hlc' -cmd '.output /dev/null' -cmd "select hlc_open('$node', '$node.bound', '$node.log')" -cmd .output \
        "$file" "$@"
}

# The statement that merges a file into another.
merge() {
    on "$1" "$2" "attach '$3' as theirs" 'insert or replace into notes select * from theirs.notes'
}

write="insert or replace into notes (id, body)
    with recursive row(n) as (select 1 union all select n + 1 from row where n < 100)
    select abs(random()) % 600, hex(randomblob(4)) from row"
tied="insert into notes (id, body, hlc, node)
    with recursive row(n) as (select 1 union all select n + 1 from row where n < 50)
    select 'tied ' || n, hex(randomblob(4)), hlc_pack(n, 0), hlc_node() from row"
for node in eu us; do
    on "$node" "$node.db" ".read $here/notes.sql" "$tied"
done
for round in {1..10}; do
    on eu eu.db "$write"
    on us us.db "$write"
done
cp eu.db eu-2.db
cp us.db us-2.db
merge eu eu.db us.db
merge us us.db eu.db
merge us us-2.db eu-2.db
merge eu eu-2.db us-2.db
merge eu eu.db us.db

table='select * from notes order by id'
for file in us.db eu-2.db us-2.db; do
    if ! cmp -s <(sqlite3 eu.db "$table") <(sqlite3 "$file" "$table"); then
        echo "$file isn't equal to eu.db" >&2
        exit 1
    fi
done
# What is written after a row of another node is above it, though its clock is 250 ms ahead.
ahead="insert into notes values ('ahead', '', hlc_pack(hlc_l(hlc_now()) + 250, 7), 'ap')"
if [ "$(on eu eu-2.db "$ahead" 'select hlc_now() > max(hlc) from notes')" != 1 ]; then
    echo 'a stamp is not above a row that came before it' >&2
    exit 1
fi
sqlite3 eu.db "select count(*) || ' rows: ' || sum(node = 'eu') || ' of eu and ' || sum(node = 'us') || ' of us, in all four files' from notes"
[ $# = 0 ] || cp eu.log us.log "$1"
