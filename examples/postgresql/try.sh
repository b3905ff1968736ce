#!/usr/bin/env bash
# Builds the extension and runs its tests, sql/hlc.sql, in a server of its own: from a copy of PostgreSQL's programs, in a folder of its own, over a socket
# there. The server is stopped, and nothing is left, unless a folder is named that its log goes to. As root it runs the server as nobody.
set -euo pipefail
here=$(CDPATH='' cd -- "$(dirname -- "$(readlink -f -- "${BASH_SOURCE[0]}")")" && pwd)
room=$(mktemp -d)
server=$room/server
user=()
[ "$(id -u)" != 0 ] || user=(runuser -u nobody --)
end() {
    [ ! -e "$server/data/postmaster.pid" ] || "${user[@]}" "$programs/pg_ctl" -D "$server/data" -m immediate stop >/dev/null
    rm -rf "$room"
}
trap end EXIT
chmod 755 "$room"
mkdir -m 777 "$server"
programs=$(bash "$here/own_copy.sh" "$room/copy")
cd "$server"
"${user[@]}" "$programs/initdb" -D data -A trust -U hlc --no-sync >initdb.log
cat >>data/postgresql.conf <<END
unix_socket_directories = '$server'
listen_addresses = ''
fsync = off
shared_preload_libraries = 'hlc'
hlc.node = 'eu'
hlc.log = 'hlc.log'
END
"${user[@]}" "$programs/pg_ctl" -D data -l server.log start >/dev/null || { cat server.log >&2 && exit 1; }
if ! PGHOST=$server PGUSER=hlc make -s -C "$room/copy/build" installcheck >installcheck.log 2>&1; then
    cat installcheck.log "$room/copy/build/regression.diffs" >&2
    exit 1
fi
echo "the tests passed, and $(($(wc -l <data/hlc.log) - 1)) events were logged"
[ $# = 0 ] || cp data/hlc.log "$1"
