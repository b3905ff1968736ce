#!/usr/bin/env bash
# Copies PostgreSQL's programs to a folder, with links to what they read, and installs the extension there. A server that is started from the copy finds
# it beside itself, and the PostgreSQL that is installed isn't touched. It writes where the programs are; FOLDER/build has what was built.
#
#     bash own_copy.sh FOLDER [WORDS for make..]
set -euo pipefail
here=$(CDPATH='' cd -- "$(dirname -- "$(readlink -f -- "${BASH_SOURCE[0]}")")" && pwd)
mkdir -p "$1"
room=$(readlink -f -- "$1")
shift
programs=$(pg_config --bindir)
share=$(pg_config --sharedir)
mkdir -p "$room$programs"
cp "$programs"/{postgres,initdb,pg_ctl,psql} "$room$programs"
for folder in "$(pg_config --pkglibdir)" "$share" "$share/extension"; do
    mkdir -p "$room$folder"
    find "$folder" -mindepth 1 -maxdepth 1 ! -name extension -exec ln -s -t "$room$folder" {} +
done
cp -r "$here" "$room/build"
tree=()
[ ! -e "$here/../../include/hlc.h" ] || tree=("TREE=$here/../..")
make -s -C "$room/build" "${tree[@]}" "DESTDIR=$room" "$@" install >&2
echo "$room$programs"
