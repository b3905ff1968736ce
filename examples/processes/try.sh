#!/usr/bin/env bash
# Builds node.c in a folder of its own, runs the store with one clock that is 300 ms ahead, and shows the audit of its logs by hlc, or by the program that is
# named. Nothing is left, and nothing runs on.
set -euo pipefail
here=$(CDPATH='' cd -- "$(dirname -- "$(readlink -f -- "${BASH_SOURCE[0]}")")" && pwd)
hlc=$(readlink -f -- "$(command -v -- "${1:-hlc}")")
room=$(mktemp -d)
trap 'rm -rf "$room"' EXIT
words=(-l:libhlc.a)
if [ -e "$here/../../include/hlc.h" ]; then
    words=("-I$here/../../include" "$here/../../crates/hlc_c/out/libhlc.a")
    export LD_LIBRARY_PATH=$here/../../crates/hlc_c/out
fi
cc -std=c11 -O2 -Wall -Wextra -Werror "$here/node.c" "${words[@]}" -o "$room/node"
mkdir "$room/logs"
python3 "$here/cluster.py" "$room/logs" "$room/node" ap=300
cd "$room/logs"
tail -n +1 -- *.log | "$hlc" audit --packed 16
