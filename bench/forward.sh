#!/usr/bin/env bash
# How many datagrams a second a switch forwards over 127.0.0.1, beside a loop in C that receives, copies
# and sends: requests to read a key that isn't listed, from a client to its home, at most 32 at once. Both
# in turns, three times each, for so many seconds.
#     forward.sh [PROGRAM [SECONDS [BASE]]]
set -euo pipefail
here=$(cd "$(dirname "$0")" && pwd)
program=${1:-$here/../crates/peg/out/peg}
seconds=${2:-3}
base=${3:-7300}
made=$(mktemp -d)
node=
trap '[ -z "$node" ] || kill "$node"; rm -rf "$made"' EXIT
cc -O2 -o "$made/forward" "$here/forward.c"
at=$((base + 1)) to=$((base + 8)) from=$((base + 128))

measured() {
    "$@" > /dev/null &
    node=$!
    sleep 0.3
    "$made/forward" load "$from" "$at" "$to" "$seconds"
    kill "$node"
    wait "$node" 2> /dev/null || true
    node=
}

for _ in 1 2 3; do
    printf 'switch: '
    measured "$program" switch "$base" 1:1:1:1:1:1 0 1000000000
    printf 'loop:   '
    measured "$made/forward" copy "$at" "$to"
done
