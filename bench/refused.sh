#!/usr/bin/env bash
# Replays schedules with each allocation refused in turn, the first, the second and so on: each run is
# to end for want of memory with a first part of the text, or with the whole text where the allocation
# is one that the program can do without. The schedule of crates/peg unless others are named.
#     refused.sh PROGRAM [SCHEDULE ..]
set -euo pipefail
here=$(cd "$(dirname "$0")" && pwd)
program=$1
shift
if [ $# = 0 ]; then set -- "$here/../crates/peg/stdin"; fi
source "$here/allocator.sh"
made=$(mktemp -d)
trap 'rm -rf "$made"' EXIT
make_allocator "$made"
for schedule; do
    COUNTED="$made/calls" LD_PRELOAD="$made/allocator.so" \
        "$program" replay < "$schedule" > "$made/whole"
    calls=$(cat "$made/calls")
    survived=0
    for ((number = 1; number <= calls; number++)); do
        status=0
        REFUSE=$number LD_PRELOAD="$made/allocator.so" \
            "$program" replay < "$schedule" > "$made/part" 2> "$made/said" || status=$?
        case $status in
            0) survived=$((survived + 1)) && cmp -s "$made/whole" "$made/part" ;;
            1) [ "$(cat "$made/said")" = 'peg: out of memory' ] &&
                cmp -s -n "$(stat -c %s "$made/part")" "$made/whole" "$made/part" ;;
            *) false ;;
        esac || {
            echo "$schedule: allocation $number of $calls: status $status" >&2
            exit 1
        }
    done
    echo "$schedule: $calls allocations, each refused in turn; $survived did without"
done
