#!/usr/bin/env bash
# Counts how often `peg replay` asks the allocator for memory on schedules of schedule.py with one
# key, up to the most packets of a run. Packets lie in blocks of 64 slots, so the count is to grow by
# one for each 64 packets and by the growth of the lists.
#     allocations.sh [PROGRAM]
set -euo pipefail
here=$(cd "$(dirname "$0")" && pwd)
program=${1:-$here/../crates/peg/out/peg}
source "$here/allocator.sh"
made=$(mktemp -d)
trap 'rm -rf "$made"' EXIT
make_allocator "$made"
for events in 100 10000 100000 1000000; do
    python3 "$here/schedule.py" "$events" 1 > "$made/schedule"
    COUNTED="$made/calls" LD_PRELOAD="$made/allocator.so" \
        "$program" replay < "$made/schedule" > "$made/trace"
    packets=$(grep -o 'sends [0-9 to]*$' "$made/trace" | grep -o '[0-9]*$' | tail -1)
    printf '%7d events, %6d packets in %4d blocks: %5d allocations\n' \
        "$events" $((packets + 1)) $(((packets + 64) / 64)) "$(cat "$made/calls")"
done
