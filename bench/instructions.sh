#!/usr/bin/env bash
# Counts by callgrind the instructions that `PROGRAM replay` takes for the first lines of four large
# schedules, each closed by the line `end`: 30,000 lines, and 5,000 of large-values. The count is the
# same in each run of the same program.
#     instructions.sh [PROGRAM]
set -euo pipefail
here=$(cd "$(dirname "$0")" && pwd)
program=${1:-$here/../crates/peg/out/peg}
made=$(mktemp -d)
trap 'rm -rf "$made"' EXIT
for kind in million rounds-listed ops-many-keys large-values; do
    lines=30000
    [ "$kind" = large-values ] && lines=5000
    # A pipe into head would end the writer by a signal.
    python3 "$here/large.py" "$kind" > "$made/whole"
    { head -n "$lines" "$made/whole"; echo end; } > "$made/schedule"
    valgrind --tool=callgrind --callgrind-out-file="${KEPT:-/dev/null}" \
        "$program" replay < "$made/schedule" 2> "$made/count" > /dev/null
    awk -v kind="$kind" '/Collected/ { printf "%-14s %7.1f million instructions\n", kind, $NF / 1e6 }' \
        "$made/count"
done
