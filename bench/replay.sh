#!/usr/bin/env bash
# Times `peg replay` on the schedules of schedule.py, and says how much memory it took at most: with
# one key and with 100,000, at 10,000 to 1,000,000 events. What it writes goes to /dev/null, and the
# best of three runs counts. The time of a line is flat where it does not grow with their number.
#     replay.sh [PROGRAM]
set -euo pipefail
here=$(cd "$(dirname "$0")" && pwd)
program=${1:-$here/../crates/peg/out/peg}
made=$(mktemp -d)
trap 'rm -rf "$made"' EXIT
for keys in 1 100000; do
    for events in 10000 100000 1000000; do
        python3 "$here/schedule.py" "$events" "$keys" > "$made/schedule"
        : > "$made/runs"
        for _ in 1 2 3; do
            start=$EPOCHREALTIME
            /usr/bin/time -q -f %M -o "$made/memory" \
                "$program" replay < "$made/schedule" > /dev/null
            echo "$start $EPOCHREALTIME $(cat "$made/memory")" >> "$made/runs"
        done
        awk -v events="$events" -v keys="$keys" '
            NR == 1 || $2 - $1 < best { best = $2 - $1 }
            $3 > most { most = $3 }
            END {
                printf "%7d events, %6d keys: %7.3f s, %6.2f us a line, %6.1f MB\n",
                    events, keys, best, best / events * 1e6, most / 1024
            }' "$made/runs"
    done
done
echo "$(nproc) processors, $(sed -n 's/^model name[^:]*: //p' /proc/cpuinfo | head -1)"
