#!/usr/bin/env bash
# Times `PROGRAM replay` on the large schedules of large.py, and beside it another program that is
# called in the same way, in turns. Prints for each the processor time of the best of three runs and
# the most memory, and what the first took of the second. What they write goes to /dev/null.
#     compare.sh [PROGRAM [OTHER]]
set -euo pipefail
here=$(cd "$(dirname "$0")" && pwd)
programs=("${1:-$here/../crates/peg/out/peg}" ${2:+"$2"})
made=$(mktemp -d)
trap 'rm -rf "$made"' EXIT
python3 "$here/large.py" --all "$made"
printf '%-18s %10s %10s %10s %10s %6s %6s\n' schedule 'ms' 'other ms' 'KiB' 'other KiB' time memory
for schedule in "$made"/*.sched; do
    : > "$made/runs"
    for _ in 1 2 3; do
        for i in "${!programs[@]}"; do
            /usr/bin/time -q -f "$i %U %S %M" -a -o "$made/runs" \
                "${programs[$i]}" replay < "$schedule" > /dev/null
        done
    done
    awk -v name="$(basename "$schedule" .sched)" '
        { time = 1000 * ($2 + $3) }
        !($1 in best) || time < best[$1] { best[$1] = time }
        $4 > most[$1] { most[$1] = $4 }
        END {
            printf "%-18s %10d %10s %10d %10s", name, best[0], best[1], most[0], most[1]
            if (best[1]) printf " %6.1f %6.1f", best[0] / best[1], most[0] / most[1]
            print ""
        }' "$made/runs"
done
echo "$(nproc) processors, $(sed -n 's/^model name[^:]*: //p' /proc/cpuinfo | head -1)"
