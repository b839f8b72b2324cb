#!/usr/bin/env bash
# Times `peg soak 20000 7`, and beside it `peg replay` on the same events, in turns. Prints for each
# the time of the best of nine runs and the most memory. What they write goes to /dev/null.
#     soak.sh [PROGRAM]
set -euo pipefail
here=$(cd "$(dirname "$0")" && pwd)
program=${1:-$here/../crates/peg/out/peg}
made=$(mktemp -d)
trap 'rm -rf "$made"' EXIT
python3 "$here/soak.py" "$program" 20000 7 > "$made/schedule"
for _ in 1 2 3 4 5 6 7 8 9; do
    for word in "soak 20000 7" replay; do
        start=$EPOCHREALTIME
        # The words of the command are two arguments and more.
        # shellcheck disable=SC2086
        /usr/bin/time -q -f %M -o "$made/memory" "$program" $word < "$made/schedule" > /dev/null
        echo "${word%% *} $start $EPOCHREALTIME $(cat "$made/memory")" >> "$made/runs"
    done
done
awk '
    { time = 1000 * ($3 - $2) }
    !($1 in best) || time < best[$1] { best[$1] = time }
    $4 > most[$1] { most[$1] = $4 }
    END {
        for (word in best) printf "%-6s %7.1f ms %7.1f MB\n", word, best[word], most[word] / 1024
        printf "soak took %.2f times as long as replay\n", best["soak"] / best["replay"]
    }' "$made/runs"
echo "$(nproc) processors, $(sed -n 's/^model name[^:]*: //p' /proc/cpuinfo | head -1)"
