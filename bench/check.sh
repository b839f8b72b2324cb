#!/usr/bin/env bash
# Times `peg check` of 200,000 operations on one key and on 100,000 keys, beside `peg replay` of the
# schedule that prints as many: once of what replay writes, in which no operation was answered, and once
# of a history in which all were, with their orders. Prints the processor time of the best of five runs,
# the most memory, and what check took of replay.
#     check.sh [PROGRAM]
set -euo pipefail
here=$(cd "$(dirname "$0")" && pwd)
program=${1:-$here/../crates/peg/out/peg}
made=$(mktemp -d)
trap 'rm -rf "$made"' EXIT

# The best processor time in milliseconds and the most memory in KiB of a word on a file.
timed() {
    for _ in 1 2 3 4 5; do
        /usr/bin/time -q -f '%U %S %M' -a -o "$made/$3" "$program" "$1" < "$2" > "$made/said"
    done
    awk '{ time = 1000 * ($1 + $2) }
        NR == 1 || time < best { best = time }
        $3 > most { most = $3 }
        END { printf "%d %d\n", best, most }' "$made/$3"
}

for keys in 1 100000; do
    python3 "$here/history.py" schedule 200000 "$keys" > "$made/schedule"
    python3 "$here/history.py" history 200000 "$keys" > "$made/history"
    read -r replayed memory <<< "$(timed replay "$made/schedule" replay-$keys)"
    mv "$made/said" "$made/trace"
    echo "$keys keys: replay ${replayed} ms, $((memory / 1024)) MB"
    for text in trace history; do
        read -r took memory <<< "$(timed check "$made/$text" "$text-$keys")"
        echo "    check of the $text, $(wc -l < "$made/$text") lines: $took ms, $((memory / 1024)) MB," \
            "$(awk -v a="$took" -v b="$replayed" 'BEGIN { printf "%.2f", a / b }') of replay;" \
            "it says $(cat "$made/said")"
    done
done
echo "$(nproc) processors, $(sed -n 's/^model name[^:]*: //p' /proc/cpuinfo | head -1)"
