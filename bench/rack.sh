#!/usr/bin/env bash
# Plays 20,000 operations of 64 clients on 16 servers with 64 listed keys by `peg rack`, over 127.0.0.1.
# Prints how many operations were answered, how many a second, and the share of the processor time that
# is of system calls; then the same of 4,000 operations while another process throws datagrams at all
# ports, 5,000 a second: bytes that are no packet, packets that nobody sent, and packets that were sent
# before. `peg check` judges what each run writes.
#     rack.sh [PROGRAM [BASE]]
set -euo pipefail
here=$(cd "$(dirname "$0")" && pwd)
program=${1:-$here/../crates/peg/out/peg}
base=${2:-31000}
made=$(mktemp -d)
thrower=
trap '[ -z "$thrower" ] || kill "$thrower"; rm -rf "$made"' EXIT

# The run of the lines of a file.
run() {
    /usr/bin/time -q -f '%e %U %S' -o "$made/time" "$program" rack "$base" < "$1" > "$made/trace"
    "$program" check < "$made/trace"
    awk '
        FNR == NR { seconds = $1; user = $2; kernel = $3; next }
        / end foreign / { foreign = $4 }
        /^history / { operations = $2; tail = 1 }
        tail && / answered / { answered += 1 }
        END {
            printf "%d of %d operations answered, %.0f operations a second", answered, operations,
                operations / seconds
            printf ", %.0f %% of the time in system calls, %d foreign datagrams\n",
                100 * kernel / (user + kernel), foreign
        }' "$made/time" "$made/trace"
}

python3 "$here/rack.py" make 20000 > "$made/lines"
run "$made/lines"
python3 "$here/rack.py" make 4000 2 > "$made/patient"
python3 "$here/rack.py" throw "$base" 5000 &
thrower=$!
run "$made/patient"
echo "$(nproc) processors, $(sed -n 's/^model name[^:]*: //p' /proc/cpuinfo | head -1)"
