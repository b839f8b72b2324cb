#!/usr/bin/env bash
# Runs a rack of processes over 127.0.0.1: two switches, three servers, a controller and two clients, which
# make 1,000 operations and more while keys are promoted, fenced and copied and the rack is handed over.
# Judges what the clients saw, and prints the operations a second.
#     roles.sh [PROGRAM [OPERATIONS [BASE]]]
set -euo pipefail
here=$(cd "$(dirname "$0")" && pwd)
exec python3 "$here/roles.py" "${1:-$here/../crates/peg/out/peg}" "${@:2}"
