#!/usr/bin/env bash
# Times the program, its parts and the library on circuits of about a million gates, and garbling and
# evaluating on circuits of a thousand to sixteen million. `plot.py` puts what it prints into
# docs/SPEED.md, and draws the charts.
#
#   bench/run.sh [CIRCUIT]
#
# CIRCUIT is a file in Bristol Fashion, on which parts and commands are timed. Without it one of a
# million gates is made, half of them AND. Where BASELINE names a C source of a program that takes
# the arguments `garble CIRCUIT SEED - --repeat N` and reports parse_ns=, that is timed too.
set -euo pipefail
top=$(cd "$(dirname "$0")/.." && pwd)
. "$top/machine.sh"
. "$top/sources.sh"
tmp=$(mktemp -d)
trap 'rm -rf "$tmp"' EXIT

# The program, the benchmark and the library, built for this processor: what the test command builds of the program
# won't do.
for program in halfgates gc_bench; do
    is_built_from "$(sum_of_sources "$program")" "$top/out/$program" || "$top/build" "$program"
done
bench=$top/out/gc_bench
library=$top/out/lib/libhalfgates.so.0
is_built_from "$(sum_of_sources halfgates_c)" "$library" || "$top/build" halfgates_c

circuit=${1:-$tmp/half.txt}
[ -n "${1:-}" ] || python3 "$top/bench/make_circuit.py" 1000000 0.5 "$circuit"
baseline=
if [ -n "${BASELINE:-}" ]; then
    baseline=$tmp/baseline
    cc -O2 -msha -msse4.1 -mssse3 -I"$(dirname "$BASELINE")" "$BASELINE" -o "$baseline" -lcrypto
fi

tune_memory
"$top/bench/parts.py" "$bench" "$circuit" ${baseline:+"$baseline"}
"$top/bench/side_by_side.py" "$bench"
"$top/bench/workers.py" "$bench"
"$top/bench/busy.py" "$bench"
"$top/bench/sizes.py" "$bench"
"$top/bench/program.py" "$top/halfgates" "$bench" "$circuit"
"$top/bench/commands.py" "$top/halfgates" "$bench"
"$top/bench/library.py" "$top/halfgates" "$bench" "$library"
"$top/bench/gates.py" "$library"
"$top/bench/streaming.py" "$library"
