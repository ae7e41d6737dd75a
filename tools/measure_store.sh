#!/bin/sh
# Counts the instructions of one Look for the last of 1, 32 and 1,024 sessions in a table of 1,024 places. Outside the gate; needs
# valgrind. Each figure is the difference of a run of 1,100 looks and one of 100, over 1,000.
set -eu
cd "$(dirname "$0")/.."
work=$(mktemp -d)
trap 'rm -rf "$work"' EXIT
tools/build.sh store_runs
ulimit -s 65536
count() {
    valgrind --main-stacksize=67108864 --tool=callgrind --callgrind-out-file=/dev/null "$@" 2>&1 | sed -n 's/.*Collected : //p'
}
for sessions in 1 32 1024; do
    few=$(count crates/store_runs/out/store_runs "$sessions" 100)
    many=$(count crates/store_runs/out/store_runs "$sessions" 1100)
    echo "$sessions sessions: $(((many - few) / 1000)) instructions a look"
done
