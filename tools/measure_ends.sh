#!/bin/sh
# Counts the instructions of one Seal and of one Hear of a 32-octet reading with the AES suite, and times the bench on 100,000 lines.
# Outside the gate; needs valgrind and python3. Each count is the difference of a run of 1,100 messages and one of 100, over 1,000.
set -eu
cd "$(dirname "$0")/.."
work=$(mktemp -d)
trap 'rm -rf "$work"' EXIT
tools/build.sh end_runs bench
count() {
    few=$(valgrind --tool=callgrind --callgrind-out-file=/dev/null crates/end_runs/out/end_runs "$1" 100 2>&1 | sed -n 's/.*Collected : //p')
    many=$(valgrind --tool=callgrind --callgrind-out-file=/dev/null crates/end_runs/out/end_runs "$1" 1100 2>&1 | sed -n 's/.*Collected : //p')
    echo $(((many - few) / 1000))
}
seal=$(count seal)
both=$(count hear)
echo "Seal: $seal instructions"
echo "Hear: $((both - seal)) instructions"
python3 - > "$work/script" <<'PYTHON'
import sys
sys.path.insert(0, "tools")
import bench_reference as bench
ends = {"U": bench.End(0, 1), "H": bench.End(1, 4)}
lines = ["U,begin,01,4,2,16,1,10,20", "H,begin,01,4,2,16,1,10,20"]
for line in lines:
    bench.answer(ends, line.encode())
while len(lines) < 100000:
    data = "U,data,01," + "%064X" % len(lines)
    lines += [data, "H,hear," + bench.answer(ends, data.encode())[1]]
print("\n".join(lines))
PYTHON
start=$(date +%s%N)
crates/bench/out/bench < "$work/script" > "$work/transcript"
end=$(date +%s%N)
echo "bench: 100,000 lines in $(((end - start) / 1000000)) ms"
