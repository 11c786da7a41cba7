#!/bin/bash
# Measures the program over three scripts: instructions (valgrind's callgrind), wall time (the best of
# twenty runs), memory at its peak, and the wall time of a plain copy of the report.
#
#     bench/measure.sh [PROGRAM]      PROGRAM: crates/ndis/out/ndis where none is named
#
# It runs by hand after the gate; valgrind and GNU time are Debian's packages `valgrind` and `time`.
set -eu
cd "$(dirname "${BASH_SOURCE[0]}")/.."
program=${1:-crates/ndis/out/ndis}
work=$(mktemp -d)
trap 'rm -rf "$work"' EXIT

best() {
    python3 - "$@" <<'PYTHON'
import subprocess, sys, time
source, sink, words = sys.argv[1], sys.argv[2], sys.argv[3:]
times = []
for _ in range(20):
    with open(source, "rb") as read, open(sink, "wb") as write:
        begun = time.perf_counter()
        subprocess.run(words, stdin=read, stdout=write, check=True)
        times.append(time.perf_counter() - begun)
print(f"{min(times):.3f}")
PYTHON
}

printf '%-6s %12s %12s %8s %8s %8s\n' script 'instructions' 'report' 'wall s' 'peak KB' 'copy s'
for name in small full large; do
    python3 bench/scripts.py $name > "$work/script"
    wall=$(best "$work/script" "$work/report" "$program" replay)
    copy=$(best "$work/report" "$work/copy" cat)
    peak=$(python3 - "$program" "$work/script" <<'PYTHON'
import resource, subprocess, sys
with open(sys.argv[2], "rb") as read:
    subprocess.run([sys.argv[1], "replay"], stdin=read, stdout=subprocess.DEVNULL, check=True)
print(resource.getrusage(resource.RUSAGE_CHILDREN).ru_maxrss)
PYTHON
)
    valgrind --tool=callgrind --callgrind-out-file="$work/callgrind" "$program" replay \
        < "$work/script" > /dev/null 2> "$work/told"
    instructions=$(sed -n 's/.*Collected : *\([0-9]*\).*/\1/p' "$work/told")
    bytes=$(wc -c < "$work/report")
    printf '%-6s %12s %12s %8s %8s %8s\n' "$name" "$instructions" "$bytes" "$wall" "$peak" "$copy"
done
