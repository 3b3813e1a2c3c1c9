#!/usr/bin/env bash
# How fast a log is read: for 62,500, 250,000 and 1,000,000 lines, the lines per second and the peak memory of the whole program.
# Every second frame is the tester's, with a tick count before it. A benchmark and no test: the time of a line should stay the same as the log grows.
set -euo pipefail
top=$(cd "$(dirname "${BASH_SOURCE[0]}")/.." && pwd)
# outside the repository, every folder of which `rt ci` reads; kept, so that another run proves only what has changed
work=${TMPDIR:-/tmp}/uds_play_bench$top/read_log
mkdir -p "$work/crates/read_log/src"
mkdir -p "$work/crates/diag_can"
cp -rpu "$top/crates/diag_can/src" "$top/crates/diag_can/specs" "$top/crates/diag_can/proofs" "$work/crates/diag_can/"
cp "$top/bench/read_log/main.rt.in" "$work/crates/read_log/src/main.rt"
printf '%s\n' "$(grep '^diag_can:' "$top/crates.txt")" 'read_log: diag_can' > "$work/crates.txt"
printf '%s\n' 'Handles allowed: none.' > "$work/HANDLES"
(cd "$work/crates/read_log" && rt run > "$work/build.log" 2>&1) || { cat "$work/build.log" >&2; exit 1; }
for lines in 62500 250000 1000000; do
  log=$work/$lines.log
  awk -v n="$lines" 'BEGIN { for (i = 0; i < n; i++) printf "(%010d.%03d000) can0 %s#0322F190CCCCCCCC\n", i / 1000, i % 1000, i % 2 ? "123" : "7E0" }' > "$log"
  PYTHONPATH=$top/bench python3 -B - "$work/crates/read_log/out/read_log" "$log" "$lines" <<'END'
import sys, tempfile
from runs import watched
program, log, lines = sys.argv[1], sys.argv[2], int(sys.argv[3])
with tempfile.TemporaryFile("w+") as out:
    _, peak = watched([program, log], out=out)
    out.seek(0)
    told = out.read().strip()
if " events in " not in told:
    sys.exit(f"read_log: {told}")
took = int(told.split(" events in ")[1].split()[0])
print(f"{lines} lines: {lines * 1_000_000 // took} lines per second, {peak} KiB at most ({told})")
END
  rm "$log"
done
