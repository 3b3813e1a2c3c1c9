#!/usr/bin/env bash
# How long the check of the largest setup takes (8 testers, 64 identifiers of 255 bytes, 256 codes, 16 routines, 4 levels of
# 64 rows), and look-ups in its tables. A benchmark and no test: a check should be a matter of microseconds, and a look-up
# of a few comparisons.
set -euo pipefail
top=$(cd "$(dirname "${BASH_SOURCE[0]}")/.." && pwd)
# outside the repository, every folder of which `rt ci` reads; kept, so that another run proves only what has changed
work=${TMPDIR:-/tmp}/uds_play_bench$top/check_setup
mkdir -p "$work/crates/check_setup/src"
: > "$work/crates.txt"
for crate in diag_can diag_pdu diag_setup diag_store; do
  mkdir -p "$work/crates/$crate"
  for part in src specs proofs out; do
    [ -d "$top/crates/$crate/$part" ] && cp -rpu "$top/crates/$crate/$part" "$work/crates/$crate/"
  done
  grep "^$crate:" "$top/crates.txt" >> "$work/crates.txt"
done
printf '%s\n' 'check_setup: diag_store diag_setup diag_pdu diag_can' >> "$work/crates.txt"
printf '%s\n' 'Handles allowed: none.' > "$work/HANDLES"
cp "$top/bench/check_setup/main.rt.in" "$work/crates/check_setup/src/main.rt"
(cd "$work/crates/check_setup" && rt run > "$work/build.log" 2>&1) || { cat "$work/build.log" >&2; exit 1; }
"$work/crates/check_setup/out/check_setup"
