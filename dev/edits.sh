#!/usr/bin/env bash
# Tries the wrong edits that stand outside the gate, those of crates/NAME/edits/: the prover must refuse each. Run it for a
# crate whose contracts, definitions or proofs you changed, and look at what it says of each edit.
# Usage: dev/edits.sh [CRATE..]     these crates, or all that have such edits
# Works by `rt ci` on a copy of these crates and of those below them, in which these edits alone stand under must-fail/. What an
# earlier run proved isn't proved again where the kit keeps it.
# The last line is 'N passed, M failed'; the status is 0 where M is 0.
set -uo pipefail
cd "$(dirname "$0")/.." || exit 2
for crate in "$@"; do
  [ -d "crates/$crate/edits" ] || { echo "edits: crates/$crate/edits isn't there" >&2; exit 2; }
done
crates=("$@")
if [ $# = 0 ]; then
  for folder in crates/*/edits/; do crates+=("$(basename "$(dirname "$folder")")"); done
fi

# These crates and those below them, a line each, the last of crates.txt first.
with_those_below() {
  tac crates.txt | awk -F: -v names="$*" 'BEGIN { n = split(names, given, " "); for (i = 1; i <= n; i++) needed[given[i]] }
    /^#/ { next }
    { split($1, head, " "); crates[++count] = head[1]; below[head[1]] = $2 }
    END {
      do {
        more = 0
        for (i = 1; i <= count; i++) {
          n = crates[i] in needed ? split(below[crates[i]], own, " ") : 0
          for (j = 1; j <= n; j++) if (!(own[j] in needed)) { needed[own[j]]; more = 1 }
        }
      } while (more)
      for (i = 1; i <= count; i++) if (crates[i] in needed) print crates[i]
    }'
}

copy=$(mktemp -d)
trap 'rm -rf "$copy"' EXIT
mkdir "$copy/crates" && cp HANDLES "$copy" && git init -q "$copy" || exit 2
mapfile -t needed < <(with_those_below "${crates[@]}")
for crate in "${needed[@]}"; do
  tar -c --exclude=out --exclude=must-fail "crates/$crate" | tar -x -C "$copy" || exit 2
  grep -E "^$crate( [^:]*)?:" crates.txt
done | tac > "$copy/crates.txt"
for crate in "${crates[@]}"; do mv "$copy/crates/$crate/edits" "$copy/crates/$crate/must-fail"; done

said=$(cd "$copy" && rt ci 2>&1)
status=$?
if [ "$status" = 0 ]; then grep 'must-fail' <<< "$said"; else echo "$said"; fi
wanted=$(find "$copy"/crates -path '*/must-fail/*.edit' | wc -l)
refused=$(grep -c ': refused, as it must be' <<< "$said")
echo "$refused passed, $((wanted - refused)) failed"
[ "$status" = 0 ] && [ "$refused" = "$wanted" ]
