#!/usr/bin/env bash
# Whether each crate is laid out as `rt fmt` lays it out, which the gate asks for and `rt check` doesn't say, and whether
# each wrong edit still finds its text: those of the gate, in must-fail/, and the others, in edits/. Looks at a copy, so
# nothing is changed; takes a few seconds.
# The last line is 'N passed, M failed'; the status is 0 where M is 0.
set -uo pipefail
cd "$(dirname "$0")/.." || exit 2
copy=$(mktemp -d)
trap 'rm -rf "$copy"' EXIT
tar -c --exclude=out crates crates.txt HANDLES | tar -x -C "$copy" && git init -q "$copy" || exit 2

passed=0
failed=0
for crate in "$copy"/crates/*/; do
  # (`rt fmt` tells of the edits in must-fail/)
  if [ -d "${crate}edits" ]; then
    mkdir -p "${crate}must-fail"
    twice=$(comm -12 <(ls "${crate}edits") <(ls "${crate}must-fail"))
    mv -n "${crate}edits"/* "${crate}must-fail"
  else
    twice=''
  fi
  if said=$(cd "$crate" && rt fmt 2>&1) && [ -z "$twice" ] && ! grep -qE 'formatted|cannot be applied|is not read' <<< "$said"; then
    passed=$((passed + 1))
  else
    failed=$((failed + 1))
    echo "WRONG: $(basename "$crate"): ${twice:+an edit of this name stands twice: $twice}"
    echo "$said"
  fi
done
echo "$passed passed, $failed failed"
[ "$failed" = 0 ] && [ "$passed" -gt 0 ]
