#!/usr/bin/env bash
# What is published: release/ has the program and the shared library that were proved and built of the sources beside it, and
# SUMS, with the kit's line, the SHA-256 over all sources, and that of each file.
# Usage: tools/release.sh               puts both into release/, and makes the tarball: what is in out/ where no source is newer,
#                                       else it is proved and built first
#        tools/release.sh --check       the gate's part: whether release/ has, byte for byte, what was built here just now, of
#                                       these sources with this kit. Where it is of another kit with the same logic, other
#                                       bytes are told and passed over; so is that there is no release/. The last line is
#                                       'N passed, M failed'
#        tools/release.sh --is-here     whether release/SUMS tells these very sources, and each file has its sum; for the launcher
#        tools/release.sh --sources     the SHA-256 over all that the build and the proofs read
#        tools/release.sh --files       the paths of the program and of the shared library: those in out/ where no source is
#                                       newer, else those in release/; for `make install`
#        tools/release.sh --put         puts what was built into release/, without building it
#        tools/release.sh --tarball     out/uds_play-VERSION-linux-x86_64.tar.gz: both files, what is installed with them, README,
#                                       demo and docs, and the tools that README and docs/USE.md call
set -uo pipefail
top=$(cd "$(dirname "${BASH_SOURCE[0]}")/.." && pwd) || exit 2
cd "$top" || exit 2
release=release
program=crates/uds_play/out/uds_play
library=crates/uds_unit/out/libuds_unit.so
tools_of_users=(tools/junit.py tools/learn.py tools/view.py tools/parts)
# all that the proofs, the wrong edits and the build read, and how the library is built
read_by_build=(crates crates.txt HANDLES include tools/build_library.py)

say() { echo "release: $*" >&2; }

sum_of() { sha256sum < "$1" | cut -d' ' -f1; }

# The names and sums of all sources, sorted, as one sum; without what editors leave beside them.
sources() {
  find "${read_by_build[@]}" -regex 'crates/[^/]*/out' -prune -o -name __pycache__ -prune -o -name '.*' -o -name '*~' -o -type f -print0 | LC_ALL=C sort -z \
    | xargs -0 sha256sum | sha256sum | cut -d' ' -f1
}

# The lines of SUMS for these two files.
sums() {
  echo "kit $(rt version)"
  echo "sources $(sources)"
  echo "uds_play $(sum_of "$1")"
  echo "libuds_unit.so $(sum_of "$2")"
}

told() { awk -v key="$1" '$1 == key { sub(/^[^ ]+ /, ""); print }' "$release/SUMS"; }

is_here() {
  [ -f "$release/SUMS" ] && [ -x "$release/uds_play" ] && [ -f "$release/libuds_unit.so" ] || return 1
  [ "$(told sources)" = "$(sources)" ] && [ "$(told uds_play)" = "$(sum_of "$release/uds_play")" ] \
    && [ "$(told libuds_unit.so)" = "$(sum_of "$release/libuds_unit.so")" ]
}

# Whether the file in out/ is there, and nothing that is built of is newer; a wrong edit isn't.
is_fresh() {
  [ -f "$1" ] && [ -z "$(find crates crates.txt HANDLES include -newer "$1" \( -name '*.rt' -o -name '*.antt' -o -name crates.txt \
    -o -name HANDLES -o -name '*.map' \) -not -path '*/out/*' -print -quit)" ]
}

has_kit() {
  command -v rt > /dev/null || { say "the command rt (the Rattle kit) is not on the PATH"; return 2; }
}

# Builds what a source is newer than.
build() {
  has_kit || return 2
  if ! is_fresh "$program"; then
    say "the program is proved and built"
    (cd crates/uds_play && rt run) > /dev/null < /dev/null || { say "it was not built: (cd crates/uds_play && rt run) tells why"; return 2; }
  fi
  say "the library: $(tools/build_library.py --how)"
  tools/build_library.py > /dev/null || { say "it was not built: tools/build_library.py tells why"; return 2; }
}

# Puts what was built into release/, with SUMS.
put() {
  has_kit || return 2
  mkdir -p "$release" && install -m 755 "$program" "$release/" && install -m 644 "$library" "$release/" || return 2
  sums "$release/uds_play" "$release/libuds_unit.so" > "$release/SUMS"
}

# The paths of both files, a line each.
files() {
  if is_fresh "$program" && is_fresh "$library"; then printf '%s\n' "$program" "$library"
  elif is_here; then printf '%s\n' "$release/uds_play" "$release/libuds_unit.so"
  else say "nothing was built of these sources: ./uds_play proves and builds the program, tools/build_library.py the library"; return 2
  fi
}

tarball() {
  local version folder room paths
  mapfile -t paths < <(files)
  [ "${#paths[@]}" = 2 ] || return 2
  version=$("${paths[0]}" --version | awk '{ print $NF }')
  folder=uds_play-$version-linux-x86_64
  room=$(mktemp -d) && mkdir -p out || return 2
  # shellcheck disable=SC2016 # pkg-config reads that word: the file's own folder
  make -s install DESTDIR="$room" PREFIX="/$folder" PYTHONDIR="/$folder/python" PCPREFIX='$${pcfiledir}/../..' > /dev/null || return 2
  mkdir "$room/$folder/tools"
  cp -r README.md CHANGELOG.md demo docs "$room/$folder/" && cp -r "${tools_of_users[@]}" "$room/$folder/tools/" \
    && cp python/pyproject.toml python/wheel_of_unit.py "$room/$folder/python/" && ln -s bin/uds_play "$room/$folder/uds_play" || return 2
  tar -C "$room" --exclude=__pycache__ --sort=name --owner=0 --group=0 --numeric-owner --mode=u+w,go=rX --mtime=@0 -cf - "$folder" | gzip -9n > "out/$folder.tar.gz"
  rm -rf "$room"
  echo "out/$folder.tar.gz"
}

passed=0
failed=0
good() { passed=$((passed + 1)); echo "release: $*"; }
bad() { failed=$((failed + 1)); echo "RELEASE WRONG: $*"; }

# holds WHAT COMMAND..: counts whether the command succeeds
holds() {
  local what=$1
  shift
  if "$@"; then good "$what"; else bad "not so: $what"; fi
}

# The logic of a kit, by its line: programs that are proved by one such kit are by each.
logic_of() { echo "${1#* }"; }

# is_built NAME FILE: counts whether release/ has the file that was built here; where SUMS tells another kit, whose compiler
# may make other bytes, a line tells of these
is_built() {
  if [ "$(told kit)" = "$(rt version)" ] || [ ! -f "$2" ] || cmp -s "$release/$1" "$2"; then
    holds "$1 is what was built" cmp -s "$release/$1" "$2"
  else
    echo "release: $1 is of $(told kit), and $(rt version) makes other bytes: not compared"
  fi
}

check() {
  if [ ! -e "$release" ]; then
    echo "release: there is no release/ here: nothing to compare, passed over"
    echo "0 passed, 0 failed"
    return 0
  fi
  holds "SUMS tells this kit, or one of the same logic" [ "$(logic_of "$(told kit)")" = "$(logic_of "$(rt version)")" ]
  holds "SUMS tells these sources" [ "$(told sources)" = "$(sources)" ]
  holds "SUMS has four lines and no other" [ "$(wc -l < "$release/SUMS")" = 4 ]
  holds "what was built is in out/" [ -f "$program" -a -f "$library" ]
  is_built uds_play "$program"
  is_built libuds_unit.so "$library"
  holds "uds_play has its sum" [ "$(told uds_play)" = "$(sum_of "$release/uds_play")" ]
  holds "libuds_unit.so has its sum" [ "$(told libuds_unit.so)" = "$(sum_of "$release/libuds_unit.so")" ]
  holds "release/ has nothing else" [ "$(cd "$release" && echo *)" = "SUMS libuds_unit.so uds_play" ]
  [ "$failed" = 0 ] || echo "release: tools/release.sh makes release/ anew, of what is in out/ where no source is newer; commit it"
  echo "$passed passed, $failed failed"
  [ "$failed" = 0 ]
}

case ${1:-} in
  --sources) sources ;;
  --is-here) is_here ;;
  --files) files ;;
  --check) check ;;
  --put) put ;;
  --tarball) tarball ;;
  '') build && put && cat "$release/SUMS" && tarball ;;
  *) sed -n '2,/^set/p' "${BASH_SOURCE[0]}" | sed '$d'; exit 2 ;;
esac
