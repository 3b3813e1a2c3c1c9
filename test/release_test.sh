#!/usr/bin/env bash
# Tests of tools/release.sh, of the launcher over release/, of `make install` and `pip install`, in a copy of this tree with what
# was built in it: what runs at once without the kit, and what is refused. Nothing is proved or built for it.
# The last line is 'N passed, M failed'.
set -uo pipefail
unset UDS_UNIT_LIBRARY
command -v rt > /dev/null || { echo "release test: the command rt (the Rattle kit) is not on the PATH" >&2; exit 2; }
cd "$(dirname "$0")/.." || exit 2
room=$(mktemp -d)
trap 'rm -rf "$room"' EXIT
copy=$room/copy
built=(crates/uds_play/out/uds_play crates/uds_unit/out/libuds_unit.a crates/uds_unit/out/libuds_unit.so)
passed=0
failed=0
good() { passed=$((passed + 1)); echo "release test: $*"; }
bad() { failed=$((failed + 1)); echo "RELEASE TEST WRONG: $*"; head -n 8 "$room/out" "$room/err"; }

# ran WORD..: runs it in the copy; what it writes is in out and err, its status in status, its milliseconds in took
ran() {
  status=0
  local begun=${EPOCHREALTIME/[.,]/}
  (cd "$copy" && exec timeout 120 "$@") > "$room/out" 2> "$room/err" < /dev/null || status=$?
  took=$(((${EPOCHREALTIME/[.,]/} - begun) / 1000))
}

# holds WHAT STATUS [TEXT]: whether the last command ended so, and wrote the text
holds() {
  if [ "$status" = "$2" ] && { [ $# -lt 3 ] || grep -qF -- "$3" "$room/out" "$room/err"; }; then good "$1"; else bad "$1"; fi
}

# shows WHAT FILE: whether the last command went well, and wrote what the file has
shows() {
  if [ "$status" = 0 ] && cmp -s "$room/out" "$2"; then good "$1"; else bad "$1"; fi
}

for file in "${built[@]}"; do
  [ -f "$file" ] || { echo "RELEASE TEST WRONG: $file isn't built"; echo "0 passed, 1 failed"; exit 1; }
done
mkdir -p "$copy"
tar -cf - --exclude=out --exclude=__pycache__ --exclude=release --exclude=.git . | tar -C "$copy" -xf -
put_built() {
  local it
  for it in "${built[@]}"; do mkdir -p "$copy/${it%/*}" && cp "$it" "$copy/$it"; done
}
forget_built() { rm -rf "$copy"/crates/*/out "$copy/out"; }
put_built
# a machine without the kit: it has what the launcher and the installers call
words=(bash sh echo env find sort xargs sha256sum cut awk uname readlink mkdir sed head timeout cat dirname cp rm ln install tar gzip mktemp cmp wc grep mv tee tac touch)
mkdir "$room/bin"
for word in "${words[@]}"; do ln -s "$(type -P "$word")" "$room/bin/$word"; done
ln -s "$(python3 -c 'import sys; print(sys.executable)')" "$room/bin/python3"
if command -v make > /dev/null; then ln -s "$(command -v make)" "$room/bin/make"; fi
without_kit=(env PATH="$room/bin")
# one with a kit that has this one's version, proves nothing, and tells what it was asked for
cp -a "$room/bin" "$room/kit"
cat > "$room/kit/rt" <<END
#!/bin/sh
[ "\$1" = version ] && echo "$(rt version)" && exit 0
echo "\$PWD: rt \$*" >> "$room/asked"
exit 1
END
chmod +x "$room/kit/rt"
with_kit=(env PATH="$room/kit")
cat > "$copy/first.toml" <<'END'
tester = [{ name = "A", request = 0x7E0, response = 0x7E8 }]
did = [{ id = 0xF195, value = "0203" }]
END
printf '(1763800001.000000) can0 7E0#0322F195\n' > "$copy/first.log"
printf '(1763800001.000000) A 7E8#0562F1950203CCCC\n' > "$room/first"

ran "${with_kit[@]}" tools/release.sh --check
holds "without release/ it is passed over" 0 'passed over'
ran "${without_kit[@]}" tools/release.sh --put
holds "without the kit nothing is put into release/" 2 'not on the PATH'
ran "${with_kit[@]}" tools/release.sh --put
holds "what was built is put into release/" 0
ran "${with_kit[@]}" tools/release.sh --check
holds "and found to be what was built" 0 ', 0 failed'
ran "${with_kit[@]}" tools/release.sh
holds "what no source is newer than isn't built again" 0 'linux-x86_64.tar.gz'
forget_built
glibc=$(objdump -T "$copy"/release/{uds_play,libuds_unit.so} | grep -o 'GLIBC_[0-9.]*' | sort -uV | tail -n 1)
if [ "$(printf '%s\n' "$glibc" GLIBC_2.34 | sort -V | tail -n 1)" = GLIBC_2.34 ]; then good "it wants $glibc at most"; else bad "it wants $glibc"; fi

# at once, as in a fresh clone: the first start of three that takes under a second
quick() {
  local what=$1 file=$2 least=99999
  shift 2
  for _ in 1 2 3; do
    rm -rf "$copy/out"
    ran "${without_kit[@]}" "$@"
    [ "$took" -ge "$least" ] || least=$took
    [ "$least" -ge 1000 ] || break
  done
  shows "$what" "$file"
  if [ "$least" -lt 1000 ]; then good "in $least ms, without the kit"; else bad "in $least ms: $what"; fi
}
quick "./uds_play shows its own run" crates/uds_play/stdout ./uds_play
quick "./uds_play bus answers a recording" "$room/first" ./uds_play bus first.toml first.log
ran "${without_kit[@]}" ./uds_play bus demo/setup.toml demo/bus.log
shows "and the demo's" demo/bus_output.txt
ran "${without_kit[@]}" ./uds_play --origin
holds "--origin says so" 0 'release/uds_play: release/SUMS has'
cp -a "$room/bin" "$room/other" && rm "$room/other/uname"
printf '#!/bin/sh\necho Linux aarch64\n' > "$room/other/uname" && chmod +x "$room/other/uname"
ran env PATH="$room/other" ./uds_play --version
holds "another processor is told, and the kit is wanted" 2 'does not run here'

# unlike WHAT [gate]: that the gate refuses the copy as it was changed, and that the launcher, which has found all well before,
# doesn't start it: with the kit it proves and builds instead. With the word gate the launcher isn't asked.
unlike() {
  put_built
  ran "${with_kit[@]}" tools/release.sh --check
  holds "the gate refuses $1" 1 'tools/release.sh makes release/ anew'
  rm -rf "$copy"/crates/*/out
  [ "${2:-}" != gate ] || return
  ran "${without_kit[@]}" ./uds_play --version
  holds "the launcher doesn't start $1" 2 "release/ isn't of these sources"
  : > "$room/asked"
  ran "${with_kit[@]}" ./uds_play --version
  holds "and says that it proves and builds" 2 'the program is proved and built'
  if grep -q 'crates/uds_play: rt run' "$room/asked"; then good "and asks the kit for it"; else bad "and asks the kit for it"; fi
}
cp -a "$copy/release" "$room/release"
again() {
  rm -rf "$copy/release" && cp -a "$room/release" "$copy/release"
  ran "${without_kit[@]}" ./uds_play --version
  if [ "$status" != 0 ] || [ ! -f "$copy/out/released" ]; then bad "with all as it was it runs again"; fi
}
again
printf 'x' | dd of="$copy/release/uds_play" bs=1 seek=100 conv=notrunc 2> /dev/null
unlike "a program with one byte changed"
again
printf 'x' | dd of="$copy/release/libuds_unit.so" bs=1 seek=100 conv=notrunc 2> /dev/null
unlike "a library with one byte changed"
again
sed -i 's/^kit .*/kit another/' "$copy/release/SUMS"
unlike "a stamp of a kit with another logic" gate
again
# a stamp of another kit of this logic: the same bytes are well, others are told and passed over, but not other sums
sed -i 's/^kit [^ ]*/kit another-kit/' "$copy/release/SUMS"
put_built
ran "${with_kit[@]}" tools/release.sh --check
holds "what another kit of the same logic made alike is well" 0 'release: uds_play is what was built'
printf 'x' | dd of="$copy/crates/uds_play/out/uds_play" bs=1 seek=100 conv=notrunc 2> /dev/null
ran "${with_kit[@]}" tools/release.sh --check
holds "of what it made otherwise a line tells" 0 'makes other bytes: not compared'
forget_built
printf 'x' | dd of="$copy/release/uds_play" bs=1 seek=100 conv=notrunc 2> /dev/null
unlike "a program of another kit with one byte changed"
again
sed -i "s/^sources .*/sources $(printf '%064d' 0)/" "$copy/release/SUMS"
unlike "a stamp of other sources"
again
touch "$copy/release/more"
unlike "another file in release/" gate
again
# behind: a file of the sources that is changed, and changed back
behind() {
  local file=$2
  cp -a "$copy/$file" "$room/file"
  echo "$3" >> "$copy/$file"
  unlike "$1 that changed behind it"
  cp -a "$room/file" "$copy/$file"
  again
}
behind "a source" crates/diag_can/src/lib.rt '// a change'
behind "a proof" "$(cd "$copy" && find crates/diag_can/proofs -name '*.antt' | LC_ALL=C sort | head -n 1)" '-- a change'
behind "a wrong edit" "$(cd "$copy" && find crates/*/must-fail -name '*.edit' | LC_ALL=C sort | head -n 1)" '# a change'
behind "the header" include/uds_unit.h '/* a change */'
mv "$copy/crates/diag_can/src/lib.rt" "$copy/crates/diag_can/src/moved.rt"
unlike "sources of which a file is elsewhere"
mv "$copy/crates/diag_can/src/moved.rt" "$copy/crates/diag_can/src/lib.rt"
again
ran "${without_kit[@]}" ./uds_play --version
holds "with all as it was it runs again" 0 'uds_play '
touch "$copy/crates/diag_can/src/.lib.rt.swp" "$copy/crates/diag_can/src/lib.rt~"
ran "${without_kit[@]}" ./uds_play --version
holds "what an editor leaves beside a source is none" 0 'uds_play '
rm "$copy/crates/diag_can/src/.lib.rt.swp" "$copy/crates/diag_can/src/lib.rt~"

# which way the library would be built
would_build() {
  ran "${without_kit[@]}" tools/build_library.py --how
  holds "$1: the library would be built $2" 0 "$2"
}
ran "${without_kit[@]}" tools/build_library.py --help
holds "build_library.py --help builds nothing" 0 'usage: build_library.py'
ran "${without_kit[@]}" tools/build_library.py more
holds "and a word that it doesn't know is refused" 2 'unrecognized arguments: more'
would_build "with nothing in out/" 'by rt lib'
for crate in "$copy"/crates/*; do mkdir -p "$crate/out/rlib/${crate##*/}.rlib"; done
would_build "with crates that rt ci left" 'as rt ci left them'
touch "$copy/crates/diag_can/out/rlib/stamp"
would_build "with one that rt check built" 'by rt lib'
rm "$copy/crates/diag_can/out/rlib/stamp"
touch "$copy/crates/diag_can/src/lib.rt"
would_build "with a source that is newer" 'by rt lib'
forget_built

# runs_installed WHERE PYTHON..: the package that was installed, by this Python
runs_installed() {
  local where=$1 version
  shift
  version=$("$copy/release/uds_play" --version | awk '{ print $NF }')
  ran "$@" -c "
import uds_unit, uds_unit.library
with uds_unit.Unit('demo/setup.toml') as unit:
    assert unit.frame(0.0, 0x7E0, bytes.fromhex('021003'))[0].tester == 'workshop'
assert uds_unit.__version__ == '$version', uds_unit.__version__
assert uds_unit.library.load()._name.startswith('$room/$where'), uds_unit.library.load()._name"
  holds "its package runs, with its own library, and has the program's version" 0
  ran "$@" -c "
from importlib.metadata import distribution
it = distribution('uds_unit')
assert it.version == '$version', it.version
assert [(each.group, each.value) for each in it.entry_points if each.group == 'pytest11'] == [('pytest11', 'uds_unit.pytest_plugin')]"
  holds "what is installed tells pytest of its plugin" 0
}

# make install, from release/
if [ -e "$room/bin/make" ]; then
  ran "${without_kit[@]}" make install PREFIX="$room/usr" PYTHONDIR="$room/usr/python"
  holds "make install, and where Python doesn't look for the package a line says so" 0 "python3 does not look for packages in $room/usr/python"
  ran "$room/usr/bin/uds_play" --version
  holds "the installed program runs" 0 'uds_play '
  runs_installed usr env PYTHONPATH="$room/usr/python" python3
  echo '#include <uds_unit.h>
int main(void) { struct uds_unit unit = UDS_UNIT_INIT; return uds_unit_close(&unit) != UDS_CLOSED; }' > "$room/it.c"
  flags="-I$room/usr/include -L$room/usr/lib -luds_unit"
  if command -v pkg-config > /dev/null; then flags=$(PKG_CONFIG_PATH=$room/usr/lib/pkgconfig pkg-config --cflags --libs uds_unit); fi
  # shellcheck disable=SC2086 # the flags are words
  ran cc -o "$room/it" "$room/it.c" $flags "-Wl,-rpath,$room/usr/lib"
  holds "a C program is linked with the installed library" 0
  ran "$room/it"
  holds "and runs" 0
  ran "${without_kit[@]}" make uninstall PREFIX="$room/usr" PYTHONDIR="$room/usr/python"
  if [ "$status" = 0 ] && [ -z "$(find "$room/usr" ! -type d)" ]; then good "make uninstall leaves nothing"; else bad "make uninstall leaves nothing"; fi
  mkdir -p "$room/alone/uds_unit"
  ran "${without_kit[@]}" make install DESTDIR="$room/alone" PYTHON=/none
  holds "make install without Python leaves the package out" 0 'without the Python package'
  ran find "$room/alone" -path '*uds_unit/*'
  shows "and puts it nowhere" /dev/null
  ran "${without_kit[@]}" make uninstall DESTDIR="$room/alone" PYTHON=/none
  if [ "$status" = 0 ] && [ -d "$room/alone/uds_unit" ]; then good "nor is it removed"; else bad "nor is it removed"; fi
  (umask 077 && ran "${without_kit[@]}" make install PREFIX="$room/own" PYTHONDIR="$room/own/python")
  ran find "$room/own/"* '(' ! -perm -go=r -o -type d ! -perm -go=x ')' ! -type l
  shows "others read what is installed, whatever the umask" /dev/null
  # a folder with a blank and what sed knows, in which an older version was
  odd="$room/R&D a|b"
  mkdir -p "$odd/python/uds_unit-0.0.1.dist-info"
  ran "${without_kit[@]}" make install PREFIX="$odd" PYTHONDIR="$odd/python"
  holds "make install into an odd folder" 0
  if command -v pkg-config > /dev/null; then
    # shellcheck disable=SC2016 # the inner shell reads these words
    ran sh -c 'eval "set -- $(PKG_CONFIG_PATH="$1/lib/pkgconfig" pkg-config --cflags uds_unit)"; printf "%s\n" "$@"' sh "$odd"
    holds "pkg-config tells it" 0 "-I$odd/include"
  fi
  ran ls "$odd/python"
  if [ "$(grep -c dist-info "$room/out")" = 1 ]; then good "one version is told"; else bad "one version is told"; fi
  ran "${without_kit[@]}" PYTHONPATH="$room/slash/lib/its-packages" make install PREFIX="$room/slash/"
  if [ "$status" = 0 ] && ! grep -qF 'does not look' "$room/out"; then good "make install where Python looks"; else bad "make install where Python looks"; fi
  ran ls "$room/slash/lib/its-packages/uds_unit"
  holds "with a slash behind it the package is where Python looks" 0 'libuds_unit.so'
  for word in install uninstall; do
    ran "${without_kit[@]}" make $word PREFIX=usr
    holds "make $word refuses a relative path" 2 'PREFIX must be an absolute path, and not usr'
  done
  ran "${without_kit[@]}" tools/release.sh --tarball
  holds "the tarball is made" 0 'linux-x86_64.tar.gz'
  first=$(sha256sum "$copy"/out/*.tar.gz 2> /dev/null | cut -d' ' -f1)
  (umask 077 && cd "$copy" && tools/release.sh --tarball > /dev/null)
  if [ -n "$first" ] && [ "$(sha256sum "$copy"/out/*.tar.gz | cut -d' ' -f1)" = "$first" ]; then good "and again the same"; else bad "and again the same"; fi
  tar -C "$room" -xzf "$copy"/out/*.tar.gz
  apart=$(echo "$room"/uds_play-*)
  ran env -C "$apart" ./uds_play bus demo/setup.toml demo/bus.log
  shows "its program answers the demo" demo/bus_output.txt
  for tool in learn view; do
    ran env -C "$apart" python3 "tools/$tool.py" --help
    holds "its tools/$tool.py finds what it stands on" 0 'usage: '
  done
else
  echo "release test: make isn't installed; its tests are passed over"
fi

# pip install, from release/, in an environment of its own; no other package is wanted
if python3 -m venv "$room/venv" > /dev/null 2>&1; then
  ran "${without_kit[@]}" "$room/venv/bin/python" -m pip install --no-index --quiet ./python
  holds "pip install ./python" 0
  runs_installed venv "$room/venv/bin/python"
  ran "$room/venv/bin/uds_unit" --help
  holds "and its program" 0 'usage: '
else
  echo "release test: Python's venv isn't installed; the test of pip is passed over"
fi
echo "$passed passed, $failed failed"
[ "$failed" = 0 ]
