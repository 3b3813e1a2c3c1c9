#!/usr/bin/env bash
# Runs the built program over the folders of runs/ and compares all that it writes, and its status. A folder has a capture,
# logs or a setup, and the cases of it. A case is a file `commands`, or `NAME.commands` where there are several: a command of
# the program on each line, which is run in that folder, with `< FILE` at its end where a file is standard input. Beside it
# stand, with the same NAME, `stdout`, or `lines` where the order of the lines isn't fixed (with neither nothing is written);
# `stderr` and `status`, where they aren't empty and 0. Notes are compared in runs/words/ alone.
# Then come runs over files that are made here, and of the launcher. The last line is 'N passed, M failed'.
set -uo pipefail
cd "$(dirname "$0")/.." || exit 2
program=$PWD/crates/uds_play/out/uds_play
room=$(mktemp -d)
trap 'rm -rf "$room"' EXIT
: > "$room/nothing"
passed=0
failed=0
[ -x "$program" ] || { echo "runs: $program isn't built"; echo "0 passed, 1 failed"; exit 1; }

good() { passed=$((passed + 1)); echo "run: $*"; }
bad() { failed=$((failed + 1)); echo "RUN WRONG: $*"; head -n 5 "$room/out" "$room/err"; }

# ran FOLDER WORD.. [< FILE]: runs the program in the folder, where `<` is a word too; what it writes is in out and err,
# its status in status
ran() {
  local folder=$1 input=/dev/null
  shift
  if [ $# -ge 2 ] && [ "${*: -2:1}" = '<' ]; then
    input=${!#}
    set -- "${@:1:$#-2}"
  fi
  status=0
  (cd "$folder" && exec timeout 120 "$program" "$@" < "$input") > "$room/out" 2> "$room/err" || status=$?
}

# leave_out_notes: keeps of err what isn't a note
leave_out_notes() {
  grep -v '^uds_play: note: ' "$room/err" > "$room/rest"
  mv "$room/rest" "$room/err"
}

# same FILE OTHER: whether the file, or nothing where there is none, is the other
same() { cmp -s "$([ -f "$1" ] && echo "$1" || echo "$room/nothing")" "$2"; }

# is_right CASE: whether what was written is what the case says, whose files begin so
is_right() {
  [ "$status" = "$(cat "$1status" 2> /dev/null || echo 0)" ] || return 1
  same "$1stderr" "$room/err" || return 1
  if [ -f "$1lines" ]; then
    sort "$1lines" | cmp -s - <(sort "$room/out")
  else
    same "$1stdout" "$room/out"
  fi
}

while IFS= read -r file; do
  before=$((passed + failed)) case=$PWD/${file%commands} name=${file#runs/}
  name=${name%commands}
  name=${name%[/.]}
  while read -r -a words; do
    ran "${file%/*}" "${words[@]}"
    [[ $file = runs/words/* ]] || leave_out_notes
    if is_right "$case"; then good "$name: ${words[*]}"; else bad "$name: ${words[*]}: status $status"; fi
  done < "$file"
  [ $((passed + failed)) -gt $before ] || bad "$name: it has no command"
done < <(find runs -name commands -o -name '*.commands' | LC_ALL=C sort)

# ends NAME STATUS TOLD: the last run ended so, wrote nothing, and told this line of a fault
ends() {
  leave_out_notes
  if [ "$status" = "$2" ] && [ ! -s "$room/out" ] && [ "$(cat "$room/err")" = "uds_play: $3" ]; then
    good "$1"
  else
    bad "$1: status $status"
  fi
}

setup=$PWD/runs/setup.toml
empty=$PWD/runs/empty.log
usage=$(sed 's/^uds_play: //' runs/cli/usage/stderr)
yes tick | head -n 1000000 > "$room/most.log"
yes tick | head -n 1000001 > "$room/past.log"
yes tick | head -n 500001 > "$room/half.log"
echo tick > "$room/one.log"
{
  echo 'diag-journal 1'
  yes '1 T 1' | head -n 1000000
} > "$room/most.txt"

for command in serial play; do
  ran "$room" "$command" --journal "$setup" most.log "$empty"
  if [ "$status" = 0 ] && cmp -s "$room/out" "$room/most.txt"; then good "a million ticks: $command"; else bad "a million ticks: $command: status $status"; fi
  ran "$room" "$command" "$setup" most.log one.log
  ends "a journal that is full: $command" 5 'journal full'
  ran "$room" "$command" "$setup" half.log half.log
  ends "a journal that both fill: $command" 5 'journal full'
  ran "$room" "$command" "$setup" past.log "$empty"
  ends "a line past a million: $command" 3 'log 1: too many lines'
  head -c 67108865 /dev/zero > "$room/long.log"
  ran "$room" "$command" "$setup" long.log "$empty"
  ends "a log past its limit: $command" 3 'file 1: too long'
  ran "$room" "$command" "$setup" "$empty" long.log
  ends "a second log past its limit: $command" 3 'file 2: too long'
  rm "$room/long.log"
done

ran "$room" replay "$setup" most.txt
if [ "$status" = 0 ] && [ "$(head -n 1 "$room/out")" = 'entries 1000000' ]; then good "a million entries: replay"; else bad "a million entries: replay: status $status"; fi

# A journal of threads, whatever order they took, replays.
ran runs/logs/threaded_play play --journal "$setup" a.log b.log
cp "$room/out" "$room/journal"
ran "$room" replay "$setup" journal
printf 'entries 5\nsession extended\nholder A\ncode 012345 2F\n' > "$room/want"
if [ "$status" = 0 ] && cmp -s "$room/out" "$room/want"; then good "the journal of threads: replay"; else bad "the journal of threads: replay: status $status"; fi

ran . serial --stamps demo/setup.toml demo/workshop.log demo/end_of_line.log
if [ "$status" = 0 ] && cmp -s "$room/out" demo/output.txt; then good "the demo"; else bad "the demo: status $status"; fi
ran . bus demo/setup.toml demo/bus.log
if [ "$status" = 0 ] && cmp -s "$room/out" demo/bus_output.txt; then good "the demo's bus"; else bad "the demo's bus: status $status"; fi
ran . bus --end demo/setup.toml '<' demo/bus.log
if [ "$status" = 0 ] && sed -n '/^session/,$p' demo/output.txt | cmp -s - "$room/out"; then good "the end of the demo's bus"; else bad "the end of the demo's bus: status $status"; fi

ran "$room" serial "$(printf '\377')" "$empty"
ends "a word that isn't UTF-8" 1 "$usage"

for command in serial play; do
  status=0
  "$program" "$command" "$setup" "$empty" "$empty" > /dev/full 2> "$room/err" || status=$?
  : > "$room/out"
  ends "a text that can't be written: $command" 7 'cannot write'
done
status=0
"$program" --help > /dev/full 2> "$room/err" || status=$?
: > "$room/out"
ends "a text that can't be written: --help" 7 'cannot write'

# The launcher with a closed standard stream, by a link to it, over a copy of the built program, which is never stale.
mkdir -p "$room/top/crates/uds_play/out"
cp uds_play crates.txt "$room/top"
cp "$program" "$room/top/crates/uds_play/out"
ln -s top/uds_play "$room/launcher"
for command in verify bus 'bus --journal'; do
  status=0
  # shellcheck disable=SC2086 # the word behind a command is its flag
  timeout 120 "$room/launcher" $command "$setup" <&- > "$room/out" 2> "$room/err" || status=$?
  ends "no standard input: $command" 7 'cannot read file 1'
done
: > "$room/out"
status=0
timeout 120 "$room/launcher" bus "$setup" runs/bus/order/no_last_line_feed.log >&- 2> "$room/err" || status=$?
ends "no standard output: bus" 7 'cannot write'
status=0
echo '(0.000000) can0 7E0#021003' > "$room/line"
timeout 120 "$room/launcher" live --record "$room/record" "$setup" < "$room/line" >&- 2>&- || status=$?
if [ "$status" = 7 ] && grep -v '^tick ' "$room/record" | cmp -s - "$room/line"; then good "neither output: live"; else bad "neither output: live: status $status"; fi

echo "$passed passed, $failed failed"
[ "$failed" = 0 ]
