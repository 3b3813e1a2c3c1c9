#!/usr/bin/env bash
# Refuses each request for memory in turn, in the executables that `rt ci`, `rt test` or `rt run` left in out/: the
# program and, with the word `tests`, the executables of the tests, a test at a time; with `suite FILE` that one executable.
# Usage: test/refuse.sh [tests | suite FILE]
# The program must answer want of memory (status 4, nothing on standard output, and of `bus`, `compare` and `live`, which
# write as they go, a front of the text) or, where it had no more need of the memory, what it answers without a refusal; where there was no
# memory for its line on standard error, that is empty. Notes read the setup once more, and so ask as often again: most runs
# leave them out (--quiet), and each kind of them has a run.
# A test must end with the error of a refused allocation, or pass where it had no more need of the memory. NotMet is such
# an error, too: a thread that found no memory at its start left its work to its caller's thread.
# A request may fall in any thread; how many there are may then be another from run to run.
# A test that makes more than 2,500 requests has as many of them refused, evenly chosen, as fit in REFUSE_TEST_SECONDS
# (default 3). REFUSE_SECONDS (default 600) bounds the runs of the program, and each suite anew; what
# was not reached has failed. The last line is 'N passed, M failed'.
set -uo pipefail
cd "$(dirname "$0")/.." || exit 2
room=$(mktemp -d)
trap 'rm -rf "$room"' EXIT
cc -O2 -shared -fPIC -o "$room/refuse.so" test/refuse.c -ldl || { echo "refuse: no C compiler"; echo "0 passed, 1 failed"; exit 1; }
end=$(($(date +%s) + ${REFUSE_SECONDS:-600}))
passed=0
failed=0

# late: whether the time is over
late() { [ "$(date +%s)" -ge "$end" ]; }

# refused N PROGRAM WORD..: runs the program with request N refused, with the file of the variable input, or nothing, as
# standard input; sets status and asked
refused() {
  local n=$1
  shift
  status=0
  : > "$room/count"
  timeout 60 env REFUSE_AT="$n" REFUSE_COUNT="$room/count" LD_PRELOAD="$room/refuse.so" "$@" < "${input:-/dev/null}" > "$room/out" 2> "$room/err" || status=$?
  if [ -s "$room/err" ]; then
    # A note is for people, and is left out where there is no memory for it.
    grep -v '^uds_play: note: ' "$room/err" > "$room/rest"
    mv "$room/rest" "$room/err"
  fi
  asked=$(($(od -An -t d8 "$room/count")))
}

good() { passed=$((passed + 1)); echo "refused: $*"; }
bad() { failed=$((failed + 1)); echo "REFUSED WRONG: $*"; [ -f "$room/err" ] && sed 's/^/    /' "$room/err" | head -n 5; }

# is_whole FILE: whether the program wrote what the file has; with any_order=1 in any order of the lines
is_whole() {
  if [ "${any_order:-0}" = 1 ]; then sort "$1" | cmp -s - <(sort "$room/out"); else cmp -s "$room/out" "$1"; fi
}

# is_front FILE: whether the program wrote nothing; with writes_as_it_goes=1 whether it wrote a front of what the file has
is_front() {
  if [ "${writes_as_it_goes:-0}" = 1 ]; then head -c "$(stat -c %s "$room/out")" "$1" | cmp -s - "$room/out"; else [ ! -s "$room/out" ]; fi
}

# tells LINE: whether the program told this line, or nothing, where there was no memory for a line
tells() { [ ! -s "$room/err" ] || { [ -n "$1" ] && printf '%s\n' "$1" | cmp -s - "$room/err"; }; }

# sweep_run NAME STATUS OUT ERR PROGRAM WORD..: a run that, where nothing is refused, ends with STATUS, writes what the
# file OUT has, and the line ERR on standard error
sweep_run() {
  local name=$1 wanted=$2 whole=$3 told=$4 n=1
  shift 4
  refused 0 "$@"
  if [ "$status" != "$wanted" ]; then bad "$name: status $status without a refusal"; return; fi
  if [ "$asked" = 0 ]; then bad "$name: no request was seen"; return; fi
  if ! is_whole "$whole"; then bad "$name: another text without a refusal"; return; fi
  if [ "$(cat "$room/err")" != "$told" ]; then bad "$name: another line on standard error"; return; fi
  while :; do
    if late; then bad "$name: no time after $((n - 1)) requests"; return; fi
    refused "$n" "$@"
    [ "$n" -gt "$asked" ] && break
    if [ "$status" = 4 ]; then
      is_front "$whole" || { bad "$name: request $n: something was written"; return; }
      tells 'uds_play: memory' || { bad "$name: request $n: another line on standard error"; return; }
    elif [ "$status" != "$wanted" ] || ! is_whole "$whole"; then
      bad "$name: request $n: status $status"
      return
    else
      tells "$told" || { bad "$name: request $n: another line on standard error"; return; }
    fi
    n=$((n + 1))
  done
  good "$name: $((n - 1)) requests"
}

# sweep_test PROGRAM NAME: one test
sweep_test() {
  local program=$1 name=$2 n=1 step=1 begun took most total
  begun=$(date +%s%N)
  refused 0 "$program" "$name"
  took=$((($(date +%s%N) - begun) / 1000000 + 1))
  total=$asked
  if [ "$status" != 0 ]; then bad "$name: status $status without a refusal"; return; fi
  most=$((${REFUSE_TEST_SECONDS:-3} * 1000 / took + 1))
  [ "$total" -gt 2500 ] && [ "$total" -gt "$most" ] && step=$((total / most + 1))
  while [ "$n" -le "$total" ]; do
    if late; then bad "$name: no time after $((n - 1)) requests"; return; fi
    refused "$n" "$program" "$name"
    if [ "$status" != 0 ] && ! grep -Eq '[Ee]rror: .*(Memory|Alloc(Error|Failed)|NotMet)' "$room/err"; then bad "$name: request $n: status $status"; return; fi
    n=$((n + step))
  done
  good "$name: $total requests, one of each $step"
}

# sweep_example PROGRAM NAME: a serial run of that worked example
sweep_example() {
  mkdir -p "$room/example"
  if test/examples.py --files "$2" "$room/example" 2> "$room/err"; then
    sweep_run "$2" 0 "$room/example/prints" '' "$1" --quiet serial "$room/example/setup" "$room/example/a" "$room/example/b"
  else
    bad "$2: there is no such example"
  fi
}

# sweep_program: the runs of the program
sweep_program() {
  local program=crates/uds_play/out/uds_play usage
  if [ -x "$program" ]; then
    : > "$room/nothing"
    printf '[[tester]]\nname = "A"\nrequest = 0x7E0\nresponse = 0x7E8\n' > "$room/config"
    printf '(0000000010.000000) can0 7E0#021003\n(0000000012.500999) can0 7E0#023E00\n' > "$room/log"
    {
      echo '(0000000000.000000) A 7E8#065003003201F4CC'
      echo '(0000000002.500000) A 7E8#027E00CCCCCCCCCC'
      printf 'diag-journal 2\n0 1 P 1003 5003003201F4\n2500 1 T 2500\n2500 1 P 3E00 7E00\n'
      printf 'session extended\nholder A\n'
    } > "$room/played"
    printf 'diag-journal 1\n1 P 1083 -\n' > "$room/journal"
    printf 'entries 1\nsession extended\nholder A\n' > "$room/replayed"
    printf 'diag-journal 1\n1 P 1003 5003003201F5\n' > "$room/other"
    printf 'x' > "$room/bad"
    usage=$(cat runs/cli/usage/stderr)
    sweep_run "the stored run" 0 crates/uds_play/stdout '' "$program"
    sweep_run "serial" 0 "$room/played" '' "$program" --quiet serial --stamps "$room/config" "$room/log"
    sweep_run "play" 0 "$room/played" '' "$program" --quiet play --stamps "$room/config" "$room/log"
    any_order=1 sweep_run "play of two testers" 0 runs/logs/threaded_play/lines '' \
      "$program" --quiet play runs/setup.toml runs/logs/threaded_play/a.log runs/logs/threaded_play/b.log
    sweep_example "$program" suppressed-reply
    sweep_example "$program" long-reply
    sweep_example "$program" trouble-codes
    sweep_example "$program" routine-and-setting
    sweep_example "$program" "many-identifiers, one of them unknown"
    sweep_example "$program" rule-pending-many
    sweep_run "replay" 0 "$room/replayed" '' "$program" --quiet replay "$room/config" "$room/journal"
    writes_as_it_goes=1 sweep_run "bus" 0 runs/bus/merge/stdout '' "$program" --quiet bus runs/setup.toml runs/bus/merge/capture.log
    writes_as_it_goes=1 sweep_run "bus with later answers" 0 runs/bus/rule_slow_twice/bus.stdout '' \
      "$program" --quiet bus runs/bus/rule_slow_twice/setup.toml runs/bus/rule_slow_twice/capture.log
    writes_as_it_goes=1 sweep_run "the journal of a bus" 0 runs/bus/functional/journal.stdout '' \
      "$program" --quiet bus --journal runs/setup.toml runs/bus/functional/capture.log
    writes_as_it_goes=1 sweep_run "the end of a bus" 0 runs/bus/order/end.stdout '' \
      "$program" --quiet bus --end runs/setup.toml runs/bus/order/capture.log
    writes_as_it_goes=1 sweep_run "a capture at fault" 3 runs/bus/fault/bus.stdout 'uds_play: capture line 5: bad tick' \
      "$program" --quiet bus runs/setup.toml runs/bus/fault/capture.log
    input=runs/live/at_once/bus.log writes_as_it_goes=1 sweep_run "live" 0 runs/live/at_once/stdout '' "$program" --quiet live runs/setup.toml
    sweep_run "a verdict" 0 runs/verify/agrees/stdout '' "$program" --quiet verify runs/setup.toml runs/verify/agrees/capture.log
    sweep_run "a verdict on a frame" 8 "$room/nothing" 'uds_play: line 3: B sent 037F1022CCCCCCCC, expected 037F1021CCCCCCCC' \
      "$program" --quiet verify runs/setup.toml runs/verify/second_first/capture.log
    sweep_run "a verdict on what is missing" 8 "$room/nothing" 'uds_play: A sent 1 frames, expected 065001003201F4CC next' \
      "$program" --quiet verify runs/setup.toml runs/bus/order/capture.log
    writes_as_it_goes=1 sweep_run "exchanges" 8 runs/bus/order/compare.stdout '' \
      "$program" --quiet compare runs/setup.toml runs/bus/order/capture.log
    writes_as_it_goes=1 sweep_run "exchanges by rules" 8 runs/compare/varies/stdout '' \
      "$program" --quiet compare runs/compare/varies/lax.toml runs/compare/varies/capture.log
    writes_as_it_goes=1 sweep_run "exchanges before a fault" 3 runs/compare/fault/stdout 'uds_play: capture line 6: bad tick' \
      "$program" --quiet compare runs/setup.toml runs/compare/fault/capture.log
    writes_as_it_goes=1 sweep_run "requests by CAN FD" 0 runs/bus/fd_limits/bus.stdout '' \
      "$program" --quiet bus runs/fd.toml runs/bus/fd_limits/capture.log
    writes_as_it_goes=1 sweep_run "long replies by CAN FD" 0 runs/bus/fd_flow_limits/stdout '' \
      "$program" --quiet bus runs/bus/fd_flow_limits/setup.toml runs/bus/fd_flow_limits/capture.log
    sweep_run "a verdict by CAN FD" 0 runs/verify/fd/stdout '' "$program" --quiet verify runs/fd.toml runs/verify/fd/unit.log
    writes_as_it_goes=1 sweep_run "exchanges by CAN FD" 0 runs/compare/fd/stdout '' \
      "$program" --quiet compare runs/fd.toml runs/compare/fd/capture.log
    sweep_run "a log by CAN FD" 0 runs/logs/fd_limits/stdout '' \
      "$program" --quiet serial --stamps runs/fd.toml runs/bus/fd_limits/capture.log runs/empty.log
    sweep_run "a log by CAN FD, by play" 0 runs/logs/fd_limits/stdout '' \
      "$program" --quiet play --stamps runs/fd.toml runs/bus/fd_limits/capture.log runs/empty.log
    sweep_run "a log by CAN FD at fault" 3 "$room/nothing" 'uds_play: log 1 line 3: bad line' \
      "$program" --quiet serial runs/fd.toml runs/bus/fd_fault/capture.log runs/empty.log
    sweep_run "a capture that is not there" 7 "$room/nothing" 'uds_play: cannot read file 1' "$program" --quiet bus "$room/config" "$room/none"
    printf 's3_m = 1\n[[tester]]\nname = "A"\nrequest = 710\n' > "$room/slips"
    {
      echo 'line 2: missing tester.response: response of [[tester]] 1'
      echo 'line 1: s3_m: passed over; s3_ms?'
      echo 'line 4: request of [[tester]] 1: 710 is 0x2C6; 0x710?'
    } > "$room/looked"
    sweep_run "a look at a setup" 2 "$room/looked" '' "$program" check "$room/slips"
    sweep_run "a usage fault" 1 "$room/nothing" "$usage" "$program" replay --journal "$room/config" "$room/journal"
    sweep_run "a config at fault" 2 "$room/nothing" 'uds_play: config: syntax' "$program" --quiet serial "$room/bad" "$room/log"
    sweep_run "a config at fault, with notes" 2 "$room/nothing" 'uds_play: config: missing tester.response' "$program" bus "$room/slips" "$room/log"
    sweep_run "a log at fault, with notes" 3 "$room/nothing" 'uds_play: log 1 line 1: bad line' "$program" serial "$room/config" "$room/bad"
    sweep_run "a log at fault, by play" 3 "$room/nothing" 'uds_play: log 1 line 1: bad line' "$program" --quiet play "$room/config" "$room/bad"
    sweep_run "a file that is not there" 7 "$room/nothing" 'uds_play: cannot read file 1' "$program" --quiet serial "$room/config" "$room/none"
    sweep_run "a config that is not there, with notes" 7 "$room/nothing" 'uds_play: cannot read file 0' "$program" serial "$room/none" "$room/log"
    sweep_run "a replay that differs, with notes" 8 "$room/nothing" 'uds_play: entry 1 differs' "$program" replay "$room/config" "$room/other"
    {
      printf 's3_m = 1\n[[tester]]\nname = "A"\nrequest = 0x7E0\nresponse = 0x7E8\n'
      printf '[[tester]]\nname = "B"\nrequest = 710\nresponse = 0x7E9\n'
    } > "$room/odd"
    printf '(1.000000) can0 7E0#023E00\n(1.100000) can1 7E0##1023E00\n(1.200000) can1 7E8#02 7E 00\n' > "$room/mixed"
    echo '(0000000001.000000) A 7E8#027E00CCCCCCCCCC' > "$room/one"
    writes_as_it_goes=1 sweep_run "what a run didn't see, with notes" 0 "$room/one" '' "$program" bus "$room/odd" "$room/mixed"
  else
    bad "$program isn't built"
  fi
}

# sweep_suites: each suite in a process of its own, as many at a time as there are processors
sweep_suites() {
  local suites counts
  suites=$(find crates/*/out -maxdepth 1 -name '*_tests' -type f -perm -u+x | sort)
  if [ -z "$suites" ]; then : > "$room/err"; bad "no suite of tests is built"; return; fi
  # shellcheck disable=SC2086 # a path a word
  printf '%s\n' $suites | xargs -P "$(nproc)" -n 1 test/refuse.sh suite > "$room/suites"
  grep -vE '^[0-9]+ passed, [0-9]+ failed$' "$room/suites"
  counts=$(grep -E '^[0-9]+ passed, [0-9]+ failed$' "$room/suites")
  passed=$((passed + $(awk '{ n += $1 } END { print n + 0 }' <<< "$counts")))
  failed=$((failed + $(awk '{ n += $3 } END { print n + 0 }' <<< "$counts")))
  if [ "$(grep -c . <<< "$counts")" != "$(grep -c . <<< "$suites")" ]; then : > "$room/err"; bad "a suite has no count"; fi
}

case "${1:-}" in
  tests)
    sweep_program
    sweep_suites
    ;;
  suite)
    while read -r name; do
      sweep_test "$2" "$name"
    done < <("$2" --list 2> /dev/null | sed -n 's/: test$//p')
    [ $((passed + failed)) -gt 0 ] || bad "$2: it lists no test"
    ;;
  *) sweep_program ;;
esac
echo "$passed passed, $failed failed"
[ "$failed" = 0 ]
