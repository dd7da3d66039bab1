#!/usr/bin/env bash
# Memory that is refused, growth by growth, to tests that were built beside the program (crates/test_failures and
# crates/test_shared): they give what was refused once more, and pass all the same.
# `tests/growths.sh all` refuses every growth of the threads' tests, in a quarter of an hour, and makes a thousand runs
# of eight seats at random; the gate refuses every 97th, and every 13th, and makes ten runs.

# Makes the library that refuses a growth.
growths_can_be_refused() {
  command -v cc > /dev/null || { echo "no C compiler"; return 77; }
  cc -O2 -shared -fPIC -o refuse.so "$here/refuse_growth.c"
}

# Whether a run ended since no thread could be made: the mutators then come after the dumper, which has waited for them
# in vain.
lacks_a_thread() { grep -q 'no thread could be made' out err; }

# Runs a test once for each growth, or once for so many of them, which is refused. Growths are counted from 1.
pass_without() {  # pass_without CRATE TEST STEP [FIRST]
  local program=$here/../crates/$1/out/$1_tests number=${4:-1}
  [ -x "$program" ] || { echo "$1 isn't built"; return 77; }
  while timeout 60 env REFUSED="$number" LD_PRELOAD=./refuse.so "$program" "$2" > out 2> err || lacks_a_thread; do
    if ! grep -q '^growth refused$' err; then
      [ "$number" -gt 1 ] || { echo "$2: no growth was refused"; return 1; }
      echo "$number" > ended
      return 0
    fi
    number=$((number + $3))
  done
  echo "$2, growth $number"
  cat out err
  return 1
}

memory_is_refused_to_worlds() {
  growths_can_be_refused || return
  local name
  for name in two_checkpoints a_merge stale_bits a_merge_beside_a_round trims an_opening_of_images; do
    pass_without test_failures "tests::${name}_under_refused_memory" 1 || return
  done
}

memory_is_refused_to_threads() {
  growths_can_be_refused || return
  pass_without test_shared cases::threads "${1:-97}"
}

memory_is_refused_to_eight_writers() {
  growths_can_be_refused || return
  pass_without test_shared cases::twenty_pages "${1:-13}"
}

# Of a script whose commands copy spaces, pages and areas; what is refused changes nothing.
memory_is_refused_to_commands() {
  growths_can_be_refused && needs_python || return
  [ -z "${CHECKED:-}" ] || { echo "needs the proved program"; return 77; }
  python3 "$here/refused_commands.py" "$ckpt" "$PWD/refuse.so" > told || { cat told; return 1; }
  grep -qE '^[0-9]+ growths, [1-9][0-9]* of commands, ' told || { cat told; return 1; }
}

# Refuses every growth of one of the threads' tests, so many side by side, each in a folder of its own.
refuse_each() {  # refuse_each NAME JOBS
  local job
  for job in $(seq "$2"); do
    mkdir "$1-$job" && cp refuse.so "$1-$job"
    (cd "$1-$job" && pass_without test_shared "cases::$1" "$2" "$job" || touch failed) &
  done
  wait
  ! ls "$1"-*/failed > failed 2>&1 && echo "$1: all passed, $(($(cat "$1"-*/ended | sort -n | head -n 1) - 1)) growths"
}

# Makes a thousand runs of eight seats, each of another seed.
run_at_random() {
  local program=$here/../crates/test_shared/out/test_shared_tests run
  for run in $(seq 100); do
    timeout 300 "$program" cases::eight_seats_at_random > out 2> err || { cat out err; return 1; }
  done
  echo "eight_seats_at_random: 1000 runs passed"
}

# Every growth of the threads' tests, and runs at random.
refuse_all() {
  here=$(cd "$(dirname "${BASH_SOURCE[0]}")" && pwd)
  local room status jobs
  jobs=${JOBS:-$(nproc)}
  [ "$jobs" -ge 1 ] || jobs=1
  room=$(mktemp -d) && cd "$room" || return
  growths_can_be_refused && refuse_each threads "$jobs" && refuse_each twenty_pages "$jobs" && run_at_random
  status=$?
  rm -rf "$room"
  return "$status"
}

if [ "${BASH_SOURCE[0]}" != "$0" ]; then
  try memory_is_refused_to_commands
  try memory_is_refused_to_worlds
  try memory_is_refused_to_threads
  try memory_is_refused_to_eight_writers
elif [ "${1:-}" = all ]; then
  refuse_all
else
  echo "usage: tests/growths.sh all" >&2
  exit 2
fi
