# File calls that fail, by fail_call.c put before the C library: each call of a run in turn, in each way. What was
# acknowledged is there afterwards, and the next run goes on.

# The script: three checkpoints and a merge.
write_calls_script() {
  printf '%s\n' 'mmap 1 0x10000 8192 rw' 'store 1 0x10000 61' 'checkpoint 0' 'store 1 0x11000 62' 'checkpoint 1' \
    'store 1 0x10000 63' 'checkpoint 0' merge > calls.ckpt
}

# Every answer that the script may give where calls fail.
answers_of_calls='reopened none|done|acked [123]|merged [345]|device|cannot open DIR|cannot read SCRIPT'
answers_of_calls="$answers_of_calls|refused (6 frozen|10 not-open|11 busy|13 store-down|14 idle|22 device)"

# Goes to a folder in memory where there is one: how a call ends is what matters here, and a real disk's syncs take
# minutes.
in_memory() {
  room=$(mktemp -d -p /dev/shm 2> /dev/null || mktemp -d -p "$PWD") || return 1
  trap 'rm -rf "$room"' EXIT
  cd "$room" || return 1
}

# Makes the library by which file calls fail.
calls_can_fail() {
  command -v cc > /dev/null || { echo "no C compiler"; return 77; }
  cc -O2 -shared -fPIC -o fail.so "$here/fail_call.c" || return 1
  export ASAN_OPTIONS=verify_asan_link_order=0
}

# Checks that so many calls at least were counted: without the library none is, and no case would be tried.
were_counted() {  # were_counted LEAST
  [ "$(($(cat count)))" -ge "$1" ] || { echo "fewer than $1 calls were counted"; return 1; }
}

# One call of a program that only reads fails: the status is 1, its cause is reported, and LINE stands alone where a
# document is asked for, and else after lines that are in the file whole too; or the folder isn't opened. Counts in
# `told` how often LINE came.
reader_fails_at() {  # reader_fails_at NUMBER LINE WORD..
  local number=$1 line=$2 lines
  shift 2
  FAILED=$number HOW=unmade LD_PRELOAD=./fail.so "$ckpt" "$@" > out 2> err
  same "the status of $*, call $number" $? 1 || return 1
  has "the cause of call $number" "$(cat err)" "ckpt: store: " || return 1
  lines=$(wc -l < out)
  case $(tail -n 1 out),$* in
    "$line,"*--json | "cannot open DIR,"*) same "the lines of $*, call $number" "$lines" 1 || return 1 ;;
    "$line,"*) head -n -1 out | cmp - <(head -n $((lines - 1)) whole) || return 1 ;;
    *) echo "$*, call $number, ends with:"; tail -n 3 out; return 1 ;;
  esac
  [ "$(tail -n 1 out)" != "$line" ] || told=$((told + 1))
}

# Every 20th or so of a reader's calls fails in turn, from FIRST on, and LINE comes of some. The last call of list and
# verify is no call of the device: it looks whether the folder has a file at all.
reader_tells_of_failures() {  # reader_tells_of_failures FIRST LINE WORD..
  local first=$1 line=$2 calls number told=0
  shift 2
  COUNTED=count LD_PRELOAD=./fail.so "$ckpt" "$@" > whole || return 1
  were_counted "$first" || return 1
  calls=$(($(cat count)))
  case $1 in list | verify) calls=$((calls - 1)) ;; esac
  for number in $(seq "$first" $((calls / 20 + 1)) "$calls") $((calls - 1)) "$calls"; do
    reader_fails_at "$number" "$line" "$@" || return 1
  done
  [ "$told" -gt 0 ] || { echo "$* told $line at no call of $calls"; return 1; }
}

# Makes the library, the answers of a run without failures, and what is restored after each checkpoint: memory-0 to
# memory-3.
prepare_calls() {
  local number=0 line
  calls_can_fail || return
  write_calls_script
  echo "empty chain" > memory-0
  : > part.ckpt
  while read -r line; do
    echo "$line" >> part.ckpt
    [ "${line%% *}" = checkpoint ] || continue
    number=$((number + 1))
    rm -rf store
    "$ckpt" run store part.ckpt > part.out || return 1
    "$ckpt" restore store > "memory-$number" || return 1
  done < calls.ckpt
  rm -rf store
  COUNTED=count LD_PRELOAD=./fail.so "$ckpt" run store calls.ckpt > whole.out || return 1
  were_counted 1 || return 1
  same "the last answer" "$(tail -n 1 whole.out)" "merged 5"
}

# Runs the script over an empty store while a call fails.
run_failing() {  # run_failing NUMBER HOW
  rm -rf store
  FAILED=$1 HOW=$2 NAMED=called LD_PRELOAD=./fail.so "$ckpt" run --quiet store calls.ckpt > out 2> err
}

# The number of the checkpoint that a store shows, 0 for none.
shown_number() {
  local verdict
  verdict=$("$ckpt" verify store) || { echo "$verdict"; return 1; }
  case $verdict in
    "ok empty") echo 0 ;;
    *) set -- $verdict; echo "$3" ;;
  esac
}

# A store shows the last acknowledged checkpoint, or the next one, and a run goes on from it.
keeps_what_was_acknowledged() {
  local acked shown opened
  acked=$(sed -n 's/^acked //p' out | tail -n 1)
  acked=${acked:-0}
  [ -d store ] || return "$acked"
  shown=$(shown_number) || { echo "verify: $shown"; return 1; }
  [ "$shown" -eq "$acked" ] || [ "$shown" -eq $((acked + 1)) ] || { echo "acked $acked, shown $shown"; return 1; }
  "$ckpt" restore store > memory
  cmp -s memory "memory-$shown" || { echo "another memory than that of $shown"; cat memory; return 1; }
  [ "$shown" -eq 0 ] && opened=none || opened=$shown
  echo 'checkpoint 0' > next.ckpt
  "$ckpt" run store next.ckpt > next || { cat next; return 1; }
  same "the opening of the next run" "$(head -n 1 next)" "reopened $opened" || return 1
  has "the next run" "$(tail -n 1 next)" "acked "
}

# Whether the call that failed was on what a run can do without: the limits of the process, and the folders above its
# store, which it syncs as far as they can be.
run_does_without() {
  local called
  called=$(cat called)
  [ "$called" != / ] || return 0
  case $called in
    /proc/self/limits | store/..*) ;;
    *) case $PWD/ in "$called"/*) ;; *) return 1 ;; esac ;;
  esac
}

# An answer reports that a call failed that a run can't do without.
tells_of_failure() {
  ! cmp -s out whole.out || run_does_without || { echo "no answer tells that '$(cat called)' failed"; return 1; }
}

# One call fails: an answer reports it, each is a named one, and nothing that was acknowledged is lost.
call_may_fail() {  # call_may_fail NUMBER HOW
  run_failing "$1" "$2"
  [ $? -le 1 ] || { echo "another status"; return 1; }
  tells_of_failure || return 1
  grep -vxE "$answers_of_calls" out && { echo "no such answer"; return 1; }
  keeps_what_was_acknowledged
}

# One call is interrupted, or moves half of its bytes: nothing changes.
call_may_be_repeated() {  # call_may_be_repeated NUMBER HOW
  run_failing "$1" "$2"
  cmp -s out whole.out || { cat out; return 1; }
  "$ckpt" restore store > memory
  cmp -s memory memory-3 || { echo "another memory"; return 1; }
}

# Tries each call of the run, or each 41st in a build with checks.
each_call() {  # each_call CHECK HOW
  local number step=1
  in_memory || return
  prepare_calls || return
  [ -z "${CHECKED:-}" ] || step=41
  for number in $(seq 1 "$step" "$(($(cat count)))"); do
    "$1" "$number" "$2" || { echo "call $number, $2"; return 1; }
  done
}

calls_that_are_not_made() { each_call call_may_fail unmade; }
calls_that_are_made_and_fail() { each_call call_may_fail made; }
device_that_is_full_from_a_call_on() { each_call call_may_fail full; }
calls_that_are_interrupted() { each_call call_may_be_repeated interrupted; }
calls_that_move_half() { each_call call_may_be_repeated short; }

# Waits until the file `out` has so many lines.
await_lines() {  # await_lines COUNT
  local turn
  for turn in {1..500}; do
    [ "$(wc -l < out)" -lt "$1" ] || return 0
    sleep 0.02
  done
  return 1
}

# A checkpoint fails, and then all files are empty: that is no store of the run, which stays down until its own is back.
another_store_is_damage() {
  calls_can_fail || return
  local file
  : > out
  {
    printf '%s\n' 'mmap 1 0x10000 4096 rw' 'store 1 0x10000 61' 'checkpoint 0' 'checkpoint 0'
    await_lines 5 && cp -r store own && truncate -s 0 store/img-*
    printf '%s\n' reopen 'checkpoint 0'
    await_lines 7 && for file in own/img-*; do cat "$file" > "store/${file#own/}"; done
    printf '%s\n' reopen 'load 1 0x10000 1' 'checkpoint 0'
  } | ONLY=pwrite FAILED=6 HOW=unmade LD_PRELOAD=./fail.so "$ckpt" shell store > out 2> err
  same "the answers" "$(cat out)" "reopened none
done
done
acked 1
refused 22 device
refused 21 damaged
refused 13 store-down
reopened 1
bytes 61
acked 3"
}

try calls_that_are_not_made
try calls_that_are_made_and_fail
try device_that_is_full_from_a_call_on
try calls_that_are_interrupted
try calls_that_move_half
try another_store_is_damage
