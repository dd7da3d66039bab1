# A stream of `ckpt send`, taken into another store by `ckpt receive`: what was received is there, and stays.

# A store whose second checkpoint has two rounds, so that pre-dumps arrive too.
make_sender() {  # make_sender DIR
  printf '%s\n' 'mmap 1 0x10000 8192 rw' 'store 1 0x10000 61' 'checkpoint 0' 'store 1 0x11000 62' 'checkpoint 2' \
    'store 1 0x10000 63' 'checkpoint 0' > script
  "$ckpt" run "$1" script > made || { cat made; return 1; }
  same "the run" "$(grep -c acked made)" 3
}

# Whether a store is in order, and what it shows.
shown() {  # shown DIR
  "$ckpt" verify -q "$1" | cut -d ' ' -f 1-3
  "$ckpt" restore -q "$1"
}

# A store with the checkpoint that follows checkpoint 3, and its increment in a file.
make_more() {  # make_more DIR
  printf '%s\n' 'store 1 0x11000 64' 'checkpoint 1' 'store 1 0x10000 65' 'checkpoint 0' > script
  "$ckpt" run "$1" script > made || { cat made; return 1; }
  "$ckpt" send -q --since 3 "$1" > more
}

a_stream_is_received() {
  make_sender store || return 1
  "$ckpt" send -q store > stream || return 1
  ends_with 0 "received 1
received 2
received 3" "received 5 images" "$ckpt" receive other < stream || return 1
  same "the memory" "$(shown other)" "$(shown store)" || return 1
  for checkpoint in 1 2; do
    same "checkpoint $checkpoint" "$("$ckpt" restore --checkpoint $checkpoint other)" \
      "$("$ckpt" restore --checkpoint $checkpoint store)" || return 1
  done
  same "the tip" "$("$ckpt" receive --tip other)" "tip 3 $("$ckpt" restore store | sha256sum | cut -d ' ' -f 1)"
}

what_came_since_is_received() {
  make_sender store || return 1
  "$ckpt" send -q store | "$ckpt" receive other > out || return 1
  make_more store || return 1
  ends_with 0 "received 4
received 5" "received 3 images" "$ckpt" receive other < more || return 1
  same "the memory" "$(shown other)" "$(shown store)" || return 1
  ends_with 1 "base differs: other shows 5, the stream begins at 3" "" "$ckpt" receive other < more || return 1
  same "nothing new" "$("$ckpt" send -q --since 5 store | "$ckpt" receive other)" "" || return 1
  same "the memory" "$(shown other)" "$(shown store)"
}

a_merged_store_is_received() {
  make_sender store || return 1
  "$ckpt" send -q store | "$ckpt" receive other > out || return 1
  "$ckpt" merge store > out || return 1
  make_more store || return 1
  same "the increment" "$("$ckpt" receive other < more)" "received 4
received 5" || return 1
  same "the whole" "$("$ckpt" send -q store | "$ckpt" receive third | tail -n 1)" "received 5" || return 1
  same "the memory" "$(shown other)" "$(shown store)" || return 1
  same "the memory" "$(shown third)" "$(shown store)"
}

other_bases_are_refused() {
  make_sender store || return 1
  make_more store || return 1
  "$ckpt" send -q store > stream
  printf '%s\n' 'mmap 1 0x10000 4096 rw' 'store 1 0x10000 61' 'checkpoint 0' 'checkpoint 0' 'checkpoint 0' > script
  "$ckpt" run other script > made || { cat made; return 1; }
  local files
  files=$(sums other)
  ends_with 1 "base differs: other shows another memory at 3, the stream begins at 3" "" "$ckpt" receive other < more \
    || return 1
  ends_with 1 "base differs: other shows 3, the stream begins with a whole image" "" "$ckpt" receive other < stream \
    || return 1
  ends_with 1 "base differs: empty shows no checkpoint, the stream begins at 3" "" "$ckpt" receive empty < more \
    || return 1
  same "the files" "$(sums other)" "$files" || return 1
  ends_with 3 "empty chain" "" "$ckpt" receive -q --tip empty || return 1
  "$ckpt" send -q store | "$ckpt" receive third > out || return 1
  "$ckpt" merge third > out || return 1
  printf '%s\n' 'checkpoint 0' > script
  "$ckpt" run store script > out || return 1
  "$ckpt" send -q --since 5 store > more
  files=$(sums third)
  ends_with 1 "damaged stream serial 9 isn't above those of the store" "" "$ckpt" receive third < more || return 1
  same "the files" "$(sums third)" "$files"
}

# What stands in a store after a stream was refused is a checkpoint of the sender, and the one that was printed last.
is_of_the_sender() {  # is_of_the_sender STORE OUT
  local last
  last=$(grep received "$2" | tail -n 1 | cut -d ' ' -f 2)
  [ -n "$last" ] || { same "nothing" "$("$ckpt" verify -q "$1")" "ok empty"; return; }
  same "the verdict" "$("$ckpt" verify -q "$1" | cut -d ' ' -f 1-3)" "ok checkpoint $last" || return 1
  same "the memory" "$("$ckpt" restore "$1")" "$("$ckpt" restore --checkpoint "$last" store)"
}

a_stream_that_is_cut_keeps_what_arrived() {
  make_sender store || return 1
  "$ckpt" send -q store > stream
  local len at
  len=$(stat -c %s stream)
  for at in 0 55 72 4000 8344 8360 8376 $((RANDOM % len)) $((RANDOM % len)) $((len - 32)) $((len - 1)); do
    rm -rf other
    head -c "$at" stream | "$ckpt" receive other > out
    same "the status at $at" $? 1 || return 1
    same "the last line at $at" "$(tail -n 1 out)" "stream ends early" || return 1
    is_of_the_sender other out || { echo "at $at"; return 1; }
    # A stream that goes on from there is taken.
    last=$(grep received out | tail -n 1 | cut -d ' ' -f 2)
    "$ckpt" send -q ${last:+--since "$last"} store | "$ckpt" receive other > rest || { cat rest; echo "at $at"; return 1; }
    same "the memory at $at" "$(shown other)" "$(shown store)" || return 1
  done
}

# A store with an image of so many data pages.
make_pages() {  # make_pages DIR COUNT
  {
    echo "mmap 1 0x10000 $((4096 * $2)) rw"
    for ((page = 0; page < $2; page++)); do
      printf 'store 1 0x%x %02x\n' $((0x10000 + 4096 * page)) "$page"
    done
    echo 'checkpoint 0'
  } > script
  "$ckpt" run "$1" script > made || { cat made; return 1; }
}

# An image of more data pages than a receiver reads at once, received whole, and cut within them.
many_pages_are_received() {
  make_pages store 40 || return 1
  "$ckpt" send -q store > stream || return 1
  ends_with 0 "received 1" "received 1 images" "$ckpt" receive other < stream || return 1
  same "the memory" "$(shown other)" "$(shown store)" || return 1
  local at
  for at in 200 65000 65672 131208 163000 163980; do
    head -c "$at" stream > part
    ends_with 1 "stream ends early" "" "$ckpt" receive -q "cut$at" < part || return 1
    same "what is shown of $at bytes" "$("$ckpt" restore -q "cut$at"; echo $?)" "empty chain
3" || return 1
  done
}

# Where no thread can be made, one reads and writes in turn.
many_pages_are_received_without_threads() {
  command -v cc > /dev/null || { echo "no C compiler"; return 77; }
  cc -O2 -shared -fPIC -o refuse_thread.so "$here/refuse_thread.c" || return
  make_pages store 40 || return 1
  "$ckpt" send -q store > stream || return 1
  REFUSED=1 REFUSED_COUNT=1000 LD_PRELOAD=./refuse_thread.so "$ckpt" receive -q other < stream > out 2> err || return 1
  has "the standard error" "$(cat err)" "thread refused" || return 1
  same "the memory" "$(shown other)" "$(shown store)"
}

a_changed_byte_is_refused() {
  needs_python || return
  make_sender store || return 1
  "$ckpt" send -q store > stream
  local len at
  len=$(stat -c %s stream)
  for at in 0 8 16 24 56 64 72 80 88 100 136 168 4200 8300 8350 8360 8370 $((RANDOM % len)) $((RANDOM % len)) \
    $((len - 48)) $((len - 1)); do
    rm -rf other
    python3 -c "import sys; b = bytearray(open('stream', 'rb').read()); b[$at] ^= 1; sys.stdout.buffer.write(b)" > bad
    "$ckpt" receive other < bad > out 2> err
    same "the status at $at" $? 1 || return 1
    grep -qE "^(damaged stream |stream ends early|base differs)" out || { cat out; echo "at $at"; return 1; }
    is_of_the_sender other out || { echo "at $at"; return 1; }
  done
}

# What a store has whose receiver was cut off: nothing, where none was printed, or a checkpoint of the sender from the
# last that was printed on.
keeps_what_was_printed() {  # keeps_what_was_printed STORE OUT
  local last
  last=$(grep received "$2" | tail -n 1 | cut -d ' ' -f 2)
  case $("$ckpt" verify -q "$1" 2> err | cut -d ' ' -f 1-3) in
    "ok checkpoint "*) ;;
    "ok empty" | "" | "cannot open DIR") [ -z "$last" ] || { echo "nothing after received $last"; return 1; }; return 0 ;;
    *) "$ckpt" verify "$1"; return 1 ;;
  esac
  "$ckpt" verify -q --at-least "${last:-1}" "$1" > verdict || { cat verdict; return 1; }
  last=$("$ckpt" receive --tip "$1" | cut -d ' ' -f 2)
  same "the memory" "$("$ckpt" restore "$1")" "$("$ckpt" restore --checkpoint "$last" store)"
}

# How often a receiver or a sender is killed.
kills() {
  if [ -z "${CHECKED:-}" ]; then echo 50; else echo 6; fi
}

a_killed_receiver_keeps_what_it_printed() {
  make_sender store || return 1
  "$ckpt" send -q store > stream
  local turn
  for turn in $(seq 1 "$(kills)"); do
    rm -rf other
    { cat stream; sleep 1; } | "$ckpt" receive -q other > out 2> err &
    sleep 0.0$((RANDOM % 5))$((RANDOM % 10))
    kill -9 $! 2> /dev/null
    wait $! 2> /dev/null
    keeps_what_was_printed other out || return 1
  done
}

a_killed_sender_leaves_what_arrived() {
  { echo 'mmap 1 0x10000 0x100000 rw'
    for i in 1 2 3; do
      for page in $(seq 0 255); do printf 'store 1 0x%x 0%d\n' $((0x10000 + page * 4096)) $i; done
      echo 'checkpoint 0'
    done; } > script
  "$ckpt" run store script > made
  same "the run" "$(grep -c acked made)" 3 || return 1
  local turn sender
  mkfifo pipe
  for turn in $(seq 1 "$(kills)"); do
    rm -rf other
    "$ckpt" receive -q other < pipe > out 2> err &
    "$ckpt" send -q store > pipe 2> err &
    sender=$!
    sleep 0.0$((RANDOM % 6))$((RANDOM % 10))
    kill -9 $sender 2> /dev/null
    wait 2> /dev/null
    case $(tail -n 1 out) in
      "stream ends early" | "received 3") ;;
      *) cat out; return 1 ;;
    esac
    keeps_what_was_printed other out || return 1
  done
}

# Waits until a file has a line, for some seconds.
waits_for() {  # waits_for LINE FILE
  local turn
  for turn in $(seq 1 300); do
    grep -qx "$1" "$2" && return 0
    sleep 0.1
  done
  echo "no $1 in $2:"
  cat "$2"
  return 1
}

# `send --follow` beside a shell: each checkpoint arrives as it is made, also after a merge, and the stream ends with the
# run.
a_run_is_followed() {
  mkfifo words
  "$ckpt" shell store < words > answers 2> err &
  exec 9> words
  printf '%s\n' 'mmap 1 0x10000 8192 rw' 'store 1 0x10000 61' 'checkpoint 0' >&9
  waits_for "acked 1" answers || return 1
  "$ckpt" send --follow store 2> sent 9>&- | "$ckpt" receive --json other > got 2> told 9>&- &
  local receiver=$!
  waits_for "received 1" got || return 1
  printf '%s\n' 'store 1 0x11000 62' 'checkpoint 2' >&9
  waits_for "received 2" got || return 1
  printf '%s\n' 'merge' 'store 1 0x10000 63' 'checkpoint 0' >&9
  waits_for "received 3" got || return 1
  exec 9>&-
  wait $receiver
  same "the status" $? 0 || return 1
  same "the images" "$(cat told)" '{"images":5}' || return 1
  same "what was sent" "$(cut -d ' ' -f 1-3 sent)" "sent 5 images" || return 1
  same "the memory" "$("$ckpt" restore other)" "$("$ckpt" restore store)"
}

# A sender that follows a run and is killed: what the receiver printed is there, and a second one goes on from it.
a_killed_follower_is_taken_up_again() {
  mkfifo words pipe
  "$ckpt" shell store < words > answers 2> err &
  exec 9> words
  printf '%s\n' 'mmap 1 0x10000 8192 rw' 'store 1 0x10000 61' 'checkpoint 0' >&9
  waits_for "acked 1" answers || return 1
  "$ckpt" receive -q other < pipe > got 9>&- &
  local receiver=$! sender
  "$ckpt" send -q --follow store > pipe 9>&- &
  sender=$!
  waits_for "received 1" got || return 1
  kill -9 $sender
  wait $receiver
  same "the end" "$(tail -n 1 got)" "stream ends early" || return 1
  printf '%s\n' 'store 1 0x11000 62' 'checkpoint 0' >&9
  waits_for "acked 2" answers || return 1
  "$ckpt" send -q --follow --since 1 store 9>&- | "$ckpt" receive -q other > got 9>&- &
  receiver=$!
  waits_for "received 2" got || return 1
  exec 9>&-
  wait $receiver
  same "the status" $? 0 || return 1
  same "the memory" "$("$ckpt" restore other)" "$("$ckpt" restore store)"
}

a_receiver_is_reached_by_ssh() {
  ssh -o BatchMode=yes -o ConnectTimeout=2 localhost true 2> err || { echo "needs ssh to localhost"; return 77; }
  make_sender store || return 1
  "$ckpt" send -q store | ssh -o BatchMode=yes localhost "'$ckpt' receive -q '$PWD/other'" > out || { cat out; return 1; }
  same "the last line" "$(tail -n 1 out)" "received 3" || return 1
  same "the memory" "$(shown other)" "$(shown store)"
}

a_damaged_store_takes_nothing() {
  make_sender store || return 1
  "$ckpt" send -q store | "$ckpt" receive other > out || return 1
  make_more store || return 1
  cp other/img-000 other/img-063
  "$ckpt" receive other < more > out
  same "a serial that stands twice" "$(cat out)" "damaged 063 19"
}

# Requests that make 16 checkpoints more, with two rounds at most.
sixteen_more() {  # sixteen_more FIRST
  local number
  for number in $(seq "$1" $(($1 + 15))); do
    printf 'store 1 0x1%d000 %02x\ncheckpoint %d\n' $((number % 2)) $((number % 256)) $((number % 3))
  done
}

# Writes the digest of what a store restores at each of 16 checkpoints, as `receive --tip` prints it.
write_tips() {  # write_tips STORE FIRST
  local number
  for number in $(seq "$2" $(($2 + 15))); do
    echo "tip $number $("$ckpt" restore --checkpoint "$number" "$1" | sha256sum | cut -d ' ' -f 1)"
  done >> tips
}

# A run that merges after every 16 checkpoints, and is followed: its receiver takes more images than it has slots.
a_follower_merges_with_its_run() {
  mkfifo words
  "$ckpt" shell store < words > answers 2> err &
  exec 9> words
  printf '%s\n' 'mmap 1 0x10000 8192 rw' 'checkpoint 0' >&9
  waits_for "acked 1" answers || return 1
  "$ckpt" send --follow store 2> sent 9>&- | "$ckpt" receive -q other > got 9>&- &
  local receiver=$! first
  for first in 2 18 34 50; do
    sixteen_more "$first" >&9
    waits_for "received $((first + 15))" got || return 1
    same "the tip" "$("$ckpt" receive --tip other)" "$("$ckpt" receive --tip store)" || return 1
    echo merge >&9
  done
  exec 9>&-
  wait $receiver
  same "the status" $? 0 || return 1
  same "the checkpoints" "$(grep -c received got)" 65 || return 1
  same "the memory" "$("$ckpt" restore other)" "$("$ckpt" restore store)" || return 1
  same "the merged image" "$("$ckpt" list -q other | grep -c ' merged ')" 1
}

# A receiver is killed at some moment. What it printed is there, or what it was about to print.
kill_a_receiver() {  # kill_a_receiver [--since N]
  local last
  "$ckpt" send -q "$@" store > stream || return 1
  { cat stream; sleep 1; } | "$ckpt" receive -q other > out 2> err &
  sleep 0.$((RANDOM % 3))$((RANDOM % 10))
  kill -9 $! 2> /dev/null
  wait $! 2> /dev/null
  last=$(grep received out | tail -n 1 | cut -d ' ' -f 2)
  "$ckpt" receive -q --tip other > tip || { cat tip; return 1; }
  grep -qxFf tip tips || { cat tip; echo "is no tip of the sender"; return 1; }
  [ "$(cut -d ' ' -f 2 tip)" -ge "${last:-1}" ] || { cat tip; echo "after received $last"; return 1; }
}

# A run that merges after every 16 checkpoints, whose receivers are killed, also while they merge.
a_killed_receiver_goes_on_where_it_merged() {
  local first turn
  mkfifo words
  "$ckpt" shell store < words > answers 2> err &
  exec 9> words
  printf '%s\n' 'mmap 1 0x10000 8192 rw' 'checkpoint 0' >&9
  waits_for "acked 1" answers || return 1
  "$ckpt" send -q store 9>&- | "$ckpt" receive -q other > out 9>&- || return 1
  "$ckpt" receive --tip other | tee tip > tips
  for first in 2 18 34; do
    sixteen_more "$first" >&9
    waits_for "acked $((first + 15))" answers || return 1
    write_tips store "$first"
    for turn in 1 2 3; do
      kill_a_receiver --since "$(cut -d ' ' -f 2 tip)" 9>&- || return 1
    done
    "$ckpt" send -q --since "$(cut -d ' ' -f 2 tip)" store | "$ckpt" receive -q other > out || { tail -n 1 out; return 1; }
    "$ckpt" receive --tip other > tip
    same "the tip" "$(cat tip)" "$("$ckpt" receive --tip store)" || return 1
    echo merge >&9
  done
  exec 9>&-
}

# A store with one free slot, whose other images the newest checkpoint needs, merges where its sender did.
a_full_receiver_takes_more() {
  { echo 'mmap 1 0x10000 4096 rw'; for i in $(seq 1 63); do echo 'checkpoint 0'; done; } > script
  "$ckpt" run store script > made
  same "the run" "$(grep -c acked made)" 63 || return 1
  "$ckpt" send -q store | "$ckpt" receive -q other > out || { tail -n 1 out; return 1; }
  "$ckpt" merge store > out || return 1
  printf '%s\n' 'checkpoint 0' 'checkpoint 0' > script
  "$ckpt" run store script > out || return 1
  "$ckpt" send -q --since 63 store > more || return 1
  same "the lines" "$("$ckpt" receive -q other < more)" "received 64
received 65" || return 1
  same "the verdict" "$("$ckpt" verify -q other)" "ok checkpoint 65 images 3"
}

a_locked_store_is_refused() {
  command -v flock > /dev/null || { echo "needs flock"; return 77; }
  make_sender store || return 1
  "$ckpt" send -q store > stream
  mkfifo words
  "$ckpt" shell other < words > out &
  exec 9> words
  sleep 0.3
  same "the status" "$(ends "$ckpt" receive other < stream)" 1 || return 1
  same "the line" "$(cat out)" "cannot open DIR"
  local was=$?
  exec 9>&-
  wait
  return $was
}

# examples/migrate: what was stored over one store is there over the other, which goes on.
a_program_goes_on_over_another_store() {
  needs_python || return
  [ -z "${CHECKED:-}" ] || { echo "a build with checks is too slow"; return 77; }
  python3 "$here/../examples/migrate" "$ckpt" old new --mib 2 --rounds 2 > line || { cat line; return 1; }
  grep -qE '^mib 2 rounds 2 whole_ms [0-9]+ last_pages [0-9]+ still_ms [0-9]+$' line || { cat line; return 1; }
  same "the new store's checkpoint" "$("$ckpt" list -q new | tail -n 1 | grep -c .)" 1 || return 1
  same "the verdict" "$("$ckpt" verify -q new | cut -d ' ' -f 1-2)" "ok checkpoint"
}

try a_stream_is_received
try what_came_since_is_received
try a_merged_store_is_received
try other_bases_are_refused
try a_stream_that_is_cut_keeps_what_arrived
try many_pages_are_received
try many_pages_are_received_without_threads
try a_changed_byte_is_refused
try a_killed_receiver_keeps_what_it_printed
try a_killed_sender_leaves_what_arrived
try a_run_is_followed
try a_killed_follower_is_taken_up_again
try a_receiver_is_reached_by_ssh
try a_damaged_store_takes_nothing
try a_follower_merges_with_its_run
try a_killed_receiver_goes_on_where_it_merged
try a_full_receiver_takes_more
try a_locked_store_is_refused
try a_program_goes_on_over_another_store
