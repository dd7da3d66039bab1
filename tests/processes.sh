# Several processes, and answers that are seen in time.

# Makes the named pipe `pipe`, whose both ends are descriptor 7.
open_pipe() {
  mkfifo pipe && exec 7<>pipe
}

# Each program that may write a store is refused, while a run has it open.
writers_are_refused() {
  local words told="ckpt: store: another run has this store open; try again when it has ended"
  one_area_core 7 > core
  for words in "run store script" "shell store" "merge store" "mutate store 2" "import store core"; do
    ends_with 1 "cannot open DIR" "$told" "$ckpt" $words < /dev/null || return 1
  done
}

# A run whose output nobody takes is stopped in the middle of its script.
second_writer_is_refused() {
  make_store store || return 1
  open_pipe || { echo "needs named pipes"; return 77; }
  yes 'load 1 0x10000 64' | head -n 20000 > long
  "$ckpt" run store long > pipe 7>&- &
  local first=$! line status meanwhile
  read -r -t 20 line <&7
  writers_are_refused > told
  status=$?
  meanwhile=$("$ckpt" verify store)
  kill -9 $first
  wait $first 2>/dev/null
  same "the first run" "$line" "reopened 1" || return 1
  [ "$status" -eq 0 ] || { cat told; return 1; }
  same "a reader meanwhile" "$meanwhile" "ok checkpoint 1 images 1" || return 1
  same "a run after the first was killed" "$("$ckpt" run store script | tail -n 1)" "acked 2"
}

# The pipe is full from the start, so the first flush stops the run until the pipe is read.
acked_is_seen_before_the_next_request() {
  printf 'checkpoint 0\ncheckpoint 0\n' > script
  open_pipe || { echo "needs named pipes"; return 77; }
  dd if=/dev/zero of=pipe bs=4096 count=1024 oflag=nonblock 2>/dev/null
  "$ckpt" run store script > pipe 7>&- &
  local run=$! seen
  for _ in $(seq 600); do
    "$ckpt" verify store 2>/dev/null | grep -q '^ok checkpoint' && break
    sleep 0.1
  done
  sleep 0.5
  seen=$("$ckpt" verify store)
  tr -d '\0' < pipe > answers 7>&- &
  exec 7>&-
  wait $run
  wait
  same "the store before the answers are read" "$seen" "ok checkpoint 1 images 1" || return 1
  same "the answers" "$(cat answers)" "$(printf 'reopened none\nacked 1\nacked 2')"
}

try second_writer_is_refused
try acked_is_seen_before_the_next_request
