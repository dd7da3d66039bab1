# `ckpt shell`: requests one by one, through pipes.

# Each answer comes before the next request is asked, and is the one that `run` prints.
shell_answers_as_run_does() {
  local script="$here/../examples/rounds.ckpt"
  grep -v '^#' "$script" | "$ckpt" shell piped > out 2> err || { cat err; return 1; }
  "$ckpt" run run "$script" > wanted || return 1
  cmp out wanted || return 1
  same "the stores" "$(sums piped)" "$(sums run)"
}

shell_goes_on_after_a_line_that_does_not_fit() {
  printf 'load 1\nmmap 1 0x10000 4096 rw\n\n# a comment\nfork 1 2\nstore 1 0x10000 68\n' > lines
  ends_with 0 "reopened none
script line 1
done
script line 5
done" "ckpt: -: line 1: it has 2 fields, separated by single spaces, and needs 4
ckpt: -: line 5: it has 3 fields, separated by single spaces, and needs 2" "$ckpt" shell store < lines || return 1
  same "the status with --quiet" "$(ends "$ckpt" shell --quiet store < lines)" 0 || return 1
  same "the causes with --quiet" "$(cat err)" ""
}

shell_names_a_carriage_return() {
  printf 'checkpoint 0\r\n' > lines
  ends_with 0 "reopened none
script line 1" 'ckpt: -: line 1: field 2 has to be a number below 2^64, decimal or 0x and hexadecimal, not "0\r"; '\
'the line has a carriage return; lines end with a newline alone' "$ckpt" shell store < lines
}

# A line that the input ends within is a request too.
shell_answers_the_last_line() {
  printf 'fork 1' > lines
  ends_with 0 "reopened none
child 2" "" "$ckpt" shell store < lines
}

# Each answer comes before more is asked, also where nothing but one request was sent.
shell_answers_one_by_one() {
  needs_python || return
  python3 - "$ckpt" << 'PYTHON'
import subprocess, sys
shell = subprocess.Popen([sys.argv[1], "shell", "store"], stdin=subprocess.PIPE, stdout=subprocess.PIPE, bufsize=0)
answers = [shell.stdout.readline()]
for request in ["mmap 1 0x10000 4096 rw\n", "put 1 0x10000 3\nabc", "get 1 0x10000 3\n", "checkpoint 0\n", "merge\n"]:
    shell.stdin.write(request[:5].encode())
    shell.stdin.write(request[5:].encode())
    answers.append(shell.stdout.readline())
    if answers[-1] == b"bytes 3\n":
        answers.append(shell.stdout.read(3))
wanted = [b"reopened none\n", b"done\n", b"done\n", b"bytes 3\n", b"abc", b"acked 1\n", b"merged 2\n"]
shell.stdin.close()
sys.exit(0 if answers == wanted and shell.wait() == 0 else f"{answers}")
PYTHON
}

# Many requests that come at once take few calls of the system.
shell_takes_many_requests_at_once() {
  command -v strace > /dev/null || { echo "needs strace"; return 77; }
  local count=20000 calls
  [ -z "${CHECKED:-}" ] || count=4000
  yes 'munmap 1 0x10000 0' | head -n $count > lines
  cat lines | strace -f -o calls -e trace=read,write "$ckpt" shell store > out || { cat err; return 77; }
  same "the answers" "$(grep -c '^refused 1 EINVAL$' out)" $count || return 1
  calls=$(grep -cE ' (read\(0|write\(1),' calls)
  [ "$calls" -lt $((count / 40)) ] || { echo "$calls calls for $count requests"; return 1; }
}

# An acknowledgement, a merge and a reopening are seen at once, where more requests came with them.
shell_tells_at_once_what_is_saved() {
  command -v strace > /dev/null || { echo "needs strace"; return 77; }
  printf 'fork 1\ncheckpoint 0\nfork 1\nmerge\nexit 2\nexit 3\n' > lines
  strace -f -o calls -e trace=write -s 100 "$ckpt" shell store < lines > out || { cat err; return 77; }
  same "the writes" "$(sed -n 's/.* write(1, "\(.*\)", [0-9]*) .*/\1/p' calls)" \
'reopened none\n
child 2\nacked 1\n
child 3\nmerged 2\n
done\ndone\n'
}

# Bytes in bulk, over pages, and what stops them: the bytes after a request that is refused are no requests.
shell_puts_and_gets_bytes() {
  { printf 'mmap 1 0x10000 8192 rw\nput 1 0x10ffd 6\nab\ncd\nget 1 0x10ffc 8\nload 1 0x11000 1\n'
    printf 'put 1 0x11ffe 4\n1234get 1 0x11ffe 4\nload 1 0x11ffe 2\nput 2 0x10000 5\nfork\nget 9 0 1\n'
    printf 'put 1 0xffffffffffffffff 2\n12get 1 0xffffffffffffffff 1048576\nquit\n'; } > lines
  ends_with 0 "$(printf 'reopened none\ndone\ndone\nbytes 8\n\0ab\ncd\n\0bytes 63\n' | tr '\0' '@')
segv maperr 0x12000
segv maperr 0x12000
bytes 3132
refused 3 no-such-space 0x10000
refused 3 no-such-space 0x0
segv maperr 0xffffffffffffffff
segv maperr 0xffffffffffffffff" "" bash -c "\"$ckpt\" shell store < lines | tr '\\0' '@'"
}

# Lengths that are too long, or none, and an input that ends within the bytes: nothing is stored.
shell_puts_nothing_that_did_not_come() {
  { printf 'mmap 1 0x10000 4096 rw\nput 1 0x10000 1048577\n'
    yes fork | head -c 1048577
    printf 'get 1 0x10000 1048577\nput 1 0x10000 0\nput 1 0x10000\nget x 0x10000 1\nput 1 0x10000 9\n12345678'; } > lines
  ends_with 0 "reopened none
done
too-long 1048576
too-long 1048576
script line 4
script line 5
script line 6
cut-off 8" "ckpt: -: line 4: field 4 has to be a number from 1 on
ckpt: -: line 5: it has 3 fields, separated by single spaces, and needs 4
ckpt: -: line 6: field 2 has to be a number below 2^64, decimal or 0x and hexadecimal, not \"x\"" \
    "$ckpt" shell store < lines
}

# The lines of a put are those of its stores: the images are the same, byte by byte.
shell_puts_as_it_stores() {
  needs_python || return
  python3 - << 'PYTHON'
import random
data = random.randbytes(5000)
with open("put", "wb") as put, open("stores", "w") as stores:
    for file in (put, stores):
        text = "mmap 1 0x10000 12288 rw\n"
        file.write(text if file is stores else text.encode())
    put.write(b"put 1 0x10fd0 5000\n" + data + b"checkpoint 0\n")
    at, left = 0x10FD0, data
    while left:
        count = min(64, 4096 - at % 4096)
        stores.write(f"store 1 {at:#x} {left[:count].hex()}\n")
        at, left = at + count, left[count:]
    stores.write("checkpoint 0\n")
PYTHON
  same "the put" "$("$ckpt" shell first < put | tail -n 1)" "acked 1" || return 1
  same "the stores" "$("$ckpt" shell second < stores | tail -n 1)" "acked 1" || return 1
  same "the images" "$(sums first)" "$(sums second)"
}

# After a failed device call one request opens the store again, whatever else is out.
shell_reopens_after_a_failed_call() {
  calls_can_fail || return
  local number
  { printf 'mmap 1 0x10000 40960 rw\nput 1 0x10000 40960\n'
    head -c 40960 /dev/zero | tr '\0' a
    printf 'checkpoint 0\nreopen\ncheckpoint 0\n'; } > lines
  for number in 1 2 5 9; do
    ONLY=pwrite FAILED=$number HOW=unmade LD_PRELOAD=./fail.so "$ckpt" shell "store-$number" < lines > out 2> err
    same "the status, call $number" $? 0 || return 1
    same "the answers, call $number" "$(tail -n 3 out | tr '\n' ',')" "refused 22 device,reopened none,acked 2," \
      || return 1
    same "the store, call $number" "$("$ckpt" verify "store-$number")" "ok checkpoint 2 images 1" || return 1
  done
}

shell_ends_with_quit() {
  printf 'mmap 1 0x10000 4096 rw\nquit\nmmap 1 0 0 rw\n' > lines
  ends_with 0 "reopened none
done" "" "$ckpt" shell store < lines
}

shell_needs_a_store() {
  echo > file
  same "the status" "$(ends "$ckpt" shell file < /dev/null)" 1 || return 1
  same "the output" "$(cat out)" "cannot open DIR"
}

shell_into_a_full_device() {
  has_full_device || return
  "$ckpt" shell store < /dev/null > /dev/full 2> err
  same "the status" $? 1 || return 1
  same "the cause" "$(cat err)" "ckpt: standard output: No space left on device (os error 28)"
}

# An input that can't be read has its cause reported.
shell_tells_why_its_input_is_not_read() {
  same "the status" "$("$ckpt" shell store < / > out 2> err; echo $?)" 1 || return 1
  same "the output" "$(cat out)" "reopened none
cannot read SCRIPT" || return 1
  has "the cause" "$(cat err)" "ckpt: -: "
}

# Who asks through two pipes has the answer before the next request.
shell_answers_at_once() {
  needs_python || return
  same "the checkpoint" "$(python3 "$here/../examples/client.py" "$ckpt" store put colour green shape round)" \
    "acked 1" || return 1
  same "the value" "$(python3 "$here/../examples/client.py" "$ckpt" store get shape)" round || return 1
  same "a key that isn't there" "$(python3 "$here/../examples/client.py" "$ckpt" store get size)" none
}

# On a terminal it asks for each line, and says what is wrong with one.
shell_asks_on_a_terminal() {
  needs_python || return
  printf 'load 1\nquit\n' > lines
  ends_with 0 'reopened none
> script line 1: it has 2 fields, separated by single spaces, and needs 4
> ' "" python3 "$here/on_terminal.py" 01 "$ckpt" shell store < lines
}

# On a terminal `help` lists the requests, and a checkpoint of too many rounds has its limit reported.
shell_helps_on_a_terminal() {
  needs_python || return
  printf 'help\ncheckpoint 9\nquit\n' > lines
  same "the status" "$(ends python3 "$here/on_terminal.py" 01 "$ckpt" shell store < lines)" 0 || return 1
  has "a request" "$(cat out)" "store SPACE ADDRESS HEX: stores 1 to 64 bytes, with the fault that it may need" || return 1
  has "a put" "$(cat out)" "put SPACE ADDRESS LENGTH: stores the LENGTH bytes after the line, 1 to 1048576" || return 1
  same "the last answer" "$(tail -n 2 out)" "> refused 1 EINVAL
> " || return 1
  same "the cause" "$(cat err)" "ckpt: store: a checkpoint has 0 to 8 rounds, not 9"
}

# Where nobody types, `help` is answered as each line that is no request, and its cause says where the requests are.
shell_points_to_its_requests() {
  needs_python || return
  local long list="ckpt run --help lists the requests, and ckpt shell --help put and get"
  long=$(printf 'a%.0s' {1..81})
  printf 'help\nLoad 1 2 3\n load 1\n%s\nfork 1\n' "$long" > lines
  ends_with 0 "reopened none
script line 1
script line 2
script line 3
script line 4
child 2" "ckpt: -: line 1: no request is named \"help\"; $list
ckpt: -: line 2: no request is named \"Load\"; $list
ckpt: -: line 3: no request is named \"\"; the line begins with a space; $list
ckpt: -: line 4: no request is named so; $list" "$ckpt" shell store < lines || return 1
  has "the requests" "$("$ckpt" run --help)" "store SPACE ADDRESS HEX" || return 1
  has "the others" "$("$ckpt" shell --help)" "put SPACE ADDRESS LENGTH" || return 1
  printf 'Load 1 2 3\nquit\n' > lines
  ends_with 0 'reopened none
> script line 1: no request is named "Load"; help lists the requests
> ' "" python3 "$here/on_terminal.py" 01 "$ckpt" shell store < lines
}

# Where the end of the input is typed, the line of the last prompt is ended.
shell_ends_its_last_prompt() {
  needs_python || return
  printf 'fork 1\n\004' > lines
  same "the status" "$(ends python3 "$here/on_terminal.py" 01 "$ckpt" shell store < lines)" 0 || return 1
  same "the output" "$(cat out; echo .)" "reopened none
> child 2
> 
."
}

# Answers that go to a file or a pipe have nothing between them, also where the requests are typed; and requests that
# aren't typed are not asked for. What is wrong with a line stands on the standard error then.
shell_asks_nothing_of_a_file() {
  needs_python || return
  local descriptor
  printf 'load 1\nquit\n' > lines
  for descriptor in 0 1; do
    ends_with 0 "reopened none
script line 1" "ckpt: -: line 1: it has 2 fields, separated by single spaces, and needs 4" \
      python3 "$here/on_terminal.py" $descriptor "$ckpt" shell store < lines || return 1
  done
}

# Waits until a file has something, for a minute at most.
wait_for_answer() {  # wait_for_answer FILE
  local turn
  for turn in $(seq 600); do
    [ -s "$1" ] && return
    sleep 0.1
  done
  echo "nothing came into $1"
  return 1
}

# What a client's shell printed on the standard error, but for the slots that weren't free: the client merges then.
faults_of_client() {  # faults_of_client FILE
  grep -v '^ckpt: store: no-slot: free slots: ' "$1"
}

# A client goes on where no slot is free.
client_goes_on_where_no_slot_is_free() {
  needs_python || return
  local client=$here/../examples/client.py
  same "the first checkpoint" "$(python3 "$client" "$ckpt" store put colour green)" "acked 1" || return 1
  yes 'checkpoint 0' | head -n 62 > script
  same "the last of the others" "$("$ckpt" run store script | tail -n 1)" "acked 63" || return 1
  same "the next checkpoint" "$(python3 "$client" "$ckpt" store put colour blue 2> err)" "acked 64" || return 1
  same "what was told" "$(cat err)" "ckpt: store: no-slot: free slots: 2, wanted: 4; $few_slots" || return 1
  same "the faults" "$(faults_of_client err)" "" || return 1
  same "the value" "$(python3 "$client" "$ckpt" store get colour)" blue
}

# A client that is killed with its shell at any moment loses nothing that was acknowledged.
client_that_is_killed_loses_nothing() {
  needs_python || return
  local turn acked there turns=10
  [ -z "${CHECKED:-}" ] || turns=3
  for turn in $(seq $turns); do
    : > told
    setsid python3 "$here/../examples/client.py" "$ckpt" store count 1000000 > told 2> err &
    wait_for_answer told || { kill -9 -- -$! 2> killed; return 1; }
    sleep "0.$((RANDOM % 20 + 10))"
    kill -9 -- -$! 2> killed
    wait $! 2> ended
    faults_of_client err && return 1
    acked=$(tail -n 1 told | cut -d' ' -f3)
    there=$(python3 "$here/../examples/client.py" "$ckpt" store get last) || return 1
    [ "$there" -ge "$acked" ] || { echo "$acked was acknowledged, and $there is there"; return 1; }
  done
}

try shell_answers_as_run_does
try shell_goes_on_after_a_line_that_does_not_fit
try shell_names_a_carriage_return
try shell_answers_the_last_line
try shell_answers_one_by_one
try shell_takes_many_requests_at_once
try shell_tells_at_once_what_is_saved
try shell_puts_and_gets_bytes
try shell_puts_nothing_that_did_not_come
try shell_puts_as_it_stores
try shell_reopens_after_a_failed_call
try shell_helps_on_a_terminal
try shell_points_to_its_requests
try shell_ends_with_quit
try shell_needs_a_store
try shell_into_a_full_device
try shell_tells_why_its_input_is_not_read
try shell_answers_at_once
try shell_asks_on_a_terminal
try shell_ends_its_last_prompt
try shell_asks_nothing_of_a_file
try client_goes_on_where_no_slot_is_free
try client_that_is_killed_loses_nothing
