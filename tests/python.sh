# The Python client's own tests, and examples/follow, which stands on it.

python_client() {
  needs_python || return
  CKPT=$ckpt python3 -B -W error -m unittest discover -s "$here/../clients/python/tests" > out 2>&1 \
    || { cat out; return 1; }
  has "the tests" "$(cat out)" "OK"
}

# Types are checked where mypy is.
python_client_is_typed() {
  needs_python || return
  python3 -m mypy --version > out 2>&1 || { echo "needs mypy"; return 77; }
  python3 -m mypy --strict --cache-dir=/dev/null "$here/../clients/python/devontsira" > out 2>&1 \
    || { cat out; return 1; }
}

# Each program of Python here fits the oldest version that the client is for.
python_is_of_3_9() {
  needs_python || return
  python3 - "$here/../clients/python/devontsira" "$here/../examples" << 'PYTHON'
import ast, pathlib, sys
for folder in sys.argv[1:]:
    for file in [*pathlib.Path(folder).rglob("*.py"), *pathlib.Path(folder).glob("follow")]:
        ast.parse(file.read_text(), str(file), feature_version=(3, 9))
PYTHON
}

# Starts a program that writes a table of 64 numbers 20 times a second: number N into each, one after the other. Its
# process is in `program`, and the table's address in the file `address`.
start_table() {
  command -v cc > /dev/null || { echo "needs a C compiler"; return 77; }
  cat > table.c << 'C'
#include <stdio.h>
#include <unistd.h>
static volatile int table[64];
int main(void) {
  printf("%p\n", (void *)table);
  fflush(stdout);
  for (int number = 1;; number++) {
    for (int place = 0; place < 64; place++) table[place] = number;
    usleep(50000);
  }
}
C
  cc -O1 -static -o table table.c 2> static || cc -O1 -o table table.c || return 1
  ./table > address &
  program=$!
  trap 'kill $program 2> killed' EXIT
  wait_for_answer address
}

# The numbers of the table in an export of a store.
exported_table() {  # exported_table STORE [--checkpoint N]
  rm -rf cores
  "$ckpt" export "$1" cores "${@:2}" || return 1
  gdb -batch -nx -ex "x/64dw $(cat address)" -c cores/space-1.core 2> gdb.log | sed -n 's/^0x.*:\t//p' | tr '\t' '\n'
}

# Checks that the table had this state once: the first numbers are N, and the others N - 1.
is_state_of_table() {
  awk 'NR == 1 { first = $1 } $1 > last && NR > 1 || $1 < first - 1 { bad = 1 } { last = $1 }
    END { exit bad || NR != 64 || first < 1 }' "$1" || { echo "no state of the table:"; tr '\n' ' ' < "$1"; return 1; }
}

follow_keeps_states_of_a_program() {
  needs_python || return
  command -v gdb > /dev/null || { echo "needs gdb"; return 77; }
  start_table || return
  local turn last=0
  for turn in 1 2; do
    python3 "$here/../examples/follow" $program store --every 0.2 --rounds $turn --checkpoints 5 --ckpt "$ckpt" \
      > told 2> err || { cat err; return 1; }
    same "the checkpoints" "$(sed 's/ changed .*//' told | tr '\n' ',')" \
      "$(seq -f "acked %g pages $(sed -n '1s/.* pages \([0-9]*\) .*/\1/p' told)" $((5 * turn - 4)) $((5 * turn)) \
        | tr '\n' ',')" || return 1
    exported_table store > state || return 1
    is_state_of_table state || return 1
    [ "$(head -n 1 state)" -gt "$last" ] || { echo "the table did not go on"; return 1; }
    last=$(head -n 1 state)
  done
  older_states_rise
}

# Each checkpoint that the store still has is a state of the table too, later than the one before.
older_states_rise() {
  local number last=0 count=0
  for number in $(seq 10); do
    exported_table store --checkpoint "$number" > state 2> err || continue
    is_state_of_table state || return 1
    [ "$(head -n 1 state)" -gt "$last" ] || { echo "checkpoint $number isn't later than the one before"; return 1; }
    last=$(head -n 1 state)
    count=$((count + 1))
  done
  [ "$count" -ge 5 ] || { echo "only $count checkpoints are left"; return 1; }
}

# The program goes on also where who follows it is killed, at any moment.
follow_that_is_killed_leaves_the_program_running() {
  needs_python || return
  start_table || return
  local turn turns=6
  [ -z "${CHECKED:-}" ] || turns=2
  for turn in $(seq $turns); do
    : > told
    setsid python3 "$here/../examples/follow" $program store --every 0 --rounds 0 --ckpt "$ckpt" > told 2> err &
    wait_for_answer told || { cat err; kill -9 -- -$!; return 1; }
    sleep "0.$((RANDOM % 900 + 100))"
    kill -9 -- -$! 2> killed
    wait $! 2> ended
    sleep 0.2
    case $(sed -n 's/^State:\t//p' "/proc/$program/status") in
      [tT]*) echo "the program is stopped"; return 1 ;;
    esac
  done
}

# Makes a cgroup that can be frozen, whose folder is in `cgroup`.
make_cgroup() {
  local root
  root=$(findmnt -n -t cgroup2 -o TARGET | head -n 1)
  cgroup=$(mktemp -d "${root:-/none}/ckpt-test-XXXXXX" 2> err) && [ -w "$cgroup/cgroup.freeze" ] \
    || { echo "needs a cgroup that can be frozen"; return 77; }
  trap 'kill -9 $program 2> killed; wait $program 2> ended; rmdir "$cgroup"' EXIT
}

# A program that stands in a cgroup is frozen with it, and goes on also where who follows it is killed.
follow_freezes_a_cgroup() {
  needs_python || return
  command -v gdb > /dev/null || { echo "needs gdb"; return 77; }
  start_table || return
  make_cgroup || return
  echo $program > "$cgroup/cgroup.procs" || return 1
  python3 "$here/../examples/follow" $program store --every 0.2 --rounds 1 --checkpoints 3 --freeze "$cgroup" \
    --ckpt "$ckpt" > told 2> err || { cat err; return 1; }
  same "the checkpoints" "$(cut -d' ' -f1,2 told | tr '\n' ',')" "acked 1,acked 2,acked 3," || return 1
  exported_table store > state || return 1
  is_state_of_table state || return 1
  : > told
  setsid python3 "$here/../examples/follow" $program store --every 0 --rounds 0 --freeze "$cgroup" --ckpt "$ckpt" \
    > told 2> err &
  wait_for_answer told || { cat err; kill -9 -- -$!; return 1; }
  sleep "0.$((RANDOM % 900 + 100))"
  kill -9 -- -$! 2> killed
  wait $! 2> ended
  sleep 0.2
  has "the cgroup" "$(cat "$cgroup/cgroup.events")" "frozen 0"
}

follow_tells_why_it_ends() {
  needs_python || return
  local pid
  sleep 0.1 & pid=$!
  wait $pid
  ends_with 1 "" "follow: there is no process $pid" \
    python3 "$here/../examples/follow" $pid store --ckpt "$ckpt" || return 1
  python3 -c 'import mmap, time; room = mmap.mmap(-1, 300 << 20); print(1, flush=True); time.sleep(60)' > large &
  pid=$!
  wait_for_answer large || return 1
  same "the status" "$(ends python3 "$here/../examples/follow" $pid store --ckpt "$ckpt")" 1 || return 1
  kill $pid
  has "a large program" "$(cat err)" "follow: too large: " || return 1
  has "its limit" "$(cat err)" " pages, and a store has 65536 at most" || return 1
  sleep 30 & pid=$!
  (wait_for_answer told; kill $pid) &
  same "the status where the program ends" \
    "$(python3 "$here/../examples/follow" $pid ended --every 0.1 --ckpt "$ckpt" > told 2> err; echo $?)" 0 || return 1
  has "the end" "$(cat err)" "follow: process $pid ended" || return 1
  same "the store" "$("$ckpt" verify ended | cut -d' ' -f1)" ok
}

try python_client
try python_client_is_typed
try python_is_of_3_9
try follow_keeps_states_of_a_program
try follow_that_is_killed_leaves_the_program_running
try follow_freezes_a_cgroup
try follow_tells_why_it_ends
