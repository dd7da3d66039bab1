# Threads that store into an empty store while checkpoints are made.

# The memory that so many threads leave: each stored 1,000 last, at the start of its page.
memory_of() {  # memory_of THREADS
  local zeros=000000000000000000000000000000000000000000000000 thread
  printf 'checkpoint 3\nspace 1\narea 0x100000 %#x rw-\n' $((0x100000 + $1 * 4096))
  for thread in $(seq 0 $(($1 - 1))); do
    printf 'bytes %#x e803000000000000%s\n' $((0x100000 + thread * 4096)) "$zeros"
  done
}

# The images of the store's chain, from the newest one back along their parents, each with its kind and its checkpoint;
# and how many images are open.
chain() {
  awk '/^slot / { image[$7] = $3 " " $11; parent[$7] = $9; open++ }
    /^tip / { at = $2 }
    END { while (at != 0 && ++seen <= open) { printf "%s, ", image[at]; at = parent[at] } print open " open" }' "$@"
}

# Looks at what a run of so many threads left: eight images were made, three for each of the first two checkpoints, one
# by the merge, and the last one for the third checkpoint. The merged one stands for the first checkpoint's dump, and
# its two rounds are gone; or, where the merge came late, for the second one's.
is_whole() {  # is_whole THREADS
  same "the memory of $1" "$("$ckpt" restore store)" "$(memory_of "$1")" || return 1
  "$ckpt" list store > list
  has "the list of $1" "$(cat list)" " dump serial 8 " || return 1
  same "the tip of $1" "$(tail -n 1 list)" "tip 8" || return 1
  case $(chain list) in
    "dump 3, dump 2, pre-dump 2, pre-dump 2, merged 1, 5 open" | "dump 3, merged 2, 2 open") ;;
    *) echo "the chain of $1: $(chain list)"; cat list; return 1 ;;
  esac
  same "verify of $1" "$("$ckpt" verify store)" "ok checkpoint 3 images $(grep -c '^slot ' list)"
}

mutate_two_threads() {
  same "the status" "$(ends "$ckpt" mutate store 2)" 0 || return 1
  same "the output" "$(cat out)" "threads 2 stores 2000 acked 3
close ok" || return 1
  same "the standard error" "$(cat err)" "" || return 1
  is_whole 2
}

# A build with checks makes one run of each number of threads.
a_hundred_runs_of_threads_end_so() {
  local run threads runs=100
  [ -z "${CHECKED:-}" ] || runs=7
  for run in $(seq $runs); do
    threads=$((2 + run % 7))
    rm -rf store
    same "run $run of $threads threads" "$("$ckpt" mutate store $threads)" \
      "threads $threads stores ${threads}000 acked 3
close ok" || return 1
    is_whole "$threads" || return 1
  done
}

a_store_with_an_image_is_not_mutated() {
  make_store store || return 1
  local before
  before=$(sums store)
  same "the status" "$(ends "$ckpt" mutate store 2)" 1 || return 1
  same "the output" "$(cat out)" "store not empty" || return 1
  same "the files" "$(sums store)" "$before" || return 1
  truncate -s 8263 store/img-000
  same "the status of a damaged store" "$(ends "$ckpt" mutate store 2)" 1 || return 1
  same "a damaged store" "$(cat out)" "damaged 000 9"
}

threads_are_one_to_eight() {
  local count
  for count in 0 9 -1 two ""; do
    same "the status of '$count'" "$(ends "$ckpt" mutate store "$count")" 2 || return 1
    same "the output of '$count'" "$(cat out)" "" || return 1
  done
  same "the status without" "$(ends "$ckpt" mutate store)" 2 || return 1
  [ ! -e store ] || { echo "a store was made"; return 1; }
  same "the status of 8" "$(ends "$ckpt" mutate store 8)" 0
}

# Checks what a run of four threads ended with: it wasn't stopped, and it says that it ended well only where nothing is
# missing.
mutate_ended() {  # mutate_ended STATUS
  case $1 in
    0) same "the output" "$(cat out)" "threads 4 stores 4000 acked 3
close ok" && is_whole 4 ;;
    1 | 2) grep -q 'out.of.memory' out err || { cat out err; return 1; } ;;
    *) echo "status $1" && cat out err && return 1 ;;
  esac
}

# Runs four threads once for each growth of one thread, or once for so many, from which on so many are refused.
mutate_without() {  # mutate_without THREAD STEP COUNT
  local number=1
  while :; do
    rm -rf store
    timeout 10 env REFUSED="$number" REFUSED_THREAD="$1" REFUSED_COUNT="$3" LD_PRELOAD=./refuse.so \
      "$ckpt" mutate store 4 > out 2> err
    mutate_ended $? || { echo "thread $1, growth $number, $3 refused"; return 1; }
    grep -q '^growth refused$' err || break
    number=$((number + $2))
  done
  [ "$number" -gt 1 ] || { echo "thread $1: no growth was refused"; return 1; }
}

# Of the first thread, which opens the store and makes the last checkpoint, of the one that makes the others, and of a
# mutator.
mutate_is_refused_memory() {
  [ -z "${CHECKED:-}" ] || { echo "a build with checks has an allocator of its own"; return 77; }
  growths_can_be_refused || return
  local thread
  mutate_without 1 7 1 && mutate_without 1 7 1000000 || return
  for thread in 0 2; do
    mutate_without "$thread" 97 1 && mutate_without "$thread" 97 1000000 || return
  done
}

# Runs four threads once for each thread that is refused, so many from there on: what can't be done beside the rest is
# done after it. A run makes eleven: four for the mutators, two for the writers of each of three checkpoints, and one
# for the second checkpoint beside the merge.
mutate_with_fewer_threads() {  # mutate_with_fewer_threads COUNT
  local number=1
  while :; do
    rm -rf store
    timeout 20 env REFUSED="$number" REFUSED_COUNT="$1" LD_PRELOAD=./refuse_thread.so \
      "$ckpt" mutate store 4 > out 2> err
    same "the status without thread $number" $? 0 || { cat out err; return 1; }
    same "the output without thread $number" "$(cat out)" "threads 4 stores 4000 acked 3
close ok" && is_whole 4 || return 1
    grep -q '^thread refused$' err || break
    number=$((number + 1))
  done
  same "the threads of a run" $((number - 1)) 11
}

mutate_is_refused_threads() {
  command -v cc > /dev/null || { echo "no C compiler"; return 77; }
  cc -O2 -shared -fPIC -o refuse_thread.so "$here/refuse_thread.c" || return
  mutate_with_fewer_threads 1 && mutate_with_fewer_threads 1000000
}

try mutate_two_threads
try a_hundred_runs_of_threads_end_so
try a_store_with_an_image_is_not_mutated
try threads_are_one_to_eight
try mutate_is_refused_memory
try mutate_is_refused_threads
