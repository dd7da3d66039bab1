# Readers beside a run: what they print is one checkpoint, whole, and so are the lines of `list` and `verify`.

# A script in which checkpoint N has the byte N at the start of two pages; merges close the images after it.
write_numbered_script() {  # write_numbered_script COUNT
  local number
  echo 'mmap 1 0x10000 8192 rw'
  for number in $(seq "$1"); do
    printf 'store 1 0x10000 %02x\nstore 1 0x11000 %02x\ncheckpoint 1\n' "$number" "$number"
    [ $((number % 2)) = 1 ] || echo merge
  done
}

# What restore prints of checkpoint N of this script.
numbered_memory() {  # numbered_memory N
  printf 'checkpoint %d\nspace 1\narea 0x10000 0x12000 rw-\n' "$1"
  printf 'bytes 0x10000 %02x%062d\nbytes 0x11000 %02x%062d\n' "$1" 0 "$1" 0
}

# One read: a whole checkpoint, no older than the last one that was read, or a fault alone, with its cause.
read_beside() {
  "$ckpt" restore store > shown 2> err
  case $(head -n 1 shown) in
    "checkpoint "*) ;;
    "empty chain" | "cannot open DIR") return 0 ;;
    *)
      same "the lines of a fault" "$(wc -l < shown)" 1 || return 1
      has "its cause" "$(cat err)" "a run is writing this store"
      return
      ;;
  esac
  number=$(sed -n 's/^checkpoint //p' shown)
  same "checkpoint $number" "$(cat shown)" "$(numbered_memory "$number")" || return 1
  [ "$number" -ge "$last" ] || { echo "checkpoint $number after $last"; return 1; }
  last=$number
  reads=$((reads + 1))
}

# Runs the script in the file `script` over a new store, and calls a function again and again meanwhile, which counts in
# `reads` what it has read. On a busy machine that may be nothing beside a whole run, so there are up to ten.
beside_runs() {  # beside_runs FUNCTION
  local turn run last reads=0
  for turn in {1..10}; do
    rm -rf store
    last=0
    "$ckpt" run store script > answers &
    run=$!
    while kill -0 $run 2> /dev/null; do
      "$1" || { kill $run; return 1; }
    done
    wait $run
    [ "$reads" -eq 0 ] || return 0
  done
  echo "nothing was read beside $turn runs"
  return 1
}

readers_beside_a_run_see_one_moment() {
  local number count=200
  [ -z "${CHECKED:-}" ] || count=50
  write_numbered_script $count > script
  beside_runs read_beside || return 1
  same "the last checkpoint" "$("$ckpt" restore store)" "$(numbered_memory $count)"
}

# Each line that was shown is one of these, up to its end; or a fault stands alone, with its cause.
is_whole_beside() {  # is_whole_beside PATTERN
  [ -s shown ] && [ -z "$(tail -c 1 shown)" ] || { echo "no whole line: $(cat shown)"; return 1; }
  grep -qvE "$1" shown || return 0
  same "the lines of $(cat shown)" "$(wc -l < shown)" 1 || return 1
  case $(cat shown) in
    "cannot open DIR") has "its cause" "$(cat err)" "ckpt: store: " ;;
    device | damaged*) has "its cause" "$(cat err)" "a run is writing this store" ;;
    *) echo "no such line: $(cat shown)"; return 1 ;;
  esac
}

# One verify: a checkpoint no older than the last one that was read.
verify_beside() {
  "$ckpt" verify store > shown 2> err
  is_whole_beside '^ok (empty|checkpoint [0-9]+ images [0-9]+)$' || return
  number=$(sed -nE 's/^ok checkpoint ([0-9]+) .*/\1/p' shown)
  [ -n "$number" ] || return 0
  [ "$number" -ge "$last" ] || { echo "checkpoint $number after $last"; return 1; }
  last=$number
  verified=$((verified + 1))
}

# One list: lines of images, and the newest one.
list_beside() {
  local image='slot [0-9]{3} (dump|pre-dump|merged) serial [0-9]+ stands [0-9]+ parent [0-9]+ '
  image+='checkpoint [0-9]+ pages [0-9]+'
  "$ckpt" list store > shown 2> err
  is_whole_beside "^(tip none|tip [0-9]+|$image)\$" || return
  case $(tail -n 1 shown) in
    "cannot open DIR" | device | damaged*) ;;
    *) same "the lines of the newest" "$(grep -n '^tip' shown | cut -d : -f 1)" "$(wc -l < shown)" || return 1
      listed=$((listed + 1)) ;;
  esac
}

lines_beside() {
  verify_beside && list_beside || return
  reads=$((verified * listed))
}

# What `list` and `verify` print beside a run is whole.
lines_beside_a_run_are_whole() {
  local number verified=0 listed=0 count=200
  [ -z "${CHECKED:-}" ] || count=50
  write_numbered_script $count > script
  beside_runs lines_beside || return 1
  same "the last checkpoint" "$("$ckpt" verify store | cut -d ' ' -f 1-3)" "ok checkpoint $count"
}

# Two moments of a store whose images have nothing in common: before is checkpoint 1 in slot 0, after is checkpoint 2 in
# slot 60. So a reader that goes over the slots while one becomes the other meets both images, or none.
make_moments() {
  make_store before || return 1
  cp -a before after
  printf '%s\n' 'munmap 1 0x10000 4096' 'mmap 1 0x20000 0x3000 rw' 'store 1 0x21000 77' 'checkpoint 0' merge > script
  "$ckpt" run after script > made || { cat made; return 1; }
  same "the images of it" "$("$ckpt" list after | cut -d ' ' -f 1-3)" "slot 000 merged
tip 3" || return 1
  mv after/img-000 after/img-060 && : > after/img-000
  cc -O2 -shared -fPIC -o swap.so "$here/swap_files.c" || return 1
  printf '%s\n' '#!/bin/sh' 'for file in after/img-*; do cat "$file" > "store/${file#after/}"; done' > swap
  chmod +x swap
}

# What a reader prints of a moment, with the files of an export.
answer_of() {  # answer_of STORE WORD..; % among the words stands for the store
  local store=$1
  shift
  rm -rf cores
  "$ckpt" ${*/\%/$store} > shown
  echo "status $?"
  cat shown
  [ ! -d cores ] || (cd cores && ls -A && cksum -- *)
}

# Who reads a store while it changes between two of its calls, and while a run has its lock, answers as of one of both
# moments: it tries again, and mixes nothing.
readers_try_again_and_mix_no_moments() {
  command -v cc > found || { echo "no C compiler"; return 77; }
  command -v flock > found || { echo "needs flock"; return 77; }
  make_moments || return 1
  export ASAN_OPTIONS=verify_asan_link_order=0
  local words number count tried=0 step=7
  [ -z "${CHECKED:-}" ] || step=41
  rm -rf store && cp -a before store
  exec 8< store
  flock -n 8 || { echo "the lock isn't to be had"; return 1; }
  for words in "restore %" "list %" "verify %" "restore --json %" "list --json %" "verify --json %" "show %" \
    "show --json %" "export % cores"; do
    answer_of before $words > before.text
    answer_of after $words > after.text
    number=1
    count=1
    while [ "$number" -le "$count" ]; do
      (cd before && for file in img-*; do cat "$file" > "../store/$file"; done)
      LD_PRELOAD=$PWD/swap.so SWAP_AT=$number SWAP="$PWD/swap" COUNTED=$PWD/count answer_of store $words > text 2> err
      cmp -s text before.text || cmp -s text after.text \
        || { echo "$words, swapped at call $number:"; cat text err; return 1; }
      count=$(($(cat count)))
      rm count
      number=$((number + step))
      tried=$((tried + 1))
    done
  done
  exec 8<&-
  [ "$tried" -gt 20 ] || { echo "$tried cases"; return 1; }
}

# A store that never comes to rest while a run has its lock is answered with a fault, and the run is named.
readers_that_give_up_name_the_run() {
  command -v flock > found || { echo "needs flock"; return 77; }
  hello_store 2 || return 1
  flip 5000
  exec 8< store
  flock -n 8 || { echo "the lock isn't to be had"; return 1; }
  local words
  for words in "restore store" "list store" "verify store" "restore --json store" "export store cores"; do
    same "the status of $words" "$(ends "$ckpt" $words)" 1 || return 1
    has "the fault of $words" "$(cat out)" damaged || return 1
    has "its cause" "$(cat err)" "ckpt: store: a run is writing this store; try again when it has ended" || return 1
  done
  same "the status of an export into it" "$(ends "$ckpt" export --force store store)" 1 || return 1
  exec 8<&-
  make_store other || return 1
  exec 8< other
  flock -n 8 || { echo "the lock isn't to be had"; return 1; }
  ends_with 1 "cannot write OUT" "ckpt: other: a run is writing this store; try again when it has ended" \
    "$ckpt" export other other || return 1
  exec 8<&-
}

try readers_beside_a_run_see_one_moment
try lines_beside_a_run_are_whole
try readers_try_again_and_mix_no_moments
try readers_that_give_up_name_the_run
