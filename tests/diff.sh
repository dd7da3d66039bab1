# What differs between two checkpoints: its lines and its document, and that they are what the two memories say that
# `restore` prints.

what_differs_has_a_line() {
  make_past store || return 1
  local bytes="* 1 0x10000-0x11000 1"
  ends_with 0 "$bytes
+ 1 0x20000-0x21000 r--
came 1 went 0 protected 0 written 1" "" "$ckpt" diff store 1 2 || return 1
  ends_with 0 "$bytes
- 1 0x20000-0x21000 r--
came 0 went 1 protected 0 written 1" "" "$ckpt" diff store 2 1 || return 1
  ends_with 0 "$bytes
came 0 went 0 protected 0 written 1" "" "$ckpt" diff store 1 4 || return 1
  ends_with 0 "came 0 went 0 protected 0 written 0" "" "$ckpt" diff store 3 4 || return 1
  ends_with 0 "came 0 went 0 protected 0 written 0" "" "$ckpt" diff store 2 2
}

# Runs are as long as they can be: also where the images have their pages apart, and where permissions differ within.
# The last page of a space has its line too.
lines_are_as_long_as_they_can_be() {
  printf '%s\n' 'mmap 1 0x10000 16384 rw' 'mmap 1 0x7ffffffff000 4096 rw' 'store 1 0x10000 61' 'store 1 0x11000 61' \
    'store 1 0x12000 61' 'checkpoint 0' 'store 1 0x11000 62' 'checkpoint 0' 'store 1 0x10000 62' 'store 1 0x12000 62' \
    'store 1 0x7ffffffff000 62' 'mprotect 1 0x11000 4096 r' 'mprotect 1 0x12000 4096 r' 'mmap 1 0x14000 4096 rw' \
    'fork 1' 'checkpoint 0' > script
  "$ckpt" run store script > made || { cat made; return 1; }
  ends_with 0 "* 1 0x10000-0x13000 3
~ 1 0x11000-0x13000 rw- r--
+ 1 0x14000-0x15000 rw-
* 1 0x7ffffffff000-0x800000000000 1
+ 2 0x10000-0x11000 rw-
+ 2 0x11000-0x13000 r--
+ 2 0x13000-0x15000 rw-
+ 2 0x7ffffffff000-0x800000000000 rw-
came 7 went 0 protected 2 written 4" "" "$ckpt" diff store 1 3
}

what_differs_is_a_document() {
  make_past store || return 1
  local areas='"areas":[{"space":1,"first":32,"count":1,"old":null,"new":1}]'
  local written='"written":[{"space":1,"first":16,"count":1}]'
  ends_with 0 "{$areas,$written,\"pages\":{\"came\":1,\"went\":0,\"protected\":0,\"written\":1}}" "" \
    "$ckpt" diff --json store 1 2 || return 1
  ends_with 3 '{"checkpoint":7,"fault":"no checkpoint"}' "" "$ckpt" diff --json store 1 7 || return 1
  truncate -s 5000 "store/img-$(slot_of store 4)"
  same "the status of a damaged store" "$(ends "$ckpt" diff --json store 1 2)" 1 || return 1
  same "its document" "$(cat out)" "$("$ckpt" verify --json store 2> err)"
}

a_checkpoint_to_compare_is_not_there() {
  make_past store || return 1
  local numbers="ckpt: store: it has the checkpoints 4, 3, 2, 1"
  ends_with 3 "no checkpoint 7" "$numbers" "$ckpt" diff store 1 7 || return 1
  ends_with 3 "no checkpoint 9" "$numbers" "$ckpt" diff store 9 7 || return 1
  ends_with 3 "no checkpoint 7" "" "$ckpt" diff -q store 7 1 || return 1
  mkdir empty
  same "the status of an empty store" "$(ends "$ckpt" diff empty 1 2)" 3 || return 1
  same "an empty store" "$(cat out)" "no checkpoint 1" || return 1
  same "a number that is none" "$(ends "$ckpt" diff store 1 x)" 2 || return 1
  same "the number 0" "$(ends "$ckpt" diff store 0 1)" 2
}

damage_stands_before_what_differs() {
  make_past store || return 1
  truncate -s 5000 "store/img-$(slot_of store 4)"
  local told
  told=$("$ckpt" restore store 2> err)
  has "the damage" "$told" "damaged " || return 1
  same "the status" "$(ends "$ckpt" diff store 1 2)" 1 || return 1
  same "the line" "$(cat out)" "$told"
}

# How many device calls are logged.
calls_of() {  # calls_of WORD..
  "$ckpt" "$@" -vv 2>&1 > out | grep -c '^\[DEBUG'
}

# Of three pages that both checkpoints have, two are the same pages of an image: one is read, of each of them.
pages_at_one_place_are_not_read() {
  make_past store || return 1
  local alone both
  alone=$(calls_of diff store 4 4) && both=$(calls_of diff store 1 4) || return 1
  same "the calls" "$both" "$((alone + 2))"
}

# Checkpoints 1 and 2 beside a run: what is printed is whole, or isn't there yet, or there is a fault alone.
diff_beside() {
  "$ckpt" diff store 1 2 > shown 2> err
  case $(head -n 1 shown) in
    "* 1"*)
      same "what differs" "$(cat shown)" "* 1 0x10000-0x12000 2
came 0 went 0 protected 0 written 2" || return 1
      reads=$((reads + 1))
      ;;
    "no checkpoint 1" | "no checkpoint 2" | "cannot open DIR") ;;
    *)
      same "the lines of a fault" "$(wc -l < shown)" 1 || return 1
      has "its cause" "$(cat err)" "a run is writing this store"
      ;;
  esac
}

what_differs_beside_a_run_is_of_one_moment() {
  local number
  echo 'mmap 1 0x10000 8192 rw' > script
  for number in $(seq 50); do
    printf 'store 1 0x10000 %02x\nstore 1 0x11000 %02x\ncheckpoint 0\n' "$number" "$number"
  done >> script
  beside_runs diff_beside
}

# What differs by the memories that `restore` prints, of any two checkpoints of a random script.
what_differs_is_what_restores_say() {
  needs_python || return
  local turn old new
  for turn in 1 2 3; do
    rm -rf store
    python3 "$here/differences.py" script "$turn" > script || return 1
    "$ckpt" run store script > made || { cat made; return 1; }
    for old in 1 2 3 4 5; do
      "$ckpt" restore --checkpoint "$old" store > "memory$old" || return 1
    done
    for old in 1 2 3 4 5; do
      for new in 1 2 3 4 5; do
        same "what differs between $old and $new, turn $turn" "$("$ckpt" diff store "$old" "$new")" \
          "$(python3 "$here/differences.py" diff "memory$old" "memory$new")" || return 1
      done
    done
  done
}

try what_differs_has_a_line
try lines_are_as_long_as_they_can_be
try what_differs_is_a_document
try a_checkpoint_to_compare_is_not_there
try damage_stands_before_what_differs
try pages_at_one_place_are_not_read
try what_differs_beside_a_run_is_of_one_moment
try what_differs_is_what_restores_say
