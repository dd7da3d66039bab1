# Closing one image: `ckpt drop` closes one that the newest checkpoint doesn't need, damaged or not, and what the store
# shows stays the same, also where it is cut off.

# A store whose images of checkpoints 1 to 3 the newest, checkpoint 4 in slot 3, doesn't need: it is a run's first.
make_spare() {  # make_spare DIR
  printf '%s\n' 'mmap 1 0x10000 8192 rw' 'store 1 0x10000 61' 'checkpoint 0' 'store 1 0x11000 62' 'checkpoint 0' \
    'checkpoint 0' > script
  "$ckpt" run "$1" script > made || { cat made; return 1; }
  printf '%s\n' 'store 1 0x10000 63' 'checkpoint 0' > script
  "$ckpt" run "$1" script > made || { cat made; return 1; }
  same "the newest image" "$("$ckpt" list "$1" | tail -n 1)" "tip 4"
}

# The sums of the files of a store, but of one slot's.
sums_but() {  # sums_but DIR SLOT
  sums "$1" | grep -v "img-$2"
}

an_image_is_dropped() {
  make_spare store || return 1
  local memory others slot
  memory=$("$ckpt" restore store)
  for slot in 1 0 2; do
    others=$(sums_but store "00$slot")
    ends_with 0 "dropped 00$slot" "" "$ckpt" drop store "$slot" || return 1
    same "the other files" "$(sums_but store "00$slot")" "$others" || return 1
    same "the file" "$(od -An -tu1 "store/img-00$slot" | tr -d ' ')" 0 || return 1
    same "the memory" "$("$ckpt" restore store)" "$memory" || return 1
  done
  same "the verdict" "$("$ckpt" verify store)" "ok checkpoint 4 images 1"
}

a_needed_image_stays() {
  make_past store || return 1
  local files slot
  files=$(sums store)
  for slot in 000 001 002 003; do
    ends_with 1 "kept $slot needed" "ckpt: store: the newest checkpoint needs img-$slot, or none is shown without it; \
--force closes it all the same" "$ckpt" drop store "$slot" || return 1
    ends_with 1 "kept $slot needed" "" "$ckpt" drop -q store "$slot" || return 1
  done
  same "the files" "$(sums store)" "$files" || return 1
  ends_with 0 "dropped 001" "" "$ckpt" drop --force store 1 || return 1
  same "the status without it" "$(ends "$ckpt" verify store)" 1
}

a_closed_slot_stays() {
  make_spare store || return 1
  local files
  files=$(sums store)
  ends_with 1 "kept 009 closed" "ckpt: store: img-009 has no open image" "$ckpt" drop store 9 || return 1
  ends_with 1 "kept 009 closed" "ckpt: store: img-009 has no open image" "$ckpt" drop --force store 9 || return 1
  same "the files" "$(sums store)" "$files" || return 1
  same "a number that is no slot's" "$(ends "$ckpt" drop store 64)" 2 || return 1
  same "a slot that isn't named" "$(ends "$ckpt" drop store)" 2 || return 1
  mkdir empty
  ends_with 1 "kept 001 closed" "ckpt: empty: img-001 has no open image" "$ckpt" drop empty 1 || return 1
  same "the files of an empty folder" "$(ls empty)" "" || return 1
  same "the status of a missing folder" "$(ends "$ckpt" drop missing 1)" 1 || return 1
  same "its line" "$(cat out)" "cannot open DIR" || return 1
  [ ! -e missing ] || { echo "the folder was made"; return 1; }
}

# A damaged image that the newest checkpoint doesn't need: its cause says so, and then it is closed.
a_damaged_image_is_dropped() {
  make_spare store || return 1
  local memory
  memory=$("$ckpt" restore store)
  truncate -s 5000 store/img-001
  same "the status" "$(ends "$ckpt" verify store)" 1 || return 1
  has "the cause" "$(cat err)" "; the newest checkpoint doesn't need it: ckpt drop store 1 closes it" || return 1
  has "the line" "$("$ckpt" drop store 0 2> err)" "damaged 001 " || return 1
  ends_with 0 "dropped 001" "" "$ckpt" drop store 1 || return 1
  same "the verdict" "$("$ckpt" verify store)" "ok checkpoint 4 images 3" || return 1
  same "the memory" "$("$ckpt" restore store)" "$memory"
}

# With another image damaged it isn't known which are needed; that is no hindrance with --force.
another_damaged_image_hinders() {
  make_spare store || return 1
  truncate -s 5000 store/img-000
  truncate -s 5000 store/img-001
  local files
  files=$(sums store)
  has "the line" "$("$ckpt" drop store 1 2> err)" "damaged 000 " || return 1
  has "the line of the other" "$("$ckpt" drop store 0 2> err)" "damaged 001 " || return 1
  same "the files" "$(sums store)" "$files" || return 1
  ends_with 0 "dropped 000" "" "$ckpt" drop --force store 0 || return 1
  ends_with 0 "dropped 001" "" "$ckpt" drop store 1 || return 1
  same "the verdict" "$("$ckpt" verify store)" "ok checkpoint 4 images 2"
}

# A damaged image without which nothing is shown, or a checkpoint that isn't whole, stays.
a_damaged_image_is_missed() {
  make_store store || return 1
  truncate -s 5000 store/img-000
  same "the status" "$(ends "$ckpt" verify store)" 1 || return 1
  has "the cause" "$(cat err)" "; the newest checkpoint needs it, and an older copy of the file may help" || return 1
  ends_with 1 "kept 000 needed" "" "$ckpt" drop -q store 0 || return 1
  make_past past || return 1
  truncate -s 5000 past/img-000
  ends_with 1 "kept 000 needed" "" "$ckpt" drop -q past 0
}

# Each file call fails in turn, made or not: the store shows the same afterwards.
drops_are_cut_off() {
  calls_can_fail || return
  make_spare whole || return 1
  local memory calls number how
  memory=$("$ckpt" restore whole)
  cp -r whole store
  COUNTED=count LD_PRELOAD=./fail.so "$ckpt" drop -q store 1 > out || return 1
  were_counted 70 || return 1
  calls=$(($(cat count)))
  for number in $(seq 1 40 $((calls - 10))) $(seq $((calls - 9)) "$calls"); do
    for how in unmade made; do
      rm -rf store
      cp -r whole store
      FAILED=$number HOW=$how LD_PRELOAD=./fail.so "$ckpt" drop -q store 1 > out 2> err
      same "the memory, call $number $how" "$("$ckpt" restore store)" "$memory" || return 1
    done
  done
}

# Only one program can have the store open to change it.
a_drop_waits_for_no_run() {
  make_spare store || return 1
  mkfifo requests
  "$ckpt" shell store < requests > answers &
  local shell=$!
  exec 7> requests
  printf 'checkpoint 0\n' >&7
  sleep 1
  same "the status" "$(ends "$ckpt" drop -q store 1)" 1 || { exec 7>&-; wait "$shell"; return 1; }
  same "the line" "$(cat out)" "cannot open DIR"
  local told=$?
  exec 7>&-
  wait "$shell"
  return "$told"
}

try an_image_is_dropped
try a_needed_image_stays
try a_closed_slot_stays
try a_damaged_image_is_dropped
try another_damaged_image_hinders
try a_damaged_image_is_missed
try drops_are_cut_off
try a_drop_waits_for_no_run
