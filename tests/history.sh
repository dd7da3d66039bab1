# Going back in time: a checkpoint that isn't the newest is restored, exported and verified, and `history` prints which
# there are. What an older checkpoint has is taken from a copy of the store in which the later images are closed.

# A store of four checkpoints: a page that each but the last changes, one that the first alone has as data, and one that
# the second alone maps.
make_past() {  # make_past DIR
  printf '%s\n' 'mmap 1 0x10000 4096 rw' 'store 1 0x10000 61' \
    'mmap 1 0x30000 4096 rw' 'store 1 0x30000 64' 'checkpoint 0' \
    'mmap 1 0x20000 4096 r' 'store 1 0x10000 62' 'checkpoint 0' \
    'munmap 1 0x20000 4096' 'store 1 0x10020 63' 'checkpoint 0' 'checkpoint 0' > script
  "$ckpt" run "$1" script > made || { cat made; return 1; }
  same "the run" "$(grep -c acked made)" 4
}

# The slot of a checkpoint's image, as `list` has it.
slot_of() {  # slot_of DIR CHECKPOINT
  "$ckpt" list "$1" | sed -n "s/^slot \([0-9]*\) dump .* checkpoint $2 .*/\1/p"
}

# A copy of a store without the images of later checkpoints: what is newest there is this checkpoint.
cut_back() {  # cut_back DIR CHECKPOINT COPY
  cp -r "$1" "$3"
  local later
  for later in $(seq $(($2 + 1)) 4); do
    printf '\0' > "$3/img-$(slot_of "$1" "$later")"
  done
}

an_older_checkpoint_is_restored() {
  make_past store || return 1
  local number
  for number in 1 2 3 4; do
    cut_back store "$number" "cut$number"
    ends_with 0 "$("$ckpt" restore "cut$number")" "" "$ckpt" restore --checkpoint "$number" store || return 1
    ends_with 0 "ok checkpoint $number images 4" "" "$ckpt" verify --checkpoint "$number" store || return 1
  done
  same "the newest" "$("$ckpt" restore --checkpoint 4 store)" "$("$ckpt" restore store)"
}

an_older_checkpoint_is_exported() {
  make_past store || return 1
  cut_back store 2 cut
  ends_with 0 "" "" "$ckpt" export cut wanted || return 1
  ends_with 0 "" "" "$ckpt" export --checkpoint 2 store cores || return 1
  cmp cores/space-1.core wanted/space-1.core
}

a_checkpoint_that_is_not_there() {
  make_past store || return 1
  local numbers="ckpt: store: it has the checkpoints 4, 3, 2, 1"
  ends_with 3 "no checkpoint 7" "$numbers" "$ckpt" restore --checkpoint 7 store || return 1
  ends_with 3 "no checkpoint 7" "$numbers" "$ckpt" verify --checkpoint 7 store || return 1
  ends_with 3 "no checkpoint 7" "$numbers" "$ckpt" export --checkpoint 7 store cores || return 1
  [ ! -e cores ] || { echo "a folder of core files was made"; return 1; }
  ends_with 3 "no checkpoint 7" "" "$ckpt" restore -q --checkpoint 7 store || return 1
  mkdir empty
  same "the status of an empty store" "$(ends "$ckpt" restore --checkpoint 1 empty)" 3 || return 1
  same "an empty store" "$(cat out)" "no checkpoint 1" || return 1
  has "the reason" "$(cat err)" "it has no checkpoint that can be restored"
}

damage_stands_before_an_older_checkpoint() {
  make_past store || return 1
  truncate -s 5000 "store/img-$(slot_of store 4)"
  local told
  told=$("$ckpt" restore store 2> err)
  has "the damage" "$told" "damaged " || return 1
  same "the status" "$(ends "$ckpt" restore --checkpoint 1 store)" 1 || return 1
  same "the line" "$(cat out)" "$told"
}

# A merge closes the images that it takes in: what is left of them is the newest.
history_has_what_can_be_restored() {
  make_past store || return 1
  "$ckpt" history store > past || return 1
  same "the numbers" "$(cut -d' ' -f2 past | tr '\n' ' ')" "4 3 2 1 " || return 1
  same "the newest" "$(grep -c newest past)" 1 || return 1
  has "the newest line" "$(head -n 1 past)" \
    "checkpoint 4 slot $(slot_of store 4) serial 4 images 4 pages 2 own " || return 1
  has "the second" "$(sed -n 3p past)" " images 2 pages 3 " || return 1
  "$ckpt" merge store > merged || return 1
  same "after a merge" "$("$ckpt" history store | cut -d' ' -f1,2)" "checkpoint 4" || return 1
  mkdir empty
  same "an empty store" "$("$ckpt" history empty 2> err)" ""
}

# A checkpoint whose own image is closed isn't there, and none is that needs a page of a closed one.
history_leaves_out_what_is_broken() {
  make_past store || return 1
  cp -r store cut
  printf '\0' > "cut/img-$(slot_of store 2)"
  "$ckpt" history cut > past || return 1
  same "the numbers without an image" "$(numbers_in past)" "1 " || return 1
  same "what verify finds of it" "$(restorable cut)" "1 " || return 1
  ends_with 3 "no checkpoint 2" "ckpt: cut: it has the checkpoints 1" "$ckpt" restore --checkpoint 2 cut || return 1
  printf '\0' > "store/img-$(slot_of store 1)"
  "$ckpt" history store > past || return 1
  same "the numbers after a broken chain" "$(numbers_in past)" "" || return 1
  same "what verify finds there" "$(restorable store)" "" || return 1
  same "what isn't needed" "$(grep -c '^unneeded slot ... dump serial' past)" 3
}

# The numbers of the checkpoints that a history has.
numbers_in() {  # numbers_in FILE
  sed -n 's/^checkpoint \([0-9]*\) .*/\1/p' "$1" | tr '\n' ' '
}

# The numbers of the checkpoints at which `verify` finds a memory, newest first.
restorable() {  # restorable DIR
  local number
  for number in 4 3 2 1; do
    "$ckpt" verify -q --checkpoint "$number" "$1" > out && printf '%s ' "$number"
  done
}

history_as_a_document() {
  needs_python || return
  make_past store || return 1
  "$ckpt" history --json store > document || return 1
  python3 -c 'import json, sys
found = json.load(open("document"))
past = found["checkpoints"]
print(" ".join(str(c["checkpoint"]) for c in past), past[0]["newest"], found["unneeded"])' > read
  same "the document" "$(cat read)" "4 3 2 1 True []" || return 1
  truncate -s 5000 "store/img-$(slot_of store 4)"
  same "the status of a damaged store" "$(ends "$ckpt" history --json store)" 1 || return 1
  same "its document" "$(cat out)" "$("$ckpt" verify --json store 2> err)"
}

# A gate byte that was lost makes an older checkpoint the newest: `verify` alone can't see it.
a_newest_checkpoint_that_is_lost() {
  make_past store || return 1
  ends_with 0 "ok checkpoint 4 images 4" "" "$ckpt" verify --at-least 4 store || return 1
  printf '\0' | dd of="store/img-$(slot_of store 4)" conv=notrunc status=none
  ends_with 0 "ok checkpoint 3 images 3" "" "$ckpt" verify store || return 1
  ends_with 1 "ok checkpoint 3 images 3" "ckpt: store: its newest checkpoint isn't 4 or a later one" \
    "$ckpt" verify --at-least 4 store || return 1
  mkdir empty
  same "an empty store" "$(ends "$ckpt" verify --at-least 1 empty)" 1 || return 1
  same "its line" "$(cat out)" "ok empty"
}

# One read of checkpoint 3 beside a run: it is whole, or isn't there yet, or there is a fault alone, with its cause.
read_third_beside() {
  "$ckpt" restore --checkpoint 3 store > shown 2> err
  case $(head -n 1 shown) in
    "checkpoint 3")
      same "checkpoint 3" "$(cat shown)" "$(numbered_memory 3)" || return 1
      reads=$((reads + 1))
      ;;
    "no checkpoint 3" | "cannot open DIR") ;;
    *)
      same "the lines of a fault" "$(wc -l < shown)" 1 || return 1
      has "its cause" "$(cat err)" "a run is writing this store"
      ;;
  esac
}

an_older_checkpoint_beside_a_run_is_of_one_moment() {
  local number
  echo 'mmap 1 0x10000 8192 rw' > script
  for number in $(seq 50); do
    printf 'store 1 0x10000 %02x\nstore 1 0x11000 %02x\ncheckpoint 0\n' "$number" "$number"
  done >> script
  beside_runs read_third_beside
}

try an_older_checkpoint_is_restored
try an_older_checkpoint_is_exported
try a_checkpoint_that_is_not_there
try damage_stands_before_an_older_checkpoint
try history_has_what_can_be_restored
try history_leaves_out_what_is_broken
try history_as_a_document
try a_newest_checkpoint_that_is_lost
try an_older_checkpoint_beside_a_run_is_of_one_moment
