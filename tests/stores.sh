# Stores of several images that are made by hand: chains, merged images, serials that stand twice, wrong digests.

# A dump of serial 1 whose page is filled with 7, the same in version 1, a dump of serial 2 that has the page in the
# first, and a merged image of serial 3 that stands for the first, whose page is filled with 9.
first="2 2 1 1 0 1 7"
old_first="1 2 1 1 0 1 7"
second="2 2 2 2 1 2 parent"
third_merged="2 3 3 1 0 1 9"

first_line="slot 000 dump serial 1 stands 1 parent 0 checkpoint 1 pages 1"
second_line="slot 001 dump serial 2 stands 2 parent 1 checkpoint 2 pages 0"

# The second dump has its page in the first, or in the merged image that stands for it.
a_page_in_a_parent_is_shown() {
  store_of "$first"
  shows_filled 1 1 1 7 || return 1
  store_of "$first" "$second"
  shows_filled 2 2 1 7 || return 1
  reader_prints 0 "$first_line
$second_line
tip 2" list || return 1
  store_of "$first" "$second" "$third_merged"
  shows_filled 2 3 1 9 || return 1
  reader_prints 0 "$first_line
$second_line
slot 002 merged serial 3 stands 1 parent 0 checkpoint 1 pages 1
tip 2" list
}

a_closed_slot_has_no_image() {
  store_of "$first" "$second"
  put_byte store/img-000 0 0
  reader_prints 0 "$second_line
tip 2" list && breaks 001
}

# A second dump whose parent isn't there, and a third above it: the chain breaks at the second.
a_broken_chain_is_named() {
  store_of "$second"
  breaks 000 || return 1
  printf '\0' > store/img-000
  one_page store/img-001 "${second% *}" parent
  breaks 001 || return 1
  store_of "2 2 3 3 2 3 parent" "$second"
  breaks 001
}

# The least slot whose serial stands in an earlier one is named, also where a chain is broken.
a_serial_stands_once() {
  store_of "$first" "$second" "$first"
  finds "damaged 002 19" || return 1
  store_of "$first" "$first" "$first"
  finds "damaged 001 19" || return 1
  store_of "$second" "$second"
  finds "damaged 001 19"
}

# A slot with a faulty header or table comes before a serial that stands twice.
a_faulty_file_comes_first() {
  store_of "$first" "$first" "$second"
  put_byte store/img-002 1 0
  finds "damaged 002 1" || return 1
  put_byte store/img-000 8192 0
  finds "damaged 000 16"
}

# Each open slot's digest is checked, whichever image is restored. It comes before what is wrong with the next slot,
# and after the reasons of its own header and table.
a_wrong_digest_is_named() {
  store_of "$first" "$second" "$third_merged"
  put_byte store/img-002 5000 1
  finds "damaged 002 17" || return 1
  put_byte store/img-000 5000 1
  finds "damaged 000 17" || return 1
  put_byte store/img-001 1 0
  finds "damaged 000 17" || return 1
  put_byte store/img-000 8192 0
  finds "damaged 000 16" || return 1
  put_byte store/img-000 1 0
  finds "damaged 000 1"
}

a_wrong_digest_comes_before_a_serial_that_stands_twice() {
  store_of "$first" "$first"
  put_byte store/img-001 5000 1
  finds "damaged 001 17" || return 1
  store_of "$old_first" "$second"
  put_byte store/img-000 5000 1
  reader_prints 0 "ok checkpoint 2 images 2" verify
}

# Of two serials the one with the greater checkpoint is restored, and of two dumps of one checkpoint the greater serial.
the_newest_is_restored() {
  local older="2 2 1007 1007 0 5 3" newer="2 2 1003 1003 0 6 4"
  store_of "$older" "$newer"
  shows_filled 6 2 1 4 || return 1
  store_of "$older" "$newer" "2 2 1009 1009 0 6 5"
  shows_filled 6 3 1 5
}

sixteen_spaces_are_restored() {
  local space items="16 0"
  for space in {1..16}; do
    items+=",$space 1 1,16 1 3 0,16 1 1 0"
  done
  make_image store/img-000 "2 2 1001 1001 0 4" 16 6 "$items"
  shows_filled 4 1 16 6
}

# A dump with a page of zeros and one that is filled with 8, and 59 images above it that leave both to their parents.
# A merge of it closes all sixty images.
a_chain_of_sixty_is_followed() {
  local slot serial
  make_image store/img-000 "2 2 1000 1000 0 1" 1 8 "1 0,1 1 2,15 2 3 0,15 1 3 0,16 1 1 0"
  for slot in {1..59}; do
    serial=$((1000 + slot))
    make_image "store/img-$(printf %03d "$slot")" "2 1 $serial $serial $((serial - 1)) 2" 0 0 "1 0,1 0 1,15 2 2 0"
  done
  "$ckpt" list store > listed
  same "the images" "$(wc -l < listed) $(tail -n 1 listed)" "61 tip 1000" || return 1
  make_image store/img-059 "2 2 1059 1059 1058 2" 0 0 "1 0,1 1 1,15 2 3 0,15 2 2 0"
  reader_prints 0 "ok checkpoint 2 images 60" verify || return 1
  reader_prints 0 "$(filled 2 1 8 | sed 's/area 0x10000/area 0xf000/')" restore || return 1
  same "the merge" "$("$ckpt" merge --quiet store)" "merged 1060" || return 1
  reader_prints 0 "slot 060 merged serial 1060 stands 1059 parent 0 checkpoint 2 pages 1
tip 1060" list
}

# Without an image, and with a file of one byte, also where that is an open gate.
a_store_without_images_is_in_order() {
  mkdir store
  reader_prints 0 "ok empty" verify && reader_prints 3 "empty chain" restore || return 1
  printf '\xa5' > store/img-000
  reader_prints 3 "empty chain" restore
}

try a_page_in_a_parent_is_shown
try a_closed_slot_has_no_image
try a_broken_chain_is_named
try a_serial_stands_once
try a_faulty_file_comes_first
try a_wrong_digest_is_named
try a_wrong_digest_comes_before_a_serial_that_stands_twice
try the_newest_is_restored
try sixteen_spaces_are_restored
try a_chain_of_sixty_is_followed
try a_store_without_images_is_in_order
