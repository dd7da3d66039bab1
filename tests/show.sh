# What `show` prints of image files: of each state, of both versions, and of what is damaged, as text and as JSON.

# The lines of the slots from one on, which are raw.
raw_slots() {  # raw_slots FIRST
  local slot
  for ((slot = $1; slot < 64; slot++)); do
    printf 'slot %03d raw\n' "$slot"
  done
}

# The lines of the first slot of a store of one page that begins with `hello`, where it is open.
hello_lines() {  # hello_lines VERSION RIGHT-OR-NONE FAULT
  echo "slot 000 open"
  [ -z "${3:-}" ] || echo "damaged $3"
  echo "version $1
kind dump
serial 1
stands_for 1
parent 0
checkpoint 1
pages 1
table_len 72
digest $2 $(bytes_of store/img-000 64 32)
space 1
area 0x10000 0x11000 rw-
run data first 16 pages 1 offset 4096"
}

# `show` prints this, with this status, and leaves the files.
shows() {  # shows STATUS TEXT WORD..
  local status=$1 text=$2 before
  shift 2
  before=$(sums store 2> sums_err)
  same "the status of $*" "$(ends "$ckpt" show store "$@")" "$status" || return 1
  same "the text of $*" "$(cat out)" "$text" || return 1
  same "the standard error" "$(cat err)" "" || return 1
  same "the files" "$(sums store 2> sums_err)" "$before"
}

# The damaged line of the first slot has this number and these words, and the status is 1.
shows_fault() {  # shows_fault NUMBER WORDS
  same "the status" "$(ends "$ckpt" show store 0)" 1 || return 1
  same "the fault" "$(sed -n 2p out)" "damaged $1 $2" || return 1
  same "the lines of all slots" "$("$ckpt" show store | tail -n 63)" "$(raw_slots 1)"
}

an_empty_folder_is_shown() {
  mkdir store
  shows 0 "$(raw_slots 0)" || return 1
  shows 0 "slot 063 raw" 63
}

states_are_shown() {
  make_store store || return 1
  : > store/img-001
  printf '\0SDCHAIN' > store/img-002
  printf '\245' > store/img-003
  head -c 4096 /dev/zero | tr '\0' a > store/img-004
  shows 0 "$(hello_lines 2 right)
slot 001 raw
slot 002 raw
slot 003 closed
slot 004 closed
$(raw_slots 5)"
}

version_one_is_shown_without_a_digest() {
  hello_store 1 || return 1
  shows 0 "$(hello_lines 1 none)" 0
}

one_slot_is_shown() {
  make_store store || return 1
  shows 0 "$(hello_lines 2 right)" 0 || return 1
  shows 0 "slot 001 raw" 1 || return 1
  for slot in 64 -1 x 18446744073709551616; do
    same "the status of slot $slot" "$(ends "$ckpt" show store -- "$slot")" 2 || return 1
    same "the output" "$(cat out)" "" || return 1
  done
}

# A pre-dump, a dump over it and a merged image, with runs of each kind and two spaces.
runs_are_shown() {
  make_image store/img-000 "2 1 1 1 0 1" 3 1 "1 0, 1 0 2, 16 2 1 0, 20 1 1 0"
  make_image store/img-001 "2 2 2 2 1 1" 2 2 "2 0, 1 2 3, 16 3 3 0, 19 2 5 0, 16 1 2 0, 17 2 3 0, 19 2 1 0, 7 0 0"
  make_image store/img-002 "2 3 3 2 0 1" 1 3 "1 0, 2 1 1, 34359738367 1 0 0, 34359738367 1 1 0"
  "$ckpt" show store > out || { cat out; return 1; }
  same "the first" "$(grep -A 12 '^slot 000' out | grep -v '^digest')" "slot 000 open
version 2
kind pre-dump
serial 1
stands_for 1
parent 0
checkpoint 1
pages 3
table_len 72
space 1
run data first 16 pages 2 offset 4096
run data first 20 pages 1 offset 12288" || return 1
  same "the second" "$(grep -A 16 '^slot 001' out | tail -n +11)" "space 1
area 0x10000 0x13000 rw-
area 0x13000 0x15000 r-x
run parent first 16 pages 1
run zero first 17 pages 2
run data first 19 pages 2 offset 4096
space 7" || return 1
  same "the third" "$(grep -A 12 '^slot 002' out | tail -n +2 | grep -v '^digest')" "version 2
kind merged
serial 3
stands_for 2
parent 0
checkpoint 1
pages 1
table_len 72
space 2
area 0x7ffffffff000 0x800000000000 ---
run data first 34359738367 pages 1 offset 4096"
}

# Changes of the image, with the line that says what is damaged.
faults_in_words="\
1=0|1 bytes 1 to 7 are not SDCHAIN
8=3|2 the version is neither 1 nor 2
10=4|3 the kind is not 1, 2 or 3
12=1|4 a byte of the header that has to be zero is not
16=0|5 the serial is 0
24=2|6 stands_for is not what it has to be beside the serial
32=1|7 the parent is not what it has to be beside the serial
40=0|8 the checkpoint is 0
48=2|9 header, pages and table are not as long as the file
8192=2|10 an item goes past the table's end
8192=0x11|11 there are over 16 spaces, or a space's number is wrong
8232=8|12 an area is wrong, or there are too many
8256=2|13 a run is wrong
8196=1|14 a number of the table that has to be zero is not
8240=0x11|15 the runs' pages are not the areas' pages, or a space has no run
8256=3|16 bytes remain behind the table, or its pages are not as many as they have to be"

faults_are_shown_in_words() {
  local version changes fault
  for version in 1 2; do
    while IFS='|' read -r changes fault; do
      hello_store $version || return 1
      change $changes
      shows_fault "${fault%% *}" "${fault#* }" || { echo "after $changes in version $version"; return 1; }
    done <<< "$faults_in_words"
  done
}

a_wrong_digest_is_shown() {
  hello_store 2 || return 1
  flip 5000
  shows_fault 17 "the digest is not that of the file" || return 1
  shows 1 "$(hello_lines 2 wrong "17 the digest is not that of the file")" 0
}

# The fields stand as they are, and the table is shown after a header of which another rule breaks.
a_damaged_header_is_shown_as_far_as_it_goes() {
  hello_store 2 || return 1
  change 10=7 16=0
  "$ckpt" show store 0 > out
  same "the lines" "$(grep -v '^digest' out)" "slot 000 open
damaged 3 the kind is not 1, 2 or 3
version 2
kind 7
serial 0
stands_for 1
parent 0
checkpoint 1
pages 1
table_len 72
space 1
area 0x10000 0x11000 rw-
run data first 16 pages 1 offset 4096"
}

# Items that break rules stand as they are too.
a_damaged_table_is_shown_as_far_as_it_goes() {
  hello_store 2 || return 1
  change 8232=9 8256=4
  "$ckpt" show store 0 > out
  same "the items" "$(tail -n 3 out)" "space 1
area 0x10000 0x11000 9
run 4 first 16 pages 1" || return 1
  hello_store 2 || return 1
  change 8223=0xff 8231=0xff 8192=9
  "$ckpt" show store 0 > out
  same "the great numbers" "$(tail -n 3 out)" "space 1
area page 18374686479671623696 pages 18374686479671623681 rw-
run data first 16 pages 1 offset 4096"
}

# One slot is damaged, and the others follow.
the_others_follow_a_damaged_slot() {
  make_store store || return 1
  cp store/img-000 store/img-001
  change 1=0
  "$ckpt" show store > out
  same "the status" $? 1 || return 1
  same "the states" "$(grep '^slot' out | head -n 3)" "slot 000 open
slot 001 open
slot 002 raw" || return 1
  same "the faults" "$(grep -c '^damaged' out)" 1 || return 1
  same "the status of the good one" "$(ends "$ckpt" show store 1)" 0
}

# Each front of a file: closed up to a header, and then not as long as its header says.
cut_files_are_shown() {
  local length
  for length in 0 1 7 8 10 12 16 24 32 40 48 56 64 96 4095; do
    hello_store 2 || return 1
    truncate -s $length store/img-000
    if [ $length = 0 ]; then
      shows 0 "slot 000 raw" 0 || return 1
    else
      shows 0 "slot 000 closed" 0 || return 1
    fi
  done
  for length in 4096 4097 8191 {8192..8263..3} 8263; do
    hello_store 2 || return 1
    truncate -s $length store/img-000
    shows_fault 9 "header, pages and table are not as long as the file" || { echo "of $length bytes"; return 1; }
    same "the spaces" "$(grep -c '^space' out)" 0 || return 1
  done
}

# A table that ends early, though the header says so: what is there is shown.
cut_tables_are_shown() {
  local length lines
  for length in {0..71}; do
    hello_store 2 || return 1
    truncate -s $((8192 + length)) store/img-000
    change 56="$length"
    shows_fault 10 "an item goes past the table's end" || { echo "of $length bytes"; return 1; }
    lines=0
    [ $length -ge 24 ] && lines=1
    [ $length -ge 48 ] && lines=2
    "$ckpt" show store 0 > out
    same "the lines of $length bytes" "$(grep -cE '^(space|area|run)' out)" $lines || return 1
  done
}

# A table that claims very many items takes no memory for them.
great_counts_are_shown() {
  hello_store 2 || return 1
  change 8208=0xff 8209=0xff 8210=0xff 8211=0xff 8212=0xff 8213=0xff 8214=0xff 8215=0xff 8192=0xff 8193=0xff
  same "the status" "$( ([ -n "${CHECKED:-}" ] || ulimit -v 1000000; ends "$ckpt" show store 0) )" 1 || return 1
  same "the items" "$(tail -n 3 out)" "space 1
area 0x10000 0x11000 rw-
run data first 16 pages 1 offset 4096"
}

# Checks a document by a program in Python, to which it is `document`.
python_finds() {  # python_finds PROGRAM
  needs_python || return
  python3 -c "import json, sys
document = json.load(open('out'))
slots = document['slots']
$1"
}

a_store_is_shown_as_json() {
  make_store store || return 1
  printf '\245' > store/img-001
  same "the status" "$(ends "$ckpt" show store --json)" 0 || return 1
  same "the lines" "$(wc -l < out)" 1 || return 1
  python_finds "
digest = open('store/img-000', 'rb').read()[64:96].hex()
assert list(document) == ['slots'] and len(slots) == 64
assert slots[0] == {'slot': 0, 'state': 'open', 'damaged': None, 'digest': 'right',
  'header': {'version': 2, 'kind': 2, 'serial': 1, 'stands_for': 1, 'parent': 0, 'checkpoint': 1, 'pages': 1,
    'table_len': 72, 'digest': digest},
  'spaces': [{'space': 1, 'areas': [{'first': 16, 'count': 1, 'permissions': 3}],
    'runs': [{'first': 16, 'count': 1, 'kind': 1, 'offset': 4096}]}]}, slots[0]
assert slots[1] == {'slot': 1, 'state': 'closed'}
assert slots[2:] == [{'slot': n, 'state': 'raw'} for n in range(2, 64)]"
}

damaged_slots_are_shown_as_json() {
  hello_store 2 || return 1
  change 10=7 16=0
  same "the status" "$(ends "$ckpt" show store 0 --json)" 1 || return 1
  python_finds "
assert len(slots) == 1
assert slots[0]['damaged'] == {'reason': 3, 'why': 'the kind is not 1, 2 or 3'}
assert slots[0]['header']['kind'] == 7 and slots[0]['spaces'][0]['space'] == 1"  || return
  hello_store 1 || return 1
  same "the status" "$(ends "$ckpt" show store --json 0)" 0 || return 1
  python_finds "assert slots[0]['digest'] == 'none' and slots[0]['header']['digest'] == 64 * '0'"
}

# A digest that isn't that of the file is wrong in a document too, and the slots after a damaged one follow.
wrong_digests_are_shown_as_json() {
  make_store store || return 1
  cp store/img-000 store/img-001
  flip 5000
  same "the status" "$(ends "$ckpt" show store --json)" 1 || return 1
  python_finds "
assert len(slots) == 64
assert slots[0]['digest'] == 'wrong' and slots[0]['damaged']['reason'] == 17, slots[0]
assert slots[1]['digest'] == 'right' and slots[1]['damaged'] is None, slots[1]
assert slots[2:] == [{'slot': n, 'state': 'raw'} for n in range(2, 64)]" || return 1
  change 1=0
  same "the status of a damaged header" "$(ends "$ckpt" show store --json)" 1 || return 1
  python_finds "
assert len(slots) == 64 and slots[0]['damaged']['reason'] == 1
assert slots[1]['digest'] == 'right' and slots[1]['damaged'] is None, slots[1]"
}

# Text and JSON have the same numbers of each slot.
text_and_json_agree() {
  "$ckpt" run store "$here/printing/three_spaces.ckpt" > answers || { cat answers; return 1; }
  "$ckpt" show store --json > out || return 1
  "$ckpt" show store > text || return 1
  python_finds "
kinds = {1: 'pre-dump', 2: 'dump', 3: 'merged'}
runs = {1: 'data', 2: 'parent', 3: 'zero'}
lines = []
for s in slots:
  lines.append('slot %03d %s' % (s['slot'], s['state']))
  if s['state'] != 'open': continue
  h = s['header']
  lines += ['version %d' % h['version'], 'kind ' + kinds[h['kind']]]
  lines += ['%s %d' % (n, h[n]) for n in ('serial', 'stands_for', 'parent', 'checkpoint', 'pages', 'table_len')]
  lines.append('digest %s %s' % (s['digest'], h['digest']))
  for space in s['spaces']:
    lines.append('space %d' % space['space'])
    for a in space['areas']:
      p = ''.join(c if a['permissions'] >> i & 1 else '-' for i, c in enumerate('rwx'))
      lines.append('area 0x%x 0x%x %s' % (4096 * a['first'], 4096 * (a['first'] + a['count']), p))
    for r in space['runs']:
      place = '' if r['offset'] is None else ' offset %d' % r['offset']
      lines.append('run %s first %d pages %d%s' % (runs[r['kind']], r['first'], r['count'], place))
assert lines == open('text').read().splitlines()
assert sum(s['state'] == 'open' for s in slots) > 2"
}

show_into_a_closed_descriptor() {
  make_store store || return 1
  local before
  before=$(sums store)
  "$ckpt" show store >&- 2> err
  same "the files" "$(sums store)" "$before"
}

show_into_a_full_device() {
  has_full_device || return
  make_store store || return 1
  "$ckpt" show store > /dev/full 2> err
  same "the status" $? 1 || return 1
  same "the cause" "$(cat err)" "ckpt: standard output: No space left on device (os error 28)"
}

# A file call that fails ends the lines of the slots before with `device`, or keeps the folder closed; a document isn't
# printed then, but `device` alone. The first five calls hold descriptors, and look whether a run is writing the store.
a_failing_device_ends_the_lines() {
  calls_can_fail || return
  make_store store || return 1
  cp store/img-000 store/img-063
  reader_tells_of_failures 6 device show store || return 1
  reader_tells_of_failures 6 device show store --json
}

# The first three calls hold the descriptors of a program.
descriptors_that_are_not_held_are_told() {
  calls_can_fail || return
  make_store store || return 1
  local number
  for number in 1 2 3; do
    ends_with 1 "" "ckpt: /dev/null: Input/output error (os error 5)" \
      env "FAILED=$number" HOW=unmade LD_PRELOAD=./fail.so "$ckpt" show store || return 1
  done
}

try an_empty_folder_is_shown
try states_are_shown
try version_one_is_shown_without_a_digest
try one_slot_is_shown
try runs_are_shown
try faults_are_shown_in_words
try a_wrong_digest_is_shown
try a_damaged_header_is_shown_as_far_as_it_goes
try a_damaged_table_is_shown_as_far_as_it_goes
try the_others_follow_a_damaged_slot
try cut_files_are_shown
try cut_tables_are_shown
try great_counts_are_shown
try a_store_is_shown_as_json
try damaged_slots_are_shown_as_json
try wrong_digests_are_shown_as_json
try text_and_json_agree
try show_into_a_closed_descriptor
try show_into_a_full_device
try a_failing_device_ends_the_lines
try descriptors_that_are_not_held_are_told
