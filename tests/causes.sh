# What is reported on the standard error after a fixed line: the cause, and what may help. The standard output stays as
# it is.

# A damaged slot in words, by each program that opens the store; and nothing with --quiet.
damage_is_told_in_words() {
  local told="ckpt: store: img-000 is damaged: the digest is not that of the file; ckpt show store 0 says more; \
the newest checkpoint needs it, and an older copy of the file may help"
  hello_store 2 || return 1
  flip 5000
  echo 'mmap 1 0 4096 r' > script
  for words in "verify store" "restore store" "list store" "run store script" "merge store" "shell store"; do
    ends_with 1 "damaged 000 17" "$told" "$ckpt" $words < script || return 1
    ends_with 1 "damaged 000 17" "" "$ckpt" $words --quiet < script || return 1
    ends_with 1 "damaged 000 17" "" "$ckpt" $words -q < script || return 1
  done
}

# A broken chain is reported with the list, which still has the images.
broken_chains_are_told() {
  store_of "2 2 2 2 1 1 parent"
  ends_with 1 "damaged 000 18" "ckpt: store: img-000 is damaged: a page is in a parent that does not have it; \
ckpt show store 0 says more, ckpt list store has the images that are there; the newest checkpoint needs it, and an \
older copy of the file may help" \
    "$ckpt" verify store
}

# A store of 63 images, or of 64.
fill_store() {  # fill_store COUNT
  local serial first=7
  rm -rf store
  for ((serial = 1; serial <= $1; serial++)); do
    one_page "store/img-$(printf %03d $((serial - 1)))" "2 2 $serial $serial $((serial - 1)) $serial" "$first"
    first=parent
  done
}

# What is reported of a request for which too few slots are free, after its script or at once.
few_slots="a merge frees those of the images that it takes in"

few_slots_are_told() {
  fill_store 63
  printf '# two lines\n\nwords 1 0 1\ncheckpoint 1\n' > script
  local told="ckpt: store: script line 4: no-slot: free slots: 1, wanted: 3; $few_slots"
  ends_with 0 "reopened 63
words 0000000000000000
refused 12 no-slot" "$told" "$ckpt" run store script || return 1
  ends_with 1 "reopened 63
words 0000000000000000
refused 12 no-slot" "script line 4: checkpoint 1: refused 12 no-slot
$told" "$ckpt" run --strict store script || return 1
  for words in "" "--strict"; do
    "$ckpt" run $words --quiet store script > out 2> err
    same "what a quiet run tells" "$(cat err)" "" || return 1
  done
}

# The line is the right one also after answers that are longer than the output's buffer.
few_slots_are_told_behind_long_answers() {
  { echo 'mmap 1 0x10000 0x200000 rw'
    for number in 1 2 3 4 5 6 7; do echo 'checkpoint 8'; done
    printf 'words 1 0x10000 512\nwords 1 0x10000 512\ncheckpoint 8\n'; } > script
  same "the status" "$(ends "$ckpt" run store script)" 0 || return 1
  same "the last answer" "$(tail -n 1 out)" "refused 12 no-slot" || return 1
  same "what is told" "$(cat err)" "ckpt: store: script line 11: no-slot: free slots: 1, wanted: 10; $few_slots"
}

# The first of them is reported, with the slots that were free then, also where a merge has freed some since.
the_first_request_with_few_slots_is_told() {
  fill_store 63
  printf 'checkpoint 0\nmerge\ncheckpoint 0\nbegin 8\n' > script
  ends_with 0 "reopened 63
refused 12 no-slot
merged 64
acked 64
begun 65" "ckpt: store: script line 1: no-slot: free slots: 1, wanted: 2; $few_slots" "$ckpt" run store script
}

# A merge and a shell report it at once.
few_slots_are_told_at_once() {
  fill_store 64
  ends_with 1 "refused 12 no-slot" "ckpt: store: no-slot: free slots: 0, wanted: 1; $few_slots" "$ckpt" merge store \
    || return 1
  fill_store 63
  printf 'checkpoint 1\nmerge\ncheckpoint 0\n' > script
  ends_with 0 "reopened 63
refused 12 no-slot
merged 64
acked 64" "ckpt: store: no-slot: free slots: 1, wanted: 3; $few_slots" "$ckpt" shell store < script || return 1
  fill_store 63
  ends_with 0 "reopened 63
refused 12 no-slot
merged 64
acked 64" "" "$ckpt" shell --quiet store < script
}

# Other refusals are reported without slots.
other_refusals_have_no_slots() {
  mkdir store
  local told="ckpt: store: it shows no checkpoint, so there is nothing to merge"
  ends_with 1 "refused 14 idle" "$told" "$ckpt" merge store || return 1
  ends_with 1 "refused 14 idle" "" "$ckpt" merge --quiet store || return 1
  echo cancel > script
  ends_with 0 "reopened none
refused 14 idle" "" "$ckpt" run store script
}

# Folders that no program that reads opens, and why.
unopened_folders="\
missing|missing: No such file or directory (os error 2); is it the folder that is meant? ckpt run makes one
file|file: not a directory; DIR is the folder of a store, with the files img-000 to img-063
empty|empty: img-005: not a regular file
store|store: img-005: not a regular file"

# Each is reported with its cause, also where a document is asked for; and nothing of it with --quiet.
folders_that_are_not_opened_are_told() {
  local folder cause words
  mkdir -p empty/img-005
  : > file
  make_store store || return 1
  rm -f store/img-005
  mkdir store/img-005
  while IFS='|' read -r folder cause; do
    for words in restore list verify show "restore --json" "list --json" "verify --json" "show --json"; do
      ends_with 1 "cannot open DIR" "ckpt: $cause" "$ckpt" $words "$folder" || return 1
      ends_with 1 "cannot open DIR" "" "$ckpt" $words --quiet "$folder" || return 1
    done
    ends_with 1 "cannot open DIR" "ckpt: $cause" "$ckpt" export "$folder" cores || return 1
  done <<< "$unopened_folders"
}

# A folder that no run has made may be another one than is meant; one without a checkpoint has nothing to be read.
folders_without_files_are_told() {
  local told="ckpt: store: it has none of the files img-000 to img-063; is it the folder that is meant?"
  mkdir store
  ends_with 0 "ok empty" "$told" "$ckpt" verify store || return 1
  ends_with 0 "ok empty" "" "$ckpt" verify -q store || return 1
  ends_with 0 "tip none" "$told" "$ckpt" list store || return 1
  ends_with 3 "empty chain" "$told" "$ckpt" restore store || return 1
  ends_with 3 "empty chain" "$told" "$ckpt" export store cores || return 1
  : > store/img-063
  ends_with 0 "ok empty" "" "$ckpt" verify store || return 1
  ends_with 0 "tip none" "" "$ckpt" list store || return 1
  told="ckpt: store: it shows no checkpoint; run, shell, mutate and import make one"
  ends_with 3 "empty chain" "$told" "$ckpt" restore store || return 1
  ends_with 3 "empty chain" "$told" "$ckpt" export store cores || return 1
  ends_with 3 "empty chain" "" "$ckpt" restore -q store
}

# Words that stand where others are meant, with what is answered and what is reported.
mistakes="\
run file script|cannot open DIR|file: not a directory; DIR is the folder of a store, with the files img-000 to img-063
shell file/x|cannot open DIR|file/x: not a directory; DIR is the folder of a store, with the files img-000 to img-063
import file core|cannot open DIR|file: not a directory; DIR is the folder of a store, with the files img-000 to img-063
run script store|cannot read SCRIPT|store: Is a directory (os error 21); SCRIPT is a file, and stands after DIR
run store missing|cannot read SCRIPT|missing: No such file or directory (os error 2)
export store file|cannot write OUT|file: not a directory; OUT is the folder of the core files
export store cores|cannot write OUT|cores: space-1.core is there already; with --force it is replaced
import store file|not a core|file: the file is shorter than an ELF header
import store missing|cannot read CORE|missing: No such file or directory (os error 2)
mutate store 2|store not empty|store: it has an image; name a folder that is missing, or has none"

mistakes_are_told() {
  local words output cause
  make_store store || return 1
  : > file
  "$ckpt" export store cores && cp cores/space-1.core core || return 1
  while IFS='|' read -r words output cause; do
    ends_with 1 "$output" "ckpt: $cause" "$ckpt" $words < /dev/null || return 1
    ends_with 1 "$output" "" "$ckpt" $words --quiet < /dev/null || return 1
  done <<< "$mistakes"
  ends_with 1 "cannot open DIR" "ckpt: an empty name: No such file or directory (os error 2)" "$ckpt" run "" script
}

# Lines that don't fit, and what is reported of them. NUMBER and RWX stand for what has to be there.
a_number="a number below 2^64, decimal or 0x and hexadecimal"
some_of_rwx="none, or some of rwx in this order"
unfit_lines='mmap 1 0x10000 4096 wr|field 5 has to be RWX, not "wr"
mmap 1 0 4096 rw\r|field 5 has to be RWX, not "rw\\r"; the line has a carriage return; lines end with a newline alone
load 1\t0x10000 1|field 2 has to be NUMBER, not "1\\t0x10000"; the line has a tab; fields are separated by single spaces
load 1  0x10000 1|field 3 has to be NUMBER, not ""; the line has two spaces side by side
\x20load 1 0x10000 1|field 1 is no request of the language, not ""; the line begins with a space
load 1 0x10000 1\x20|it has 5 fields, separated by single spaces, and needs 4; the line ends with a space
store 1 0x10000 abc|field 4 has to be hexadecimal digits, two for each byte, not "abc"
work writer|field 2 has to be dumper, merger or opener, not "writer"
Load 1 2 3|field 1 is no request of the language, not "Load"
load 1 2|it has 3 fields, separated by single spaces, and needs 4
#\xff|it isn'"'"'t UTF-8'

unfit_lines_are_explained() {
  local row cause
  while IFS= read -r row; do
    printf %b "${row%%|*}" > script
    cause=${row#*|}
    cause=${cause/NUMBER/$a_number}
    cause=$(printf %b "${cause/RWX/$some_of_rwx}")
    ends_with 2 "script line 1" "ckpt: script: line 1: $cause" "$ckpt" run --check script || return 1
  done <<< "$unfit_lines"
}

# At most 80 bytes of a field or of a line are quoted, and no part of a letter.
long_fields_and_lines_are_quoted_in_part() {
  local long front
  long=$(printf 'a%.0s' {1..500})
  front=$(printf 'a%.0s' {1..80})
  echo "work $long" > script
  ends_with 2 "script line 1" "ckpt: script: line 1: field 2 has to be dumper, merger or opener, not \"$front\".." \
    "$ckpt" run --check script || return 1
  echo "work a$(printf 'é%.0s' {1..100})" > script
  front=a$(printf 'é%.0s' {1..39})
  ends_with 2 "script line 1" "ckpt: script: line 1: field 2 has to be dumper, merger or opener, not \"$front\".." \
    "$ckpt" run --check script || return 1
  echo "store 1 0x10000 $long" > script
  ends_with 1 "reopened none
refused 1 EINVAL" "script line 1: store 1 0x10000 $(printf 'a%.0s' {1..64})..: refused 1 EINVAL" \
    "$ckpt" run --strict store script
}

try damage_is_told_in_words
try broken_chains_are_told
try few_slots_are_told
try few_slots_are_told_behind_long_answers
try the_first_request_with_few_slots_is_told
try few_slots_are_told_at_once
try other_refusals_have_no_slots
try folders_that_are_not_opened_are_told
try folders_without_files_are_told
try mistakes_are_told
try unfit_lines_are_explained
try long_fields_and_lines_are_quoted_in_part
