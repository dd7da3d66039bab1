# `run --stats` and `run --summary`: what each image, checkpoint and merge took, beside the answers, which stay as they
# are.

# The lines of a run agree with what `show` finds in the images that are left, and with each other.
counts_agree() {  # counts_agree SCRIPT
  needs_python || return
  rm -rf plain store
  "$ckpt" run plain "$1" > wanted || return 1
  ends_with 0 "$(cat wanted)" "" "$ckpt" run --stats counts store "$1" || return 1
  same "the stores" "$(sums store)" "$(sums plain)" || return 1
  "$ckpt" show store --json > show.json
  python3 "$here/counts_agree.py"
}

counts_are_those_of_the_images() {
  local script
  for script in "$here"/../examples/*.ckpt "$here/printing/three_spaces.ckpt"; do
    counts_agree "$script" || return
  done
}

# A checkpoint of two images and one of one, merged: pages of two of the images are read, and the three are closed.
images_of_a_merge_are_counted() {
  printf '%s\n' 'mmap 1 0x10000 0x4000 rw' 'store 1 0x10000 01' 'checkpoint 1' 'store 1 0x11000 02' 'checkpoint 0' \
    merge 'checkpoint 0' > script
  counts_agree script || return
  grep '"of":"merge"' counts > merge
  has "the merge" "$(cat merge)" '"closed":3,"of":"merge","read":2,' || return 1
  same "its calls" "$(sed -nE 's/.*"calls":([0-9]+).*/\1/p' merge)" 21
}

# The program that merges counts its merge, as a run does.
a_program_that_merges_counts() {
  printf '%s\n' 'mmap 1 0x10000 0x4000 rw' 'store 1 0x10000 01' 'checkpoint 1' 'store 1 0x11000 02' 'checkpoint 0' > script
  "$ckpt" run store script > answers || return 1
  same "the status" "$(ends "$ckpt" merge store --stats counts --summary)" 0 || return 1
  same "the output" "$(cat out)" "merged 4" || return 1
  has "the merge" "$(cat counts)" '"closed":3,"of":"merge","read":2,' || return 1
  has "the table" "$(cat err)" "merge 4: 2 images read, 3 closed, " || return 1
  ends_with 1 "cannot write FILE" "ckpt: store/img-000: $slot_error" "$ckpt" merge store --stats store/img-000
}

# A merge beside a checkpoint, event by event, and a checkpoint that is given up.
counts_of_jobs_beside_each_other() {
  { echo 'mmap 1 0x10000 0x20000 rw'
    for page in 10 11 12 13 14 15 16 17; do echo "store 1 0x${page}000 01"; done
    printf 'checkpoint 0\nstore 1 0x10000 02\ncheckpoint 0\nbegin-merge\nbegin 2\n'
    for turn in 1 2 3 4 5 6 7 8; do printf 'step merger 2\nstore 1 0x11000 0%d\nstep dumper 3\n' "$turn"; done
    printf 'finish dumper\nfinish merger\nbegin 1\nstep dumper 9\ncancel\ncheckpoint 0\n'; } > script
  counts_agree script
}

# A slot that a dumper formats while the merger closes its images is none of those that the merge closes.
slots_of_a_dumper_are_not_closed_by_a_merge() {
  printf '%s\n' 'mmap 1 0x10000 0x4000 rw' 'store 1 0x10000 01' 'checkpoint 2' > first
  printf '%s\n' 'store 1 0x10000 02' 'checkpoint 0' begin-merge 'begin 0' 'step merger 44' 'step dumper 6' \
    'finish merger' 'finish dumper' > script
  "$ckpt" run store first > made || return 1
  "$ckpt" run --stats counts store script > out || return 1
  same "the last answers" "$(tail -n 2 out)" "merged 5
acked 3" || return 1
  same "the merge" "$(sed -nE '/"of":"merge"/s/.*"calls":([0-9]+),"closed":([0-9]+),.*/\1 \2/p' counts)" "16 2"
}

counts_may_be_the_standard_error() {
  local image checkpoint
  image='{"bytes":8264,"calls":9,"checkpoint":1,"data":1,"in_parent":0,"kind":"dump","of":"image","pages":1,'
  image+='"seconds":S,"serial":1,"slot":0,"zeros":0}'
  checkpoint='{"bytes":8264,"calls":9,"checkpoint":1,"data":1,"frozen_calls":6,"frozen_seconds":S,"in_parent":0,'
  checkpoint+='"of":"checkpoint","pages":1,"rounds":0,"seconds":S,"serial":1,"slot":0,"zeros":0}'
  same "the status" "$(ends "$ckpt" run --stats - store "$here/../examples/first.ckpt")" 0 || return 1
  same "the output" "$(cat out)" "$(cat "$here/../examples/first.out")" || return 1
  same "the lines" "$(sed -E 's/"(frozen_)?seconds":[0-9.e-]+/"\1seconds":S/g' err)" "$image
$checkpoint"
}

# A call that failed has made nothing: as many checkpoints are reported as were acknowledged, whichever of the last calls
# fails.
failed_calls_make_no_record() {
  calls_can_fail || return
  printf 'mmap 1 0x10000 4096 rw\nstore 1 0x10000 61\ncheckpoint 0\n' > script
  COUNTED=count LD_PRELOAD=./fail.so "$ckpt" run --quiet --stats - store script > out 2> err || return 1
  local calls number refused=0
  calls=$(($(cat count)))
  for number in $(seq $((calls - 9)) "$calls"); do
    rm -rf store
    FAILED=$number HOW=made LD_PRELOAD=./fail.so "$ckpt" run --quiet --stats - store script > out 2> err
    grep -q '^acked' out || refused=$((refused + 1))
    same "the checkpoints, call $number of $calls" "$(grep -c '"of":"checkpoint"' err)" "$(grep -c '^acked' out)" \
      || return 1
  done
  [ "$refused" -gt 0 ] || { echo "no call of $calls was refused"; return 1; }
}

summary_is_a_table() {
  printf 'mmap 1 0x10000 0x4000 rw\nstore 1 0x10000 01\ncheckpoint 1\nmerge\n' > script
  same "the status" "$(ends "$ckpt" run --strict --summary store script)" 0 || return 1
  same "the output" "$(cat out)" "reopened none
done
done
acked 1
merged 3" || return 1
  same "the table" "$(sed -E 's/[0-9]+\.[0-9]{6}/S/g' err)" "\
  serial slot kind      pages    data   zeros  parent       bytes   calls   seconds
       1  000 pre-dump      4       1       3       0        8264       9  S
       2  001 dump          4       0       0       4        4168       8  S
checkpoint 1: 1 rounds, 17 device calls, S s; frozen 5 device calls, S s
       3  002 merged        4       1       3       0        8288       9  S
merge 3: 1 images read, 2 closed, S s"
}

# What is reported of a file whose folder is missing.
no_folder="the folder in which it is to stand has to be there"

counts_that_cannot_be_written() {
  local script=$here/../examples/first.ckpt
  local cause="ckpt: missing/counts: No such file or directory (os error 2); $no_folder"
  ends_with 1 "cannot write FILE" "$cause" "$ckpt" run --stats missing/counts store "$script" || return 1
  ends_with 1 "cannot write FILE" "" "$ckpt" run --quiet --stats missing/counts store "$script" || return 1
  [ ! -e store ] || { echo "a store was made"; return 1; }
}

# Where another run has the store open, the counts of an older run stay. The next run that begins writes over them.
counts_of_a_refused_run_stay() {
  make_store store || return 1
  open_pipe || { echo "needs named pipes"; return 77; }
  yes older | head -n 1000 > older
  cp older counts
  "$ckpt" shell store < pipe > told 7>&- &
  local first=$! status=0
  wait_for_answer told || status=1
  ends_with 1 "cannot open DIR" "ckpt: store: another run has this store open; try again when it has ended" \
    "$ckpt" run --stats counts store script || status=1
  cmp counts older || status=1
  echo quit >&7
  wait $first
  [ "$status" -eq 0 ] || return 1
  "$ckpt" run --stats counts store script > out || return 1
  same "the lines of the next run" "$(grep -oE '"of":"[a-z]+"|older' counts)" '"of":"image"
"of":"checkpoint"'
}

# A slot's file of the store is no file of counts, by whatever name: it is refused, nothing is made, and the images
# stay. An image that a run acknowledges would else be lost with it.
slot_error="a slot's file of the store, which isn't written over: name another"

slots_are_no_files_of_counts() {
  make_store store || return 1
  rm store/img-005
  ln -s store/img-000 link
  ln -s "$PWD/store/img-005" leads-to-a-missing-one
  mkdir deep
  ln -s ../link deep/link
  ln -s store folder
  local before name
  before=$(sums store)
  for name in store/img-000 ./store/../store/img-003 "$PWD/store/img-063" folder/img-000 link deep/link \
    store/img-005 folder/img-005 leads-to-a-missing-one; do
    ends_with 1 "cannot write FILE" "ckpt: $name: $slot_error" "$ckpt" run --stats "$name" store script || return 1
    ends_with 1 "cannot write FILE" "" "$ckpt" run --quiet --stats "$name" store script || return 1
    same "the store after $name" "$(sums store)" "$before" || return 1
  done
  same "verify" "$("$ckpt" verify store)" "ok checkpoint 1 images 1"
}

slots_by_another_name_are_no_files_of_counts() {
  make_store store || return 1
  ln store/img-000 hard || { echo "needs hard links"; return 77; }
  local before
  before=$(sums store)
  ends_with 1 "cannot write FILE" "ckpt: hard: $slot_error" "$ckpt" run --stats hard store script || return 1
  cd store || return 1
  ends_with 1 "cannot write FILE" "ckpt: img-000: $slot_error" "$ckpt" run --stats img-000 . ../script || return 1
  rm out err && cd .. || return 1
  same "the store" "$(sums store)" "$before"
}

# The file to which the answers go, and the script, are no files of counts: both would be lost.
answers_and_scripts_are_no_files_of_counts() {
  make_store store || return 1
  local before told="the standard output goes there: name another"
  before=$(sums store)
  ln -s out link
  ends_with 1 "cannot write FILE" "ckpt: out: $told" "$ckpt" run --stats out store script || return 1
  ends_with 1 "cannot write FILE" "ckpt: ./link: $told" "$ckpt" run --stats ./link store script || return 1
  cp script kept
  told="the script that is to be run, which isn't written over: name another"
  ends_with 1 "cannot write FILE" "ckpt: script: $told" "$ckpt" run --stats script store script || return 1
  cmp script kept || return 1
  same "the store" "$(sums store)" "$before" || return 1
  same "the status of nothing" "$("$ckpt" run --stats /dev/null store script > /dev/null; echo $?)" 0
}

# Counts that can't be written end a run with status 1, whatever else it ends with.
counts_that_are_lost_have_their_status() {
  has_full_device || return
  echo 'begin 9' > script
  same "the status" "$(ends "$ckpt" run --restore store script)" 3 || return 1
  printf '%s\n' 'mmap 1 0x10000 4096 rw' 'begin 1' 'step dumper 45' > script
  same "the status of a pre-dump" "$(ends "$ckpt" run --restore --stats counts other script)" 3 || return 1
  has "the record" "$(cat counts)" '"of":"image"' || return 1
  rm -rf other
  same "the status of lost counts" "$(ends "$ckpt" run --restore --stats /dev/full other script)" 1 || return 1
  has "the last line" "$(tail -n 1 out)" "empty chain" || return 1
  has "the cause" "$(cat err)" "ckpt: the counts: No space left on device"
}

# Other files in the folder of a store, and images of another store's folder that isn't made, are what they were.
files_beside_slots_may_have_counts() {
  make_store store || return 1
  local name
  for name in store/counts store/img-064 store/img-5 store/img-0001 img-000; do
    same "the status of $name" "$(ends "$ckpt" run --stats "$name" store script)" 0 || return 1
    has "the counts in $name" "$(cat "$name")" '"of":"checkpoint"' || return 1
  done
  ends_with 1 "cannot write FILE" "ckpt: new/img-000: No such file or directory (os error 2); $no_folder" \
    "$ckpt" run --stats new/img-000 new script
}

# Where a growth is refused, each record is there, or the standard error says how many aren't, and the status is 1.
records_that_find_no_room_are_told() {
  [ -z "${CHECKED:-}" ] || { echo "a build with checks has an allocator of its own"; return 77; }
  in_memory || return 1
  growths_can_be_refused || return
  printf 'mmap 1 0x10000 4096 rw\nstore 1 0x10000 61\ncheckpoint 0\n' > script
  local number=1 status lines told left_out=0
  while :; do
    rm -rf store counts
    REFUSED=$number LD_PRELOAD=./refuse.so "$ckpt" run --stats counts store script > out 2> err
    status=$?
    grep -q '^growth refused$' err || break
    if [ "$(tail -n 1 out)" = "acked 1" ] && [ "$status" -le 1 ]; then
      lines=$(wc -l < counts)
      told=$(sed -n 's/^ckpt: the counts: records left out for lack of memory: //p' err)
      [ -z "$told" ] || left_out=$((left_out + 1))
      [ "$((lines + ${told:-0}))" -eq 2 ] || grep -q '^ckpt: the counts: ' err \
        || { echo "growth $number: $lines lines"; cat err; return 1; }
      same "the status at growth $number" "$status" "$([ "$lines" -eq 2 ] && echo 0 || echo 1)" || return 1
    fi
    number=$((number + 1))
  done
  [ "$left_out" -gt 0 ] || { echo "no record was left out in $number growths"; return 1; }
}

counts_into_a_full_device() {
  has_full_device || return
  same "the status" "$(ends "$ckpt" run --stats /dev/full store "$here/../examples/first.ckpt")" 1 || return 1
  same "the output" "$(cat out)" "$(cat "$here/../examples/first.out")" || return 1
  has "the cause" "$(cat err)" "ckpt: the counts: No space left on device"
}

try counts_are_those_of_the_images
try images_of_a_merge_are_counted
try a_program_that_merges_counts
try counts_of_jobs_beside_each_other
try slots_of_a_dumper_are_not_closed_by_a_merge
try counts_may_be_the_standard_error
try failed_calls_make_no_record
try summary_is_a_table
try counts_that_cannot_be_written
try counts_of_a_refused_run_stay
try slots_are_no_files_of_counts
try slots_by_another_name_are_no_files_of_counts
try answers_and_scripts_are_no_files_of_counts
try counts_that_are_lost_have_their_status
try files_beside_slots_may_have_counts
try records_that_find_no_room_are_told
try counts_into_a_full_device
