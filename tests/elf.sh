# Memory as ELF core files: `export` and `import`. tests/core_files.py makes and compares cores on its own.

cores() { python3 "$here/core_files.py" "$@"; }

# A store with two areas in space 1 and a child that differs.
make_spaces() {
  printf '%s\n' 'mmap 1 0x10000 8192 rw' 'store 1 0x10000 68656c6c6f' 'mmap 1 0x20000 4096 rw' 'store 1 0x20ffe 0102' \
    'mprotect 1 0x20000 4096 rx' 'fork 1' 'store 2 0x11000 ff' 'checkpoint 0' > script
  "$ckpt" run store script > made || { cat made; return 1; }
}

# Prints a number as so many bytes, little endian.
le() {  # le BYTES NUMBER
  local made=
  add_number "$2" "$1"
  printf '%b' "$made"
}

zero_bytes() { head -c "$1" /dev/zero; }

# The core of a checkpoint's space 1 with one area of two pages, byte by byte (docs/FORMATS.md).
one_area_core() {  # one_area_core CHECKPOINT
  printf '\177ELF\2\1\1'; zero_bytes 9
  le 2 4; le 2 62; le 4 1; le 8 0; le 8 64; le 8 0; le 4 0; le 2 64; le 2 56; le 2 2; le 2 0; le 2 0; le 2 0
  le 4 4; le 4 4; le 8 176; le 8 0; le 8 0; le 8 396; le 8 0; le 8 4
  le 4 1; le 4 6; le 8 4096; le 8 0x10000; le 8 0; le 8 8192; le 8 8192; le 8 4096
  le 4 5; le 4 336; le 4 1; printf 'CORE\0\0\0\0'; zero_bytes 336
  le 4 11; le 4 16; le 4 1; printf 'DEVONTSIRA\0\0'; le 8 "$1"; le 8 1
  zero_bytes 3524
  printf hello; zero_bytes 8187
}

export_is_the_file_made_by_hand() {
  printf 'mmap 1 0x10000 8192 rw\nstore 1 0x10000 68656c6c6f\ncheckpoint 0\n' > script
  "$ckpt" run store script > made || return 1
  ends_with 0 "" "" "$ckpt" export store cores || return 1
  one_area_core 1 > wanted
  cmp cores/space-1.core wanted || return 1
  same "the files" "$(ls -A cores)" space-1.core
}

import_of_a_file_made_by_hand() {
  one_area_core 7 > core
  ends_with 0 "imported 2 changed 2
acked 1" "" "$ckpt" import store core || return 1
  same "what is restored" "$("$ckpt" restore store)" "checkpoint 1
space 1
area 0x10000 0x12000 rw-
bytes 0x10000 68656c6c6f000000000000000000000000000000000000000000000000000000"
}

exports_each_space() {
  make_spaces || return 1
  local before
  before=$(sums store)
  ends_with 0 "" "" "$ckpt" export store cores || return 1
  same "the files" "$(ls -A cores)" "space-1.core
space-2.core" || return 1
  same "the store" "$(sums store)" "$before" || return 1
  ends_with 0 "" "" "$ckpt" export store one --space 2 || return 1
  same "the file" "$(ls -A one)" space-2.core || return 1
  cmp one/space-2.core cores/space-2.core
}

zeros_of_an_export_are_holes() {
  printf 'mmap 1 0x10000 4194304 rw\nstore 1 0x20000 01\ncheckpoint 0\n' > script
  "$ckpt" run store script > made || return 1
  "$ckpt" export store cores || return 1
  same "the length" "$(stat -c %s cores/space-1.core)" 4198400 || return 1
  [ "$(stat -c %b cores/space-1.core)" -le 64 ] || { stat cores/space-1.core; return 1; }
}

readelf_reads_an_export() {
  command -v readelf > found || { echo "needs readelf"; return 77; }
  make_spaces || return 1
  "$ckpt" export store cores || return 1
  readelf -lW cores/space-1.core > told 2> warnings || return 1
  same "the warnings" "$(cat warnings)" "" || return 1
  same "the segments" "$(grep -E '^ +(NOTE|LOAD) ' told | sed 's/^ *//')" \
    "NOTE           0x0000e8 0x0000000000000000 0x0000000000000000 0x00018c 0x000000 R   0x4
LOAD           0x001000 0x0000000000010000 0x0000000000000000 0x002000 0x002000 RW  0x1000
LOAD           0x003000 0x0000000000020000 0x0000000000000000 0x001000 0x001000 R E 0x1000" || return 1
  has "the type" "$(readelf -hW cores/space-1.core)" "CORE (Core file)" || return 1
  has "the notes" "$(readelf -nW cores/space-1.core)" "01 00 00 00 00 00 00 00 01 00 00 00 00 00 00 00"
}

gdb_reads_an_export() {
  command -v gdb > found || { echo "needs gdb"; return 77; }
  make_spaces || return 1
  "$ckpt" export store cores || return 1
  gdb -batch -nx -ex 'x/s 0x10000' -ex 'x/2xb 0x20ffe' -c cores/space-1.core > told 2>&1
  has "the text" "$(cat told)" '0x10000:	"hello"' || return 1
  has "the bytes" "$(cat told)" '0x20ffe:	0x01	0x02'
}

# The notes of a core stand in an export before that of its checkpoint, and its memory stays the same.
export_copies_the_notes_of_a_core() {
  needs_python || return
  cores make 5 core
  make_spaces || return 1
  "$ckpt" export store plain || return 1
  ends_with 0 "" "ckpt: cores: the threads and the mapped files are those of core" \
    "$ckpt" export store cores --notes core || return 1
  local number
  for number in 1 2; do
    cores same "cores/space-$number.core" "plain/space-$number.core" || return 1
    same "the notes of space $number" "$(cores notes "cores/space-$number.core")" \
      "$(cores notes core)$(cores notes "plain/space-$number.core" | tail -c 80)" || return 1
  done
  ends_with 0 "imported 3 changed 3
acked 1" "" "$ckpt" import other cores/space-1.core
}

# Files whose notes aren't copied: no core, one without notes, with notes past its end, or with too many of them.
cores_without_notes_are_told() {
  needs_python || return
  make_spaces || return 1
  has_no_notes() {  # has_no_notes CORE LINE CAUSE
    ends_with 1 "$2" "ckpt: $1: $3" "$ckpt" export store cores --notes "$1" || return 1
    [ ! -e cores ] || { echo "a folder was made"; return 1; }
  }
  has_no_notes script "not a core" "e_ident isn't that of a little-endian ELF64 file" || return 1
  has_no_notes missing "cannot read CORE" "No such file or directory (os error 2)" || return 1
  echo '0x10000 4' | flat_core > core
  has_no_notes core "not a core" "it has no notes" || return 1
  one_area_core 1 > core
  cores edit core 96 8 0x10000
  has_no_notes core "not a core" "its notes end behind the file" || return 1
  truncate -s 20M core
  cores edit core 96 8 0x1000001
  has_no_notes core "core too large" "it has over 16 MiB of notes"
}

export_replaces_nothing_without_force() {
  needs_python || return
  make_spaces || return 1
  mkdir cores
  echo mine > cores/space-2.core
  ends_with 1 "cannot write OUT" "ckpt: cores: space-2.core is there already; with --force it is replaced" \
    "$ckpt" export store cores || return 1
  same "the folder" "$(ls -A cores)" space-2.core || return 1
  same "the file" "$(cat cores/space-2.core)" mine || return 1
  ends_with 0 "" "" "$ckpt" export store cores --force || return 1
  same "the pages" "$(cores pages cores/space-2.core)" 3
}

export_ends_as_restore_does() {
  mkdir store
  same "the status of an empty folder" "$(ends "$ckpt" export store cores)" 3 || return 1
  same "its line" "$(cat out)" "empty chain" || return 1
  make_spaces || return 1
  ends_with 1 "refused 3 no-such-space" "" "$ckpt" export store cores --space 9 || return 1
  put_byte store/img-000 100 1
  same "the status" "$(ends "$ckpt" export store cores)" 1 || return 1
  same "the fault" "$(cat out)" "$("$ckpt" restore store)" || return 1
  [ ! -e cores ] || { ls -A cores; return 1; }
  for number in 0 17 x; do
    same "the status of space $number" "$(ends "$ckpt" export store cores --space "$number")" 2 || return 1
  done
}

export_into_a_file_is_refused() {
  make_spaces || return 1
  echo file > cores
  same "the status" "$(ends "$ckpt" export store cores)" 1 || return 1
  same "the output" "$(cat out)" "cannot write OUT" || return 1
  same "the file" "$(cat cores)" file
}

# A core file that would be longer than the process may write one is refused, and isn't the end of it by a signal.
export_stops_at_the_limit_of_files() {
  make_spaces || return 1
  (ulimit -f 4; ends_with 1 "cannot write OUT" "ckpt: cores: File too large (os error 27)" \
    "$ckpt" export store cores) || return 1
  same "what is left" "$(ls -A cores)" ""
}

# An export whose call of this name fails, as on a full disk.
export_fails_at() {  # export_fails_at NAME NUMBER WORD..
  local only=$1 number=$2
  shift 2
  ends_with 1 "cannot write OUT" "ckpt: cores: No space left on device (os error 28)" \
    env "ONLY=$only" "FAILED=$number" HOW=full LD_PRELOAD=./fail.so "$ckpt" export store cores "$@"
}

# Each call that makes or writes a file of an export fails in turn: no file is left, and one that stood there is as it
# was.
export_that_cannot_write_leaves_no_file() {
  calls_can_fail || return
  make_spaces || return 1
  "$ckpt" export store kept || return 1
  local only number
  for only in pwrite ftruncate cores/.space-1.core.part cores/.space-2.core.part; do
    rm -rf cores count
    ONLY=$only COUNTED=count LD_PRELOAD=./fail.so "$ckpt" export store cores || return 1
    were_counted 1 || return 1
    for number in $(seq "$(($(cat count)))"); do
      rm -rf cores
      export_fails_at "$only" "$number" || return 1
      same "what is left by $only $number" "$(ls -A cores)" "" || return 1
      cp kept/space-2.core cores/
      export_fails_at "$only" "$number" --force || return 1
      same "what is left with --force" "$(ls -A cores)" space-2.core || return 1
      cmp cores/space-2.core kept/space-2.core || return 1
    done
  done
}

# Where the second of two files can't have its name, the first isn't replaced.
export_replaces_all_or_nothing() {
  make_spaces || return 1
  mkdir -p cores/space-2.core
  echo older > cores/space-1.core
  ends_with 1 "cannot write OUT" "ckpt: cores: space-2.core is a folder" "$ckpt" export store cores --force || return 1
  same "the folder" "$(ls -A cores)" "space-1.core
space-2.core" || return 1
  same "the first file" "$(cat cores/space-1.core)" older
}

# The calls of an export on its files: s a sync of a file, d one of the folder, r a name that is given.
calls_of_an_export() {
  awk -v folder="<$(pwd)/cores>" '
    /^fsync|^fdatasync/ { printf index($0, ".core.part>") ? "s" : index($0, folder) ? "d" : "" }
    /^rename/ { printf "r" }' calls-of-run
}

# Both files are on the device before the first has its name, and so are the names at the end.
files_of_an_export_are_synced_before_they_have_their_names() {
  command -v strace > found || { echo "needs strace"; return 77; }
  strace -o calls-of-run true 2> err || { echo "strace can't run here"; return 77; }
  make_spaces || return 1
  mkdir cores
  strace -y -o calls-of-run -e trace=fsync,fdatasync,rename,renameat,renameat2 "$ckpt" export store cores || return 1
  same "the calls" "$(calls_of_an_export)" ssrrd
}

# An import whose first line can't be printed saves nothing.
import_that_is_not_printed_saves_nothing() {
  has_full_device || return
  one_area_core 7 > core
  "$ckpt" import store core > /dev/full 2> err
  same "the status" $? 1 || return 1
  has "its cause" "$(cat err)" "ckpt: standard output: " || return 1
  same "the store" "$("$ckpt" verify store)" "ok empty"
}

# Where its second line can't be printed, the checkpoint is saved.
import_that_is_not_acknowledged_may_be_saved() {
  output_can_be_limited || return
  one_area_core 7 > core
  ends_with 1 "imported 2 changed 2" "ckpt: standard output: No space left on device (os error 28)" \
    env LIMIT=21 LD_PRELOAD=./limit.so "$ckpt" import store core || return 1
  same "the store" "$("$ckpt" verify store)" "ok checkpoint 1 images 1"
}

# A folder into which another export writes, as its lock shows, is left alone.
exports_into_one_folder_exclude_each_other() {
  command -v flock > found || { echo "needs flock"; return 77; }
  make_store store || return 1
  mkdir cores
  local told="ckpt: cores: another export writes into this folder; try again when it has ended"
  (flock 9; ends_with 1 "cannot write OUT" "$told" "$ckpt" export store cores) 9< cores || return 1
  same "the files" "$(ls -A cores)" "" || return 1
  ends_with 0 "" "" "$ckpt" export store cores
}

import_changes_one_space() {
  needs_python || return
  make_spaces || return 1
  "$ckpt" export store before || return 1
  cores make 5 core
  ends_with 0 "imported $(cores pages core) changed $(($(cores pages core) + 3))
acked 2" "" "$ckpt" import store core --space 2 || return 1
  "$ckpt" export store after || return 1
  cores same core after/space-2.core || return 1
  cores same before/space-1.core after/space-1.core
}

import_makes_the_least_free_space() {
  needs_python || return
  make_spaces || return 1
  "$ckpt" export store before || return 1
  ends_with 0 "imported 3 changed 3
acked 2" "" "$ckpt" import store before/space-1.core --space 3 --rounds 2 || return 1
  "$ckpt" export store after || return 1
  cores same before/space-1.core after/space-3.core || return 1
  cores same before/space-1.core after/space-1.core || return 1
  cores same before/space-2.core after/space-2.core || return 1
  local kept
  kept=$("$ckpt" restore store)
  ends_with 1 "refused 3 no-such-space" "" "$ckpt" import store before/space-1.core --space 9 || return 1
  same "what is restored" "$("$ckpt" restore store)" "$kept"
}

# Three cores of one memory of 64 pages: the second differs in a byte, the third in another and in a page that is gone.
make_three_cores() {
  local page number
  { echo 'mmap 1 0x10000 0x40000 rw'
    for ((page = 0; page < 64; page++)); do printf 'store 1 0x%x %02x\n' $((0x10000 + 4096 * page)) $((page + 1)); done
    printf '%s\n' 'checkpoint 0' 'store 1 0x20000 aa' 'checkpoint 0' 'store 1 0x21000 bb' 'munmap 1 0x4f000 4096' \
      'checkpoint 0'; } > script
  "$ckpt" run made script > answers || { cat answers; return 1; }
  for number in 1 2 3; do
    "$ckpt" export made cores --checkpoint "$number" --force || return 1
    mv cores/space-1.core "core-$number"
  done
}

# Cores that are imported in one run make a checkpoint each: the first image is whole, and each other one has as data
# only what changed.
cores_of_one_run_cost_what_changed() {
  needs_python || return
  local number size
  make_three_cores || return 1
  ends_with 0 "imported 64 changed 64
acked 1
imported 64 changed 1
acked 2
imported 63 changed 2
acked 3" "" "$ckpt" import store core-1 core-2 core-3 || return 1
  same "the images" "$("$ckpt" verify store)" "ok checkpoint 3 images 3" || return 1
  [ "$(stat -c %s store/img-000)" -gt $((64 * 4096)) ] || { echo "the first image isn't whole"; return 1; }
  for number in 1 2; do
    size=$(stat -c %s "store/img-00$number")
    [ "$size" -lt $((4 * 4096)) ] || { echo "image $number has $size bytes"; return 1; }
  done
  for number in 1 2 3; do
    "$ckpt" export store cores --checkpoint "$number" --force || return 1
    cores same "core-$number" cores/space-1.core || return 1
  done
}

# Where one of the files is no core, nothing runs.
cores_are_looked_at_before_the_first_is_imported() {
  one_area_core 7 > core
  echo text > text
  ends_with 1 "not a core" "ckpt: text: the file is shorter than an ELF header" "$ckpt" import store core text core \
    || return 1
  ends_with 1 "cannot read CORE" "ckpt: none: No such file or directory (os error 2)" "$ckpt" import store core none \
    || return 1
  [ ! -e store ] || { echo "a store was made"; return 1; }
}

# An import ends where a checkpoint finds too few free slots; the checkpoints before it stay.
cores_for_which_no_slot_is_free() {
  one_area_core 7 > core
  local number cores=()
  for ((number = 0; number < 64; number++)); do cores+=(core); done
  same "the status" "$(ends "$ckpt" import store "${cores[@]}")" 1 || return 1
  same "the last lines" "$(tail -n 3 out)" "acked 63
imported 2 changed 0
refused 12 no-slot" || return 1
  same "its cause" "$(cat err)" \
    "ckpt: store: no-slot: free slots: 1, wanted: 2; a merge frees those of the images that it takes in" || return 1
  same "the store" "$("$ckpt" verify store)" "ok checkpoint 63 images 63"
}

# The counts of an import are those of its images.
imports_are_counted() {
  make_three_cores || return 1
  ends_with 0 "$("$ckpt" import plain core-1 core-2 core-3)" "" \
    "$ckpt" import store --stats counts core-1 core-2 core-3 || return 1
  same "the records" "$(sed -nE 's/.*"data":([0-9]+),.*"of":"([a-z]+)".*/\2 \1/p' counts)" "image 64
checkpoint 64
image 1
checkpoint 1
image 1
checkpoint 1" || return 1
  same "the status" "$(ends "$ckpt" import other core-1 core-2 --summary)" 0 || return 1
  same "the table" "$(grep -cE '^( .* dump |checkpoint [12]: )' err)" 4 || return 1
  cp core-1 kept
  ends_with 1 "cannot write FILE" \
    "ckpt: core-1: a core that is to be imported, which isn't written over: name another" \
    "$ckpt" import store core-2 core-1 --stats core-1 || return 1
  cmp core-1 kept
}

# The rounds of an import are pre-dumps of its checkpoint.
import_makes_rounds() {
  one_area_core 7 > core
  ends_with 0 "imported 2 changed 2
acked 1" "" "$ckpt" import store core --rounds 2 || return 1
  same "the images" "$("$ckpt" list store | cut -d ' ' -f 3,10,11)" "pre-dump checkpoint 1
pre-dump checkpoint 1
dump checkpoint 1" || return 1
  ends_with 0 "imported 2 changed 0
acked 2" "" "$ckpt" import store core || return 1
  same "the images of both" "$("$ckpt" verify store)" "ok checkpoint 2 images 4"
}

# A core without a segment that is loaded would empty the space.
a_core_without_memory_is_refused() {
  one_area_core 1 > core
  put_byte core 120 4
  is_refused core "not a core" "no memory in it: it has no segment that is loaded" || return 1
  make_store store || return 1
  local before
  before=$(sums store)
  ends_with 1 "not a core" "ckpt: core: no memory in it: it has no segment that is loaded" "$ckpt" import store core \
    || return 1
  same "the store" "$(sums store)" "$before"
}

# A space is made as the child of the one with the fewest pages, here of an empty one: a child of the other would have
# too many.
a_space_is_made_from_the_one_with_the_fewest_pages() {
  [ -z "${CHECKED:-}" ] || { echo "a build with checks is too slow"; return 77; }
  printf '%s\n' 'fork 1' 'mmap 1 0x1000000 0x9c40000 rw' 'checkpoint 0' > script
  "$ckpt" run store script > made || return 1
  one_area_core 1 > core
  ends_with 0 "imported 2 changed 2
acked 2" "" "$ckpt" import store core --space 3 || return 1
  same "the spaces" "$("$ckpt" restore store | grep -v '^bytes')" "checkpoint 2
space 1
area 0x1000000 0xac40000 rw-
space 2
space 3
area 0x10000 0x12000 rw-"
}

second_import_changes_what_differs() {
  needs_python || return
  make_spaces || return 1
  "$ckpt" export store cores || return 1
  ends_with 0 "imported 3 changed 3
acked 1" "" "$ckpt" import other cores/space-1.core || return 1
  ends_with 0 "imported 3 changed 0
acked 2" "" "$ckpt" import other cores/space-1.core || return 1
  ends_with 0 "imported 3 changed 1
acked 3" "" "$ckpt" import other cores/space-2.core || return 1
  "$ckpt" export other again || return 1
  cores same cores/space-2.core again/space-1.core
}

# Areas of a page each, with holes between, that are there already.
second_import_of_many_areas_changes_nothing() {
  seq 400 | while read -r k; do echo "$((k * 8192)) $((k % 2 + 4))"; done | flat_core > core
  ends_with 0 "imported 400 changed 400
acked 1" "" "$ckpt" import store core || return 1
  ends_with 0 "imported 400 changed 0
acked 2" "" "$ckpt" import store core
}

# Permissions, pages that come and go, and areas that split and join, over some stores.
random_cores_go_in_and_out() {
  needs_python || return
  local count=500
  [ -z "${CHECKED:-}" ] || count=12
  same "the cores" "$(cores trial "$ckpt" "$count")" "$count cores"
}

# A core ends in a named answer, and the store stays as it is.
is_refused() {  # is_refused CORE LINE CAUSE
  same "the status of $3" "$(ends "$ckpt" import store "$1")" 1 || return 1
  same "the line of $3" "$(cat out)" "$2" || return 1
  same "the cause" "$(cat err)" "ckpt: $1: $3" || return 1
  [ ! -e store ] || { echo "$3: a store was made"; return 1; }
}

# Each read of an import in turn gives another first byte, as where somebody else writes the file meanwhile: what is
# acknowledged is the memory of the file, or nothing is saved. A page that is read in two ways is reported as
# `core changed`.
core_that_changes_is_not_saved() {
  local number count said=0
  calls_can_fail || return
  one_area_core 7 > core
  ONLY=pread COUNTED=count LD_PRELOAD=./fail.so "$ckpt" import store core > out || return 1
  were_counted 4 || return 1
  count=$(($(cat count)))
  "$ckpt" restore store > whole || return 1
  for number in $(seq "$count"); do
    rm -rf store
    FAILED=$number HOW=other ONLY=pread LD_PRELOAD=./fail.so "$ckpt" import --quiet store core > out 2> err
    case $(tail -n 1 out) in
      acked*) same "what read $number leaves" "$("$ckpt" restore store)" "$(cat whole)" || return 1 ;;
      "core changed") said=$((said + 1)) ;;
    esac
    [ "$(tail -n 1 out)" = "acked 1" ] || [ ! -e store ] \
      || same "the store of read $number" "$("$ckpt" verify store)" "ok empty" || return 1
  done
  [ "$said" -ge 2 ] || { echo "core changed was told $said times of $count"; return 1; }
}

damaged_headers_are_told() {
  local place byte step=1
  [ -z "${CHECKED:-}" ] || step=7
  one_area_core 1 > core
  for ((place = 0; place < 200; place += step)); do
    cp core changed
    byte=$((16#$(bytes_of core "$place" 1)))
    put_byte changed "$place" $((byte ^ 255))
    rm -rf store
    "$ckpt" import store changed > out 2> err
    case $?:$(head -n 1 out) in
      0:imported* | 1:"not a core" | 1:"core too large") ;;
      *) echo "place $place"; cat out err; return 1 ;;
    esac
  done
}

cut_headers_are_told() {
  local length cause step=1
  [ -z "${CHECKED:-}" ] || step=25
  one_area_core 1 > core
  for ((length = 0; length < 176; length += step)); do
    head -c "$length" core > cut
    if [ "$length" -lt 64 ]; then
      cause="the file is shorter than an ELF header"
    else
      cause="the program headers end behind the file"
    fi
    is_refused cut "not a core" "$cause" || return 1
  done
  head -c 12287 core > cut
  is_refused cut "not a core" "segment 1 ends behind the file"
}

# Fields of the second program header, which begins at byte 120: its offset 8, address 16, size in the file 32, in
# memory 40.
segments_that_no_space_has_are_told() {
  needs_python || return
  one_area_core 1 > core
  changed() {  # changed PLACE NUMBER LINE CAUSE
    cp core changed_core
    cores edit changed_core "$1" 8 "$2" && is_refused changed_core "$3" "segment 1 $4"
  }
  changed 136 0x10001 "not a core" "isn't made of pages" || return 1
  changed 160 8193 "not a core" "isn't made of pages" || return 1
  changed 160 0 "not a core" "isn't made of pages" || return 1
  changed 160 4096 "not a core" "has more bytes in the file than in memory" || return 1
  changed 128 0xfffffffffffff000 "not a core" "ends behind the file" || return 1
  changed 136 0x7ffffffff000 "core too large" "ends above the address 2^47" || return 1
  changed 160 0x8000000000000000 "core too large" "ends above the address 2^47" || return 1
  changed 160 0xfffffffffffff000 "core too large" "ends above the address 2^47" || return 1
  changed 160 0x10001000 "core too large" "is past the limit of 65536 pages"
}

# A core of segments of a page each: their addresses and flags.
flat_core() {  # flat_core "ADDRESS FLAGS".. by lines of the standard input
  local lines count address flags
  mapfile -t lines
  count=${#lines[@]}
  printf '\177ELF\2\1\1'; zero_bytes 9
  le 2 4; le 2 62; le 4 1; le 8 0; le 8 64; le 8 0; le 4 0; le 2 64; le 2 56; le 2 "$count"; le 6 0
  for line in "${lines[@]}"; do
    read -r address flags <<< "$line"
    le 4 1; le 4 "$flags"; le 8 0; le 8 "$address"; le 8 0; le 8 0; le 8 4096; le 8 1
  done
}

overlapping_segments_and_too_many_areas_are_told() {
  printf '0x10000 4\n0x10000 4\n' | flat_core > core
  is_refused core "not a core" "segment 1 begins below the end of the one before" || return 1
  printf '0x11000 4\n0x10000 4\n' | flat_core > core
  is_refused core "not a core" "segment 1 begins below the end of the one before" || return 1
  seq 1 1025 | sed 's/.*/& &/' | while read -r k _; do echo "$((k * 8192)) 4"; done | flat_core > core
  is_refused core "core too large" "segment 1024 is past the limit of 1024 areas" || return 1
  seq 1 1025 | while read -r k; do echo "$((k * 4096)) 4"; done | flat_core > core
  ends_with 0 "imported 1025 changed 1025
acked 1" "" "$ckpt" import store core
}

other_files_are_no_core() {
  one_area_core 1 > core
  put_byte core 4 1
  is_refused core "not a core" "e_ident isn't that of a little-endian ELF64 file" || return 1
  one_area_core 1 > core
  put_byte core 16 2
  is_refused core "not a core" "e_type isn't ET_CORE" || return 1
  one_area_core 1 > core
  put_byte core 18 3
  is_refused core "not a core" "e_machine isn't EM_X86_64" || return 1
  one_area_core 1 > core
  put_byte core 54 57
  is_refused core "not a core" "e_phentsize isn't 56" || return 1
  one_area_core 1 > core
  put_byte core 56 255
  put_byte core 57 255
  is_refused core "not a core" "e_phnum is over 65534" || return 1
  same "the status of no file" "$(ends "$ckpt" import store none)" 1 || return 1
  same "its line" "$(cat out)" "cannot read CORE" || return 1
  same "the status of a round too many" "$(ends "$ckpt" import store core --rounds 9)" 2
}

# 1,000 areas of pages that all change their permissions and their places.
many_areas_are_taken_at_once() {
  [ -z "${CHECKED:-}" ] || { echo "a build with checks is too slow"; return 77; }
  needs_python || return
  seq 1 1000 | while read -r k; do echo "$((k * 4096)) $((k % 2 + 4))"; done | flat_core > core
  ends_with 0 "imported 1000 changed 1000
acked 1" "" "$ckpt" import store core || return 1
  seq 1 1000 | while read -r k; do echo "$((k * 4096 + 2048000)) $((k % 2 + 5))"; done | flat_core > other
  "$ckpt" import store other > told || { cat told; return 1; }
  "$ckpt" export store cores || return 1
  cores same other cores/space-1.core
}

try export_is_the_file_made_by_hand
try import_of_a_file_made_by_hand
try exports_each_space
try zeros_of_an_export_are_holes
try readelf_reads_an_export
try gdb_reads_an_export
try export_copies_the_notes_of_a_core
try cores_without_notes_are_told
try export_replaces_nothing_without_force
try export_ends_as_restore_does
try export_into_a_file_is_refused
try export_stops_at_the_limit_of_files
try export_that_cannot_write_leaves_no_file
try export_replaces_all_or_nothing
try files_of_an_export_are_synced_before_they_have_their_names
try import_that_is_not_printed_saves_nothing
try import_that_is_not_acknowledged_may_be_saved
try exports_into_one_folder_exclude_each_other
try import_changes_one_space
try import_makes_the_least_free_space
try cores_of_one_run_cost_what_changed
try cores_are_looked_at_before_the_first_is_imported
try cores_for_which_no_slot_is_free
try imports_are_counted
try import_makes_rounds
try a_core_without_memory_is_refused
try a_space_is_made_from_the_one_with_the_fewest_pages
try second_import_changes_what_differs
try second_import_of_many_areas_changes_nothing
try random_cores_go_in_and_out
try core_that_changes_is_not_saved
try damaged_headers_are_told
try cut_headers_are_told
try segments_that_no_space_has_are_told
try overlapping_segments_and_too_many_areas_are_told
try other_files_are_no_core
try many_areas_are_taken_at_once

# A core file to which a slot of the store leads isn't replaced, nor is one that is still being written.
slots_are_not_replaced_by_an_export() {
  make_store store || return 1
  mkdir cores
  local name before
  for name in space-1.core .space-1.core.part; do
    mv store/img-000 "cores/$name"
    ln -s "../cores/$name" store/img-000
    before=$(sums store)
    ends_with 1 "cannot write OUT" "ckpt: cores: $slot_error" "$ckpt" export --force store cores || return 1
    same "the store" "$(sums store)" "$before" || return 1
    rm store/img-000
    mv "cores/$name" store/img-000
  done
  ends_with 0 "" "" "$ckpt" export --force store cores || return 1
  ends_with 0 "" "" "$ckpt" export --force store cores
}

try slots_are_not_replaced_by_an_export

# The example prints this of a real process.
real_process_goes_in_and_out() {
  CKPT=$ckpt "$here/../examples/real-process" > out 2> err
  local status=$?
  [ "$status" -ne 77 ] || { tail -n 1 out; return 77; }
  same "the status" "$status: $(cat err)" "0: " || { cat out; return 1; }
  same "the output" "$(cat out)" 'imported all pages
acked 1
few pages changed
acked 2
the second image has no more than these
each byte of each segment is the same
gdb reads "entry 0"
gdb reads "changed"
gdb shows wait_for_line (round=0) at checkpoint 1
gdb shows main () at checkpoint 1'
}

try real_process_goes_in_and_out
