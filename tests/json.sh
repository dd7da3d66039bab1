# `--json` of `list`, `verify` and `restore`: the documents have what the lines have, and a fault is a document too.

# The text and the document of each program about the store, compared by a program in Python.
agree() {
  needs_python || return
  local program text_status
  for program in list verify restore; do
    text_status=$(ends "$ckpt" "$program" store)
    mv out "$program.text"
    same "the status of $program --json" "$(ends "$ckpt" "$program" store --json)" "$text_status" || return 1
    same "the lines of $program --json" "$(wc -l < out)" 1 || return 1
    same "the standard error of $program --json" "$(cat err)" "" || return 1
    mv out "$program.json"
  done
  "$ckpt" show store --json > show.json
  python3 "$here/documents_agree.py"
}

documents_have_what_the_lines_have() {
  local script
  for script in "$here"/../examples/*.ckpt "$here/printing/three_spaces.ckpt"; do
    rm -rf store
    "$ckpt" run store "$script" > answers || { cat answers; return 1; }
    agree || return
  done
}

# The newest dump isn't the last image: a pre-dump of a checkpoint that was given up is after it.
the_tip_is_not_the_last_image() {
  printf '%s\n' 'mmap 1 0x10000 4096 rw' 'store 1 0x10000 61' 'checkpoint 0' 'store 1 0x10000 62' 'begin 1' \
    'step dumper 36' cancel > script
  "$ckpt" run store script > answers || { cat answers; return 1; }
  same "the lines" "$("$ckpt" list store | cut -d ' ' -f 1-5)" "slot 000 dump serial 1
slot 001 pre-dump serial 2
tip 1" || return 1
  agree
}

# Of five pages two have bytes, one of them in the parent; of the pages of zeros one is in the parent too.
pages_and_zeros_are_counted() {
  make_image store/img-000 "2 1 1 1 0 1" 1 7 "1 0, 1 0 2, 16 1 1 0, 17 1 3 0"
  make_image store/img-001 "2 2 2 2 1 1" 1 7 "1 0, 1 1 3, 16 5 3 0, 16 2 2 0, 18 2 3 0, 20 1 1 0"
  local space='{"areas":[{"count":5,"first":16,"permissions":3}],"pages":5,"space":1,"zeros":3}'
  ends_with 0 '{"checkpoint":1,"pages":5,"spaces":['"$space"'],"zeros":3}' "" "$ckpt" restore store --json
}

documents_of_a_store_without_a_checkpoint() {
  mkdir store
  : > store/img-000
  agree || return
  ends_with 3 '{"fault":"empty chain"}' "" "$ckpt" restore --json store || return 1
  ends_with 0 '{"images":[],"tip":null}' "" "$ckpt" list --json store || return 1
  same "verify" "$("$ckpt" verify --json store)" '{"checkpoint":null,"images":0}'
}

# Each reason of a damaged slot, and a broken chain, which `list` doesn't look at.
faults_are_documents() {
  local changes fault
  while IFS='|' read -r changes fault; do
    hello_store 2 || return 1
    change $changes
    agree || return
    grep -qF "{\"fault\":\"damaged\",\"reason\":${fault%% *},\"slot\":0,\"why\":\"${fault#* }\"}" verify.json \
      || { cat verify.json; return 1; }
  done <<< "1=0|1 bytes 1 to 7 are not SDCHAIN
8=3|2 the version is neither 1 nor 2
8256=3|16 bytes remain behind the table, or its pages are not as many as they have to be"
  hello_store 2 || return 1
  flip 5000
  agree || return
  store_of "2 2 2 2 1 1 parent"
  agree || return
  grep -q '"reason":18' restore.json
}

# Documents of a checkpoint that isn't the newest, and of one that isn't there.
documents_of_a_checkpoint() {
  printf '%s\n' 'mmap 1 0x10000 8192 rw' 'store 1 0x10000 61' 'checkpoint 0' 'mmap 1 0x20000 4096 r' 'checkpoint 0' > script
  "$ckpt" run store script > answers || { cat answers; return 1; }
  local area='{"count":2,"first":16,"permissions":3}'
  ends_with 0 \
    '{"checkpoint":1,"pages":2,"spaces":[{"areas":['"$area"'],"pages":2,"space":1,"zeros":1}],"zeros":1}' "" \
    "$ckpt" restore store --json --checkpoint 1 || return 1
  same "the newest" "$("$ckpt" restore store --json --checkpoint 2)" "$("$ckpt" restore store --json)" || return 1
  ends_with 0 '{"checkpoint":1,"images":2}' "" "$ckpt" verify store --json --checkpoint 1 || return 1
  local program
  for program in restore verify; do
    ends_with 3 '{"checkpoint":7,"fault":"no checkpoint"}' "ckpt: store: it has the checkpoints 2, 1" \
      "$ckpt" "$program" store --json --checkpoint 7 || return 1
  done
  flip 5000
  same "the status" "$(ends "$ckpt" verify store --json --checkpoint 1)" 1 || return 1
  has "the fault" "$(cat out)" '"fault":"damaged","reason":17,"slot":0,' || return 1
}

# A file call that fails is reported by a document, or without --json after the lines; or the folder isn't opened. The
# first five calls hold descriptors, and look whether a run is writing the store.
a_failing_device_is_told() {
  calls_can_fail || return
  make_store store || return 1
  local program
  for program in restore list verify; do
    reader_tells_of_failures 6 '{"fault":"device"}' "$program" store --json || return 1
    reader_tells_of_failures 6 device "$program" store || return 1
  done
}

# Where a growth is refused, a document is whole, or something is reported.
a_refused_growth_is_told() {
  [ -z "${CHECKED:-}" ] || { echo "a build with checks has an allocator of its own"; return 77; }
  growths_can_be_refused || return
  make_store store || return 1
  "$ckpt" restore store --json > whole || return 1
  local number=1 status
  while :; do
    REFUSED=$number LD_PRELOAD=./refuse.so "$ckpt" restore store --json > out 2> err
    status=$?
    grep -q '^growth refused$' err || break
    sed -i '/^growth refused$/d' err
    case $status in
      0) cmp out whole || return 1 ;;
      *) [ -s out ] || [ -s err ] || { echo "nothing is told at growth $number"; return 1; } ;;
    esac
    number=$((number + 1))
  done
  [ "$number" -gt 10 ] || { echo "$number growths"; return 1; }
}

# One document beside a run: a checkpoint no older than the last one, with its areas, or a fault with its cause.
document_beside() {
  local shape='^\{"checkpoint":([0-9]+),"pages":2,"spaces":\[\{"areas":\[\{"count":2,"first":16,"permissions":3\}\].*'
  "$ckpt" restore --json store > shown 2> err
  case $(cat shown) in
    '{"checkpoint":'*)
      number=$(sed -nE "s/$shape/\1/p" shown)
      [ -n "$number" ] && [ "$number" -ge "$last" ] \
        || { echo "no memory of checkpoint $last or of a later one:"; cat shown; return 1; }
      last=$number
      reads=$((reads + 1)) ;;
    '{"fault":"empty chain"}' | "cannot open DIR") ;;
    '{"fault":'*) has "its cause" "$(cat err)" "a run is writing this store" ;;
    *) cat shown err; return 1 ;;
  esac
}

# Beside a run each document is of one moment.
documents_beside_a_run() {
  local number count=150
  [ -z "${CHECKED:-}" ] || count=40
  write_numbered_script $count > script
  beside_runs document_beside || return 1
  same "the last" "$("$ckpt" verify --json store | cut -d , -f 1)" '{"checkpoint":'$count
}

try documents_have_what_the_lines_have
try the_tip_is_not_the_last_image
try pages_and_zeros_are_counted
try documents_of_a_store_without_a_checkpoint
try faults_are_documents
try documents_of_a_checkpoint
try a_failing_device_is_told
try a_refused_growth_is_told
try documents_beside_a_run
