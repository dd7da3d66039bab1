# What is printed of three spaces: runs of over 16 adjacent pages, addresses over 2^32 and next to 2^47, areas of each
# permission, pages in a parent's parent, and zeros between data. The script, its answers and the memory's text stand in
# printing/three_spaces.*; the text was made from the script by another program. limit_output.c is a writer that refuses
# bytes.

# Leaves the store of the script in `store`.
run_three_spaces() {
  "$ckpt" run store "$here/printing/three_spaces.ckpt" > answers || { cat answers; return 1; }
}

# The output of a command is a file, and its status 0.
prints_text() {  # prints_text FILE COMMAND..
  local file=$1
  shift
  same "the status of $*" "$(ends "$@")" 0 || return 1
  cmp out "$file" || { diff "$file" out | head; return 1; }
}

three_spaces_are_printed() {
  run_three_spaces || return 1
  cmp answers "$here/printing/three_spaces.out" || return 1
  prints_text "$here/printing/three_spaces.restore" "$ckpt" restore store
}

three_spaces_are_printed_behind_a_run() {
  cat "$here/printing/three_spaces.out" "$here/printing/three_spaces.restore" > wanted
  prints_text wanted "$ckpt" run store "$here/printing/three_spaces.ckpt" --restore
}

three_spaces_are_printed_of_one_image() {
  run_three_spaces || return 1
  "$ckpt" merge store > answers || { cat answers; return 1; }
  prints_text "$here/printing/three_spaces.restore" "$ckpt" restore store
}

# Makes the library of a writer that refuses bytes.
output_can_be_limited() {
  command -v cc > /dev/null || { echo "no C compiler"; return 77; }
  cc -O2 -shared -fPIC -o limit.so "$here/limit_output.c" || return 1
  export ASAN_OPTIONS=verify_asan_link_order=0
}

# A program that can print so many bytes prints the first ones of a text, says why on the standard error, and its status
# is 1; or it prints all of them, and its status is 0.
prints_at_most() {  # prints_at_most LIMIT FILE COMMAND..
  local limit=$1 file=$2 length status
  shift 2
  length=$(wc -c < "$file")
  status=$(LIMIT=$limit LD_PRELOAD=./limit.so ends "$@")
  if [ "$limit" -ge "$length" ]; then
    same "the status, of $limit bytes" "$status" 0 || return 1
    cmp out "$file"
    return
  fi
  same "the status, of $limit bytes" "$status" 1 || return 1
  head -c "$limit" "$file" | cmp out - || return 1
  has "the cause, of $limit bytes" "$(cat err)" "standard output: No space left on device (os error 28)"
}

# How many bytes a writer takes: each count up to 300, and then every 97th, and all. Of a build with checks fewer.
output_limits() {  # output_limits LENGTH
  if [ -n "${CHECKED:-}" ]; then
    seq 0 53 300
    seq 301 5987 "$1"
  else
    seq 0 300
    seq 301 97 "$1"
  fi
  echo "$1"
}

# A program meets a writer of each of these sizes.
meets_each_limit() {  # meets_each_limit FILE COMMAND..
  local limit
  for limit in $(output_limits "$(wc -c < "$1")"); do
    prints_at_most "$limit" "$@" || return 1
  done
}

restore_meets_a_full_output() {
  output_can_be_limited || return
  run_three_spaces || return 1
  meets_each_limit "$here/printing/three_spaces.restore" "$ckpt" restore store
}

list_and_verify_meet_a_full_output() {
  local program
  output_can_be_limited || return
  run_three_spaces || return 1
  for program in list verify; do
    "$ckpt" "$program" store > whole || return 1
    meets_each_limit whole "$ckpt" "$program" store || return 1
  done
}

empty_chain_meets_a_full_output() {
  output_can_be_limited || return
  printf '# nothing\n' > empty.ckpt
  "$ckpt" run store empty.ckpt > answers || return 1
  echo "empty chain" > whole
  local limit
  for limit in $(seq 0 11); do
    prints_at_most "$limit" whole "$ckpt" restore store || return 1
  done
  same "the status" "$(LIMIT=12 LD_PRELOAD=./limit.so ends "$ckpt" restore store)" 3 || return 1
  cmp out whole
}

three_spaces_behind_a_run_meet_a_full_output() {
  output_can_be_limited || return
  printf '# nothing\n' > empty.ckpt
  run_three_spaces || return 1
  (echo "reopened 4"; cat "$here/printing/three_spaces.restore") > whole
  local limit limits="0 1 10 11 12 100 8191 8192 8193 20000"
  [ -z "${CHECKED:-}" ] || limits="0 11 8192"
  for limit in $limits "$(($(wc -c < whole) - 1))" "$(wc -c < whole)"; do
    prints_at_most "$limit" whole "$ckpt" run store empty.ckpt --restore || return 1
  done
}

try three_spaces_are_printed
try three_spaces_are_printed_behind_a_run
try three_spaces_are_printed_of_one_image
try restore_meets_a_full_output
try list_and_verify_meet_a_full_output
try empty_chain_meets_a_full_output
try three_spaces_behind_a_run_meet_a_full_output
