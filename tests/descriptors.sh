# Standard input, output and error that are closed: no file of a store takes their place.

closed_output_harms_no_store() {
  make_store store || return 1
  local before program
  before=$(sums store)
  for program in restore list verify show; do
    "$ckpt" $program store >&- 2>/dev/null
    same "the store after $program" "$(sums store)" "$before" || return 1
    "$ckpt" $program store >&- 2>&- <&-
    same "the store after $program with none open" "$(sums store)" "$before" || return 1
  done
  same "verify" "$("$ckpt" verify store)" "ok checkpoint 1 images 1"
}

closed_output_harms_no_run() {
  make_store store || return 1
  printf 'load 1 0x10000 5\ncheckpoint 0\n' > script
  "$ckpt" run store script >&- 2>&- <&-
  same "verify" "$("$ckpt" verify store)" "ok checkpoint 2 images 2"
}

# Words that don't fit end with status 2, also where that can't be reported; a help that isn't printed ends with 1.
wrong_words_keep_their_status() {
  has_full_device || return
  local words
  for words in "" bogus run "run --bogus" "run a b c" "show store 99" "mutate store 9"; do
    "$ckpt" $words 2> /dev/full
    same "the status of '$words' into a full device" $? 2 || return 1
    "$ckpt" $words 2>&-
    same "the status of '$words' with a closed standard error" $? 2 || return 1
    "$ckpt" $words > /dev/full 2>&1
    same "the status of '$words' with both full" $? 2 || return 1
    "$ckpt" $words >&- 2>&- <&-
    same "the status of '$words' with none open" $? 2 || return 1
  done
  for words in --help --version "run --help"; do
    same "the status of '$words' with a full output" "$("$ckpt" $words 2>&1 > /dev/full; echo $?)" \
      "ckpt: standard output: No space left on device (os error 28)
1" || return 1
  done
}

try closed_output_harms_no_store
try closed_output_harms_no_run
try wrong_words_keep_their_status
