# Merging the store in a folder: what is printed, the status, and which files are left.

a_store_is_merged() {
  printf 'mmap 1 0x10000 4096 rw\nstore 1 0x10000 68656c6c6f\ncheckpoint 0\ncheckpoint 0\n' > chain
  "$ckpt" run store chain > made || { cat made; return 1; }
  local shown
  shown=$("$ckpt" restore store)
  same "the status" "$(ends "$ckpt" merge store)" 0 || return 1
  same "the output" "$(cat out)" "merged 3" || return 1
  same "the standard error" "$(cat err)" "" || return 1
  same "the memory" "$("$ckpt" restore store)" "$shown" || return 1
  same "the list" "$("$ckpt" list store)" "slot 002 merged serial 3 stands 2 parent 0 checkpoint 2 pages 1
tip 3" || return 1
  same "the lengths" "$(wc -c < store/img-000) $(wc -c < store/img-001) $(wc -c < store/img-002)" "1 1 8264" || return 1
  same "verify" "$("$ckpt" verify store)" "ok checkpoint 2 images 1"
}

a_run_goes_on_from_a_merged_store() {
  make_store store || return 1
  same "merge" "$("$ckpt" merge store)" "merged 2" || return 1
  printf 'load 1 0x10000 5\ncheckpoint 0\n' > second
  same "run" "$("$ckpt" run store second)" "reopened 1
bytes 68656c6c6f
acked 2"
}

an_empty_store_is_not_merged() {
  same "the status" "$(ends "$ckpt" merge store)" 1 || return 1
  same "the output" "$(cat out)" "refused 14 idle" || return 1
  same "the files that are made" "$(ls store | wc -l)" 64 || return 1
  same "restore" "$("$ckpt" restore store)" "empty chain"
}

a_store_that_cannot_be_merged_is_told() {
  make_store store || return 1
  truncate -s 8263 store/img-000
  same "the status of a damaged store" "$(ends "$ckpt" merge store)" 1 || return 1
  same "a damaged store" "$(cat out)" "damaged 000 9" || return 1
  : > file
  same "the status without a folder" "$(ends "$ckpt" merge file)" 1 || return 1
  same "without a folder" "$(cat out)" "cannot open DIR" || return 1
  has "the cause" "$(cat err)" "ckpt: file: " || return 1
  ends_with 1 "cannot open DIR" "" "$ckpt" merge --quiet file
}

closed_output_harms_no_merge() {
  make_store store || return 1
  "$ckpt" merge store >&- 2>&- <&-
  same "the tip" "$("$ckpt" list store | tail -n 1)" "tip 2" || return 1
  same "verify" "$("$ckpt" verify store)" "ok checkpoint 1 images 1"
}

try a_store_is_merged
try a_run_goes_on_from_a_merged_store
try an_empty_store_is_not_merged
try a_store_that_cannot_be_merged_is_told
try closed_output_harms_no_merge
