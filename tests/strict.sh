# `run --strict`, which ends at the first request that isn't answered as it was meant; `run --check`, and a script from
# the standard input.

strict_run_ends_at_a_refusal() {
  printf '# a comment\nmmap 1 0x10000 4096 rw\ncancel\nstore 1 0x10000 68\n' > script
  ends_with 1 "reopened none
done
refused 14 idle" "script line 3: cancel: refused 14 idle" "$ckpt" run --strict store script || return 1
  ends_with 1 "reopened none
done
refused 14 idle" "" "$ckpt" run --strict --quiet store script || return 1
  same "the status without it" "$(ends "$ckpt" run store script)" 0 || return 1
  same "the last answer" "$(tail -n 1 out)" done
}

strict_run_ends_at_a_fault_of_memory() {
  printf 'mmap 1 0x10000 4096 r\nstore 1 0x10000 68\ncheckpoint 0\n' > script
  ends_with 1 "reopened none
done
segv accerr" "script line 2: store 1 0x10000 68: segv accerr" "$ckpt" run --strict --restore store script
}

# A store that isn't opened at the beginning is reported as that, and as no line of the script. The last sync of a run that
# saves nothing is one of its opening.
strict_run_ends_at_its_opening() {
  calls_can_fail || return
  make_store store || return 1
  echo 'load 1 0x10000 1' > script
  ONLY=fsync COUNTED=count LD_PRELOAD=./fail.so "$ckpt" run --strict store script > out || return 1
  were_counted 64 || return 1
  same "the status" "$(ends env ONLY=fsync "FAILED=$(($(cat count)))" HOW=unmade LD_PRELOAD=./fail.so \
    "$ckpt" run --strict store script)" 1 || return 1
  same "the output" "$(cat out)" "refused 22 device" || return 1
  same "what is told first" "$(head -n 1 err)" "opening: refused 22 device" || return 1
  has "its cause" "$(cat err)" "Input/output error (os error 5)"
}

strict_run_comes_to_its_end() {
  "$ckpt" run --restore loose "$here/../examples/rounds.ckpt" > wanted || return 1
  ends_with 0 "$(cat wanted)" "" "$ckpt" run --strict --restore strict "$here/../examples/rounds.ckpt" || return 1
  same "the stores" "$(sums strict)" "$(sums loose)"
}

strict_run_takes_no_part_of_a_script() {
  printf 'mmap 1 0x10000 4096 rw\nload 1\n' > script
  same "the status" "$(ends "$ckpt" run --strict store script)" 2 || return 1
  same "the output" "$(cat out)" "script line 2" || return 1
  [ ! -e store ] || { echo "a store was made"; return 1; }
}

try strict_run_ends_at_a_refusal
try strict_run_ends_at_a_fault_of_memory
try strict_run_ends_at_its_opening
try strict_run_comes_to_its_end
try strict_run_takes_no_part_of_a_script

run_checks_a_script_alone() {
  ends_with 0 "ok 4 requests" "" "$ckpt" run --check "$here/../examples/first.ckpt" || return 1
  printf 'mmap 1 0x10000 4096 wr\n' > unfit
  ends_with 2 "script line 1" "ckpt: unfit: line 1: field 5 has to be none, or some of rwx in this order, not \"wr\"" \
    "$ckpt" run --check unfit || return 1
  same "the status of two words" "$(ends "$ckpt" run --check unfit store)" 2 || return 1
  same "the status of two options" "$(ends "$ckpt" run --check unfit --stats counts)" 2 || return 1
  [ ! -e counts ] || { echo "counts were made"; return 1; }
  same "the status without a script" "$(ends "$ckpt" run store)" 2 || return 1
  [ ! -e store ] || { echo "a store was made"; return 1; }
}

script_may_be_the_standard_input() {
  ends_with 0 "$(cat "$here/../examples/first.out")" "" "$ckpt" run store - < "$here/../examples/first.ckpt" || return 1
  ends_with 0 "ok 4 requests" "" "$ckpt" run --check - < "$here/../examples/first.ckpt"
}

try run_checks_a_script_alone
try script_may_be_the_standard_input
