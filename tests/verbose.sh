# --quiet and --verbose, which each program has.

# Jobs, images and slots of a run, and then of the programs that read.
jobs_images_and_slots_are_logged() {
  printf 'mmap 1 0x10000 4096 rw\nstore 1 0x10000 61\ncheckpoint 0\n' > script
  ends_with 0 "reopened none
done
done
acked 1" "[INFO  ckpt] opener: a job has begun
[INFO  ckpt] opener: the job has ended
[INFO  ckpt] dumper: a job has begun
[INFO  ckpt] img-000: image 1 is there: 1 pages, 1 as data, 8264 bytes, 9 device calls
[INFO  ckpt] checkpoint 1 is there: 0 rounds, 9 device calls, of them 6 while frozen
[INFO  ckpt] dumper: the job has ended" "$ckpt" run --verbose store script || return 1
  for program in list restore verify show; do
    "$ckpt" $program store > wanted || return 1
    ends_with 0 "$(cat wanted)" "[INFO  ckpt] img-000: open, 8264 bytes" "$ckpt" $program -v store || return 1
    ends_with 0 "$(cat wanted)" "" "$ckpt" $program --quiet store || return 1
    "$ckpt" $program --json store > wanted || return 1
    ends_with 0 "$(cat wanted)" "[INFO  ckpt] img-000: open, 8264 bytes" "$ckpt" $program --json -v store || return 1
  done
  ends_with 0 "" "[INFO  ckpt] img-000: open, 8264 bytes" "$ckpt" export -v store cores || return 1
  same "the status" "$(ends "$ckpt" import -vv imported cores/space-1.core)" 0 || return 1
  has "its calls" "$(cat err)" "[DEBUG ckpt] img-000: sync: done" || return 1
  ends_with 0 "merged 2" "[INFO  ckpt] img-000: open, 8264 bytes
[INFO  ckpt] opener: a job has begun
[INFO  ckpt] opener: the job has ended
[INFO  ckpt] merger: a job has begun
[INFO  ckpt] img-001: image 2 is there: 1 pages, 1 as data, 8264 bytes, 9 device calls
[INFO  ckpt] merge 2 is done: 1 images read, 1 closed
[INFO  ckpt] merger: the job has ended" "$ckpt" merge -v store
}

# Each device call of a checkpoint, in order, after those that open the store.
device_calls_are_logged() {
  printf 'mmap 1 0x10000 4096 rw\nstore 1 0x10000 61\ncheckpoint 0\n' > script
  "$ckpt" run -vv store script > out 2> err || return 1
  same "the calls" "$(sed -n 's/^\[DEBUG ckpt\] //p' err | tail -n 9)" "img-000: write 1 bytes at 0: done
img-000: sync: done
img-000: cut to 1 bytes: done
img-000: write 4096 bytes at 4096: done
img-000: write 72 bytes at 8192: done
img-000: write 4095 bytes at 1: done
img-000: sync: done
img-000: write 1 bytes at 0: done
img-000: sync: done"
}

shell_and_mutate_are_logged() {
  printf 'mmap 1 0x10000 4096 rw\ncheckpoint 0\n' | "$ckpt" shell -v store > out 2> err || return 1
  same "the answers" "$(cat out)" "reopened none
done
acked 1" || return 1
  has "the job" "$(cat err)" "[INFO  ckpt] checkpoint 1 is there" || return 1
  ends_with 0 "threads 2 stores 2000 acked 3
close ok" "[INFO  ckpt] 2 threads begin
[INFO  ckpt] the threads have ended" "$ckpt" mutate -v threads 2
}

quiet_and_verbose_exclude_each_other() {
  same "the status" "$(ends "$ckpt" list -q -v store)" 2 || return 1
  same "the output" "$(cat out)" ""
}

# Both stand before the name of the program too.
quiet_and_verbose_may_stand_first() {
  make_store store || return 1
  "$ckpt" list store > wanted || return 1
  ends_with 0 "$(cat wanted)" "[INFO  ckpt] img-000: open, 8264 bytes" "$ckpt" -v list store || return 1
  ends_with 0 "$(cat wanted)" "" "$ckpt" -q list store || return 1
  ends_with 1 "cannot open DIR" "" "$ckpt" --quiet list missing || return 1
  same "the status of -vv" "$(ends "$ckpt" -vv verify store)" 0 || return 1
  has "its calls" "$(cat err)" "[DEBUG ckpt] img-000: read " || return 1
  same "the status of both" "$(ends "$ckpt" -q -v list store)" 2 || return 1
  same "the status of an option of another program" "$(ends "$ckpt" --json list store)" 2 || return 1
  has "the help" "$("$ckpt" --help)" "-q, --quiet"
}

try jobs_images_and_slots_are_logged
try device_calls_are_logged
try shell_and_mutate_are_logged
try quiet_and_verbose_exclude_each_other
try quiet_and_verbose_may_stand_first
