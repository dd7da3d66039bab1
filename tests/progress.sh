# How far a job is that takes over a second: one line on a terminal, which is cleared at the end.

# What a program writes to its standard error, which is a terminal, while each write of the store is slow.
on_terminal() {  # on_terminal COMMAND..
  python3 "$here/on_terminal.py" 2 sh -c 'exec "$@" > /dev/null' sh env "LD_PRELOAD=$PWD/slow.so" "$@"
}

# A script that stores into so many pages, and makes a checkpoint.
of_pages() {  # of_pages COUNT
  echo "mmap 1 0x10000 $((4096 * $1)) rw"
  for ((page = 0; page < $1; page++)); do
    printf 'store 1 0x%x 01\n' $((0x10000 + 4096 * page))
  done
  echo "checkpoint 0"
}

# Builds what makes each write of a store slow, or says what is missing.
slow_writes() {
  command -v cc > /dev/null || { echo "no C compiler"; return 77; }
  needs_python || return
  cc -O2 -shared -fPIC -o slow.so "$here/slow_writes.c" || return 1
  [ -z "${CHECKED:-}" ] || export ASAN_OPTIONS=verify_asan_link_order=0
}

# Checks that a line was shown, and that it was cleared.
is_shown() {  # is_shown PATTERN
  grep -qaE $'\r\x1b\\[K'"$1" shown || { cat -v shown; return 1; }
  [[ $(cat shown) == *$'\r\x1b[K' ]] || { echo "the line stays:"; cat -v shown; return 1; }
}

# A checkpoint that takes long is shown, with its line of the script, its part, the time that is left and its pages.
a_job_that_takes_long_is_shown() {
  slow_writes || return
  of_pages 100 > script
  on_terminal "$ckpt" run store script > shown || { cat shown; return 1; }
  is_shown 'script line 102 of 102: checkpoint: [0-9]+ %, [0-9]+ s left, [0-9]+ of 100 pages written into this image, '\
'frozen' || return 1
  rm -rf store
  on_terminal "$ckpt" run --quiet store script > shown || { cat shown; return 1; }
  same "what a quiet run shows" "$(cat shown)" ""
}

# A merge is shown too.
a_merge_that_takes_long_is_shown() {
  slow_writes || return
  { of_pages 100; echo 'store 1 0x10000 02'; echo 'checkpoint 0'; } > script
  "$ckpt" run store script > out || { cat out; return 1; }
  on_terminal "$ckpt" merge store > shown || { cat shown; return 1; }
  is_shown 'merge: [0-9]+ %, [0-9]+ s left'
}

# So is the checkpoint of an import.
an_import_that_takes_long_is_shown() {
  slow_writes || return
  of_pages 100 > script
  "$ckpt" run made script > out || { cat out; return 1; }
  "$ckpt" export made cores || return 1
  on_terminal "$ckpt" import store cores/space-1.core > shown || { cat shown; return 1; }
  is_shown 'checkpoint: [0-9]+ %, [0-9]+ s left, [0-9]+ of 100 pages written into this image, frozen'
}

# And so is the reading of a core.
a_core_that_is_read_for_long_is_shown() {
  slow_writes || return
  of_pages 300 > script
  "$ckpt" run made script > out || { cat out; return 1; }
  "$ckpt" export made cores || return 1
  SLOW_READS=1 on_terminal "$ckpt" import store cores/space-1.core > shown || { cat shown; return 1; }
  is_shown 'import: [0-9]+ %, [0-9]+ s left'
}

# A script whose requests take long is shown by its lines, where its answers don't go to a terminal.
a_script_that_takes_long_is_shown() {
  slow_writes || return
  local step
  { of_pages 100 | grep -v checkpoint
    echo 'begin 0'
    for ((step = 0; step < 500; step++)); do echo 'step dumper 1'; done; } > script
  on_terminal "$ckpt" run store script > shown || { cat shown; return 1; }
  is_shown 'script line [0-9]+ of 602: [0-9]+ %, [0-9]+ s left'
}

try a_job_that_takes_long_is_shown
try a_merge_that_takes_long_is_shown
try an_import_that_takes_long_is_shown
try a_core_that_is_read_for_long_is_shown
try a_script_that_takes_long_is_shown
