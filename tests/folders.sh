# How the folder of a store and its files are made and opened: what is synced, in which order, and what is refused.

# A run makes the folders that are missing on the way to its store.
new_folder_stands_in_its_parent() {
  printf 'checkpoint 0\n' > script
  same "the answers" "$("$ckpt" run new/parent/store script)" "$(printf 'reopened none\nacked 1')" || return 1
  same "verify" "$("$ckpt" verify new/parent/store)" "ok checkpoint 1 images 1"
}

# The file calls of a program, one a line, as strace prints them with the paths of descriptors: the file calls-of-run.
trace() {  # trace PROGRAM WORD..
  command -v strace > /dev/null || { echo "needs strace"; return 77; }
  strace -o calls-of-run true 2> err || { echo "strace can't run here"; return 77; }
  strace -y -o calls-of-run -e trace=mkdir,openat,open,pwrite64,ftruncate,fsync,fdatasync,write \
    "$ckpt" "$@" > answers 2> err || { echo "$* failed:"; cat answers err; return 1; }
}

# Whether each of these folders was made, and synced into the one in which it stands.
are_synced_into_their_parents() {  # are_synced_into_their_parents FOLDER..
  local made parent
  for made in "$@"; do
    parent=$(dirname "$made")
    parent=$([ "$parent" = . ] && pwd || echo "$(pwd)/$parent")
    awk -v made="mkdir(\"$made\"" -v parent="<$parent>" '
      index($0, made) { seen = 1 }
      seen && /^fsync/ && index($0, parent) { found = 1 }
      END { exit !found }' calls-of-run || { echo "$made isn't synced into $parent"; return 1; }
  done
}

# Each folder that a run makes is synced into the one in which it stands.
folders_are_synced_into_their_parents() {
  echo 'checkpoint 0' > script
  trace run x1/x2/x3 script || return
  are_synced_into_their_parents x1 x1/x2 x1/x2/x3
}

# So is each that an export makes.
folders_of_an_export_are_synced_into_their_parents() {
  make_store store || return 1
  trace export store y1/y2 || return
  are_synced_into_their_parents y1 y1/y2
}

# No program empties a file of a slot as it opens it, nor removes or renames one: what stands there is what is found.
files_of_slots_are_opened_as_they_are() {
  local words
  command -v strace > /dev/null || { echo "needs strace"; return 77; }
  strace -o calls true 2> err || { echo "strace can't run here"; return 77; }
  make_store store || return 1
  echo 'checkpoint 0' > script
  for words in "run store script" "restore store" "verify store" "merge store" "export store cores"; do
    # shellcheck disable=SC2086
    strace -f -o calls -e trace=openat,open,creat,unlink,unlinkat,rename,renameat,renameat2,truncate \
      "$ckpt" $words > answers 2> err || { cat answers err; return 1; }
    [ "$(grep -c 'img-[0-9]' calls)" -ge 64 ] || { echo "$words opens no slot"; return 1; }
    ! grep -E 'img-[0-9].*O_TRUNC|(creat|unlink|rename|truncate)[a-z0-9]*\(.*img-[0-9]' calls || return 1
  done
}

# Whether each of these folders is synced before a file of a slot is made or written.
are_synced_first() {  # are_synced_first FOLDER..
  local folder
  for folder in "$@"; do
    awk -v folder="<$folder>)" '
      /img-[0-9]+/ && (/O_CREAT/ || /^pwrite64/ || /^ftruncate/) { exit }
      /^fsync/ && index($0, folder) { found = 1; exit }
      END { exit !found }' calls-of-run || { echo "$folder isn't synced first"; return 1; }
  done
}

# A folder that is there may have been made by a run that was killed before it synced its name. So each folder above a
# store is synced before its first file is made: of a path, of the folder in which the program runs, and of the folder
# to which a link leads.
folders_above_a_store_are_synced_first() {
  local here
  here=$(pwd -P)
  mkdir -p k1 dot above/target
  ln -s above/target link
  echo 'checkpoint 0' > script
  trace run k1/k2/store script || return
  are_synced_first "$here/k1/k2" "$here/k1" "$here" "$(dirname "$here")" / || return 1
  trace run link script || return
  are_synced_first "$here/above" "$here" / || return 1
  cd dot || return 1
  trace run . ../script || return
  are_synced_first "$here" "$(dirname "$here")" / || return 1
  trace run . ../script || return
  are_synced_first "$here" "$(dirname "$here")" /
}

# Runs a command as a user who isn't root.
as_a_user() {  # as_a_user COMMAND..
  if [ "$(id -u)" = 0 ]; then
    setpriv --reuid 65534 --regid 65534 --clear-groups "$@"
  else
    "$@"
  fi
}

# A store that is there needs nothing of the folder in which it stands, whose names a user may not read. The name of a
# store that is made is synced there, or the store isn't opened.
stores_need_nothing_of_their_parent() {
  command -v setpriv > /dev/null || { echo "needs setpriv"; return 77; }
  room=$(mktemp -d) || return 1
  trap 'chmod -R u+rwx "$room"; rm -rf "$room"' EXIT
  chmod 777 "$room"
  cd "$room" || return 1
  cp "$ckpt" program && chmod 755 program || return 1
  as_a_user mkdir parent || { echo "needs another user"; return 77; }
  printf 'mmap 1 0x10000 4096 rw\nstore 1 0x10000 61\ncheckpoint 0\n' > script
  as_a_user ./program run parent/store script > out || { cat out; return 1; }
  as_a_user chmod 311 parent
  as_a_user ls parent > ls 2>&1 && { echo "the parent can be read"; return 77; }
  same "run" "$(as_a_user ./program run parent/store script | tail -n 1)" "acked 2" || return 1
  same "shell" "$(as_a_user ./program shell parent/store < script | tail -n 1)" "acked 3" || return 1
  same "merge" "$(as_a_user ./program merge parent/store)" "merged 4" || return 1
  ends_with 1 "cannot open DIR" "ckpt: parent/new: Permission denied (os error 13)" \
    as_a_user ./program run parent/new script
}

# So is it where folders can't be synced: the first call that syncs is that of the folder in which the store stands.
parents_may_be_unable_to_sync() {
  calls_can_fail || return
  make_store old || return 1
  same "the status where the name is there" \
    "$(ends env ONLY=fsync FAILED=1 HOW=unmade LD_PRELOAD=./fail.so "$ckpt" run old script)" 0 || return 1
  same "the last answer" "$(tail -n 1 out)" "acked 2" || return 1
  ends_with 1 "cannot open DIR" "ckpt: new: Input/output error (os error 5)" \
    env ONLY=fsync FAILED=1 HOW=unmade LD_PRELOAD=./fail.so "$ckpt" run new script
}

# The names of the files are on the device before the store is said to be opened.
files_are_synced_before_the_store_is_opened() {
  echo 'checkpoint 0' > script
  trace run store script || return
  awk -v folder="<$(pwd)/store>" '
    /O_CREAT/ && /img-[0-9]+"/ { made++; synced = 0 }
    /^fsync/ && index($0, folder) { synced = 1 }
    /^fsync/ && /img-000>/ { exit }
    END { exit !(made == 64 && synced) }' calls-of-run || { grep -c O_CREAT calls-of-run; return 1; }
}

# The calls on a slot's file, a letter each: z a 0 and o an open gate at its first byte, h the header, d what stands
# after it, t a cut, s a sync.
calls_on() {  # calls_on SLOT
  awk -v file="img-$1>" '
    !index($0, file) { next }
    /^fsync|^fdatasync/ { printf "s"; next }
    /^ftruncate/ { printf "t"; next }
    /, 1, 0\) = 1$/ { printf index($0, "\"\\245\"") ? "o" : "z"; next }
    /, 4095, 1\) = 4095$/ { printf "h"; next }
    /^pwrite64/ { printf "d" }' calls-of-run
}

# The opening syncs each file twice. Then a file is closed, synced and cut, its body written and synced, and it is
# opened and synced; one that isn't needed any more is closed, synced and cut.
calls_on_a_slot_have_their_order() {
  printf '%s\n' 'mmap 1 0x10000 8192 rw' 'store 1 0x10000 61' 'store 1 0x11000 62' 'checkpoint 0' 'store 1 0x11000 63' \
    'checkpoint 0' merge > script
  trace run store script || return
  same "the last answer" "$(tail -n 1 answers)" "merged 3" || return 1
  same "the first image, which the merge closes" "$(calls_on 000)" "sszstdddhsoszst" || return 1
  same "the second image, which the merge closes" "$(calls_on 001)" "sszstddhsoszst" || return 1
  same "the merged image" "$(calls_on 002)" "sszstdddhsos"
}

slots_that_share_a_file_are_not_written() {
  make_store store || return 1
  cp -al store linked || { echo "needs hard links"; return 77; }
  same "the status" "$(ends "$ckpt" run linked script)" 1 || return 1
  same "the line" "$(cat out)" "cannot open DIR" || return 1
  has "its cause" "$(cat err)" "linked: img-000: this file has another name" || return 1
  same "the status of merge" "$(ends "$ckpt" merge linked)" 1 || return 1
  same "a reader" "$("$ckpt" verify linked)" "ok checkpoint 1 images 1" || return 1
  cp -a store copied
  same "a copy" "$("$ckpt" run copied script | tail -n 1)" "acked 2" || return 1
  rm linked/img-0*
  ln -s ../copied/img-000 linked/img-000
  ln -s ../copied/img-000 linked/img-001
  same "the status of two links to a file" "$(ends "$ckpt" run linked script)" 1 || return 1
  has "its cause" "$(cat err)" "linked: img-001: this file has another name" || return 1
  same "the files that were made" "$(ls linked | wc -l)" 2
}

a_link_that_leads_nowhere_is_told() {
  make_store store || return 1
  ln -s missing store/img-001 2> /dev/null || { rm store/img-001; ln -s missing store/img-001; }
  local program script
  for program in restore list verify merge "run --quiet"; do
    script=$([ "$program" != "run --quiet" ] || echo script)
    same "the status of $program" "$(ends "$ckpt" $program store $script)" 1 || return 1
    same "$program" "$(cat out)" "cannot open DIR" || return 1
  done
  ends "$ckpt" verify store > status
  has "its cause" "$(cat err)" "store: img-001: a symbolic link to a file that is missing"
}

# A named pipe is no folder, no file of a slot and no core: nobody waits for its other end.
pipes_are_not_waited_for() {
  make_store store || return 1
  mkfifo pipe 2> /dev/null || { echo "needs named pipes"; return 77; }
  ln -s pipe link
  cp -a store slots
  rm slots/img-007
  mkfifo slots/img-007
  local program folder
  for program in "run % script" "shell %" "merge %" "mutate % 2" "restore %" "list %" "verify %" "restore -v %" \
    "restore --json %" "list --json %" "verify --json %" "show %" "export % cores"; do
    for folder in pipe link slots; do
      same "the status of ${program/\%/$folder}" "$(ends timeout 20 "$ckpt" ${program/\%/$folder} < /dev/null)" 1 \
        || return 1
      same "the output of ${program/\%/$folder}" "$(cat out)" "cannot open DIR" || return 1
    done
  done
  ends_with 1 "cannot read CORE" "ckpt: pipe: a pipe, of which no place can be read twice: write the core into a file" \
    timeout 20 "$ckpt" import store pipe
}

# A script may come through one.
scripts_may_come_through_a_pipe() {
  make_store store || return 1
  mkfifo pipe 2> /dev/null || { echo "needs named pipes"; return 77; }
  cat script > pipe &
  same "the last answer" "$(timeout 20 "$ckpt" run store pipe | tail -n 1)" "acked 2" || return 1
  same "a check" "$("$ckpt" run --check <(cat script))" "ok 3 requests"
}

try new_folder_stands_in_its_parent
try files_of_slots_are_opened_as_they_are
try folders_are_synced_into_their_parents
try folders_of_an_export_are_synced_into_their_parents
try folders_above_a_store_are_synced_first
try stores_need_nothing_of_their_parent
try parents_may_be_unable_to_sync
try files_are_synced_before_the_store_is_opened
try calls_on_a_slot_have_their_order
try slots_that_share_a_file_are_not_written
try a_link_that_leads_nowhere_is_told
try pipes_are_not_waited_for
try scripts_may_come_through_a_pipe
