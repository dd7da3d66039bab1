# Stores that can't be written.

# Whether a folder on a read-only file system can be made at DIR, by a mount that is taken away at the end.
mount_small() {  # mount_small DIR
  mkdir -p "$1"
  [ "$(id -u)" = 0 ] && mount -t tmpfs -o size=4m tmpfs "$1" 2>/dev/null
}

# Runs a function on a file system of its own, which is taken away after it.
on_small() {  # on_small FUNCTION
  mount_small disk || { echo "needs to mount a tmpfs"; return 77; }
  local status=0
  "$1" disk || status=1
  umount disk
  return $status
}

readers_pass_a_read_only_file_system() { on_small read_read_only; }

# Each program that reads has the store of one checkpoint.
is_read() {  # is_read STORE
  same "restore" "$("$ckpt" restore "$1" | head -n 1)" "checkpoint 1" || return 1
  same "list" "$("$ckpt" list "$1" | tail -n 1)" "tip 1" || return 1
  same "verify" "$("$ckpt" verify "$1")" "ok checkpoint 1 images 1"
}

read_read_only() {  # read_read_only DIR
  make_store "$1/store" || return 1
  mount -o remount,ro "$1" || return 1
  is_read "$1/store" || return 1
  same "the status of run" "$(ends "$ckpt" run "$1/store" script)" 1 || return 1
  same "run" "$(cat out)" "cannot open DIR" || return 1
  has "its cause" "$(cat err)" "Read-only file system (os error 30)"
}

# The superuser may write there all the same, so nothing would be tried.
readers_pass_a_read_only_folder() {
  [ "$(id -u)" != 0 ] || { echo "needs a user who isn't root"; return 77; }
  make_store store || return 1
  chmod 444 store/img-*
  chmod 555 store
  local status=0
  is_read store || status=1
  same "the status of run" "$(ends "$ckpt" run store script)" 1 || status=1
  chmod 755 store
  return $status
}

full_device_is_told() { on_small fill_up; }

fill_up() {  # fill_up DIR
  make_store "$1/store" || return 1
  head -c 4m /dev/zero > "$1/filled" 2>/dev/null
  same "the status" "$(ends "$ckpt" run "$1/store" script)" 0 || return 1
  same "the last line" "$(tail -n 1 out)" "refused 22 device" || return 1
  has "its cause" "$(cat err)" "img-001: No space left on device (os error 28)" || return 1
  same "verify" "$("$ckpt" verify "$1/store")" "ok checkpoint 1 images 1"
}

long_file_is_told() {
  make_store store || return 1
  same "the status" "$( (ulimit -f 4; ends "$ckpt" run store script) )" 0 || return 1
  same "the last line" "$(tail -n 1 out)" "refused 22 device" || return 1
  has "its cause" "$(cat err)" "img-001: File too large (os error 27)" || return 1
  same "verify" "$("$ckpt" verify store)" "ok checkpoint 1 images 1"
}

try readers_pass_a_read_only_file_system
try readers_pass_a_read_only_folder
try full_device_is_told
try long_file_is_told
