# A reader that was written from docs/FORMATS.md alone shows what `restore` shows.

# Compares what both print of a store.
both_show() {  # both_show STORE
  "$ckpt" restore "$1" > wanted
  local status=$?
  python3 "$here/../examples/read_store.py" "$1" > found
  same "the reader's status for $1" $? $status || return 1
  cmp found wanted || { echo "another text for $1"; return 1; }
}

reader_by_the_formats_shows_the_same() {
  needs_python || return
  local script name
  mkdir empty
  both_show empty || return 1
  for script in "$here"/../examples/*.ckpt; do
    name=$(basename "$script" .ckpt)
    "$ckpt" run "$name" "$script" > out || return 1
    both_show "$name" || return 1
    "$ckpt" merge "$name" > out
    both_show "$name" || return 1
  done
}

reader_by_the_formats_shows_spaces_and_parents() {
  needs_python || return
  printf '%s\n' 'mmap 1 0x10000 0x20000 rw' 'store 1 0x10000 01' 'store 1 0x2f000 02' 'checkpoint 2' 'fork 1' \
    'mmap 2 0x7ffffffff000 4096 rwx' 'store 2 0x7ffffffff020 03' 'mprotect 1 0x18000 4096 none' 'checkpoint 1' \
    'store 1 0x11000 04' 'munmap 2 0x10000 4096' 'checkpoint 0' 'fork 2' 'exit 1' 'checkpoint 0' > script
  "$ckpt" run store script > out || return 1
  grep -q refused out && { cat out; return 1; }
  both_show store || return 1
  "$ckpt" merge store > out || return 1
  both_show store
}

# A digest that isn't right stands alone, whichever image has it.
reader_by_the_formats_sees_damage() {
  needs_python || return
  hello_store 2 || return 1
  flip 5000
  both_show store || return 1
  same "what is shown" "$(cat found)" "damaged 000 17" || return 1
  store_of "2 2 1 1 0 1 7" "2 2 2 2 1 2 parent" "2 3 3 1 0 1 9"
  put_byte store/img-002 5000 1
  both_show store || return 1
  same "what is shown of three images" "$(cat found)" "damaged 002 17"
}

# file(1) names an image by examples/magic.
file_tells_an_image() {
  command -v file > found || { echo "needs file"; return 77; }
  make_store store || return 1
  same "the image" "$(file -b -m "$here/../examples/magic" store/img-000)" \
    "checkpoint image of Devontsira, version 2, dump, serial 1, checkpoint 1, 1 data pages"
}

try reader_by_the_formats_shows_the_same
try reader_by_the_formats_shows_spaces_and_parents
try reader_by_the_formats_sees_damage
try file_tells_an_image
