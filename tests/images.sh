# Images that are made by hand, byte by byte (docs/FORMATS.md), for the tests of what is read of them.

# Adds a number to the bytes that are made, little endian.
add_number() {  # add_number NUMBER BYTES
  local number=$(($1)) left=$2 byte
  while [ "$left" -gt 0 ]; do
    printf -v byte '\\x%02x' $((number & 255))
    made+=$byte
    number=$((number >> 8))
    left=$((left - 1))
  done
}

# Adds numbers of these lengths.
add_numbers() {  # add_numbers LENGTHS NUMBER..
  local length
  for length in $1; do
    add_number "$2" "$length"
    set -- "$1" "${@:3}"
  done
}

# Prints a table of items with commas between: `SPACES 0`, `SPACE AREAS RUNS`, `FIRST COUNT PROT-OR-KIND 0`.
table() {  # table ITEMS
  local made="" item items
  IFS=, read -ra items <<< "$1"
  for item in "${items[@]}"; do
    set -- $item
    case $# in
      2) add_numbers "4 4" "$@" ;;
      3) add_numbers "4 4 8" "$@" ;;
      4) add_numbers "8 8 4 4" "$@" ;;
    esac
  done
  printf '%b' "$made"
}

# Prints the first 4,096 bytes of an image without a digest.
header() {  # header VERSION KIND SERIAL STANDS PARENT CHECKPOINT PAGES TABLE-LENGTH
  local made='\xa5SDCHAIN'
  add_numbers "2 2" "$1" "$2"
  add_number 0 4
  add_numbers "8 8 8 8 8 8" "${@:3}"
  printf '%b' "$made"
  head -c 4032 /dev/zero
}

# Writes a byte into a file, at a place or after its end.
put_byte() {  # put_byte FILE PLACE BYTE
  printf '%b' "\\x$(printf %02x "$3")" | dd of="$1" bs=1 seek="$2" conv=notrunc status=none
}

# Makes the digest of an image right, where its version has one.
put_digest() {  # put_digest FILE
  local digest
  [ "$(bytes_of "$1" 8 1)" != 01 ] || return 0
  digest=$({ tail -c +4097 "$1"; head -c 64 "$1" | tail -c 63; } | sha256sum | cut -d ' ' -f 1)
  printf '%b' "$(sed 's/../\\x&/g' <<< "$digest")" | dd of="$1" bs=1 seek=64 conv=notrunc status=none
}

# Makes an image whose data pages are filled with a byte.
make_image() {  # make_image FILE "VERSION KIND SERIAL STANDS PARENT CHECKPOINT" PAGES BYTE ITEMS
  mkdir -p "$(dirname "$1")"
  table "$5" > "$1.table"
  {
    header $2 "$3" "$(wc -c < "$1.table")"
    head -c $(($3 * 4096)) /dev/zero | tr '\0' "\\$(printf %03o "$4")"
    cat "$1.table"
  } > "$1"
  rm "$1.table"
  put_digest "$1"
}

# Makes an image of page 16 of space 1: a data page that is filled with a byte, or a page that its parent has.
one_page() {  # one_page FILE "VERSION KIND SERIAL STANDS PARENT CHECKPOINT" BYTE-OR-PARENT
  if [ "$3" = parent ]; then
    make_image "$1" "$2" 0 0 "1 0, 1 1 1, 16 1 3 0, 16 1 2 0"
  else
    make_image "$1" "$2" 1 "$3" "1 0, 1 1 1, 16 1 3 0, 16 1 1 0"
  fi
}

# Makes a store of images of page 16, one in each slot: `HEADER BYTE-OR-PARENT` of each, without those that it has.
store_of() {  # store_of "VERSION KIND SERIAL STANDS PARENT CHECKPOINT BYTE-OR-PARENT"..
  local slot=0 words
  rm -rf store
  for words in "$@"; do
    one_page "store/img-$(printf %03d $slot)" "${words% *}" "${words##* }"
    slot=$((slot + 1))
  done
}

# Copies the store of one page that begins with `hello`, in a version of the format.
hello_store() {  # hello_store VERSION
  [ -d hello ] || { make_store hello || return 1; }
  rm -rf store
  mkdir store
  cp hello/img-000 store/
  [ "$1" = 2 ] || to_version_one store/img-000
}

# Changes bytes of the image, whose digest is made right again: `PLACE=BYTE` of each.
change() {  # change PLACE=BYTE..
  local word
  for word in "$@"; do
    put_byte store/img-000 "${word%=*}" "${word#*=}"
  done
  put_digest store/img-000
}

# Changes one bit of the image, and leaves its digest.
flip() {  # flip PLACE
  put_byte store/img-000 "$1" $((0x$(bytes_of store/img-000 "$1" 1) ^ 1))
}

# A program prints this, with this status, and leaves the files of the store.
reader_prints() {  # reader_prints STATUS TEXT PROGRAM
  local before
  before=$(sums store)
  same "the status of $3" "$(ends "$ckpt" "$3" store)" "$1" || return 1
  same "$3" "$(cat out)" "$2" || return 1
  same "the files" "$(sums store)" "$before"
}

# Listing, restoring and verifying find a fault.
finds() {  # finds FAULT
  reader_prints 1 "$1" verify && reader_prints 1 "$1" restore && reader_prints 1 "$1" list
}

# Restoring and verifying find that a chain breaks in a slot, and listing finds no fault.
breaks() {  # breaks SLOT
  reader_prints 1 "damaged $1 18" verify && reader_prints 1 "damaged $1 18" restore || return 1
  same "the status of list" "$(ends "$ckpt" list store)" 0
}

# Prints what `restore` does of spaces from 1 on, in each of which page 16 is filled with a byte.
filled() {  # filled CHECKPOINT SPACES BYTE
  local space address text
  printf -v text "$(printf %02x "$3")%.0s" {1..32}
  echo "checkpoint $1"
  for ((space = 1; space <= $2; space++)); do
    printf 'space %d\narea 0x10000 0x11000 rw-\n' $space
    for ((address = 0x10000; address < 0x11000; address += 32)); do
      printf 'bytes 0x%x %s\n' $address "$text"
    done
  done
}

# A run that goes on from a copy of the store loads two bytes of page 16 of each space.
loads_filled() {  # loads_filled CHECKPOINT SPACES BYTE
  local space wanted="reopened $1"
  : > loads
  for ((space = 1; space <= $2; space++)); do
    echo "load $space 0x10000 2" >> loads
    wanted+=$(printf '\nbytes %02x%02x' "$3" "$3")
  done
  rm -rf copy
  cp -r store copy
  same "a run" "$("$ckpt" run copy loads)" "$wanted"
}

# A store is in order, and is restored to spaces in which page 16 is filled with a byte.
shows_filled() {  # shows_filled CHECKPOINT IMAGES SPACES BYTE
  reader_prints 0 "ok checkpoint $1 images $2" verify && reader_prints 0 "$(filled "$1" "$3" "$4")" restore &&
    loads_filled "$1" "$3" "$4"
}
