# The rows: scripts with what they print and the store that they leave. Each is run over an empty store:
#   rows/NAME.ckpt     the script
#   rows/NAME.out      what `run` prints; and where they are there
#   rows/NAME.list, NAME.restore, NAME.verify     what these programs print of the store then
#   rows/NAME.bytes    what its files hold: lines `FILE OFFSET HEX`, the bytes from there on, `FILE OFFSET zeros N`, or
#                      `FILE size N`
#   rows/NAME.before   shell commands that are run in the store's folder before the script (put_bytes; those of
#                      images.sh)
# Several runs over one store are NAME.1.ckpt, NAME.2.ckpt, each with files of its own.

# The status that goes with what a program prints, by its last line.
status_of() {  # status_of FILE
  case $(tail -n 1 "$1") in
    "empty chain") echo 3 ;;
    "script line "*) echo 2 ;;
    damaged* | device | out-of-memory | cannot*) echo 1 ;;
    *) echo 0 ;;
  esac
}

# A program prints what a file has, and ends with the status that goes with it.
prints_file() {  # prints_file FILE WORD..
  local file=$1
  shift
  same "the status of $*" "$(ends "$ckpt" "$@")" "$(status_of "$file")" || return 1
  cmp -s out "$file" || { echo "$* printed:"; diff "$file" out; return 1; }
}

# Writes bytes, in hexadecimal, into a file, which is made where it is missing.
put_bytes() {  # put_bytes FILE PLACE HEX
  printf "$(printf %s "$3" | sed 's/../\\x&/g')" | dd of="$1" bs=1 seek="$2" conv=notrunc status=none
}

# What stands in a file of a store: its length, or bytes from a place on, as many as are wanted.
found_in() {  # found_in FILE PLACE WANTED
  local count=$((${#3} / 2))
  case $2,$3 in
    size,*) wc -c < "$1" ;;
    *,zeros*) echo "zeros $(tail -c "+$(($2 + 1))" "$1" | head -c "${3#zeros }" | tr -dc '\0' | wc -c)" ;;
    *) od -An -v -tx1 -j "$2" -N "$count" "$1" | tr -d ' \n' ;;
  esac
}

# Files of a store hold these bytes.
has_bytes() {  # has_bytes STORE FILE
  local file place wanted
  while read -r file place wanted; do
    same "$file, $place" "$(found_in "$1/$file" "$place" "$wanted")" "$wanted" || return 1
  done < "$2"
}

# Runs a script over a store, and compares what it prints and leaves.
row_stands() {  # row_stands STORE ROW
  local program
  if [ -f "$2.before" ]; then
    mkdir -p "$1"
    (cd "$1" && . "$2.before") || return 1
  fi
  prints_file "$2.out" run "$1" "$2.ckpt" || return 1
  for program in list restore verify; do
    [ ! -f "$2.$program" ] || prints_file "$2.$program" "$program" "$1" || return 1
  done
  [ ! -f "$2.bytes" ] || has_bytes "$1" "$2.bytes"
}

# All scripts of the folder, by name; the runs over one store stand in a row.
rows_stand() {
  local script row store count=0 failed=0
  for script in "$here"/rows/*.ckpt; do
    row=${script%.ckpt}
    store=store-$(basename "$row" | sed 's/\.[0-9]*$//')
    row_stands "$store" "$row" || { echo "in rows/$(basename "$row")"; failed=1; }
    count=$((count + 1))
  done
  [ "$count" -gt 0 ] && [ "$failed" -eq 0 ]
}

# A run prints at its end what `restore` prints, also of a memory that no checkpoint has.
a_run_without_a_checkpoint_restores_nothing() {
  printf '# no checkpoint\n' > script
  ends_with 3 "reopened none
empty chain" "" "$ckpt" run --restore store script || return 1
  printf 'mmap 1 0x10000 4096 rw\nstore 1 0x10000 61\n' > script
  ends_with 3 "reopened none
done
done
empty chain" "" "$ckpt" run --restore store script
}

try rows_stand
try a_run_without_a_checkpoint_restores_nothing
