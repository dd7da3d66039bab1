# Memories whose scripts are long: a space of 1,024 areas, and many stores.

# Prints what a script over an empty store is answered.
answers_to() {  # answers_to SCRIPT
  "$ckpt" run store "$1" > out 2> err || { echo "run failed"; cat out err; return 1; }
  tail -n +2 out
}

# Prints the areas of a space that the store shows.
areas_of() {  # areas_of SPACE
  sed -n "/^space $1\$/,/^space/{/^area/p}" shown
}

# Lines that map 1,024 areas of three pages each, with one page between them; in a build with checks, which is slow for
# each page, those after the first four have one page.
full_space() {
  local number length=0x3000
  for number in {0..1023}; do
    [ -z "${CHECKED:-}" ] || [ "$number" -lt 4 ] || length=0x1000
    printf 'mmap 1 0x%x %s r\n' $((number * 0x4000)) "$length"
  done
}

# Calls on 1,024 areas: each with its answer, and how many areas there are then.
on_full="\
mmap S 0x3000 0x1000 rw|refused 2 ENOMEM|1024
mmap S 0x1000000 0x1000 r|refused 2 ENOMEM|1024
mmap S 0x5000 0x1000 rw|refused 2 ENOMEM|1024
mmap S 0x4000 0x1000 rw|refused 2 ENOMEM|1024
munmap S 0x5000 1|refused 2 ENOMEM|1024
mprotect S 0x5000 1 rw|refused 2 ENOMEM|1024
mprotect S 0x4000 1 rw|refused 2 ENOMEM|1024
mmap S 0x3000 0x1000 r|done|1023
mmap S 0x5000 0x1000 r|done|1024
mmap S 0 0x1000000 rw|done|1
munmap S 0x4000 0x1000|done|1024
munmap S 0x4000 0x3000|done|1023
munmap S 0x3000 0x1000|done|1024
mprotect S 0x5000 1 r|done|1024
mprotect S 0x4000 0x3000 rw|done|1024"

# Each call is made on a child of a full space. One that is refused changes nothing.
a_space_has_1024_areas() {
  local child=2 call answer count
  {
    full_space
    yes 'fork 1' | head -n 15
    while IFS='|' read -r call answer count; do
      echo "${call/ S / $child }"
      child=$((child + 1))
    done <<< "$on_full"
    echo 'checkpoint 0'
  } > script
  answers_to script > answers || { cat answers; return 1; }
  same "the answers" "$(tail -n 16 answers)" "$(cut -d '|' -f 2 <<< "$on_full"; echo 'acked 1')" || return 1
  "$ckpt" restore store > shown
  child=2
  while IFS='|' read -r call answer count; do
    same "the number of areas after $call" "$(areas_of $child | wc -l)" "$count" || return 1
    [ "$answer" = done ] || same "the areas after $call" "$(areas_of $child)" "$(areas_of 1)" || return 1
    child=$((child + 1))
  done <<< "$on_full"
}

# Calls that are made in turn, from 1,024 areas on.
in_turn="\
munmap 1 0 0x3000|done|1023
mprotect 1 0x5000 1 rw|refused 2 ENOMEM|1023
mmap 1 0x5000 1 rw|refused 2 ENOMEM|1023
munmap 1 0x5000 1|done|1024
munmap 1 0x9000 1|refused 2 ENOMEM|1024"

# Each child has the areas after the call before it.
an_area_is_freed() {
  local child=2 call answer count
  {
    full_space
    cut -d '|' -f 1 <<< "$in_turn" | sed 's/$/\nfork 1/'
    echo 'checkpoint 0'
  } > script
  answers_to script > answers || { cat answers; return 1; }
  "$ckpt" restore store > shown
  tail -n 11 answers > calls
  while IFS='|' read -r call answer count; do
    same "the answer to $call" "$(sed -n "$((2 * child - 3))p" calls)" "$answer" || return 1
    same "the number of areas after $call" "$(areas_of $child | wc -l)" "$count" || return 1
    child=$((child + 1))
  done <<< "$in_turn"
}

# Stores to so many pages in turn, twenty to each, and a fork of twice as many with a store to each.
many_stores_script() {  # many_stores_script PAGES
  local turn
  echo "mmap 1 0 $((2 * $1 * 4096)) rw"
  for ((turn = 0; turn < 20 * $1; turn++)); do
    echo "store 1 $((turn % $1 * 4096)) 01020304"
  done
  echo 'fork 1'
  for ((turn = 0; turn < 2 * $1; turn++)); do
    echo "store 2 $((turn * 4096)) 02"
  done
}

# Words and bytes on both sides of the last page that the parent stored to.
many_stores() {
  local pages=1000 last past stores
  [ -z "${CHECKED:-}" ] || pages=50
  last=$(((pages - 1) * 4096)) past=$((pages * 4096)) stores=$((22 * pages))
  { many_stores_script $pages; printf '%s\n' "words 1 $last 2" "words 2 $last 2" "load 1 $last 4" \
    "load 1 $past 4" "load 2 $last 4" "load 2 $past 4"; } > script
  answers_to script > answers || { cat answers; return 1; }
  same "the answers to the stores" "$(head -n $((stores + 2)) answers | sort | uniq -c | sed 's/^ *//')" "1 child 2
$((stores + 1)) done" || return 1
  same "what is left" "$(tail -n +$((stores + 3)) answers)" "words 8180000000000000 0080000000000000
words 8180000000000000 8180000000000000
bytes 01020304
bytes 00000000
bytes 02020304
bytes 02000000"
}

try a_space_has_1024_areas
try an_area_is_freed
try many_stores
