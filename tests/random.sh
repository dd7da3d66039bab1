# Random calls on a few spaces of a memory, and on plain maps of pages beside it: the program answers what the maps
# do, and its store shows what they have. And random checkpoints while such calls are made.

# The permissions of each page as `SPACE:PAGE`, the first byte of a sector as `SPACE:PAGE:SECTOR`, and the living
# spaces.
declare -A prots bytes alive

# The first pages of tables of each level, and the end of all pages.
borders=($((1 << 9)) $((1 << 18)) $((1 << 27)) $((1 << 35)))
last_end=$((1 << 35))
some_prots=(rw r rw none)
declare -A texts=([rw]=rw- [r]=r-- [none]=---)

# Each page that a call can be on, rising.
near_borders=$(for border in "${borders[@]}"; do seq $((border - 3)) $((border + 5)); done)

forget_page() {  # forget_page SPACE PAGE
  local sector
  unset "prots[$1:$2]"
  for sector in {0..7}; do
    unset "bytes[$1:$2:$sector]"
  done
}

plain_mmap() {  # plain_mmap SPACE FIRST COUNT PROT
  local page
  [ "$3" -gt 0 ] || { answer="refused 1 EINVAL"; return; }
  [ $(($2 + $3)) -le "$last_end" ] || { answer="refused 2 ENOMEM"; return; }
  for ((page = $2; page < $2 + $3; page++)); do
    forget_page "$1" "$page"
    prots[$1:$page]=$4
  done
  answer=done
}

plain_munmap() {  # plain_munmap SPACE FIRST COUNT
  local page
  [ "$3" -gt 0 ] && [ $(($2 + $3)) -le "$last_end" ] || { answer="refused 1 EINVAL"; return; }
  for ((page = $2; page < $2 + $3; page++)); do
    forget_page "$1" "$page"
  done
  answer=done
}

plain_mprotect() {  # plain_mprotect SPACE FIRST COUNT PROT
  local page
  answer="refused 2 ENOMEM"
  for ((page = $2; page < $2 + $3; page++)); do
    [ -n "${prots[$1:$page]-}" ] || return
  done
  for ((page = $2; page < $2 + $3; page++)); do
    prots[$1:$page]=$4
  done
  answer=done
}

plain_store() {  # plain_store SPACE PAGE SECTOR BYTE
  case ${prots[$1:$2]-} in
    "") answer="segv maperr" ;;
    rw) bytes[$1:$2:$3]=$4; answer=done ;;
    *) answer="segv accerr" ;;
  esac
}

# Makes a child with the least number and a copy of each page.
plain_fork() {  # plain_fork SPACE
  local child=1 key
  while [ -n "${alive[$child]-}" ]; do
    child=$((child + 1))
  done
  alive[$child]=yes
  for key in "${!prots[@]}"; do
    [ "${key%%:*}" != "$1" ] || prots[$child:${key#*:}]=${prots[$key]}
  done
  for key in "${!bytes[@]}"; do
    [ "${key%%:*}" != "$1" ] || bytes[$child:${key#*:}]=${bytes[$key]}
  done
  answer="child $child"
}

plain_exit() {  # plain_exit SPACE
  local page
  [ "${#alive[@]}" -gt 1 ] || { answer="refused 15 last-space"; return; }
  unset "alive[$1]"
  for page in $near_borders; do
    forget_page "$1" "$page"
  done
  answer=done
}

# Makes a call on the plain maps; `answer` is what it answers.
plain() {  # plain CALL SPACE WORD..
  [ -n "${alive[$2]-}" ] || { answer="refused 3 no-such-space"; return; }
  "plain_$@"
}

# The next random call, in words of the plain maps: on pages near a border of tables, also on a space that isn't
# alive, and of a range without pages or past the last. It is no fork with 3 spaces alive.
random_call() {
  local space first count prot
  seed=$((seed * 6364136223846793005 + 1442695040888963407))
  space=$(((seed >> 58 & 63) % 3 + 1))
  first=$((borders[seed >> 55 & 3] - 3 + (seed >> 50 & 31) % 5))
  count=$(((seed >> 44 & 63) % 5))
  prot=${some_prots[seed >> 42 & 3]}
  case $((seed >> 36 & 31)) in
    [0-7]) call="mmap $space $first $count $prot" ;;
    8 | 9 | 10 | 11) call="munmap $space $first $count" ;;
    12 | 13 | 14 | 15 | 16 | 17) call="mprotect $space $first $count $prot" ;;
    18 | 19 | 20) call="fork $space" ;;
    21) call="exit $space" ;;
    *) call="store $space $first $((seed >> 32 & 7)) $((seed >> 24 & 255))" ;;
  esac
  [ "$call" != "fork $space" ] || [ "${#alive[@]}" -lt 3 ] || call="exit $space"
}

# Prints a call as a script's line. The last page of a range is only in part in it.
line_of() {  # line_of CALL SPACE WORD..
  case $1 in
    store) printf 'store %d 0x%x %02x\n' "$2" $(($3 * 4096 + $4 * 512)) "$5" ;;
    fork | exit) echo "$1 $2" ;;
    *) echo "$1 $2 $(($3 * 4096)) $(($4 > 0 ? $4 * 4096 - 5 : 0)) ${5-}" | sed 's/ $//' ;;
  esac
}

# Prints the areas of a space of the plain maps.
plain_areas() {  # plain_areas SPACE
  local page own from="" last="" prot=""
  for page in $near_borders end; do
    own=${prots[$1:$page]-}
    if [ -n "$from" ] && { [ "$page" != $((last + 1)) ] || [ "$own" != "$prot" ]; }; then
      printf 'area 0x%x 0x%x %s\n' $((from * 4096)) $((last * 4096 + 4096)) "${texts[$prot]}"
      from=""
    fi
    [ -z "$own" ] || { from=${from:-$page}; last=$page; prot=$own; }
  done
}

# Prints the bytes of a space of the plain maps that aren't 0.
plain_bytes() {  # plain_bytes SPACE
  local page sector byte
  for page in $near_borders; do
    for sector in {0..7}; do
      byte=${bytes[$1:$page:$sector]-0}
      [ "$byte" -eq 0 ] || printf 'bytes 0x%x %02x%062d\n' $((page * 4096 + sector * 512)) "$byte" 0
    done
  done
}

# Prints what `restore` does of the plain maps.
plain_restored() {
  local space
  echo "checkpoint 1"
  for space in 1 2 3; do
    if [ -n "${alive[$space]-}" ]; then
      echo "space $space"
      plain_areas "$space"
      plain_bytes "$space"
    fi
  done
}

# Makes 60 calls on plain maps: their lines go to a script, and their answers to another file.
plain_run() {  # plain_run SCRIPT ANSWERS
  local number
  prots=()
  bytes=()
  alive=([1]=yes)
  echo "reopened none" > "$2"
  for number in {1..60}; do
    random_call
    plain $call
    line_of $call >> "$1"
    echo "$answer" >> "$2"
  done
  echo "checkpoint 0" >> "$1"
  echo "acked 1" >> "$2"
}

random_calls() {
  local number seed=1
  for number in {1..12}; do
    plain_run script-$number answers-$number
    same "the status of run $number" "$(ends "$ckpt" run store-$number script-$number)" 0 || return 1
    diff answers-$number out || return 1
    plain_restored > restored
    "$ckpt" restore store-$number | diff restored - || return 1
  done
}

# Random checkpoints beside random calls, from a seed on; in a build with checks, which is slow, a sample.
checkpoints_from() {  # checkpoints_from SEED
  needs_python || return
  local count=700
  [ -z "${CHECKED:-}" ] || count=20
  python3 "$here/random_checkpoints.py" "$ckpt" "$1" "$count"
}

random_checkpoints() { checkpoints_from 1; }
more_random_checkpoints() { checkpoints_from 1001; }
yet_more_random_checkpoints() { checkpoints_from 2001; }

try random_calls
try random_checkpoints
try more_random_checkpoints
try yet_more_random_checkpoints
