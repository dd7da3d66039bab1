# What a start and a line cost in instructions, which don't depend on how fast a machine is: no more than a ceiling.

# How many instructions a run of a script takes.
instructions_of() {  # instructions_of SCRIPT
  valgrind --tool=callgrind --callgrind-out-file=/dev/null "$ckpt" run store "$1" > out 2> err || { cat err; return 1; }
  sed -n 's/^==[0-9]*== Collected : //p' err
}

# A program that is compiled with checks can't be counted.
instructions_can_be_counted() {
  command -v valgrind > found || { echo "needs valgrind"; return 77; }
  [ -z "${CHECKED:-}" ] || { echo "needs the proved program"; return 77; }
}

# Loads and stores of a space of 16 pages.
write_lines() {  # write_lines COUNT
  awk -v count="$1" 'BEGIN {
    print "mmap 1 0x10000 65536 rw"
    for (at = 0; at < 16; at++) printf "store 1 %d 61\n", 65536 + at * 4096
    for (line = 0; line < count; line++) {
      at = 65536 + (line % 16) * 4096 + (line % 505) * 8
      if (line % 2) printf "load 1 0x%x %d\n", at, line % 64 + 1; else printf "store 1 0x%x %016x\n", at, line + 1
    }
  }'
}

is_at_most() {  # is_at_most WHAT COUNT CEILING
  [ "$2" -le "$3" ] || { echo "$1 takes $2 instructions, more than $3"; return 1; }
}

# The first run makes the files of the store, and the second one finds them.
a_start_costs_few_instructions() {
  instructions_can_be_counted || return
  local count
  echo 'load 1 0x10000 8' > script
  count=$(instructions_of script) || { echo "$count"; return 1; }
  is_at_most "a start over a new store" "$count" 1400000 || return 1
  count=$(instructions_of script) || { echo "$count"; return 1; }
  is_at_most "a start" "$count" 1750000
}

a_line_costs_few_instructions() {
  instructions_can_be_counted || return
  local few many
  write_lines 1000 > few.ckpt
  write_lines 11000 > many.ckpt
  few=$(instructions_of few.ckpt) || { echo "$few"; return 1; }
  rm -rf store
  many=$(instructions_of many.ckpt) || { echo "$many"; return 1; }
  is_at_most "a line" $(((many - few) / 10000)) 2700
}

try a_start_costs_few_instructions
try a_line_costs_few_instructions
