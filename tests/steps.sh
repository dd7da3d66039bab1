# Checkpoints and merges that something meets after each of their steps.

# Does something after each step, eight at a time, in folders of their own.
behind_each() {  # behind_each FIRST LAST COMMAND
  local step
  for step in $(seq "$1" "$2"); do
    mkdir "$step"
    (cd "$step" && "$3" "$step" > told || { echo "after $step:"; cat told; } >> ../failed) &
    [ $((step % 8)) -ne 0 ] || wait
  done
  wait
  [ ! -e failed ] || { cat failed; return 1; }
}

# Runs the script in the file `script` over a new store, which prints this.
answers() {  # answers PRINTED
  same "the status" "$(ends "$ckpt" run store script)" 0 || return 1
  same "the output" "$(cat out)" "$1"
}

# The store is restored to a checkpoint of this number, whose one page begins so.
shows_memory() {  # shows_memory NUMBER HEX
  local zeros=0000000000000000000000000000000000000000000000000000000000000000
  same "the memory" "$("$ckpt" restore store)" "checkpoint $1
space 1
area 0x10000 0x11000 rw-
bytes 0x10000 $2${zeros:${#2}}"
}

# The second checkpoint is trimmed after this step: up to the first one, and once it is acknowledged, up to itself.
trimmed_behind() {  # trimmed_behind STEP
  cat > script << END
mmap 1 0x10000 4096 rw
store 1 0x10000 61
checkpoint 0
store 1 0x10000 68656c6c6f
begin 0
step dumper $1
trim
trim
finish dumper
trim
load 1 0x10000 5
END
  answers "reopened none
done
done
acked 1
done
begun 2
worked
trimmed 5
refused 14 idle
acked 2
trimmed 3
bytes 68656c6c6f" || return 1
  shows_memory 2 68656c6c6f
}

# A checkpoint of one page without pre-dumps takes 36 steps before its last one.
a_checkpoint_is_trimmed_at_each_step() { behind_each 1 36 trimmed_behind; }

# A checkpoint is cancelled after this step, or finished where a call of it is out or its gate may be open; the next
# one is acknowledged, and what was stored is restored.
cancelled_behind() {  # cancelled_behind STEP
  local begun="reopened none done done begun 1" ended
  {
    printf 'mmap 1 0x10000 4096 rw\nstore 1 0x10000 01\nbegin 1\n'
    [ "$1" -eq 0 ] || printf 'step dumper %d\n' "$1"
    printf 'cancel\nfinish dumper\ncheckpoint 0\n'
  } > script
  [ "$1" -eq 0 ] || begun="$begun worked"
  same "the status" "$(ends "$ckpt" run store script)" 0 || return 1
  ended=$(tr '\n' ' ' < out)
  case $ended in
    "$begun cancelled 1 refused 14 idle acked 2 ") ;;
    "$begun refused 11 busy acked 1 acked 2 ") ;;
    *) echo "$ended"; return 1 ;;
  esac
  shows_memory 2 01
}

# With one pre-dump it takes 61 steps before its last one.
a_checkpoint_is_cancelled_at_each_step() {
  behind_each 0 61 cancelled_behind || return 1
  has "what came of them" "$(cat ./*/out)" "cancelled 1" || return 1
  has "what came of them" "$(cat ./*/out)" "refused 11 busy"
}

# A chain of three images of three pages, of which one has data in the first, one in the second, and one is zeros.
make_chain() {
  printf 'mmap 1 0x10000 0x3000 rw\nstore 1 0x10000 61\ncheckpoint 0\nstore 1 0x11000 62\ncheckpoint 0\n'
  printf 'store 1 0x10000 63\ncheckpoint 0\nbegin-merge\n'
}

# A run ends after this step of a merge of that chain: the store shows the memory of the chain.
merged_behind() {  # merged_behind STEP
  { make_chain; printf 'step merger %d\n' "$1"; } > script
  same "the status" "$(ends "$ckpt" run store script)" 0 || return 1
  local zeros=00000000000000000000000000000000000000000000000000000000000000
  same "the memory" "$("$ckpt" restore store)" "checkpoint 3
space 1
area 0x10000 0x13000 rw-
bytes 0x10000 63$zeros
bytes 0x11000 62$zeros"
}

# The merge takes 63 steps before its last one.
a_merge_shows_the_same_at_each_step() {
  behind_each 1 64 merged_behind || return 1
  same "the last answer after step 63" "$(tail -n 1 63/out)" worked || return 1
  same "the last answer after step 64" "$(tail -n 1 64/out)" "merged 4"
}

try a_checkpoint_is_trimmed_at_each_step
try a_checkpoint_is_cancelled_at_each_step
try a_merge_shows_the_same_at_each_step
