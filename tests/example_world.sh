# The ledger of `example_world`, killed at random moments and started again.

ledger=$here/../crates/example_world/out/example_world

# What a ledger is reported to have had when it is opened and makes no transfer. It checks the sum of its accounts.
ledger_had() {
  "$ledger" store 0 2> err | sed 's/ transfers$//'
  [ ! -s err ] || cat err
}

# It goes on with what was acknowledged last, or with the checkpoint after that, which was saved and not reported.
ledger_that_is_killed_loses_nothing() {
  [ -x "$ledger" ] || { echo "needs crates/example_world/out/example_world"; return 77; }
  local turn acked=0 had
  for turn in $(seq 200); do
    "$ledger" store 1000000000 > told 2> err &
    sleep "0.$(printf %03d $((RANDOM % 600)))"
    kill -9 $!
    wait $! 2> ended
    [ ! -s err ] || { cat err; return 1; }
    acked=$(sed -n '$s/^acked //p' told | grep . || echo "$acked")
    had=$(ledger_had)
    [ "$had" = "$acked" ] || [ "$had" = $((acked + 100)) ] \
      || { echo "$acked was acknowledged, and there is $had"; return 1; }
    acked=$had
  done
}

# A folder alone isn't taken for a ledger in memory.
ledger_without_a_count_is_refused() {
  [ -x "$ledger" ] || { echo "needs crates/example_world/out/example_world"; return 77; }
  same "the status" "$(ends "$ledger" store)" 1 || return 1
  has "the usage" "$(cat err)" "usage: example_world [DIR COUNT]" || return 1
  [ ! -e store ] || { echo "a store was made"; return 1; }
}

try ledger_that_is_killed_loses_nothing
try ledger_without_a_count_is_refused
