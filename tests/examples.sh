# The examples: each script prints what stands beside it.

# Runs an example over a store.
prints() {  # prints STORE NAME
  same "the status of $2" "$(ends "$ckpt" run "$1" "$here/../examples/$2.ckpt")" 0 || return 1
  same "$2" "$(cat out)" "$(cat "$here/../examples/$2.out")"
}

examples_print_what_stands_beside_them() {
  local name
  for name in first two-areas copy-on-write rounds torn-copy cancelled trimmed; do
    prints "store-$name" "$name" || return 1
  done
  prints store-first second-run
}

# The README's first look is what it prints.
first_run_prints_what_the_readme_has() {
  sed -n '/^    \$ examples\/first-run/,/^$/p' "$here/../README.md" | sed '1d; /^$/d; s/^    //' > wanted
  CKPT=$ckpt "$here/../examples/first-run" > out 2> err || { cat err; return 1; }
  cmp out wanted || return 1
  cp "$here/../examples/first.ckpt" relative.ckpt
  FOLDER=kept CKPT=$ckpt "$here/../examples/first-run" relative.ckpt > out 2> err || { cat err; return 1; }
  cmp out wanted || return 1
  same "the store" "$("$ckpt" list kept | tail -n 1)" "tip 1" || return 1
  same "the last line" "$(tail -n 1 err)" "the store is kept; try: $ckpt list kept" || return 1
  echo 'load 1' > unfit.ckpt
  CKPT=$ckpt "$here/../examples/first-run" unfit.ckpt > out 2> err
  same "the status of a script that doesn't fit" $? 2
}

# What isn't a script is refused before anything is built.
first_run_checks_its_argument() {
  ends_with 2 "" "first-run: missing.ckpt: no script that can be read" "$here/../examples/first-run" missing.ckpt \
    || return 1
  ends_with 2 "" "first-run: .: no script that can be read" "$here/../examples/first-run" . || return 1
  ends_with 2 "" "usage: examples/first-run [SCRIPT]" "$here/../examples/first-run" one two
}

# A tree with the launcher and the program that the first look keeps, which prints its words; and an `rt` that builds
# nothing.
make_tree() {
  mkdir -p tree/crates/ckpt tree/examples tree/out tree/tests tools
  cp "$here/../ckpt" "$here/../crates.txt" tree
  cp "$here/../examples/first-run" "$here/../examples/first.ckpt" tree/examples
  printf '#!/bin/sh\necho checked "$@"\n' > tree/out/ckpt-checked
  printf '#!/bin/sh\nexit 1\n' > tools/rt
  printf '#!/bin/sh\necho built >&2\ncp "%s" "$1"\n' "$PWD/program" > tree/tests/build_checked
  printf '#!/bin/sh\nmkdir -p "$3"; echo built "$@"\n' > program
  chmod +x tree/out/ckpt-checked tools/rt tree/tests/build_checked program
}

# While there is no proved program the launcher reads by the kept one, and says so; what writes is built first.
launcher_reads_by_the_kept_program() {
  local words told="ckpt: run by out/ckpt-checked, which isn't proved; ./ckpt --build makes the proved program"
  make_tree
  for words in "list store" "restore store" "verify store" "show store" "history store" \
    "-q list store" --help --version; do
    ends_with 0 "checked $words" "$told" tree/ckpt $words || return 1
  done
  same "the status of a run" "$(PATH=$PWD/tools:$PATH ends tree/ckpt -v run store script)" 1 || return 1
  has "a run" "$(cat err)" "ckpt: the program was not built" || return 1
  mkdir -p tree/crates/ckpt/out
  printf '#!/bin/sh\necho proved "$@"\n' > tree/crates/ckpt/out/ckpt
  chmod +x tree/crates/ckpt/out/ckpt
  ends_with 0 "proved list store" "" tree/ckpt list store || return 1
  ends_with 0 "" "" tree/ckpt --build
}

# The first look builds where no program is kept or a source is newer, and names a command that works at once.
first_run_keeps_its_program() {
  make_tree
  rm tree/out/ckpt-checked
  (cd tree && examples/first-run > ../out 2> ../err) || { cat err; return 1; }
  same "what was run" "$(cat out)" "built run --restore $PWD/tree/out/first-store $PWD/tree/examples/first.ckpt" \
    || return 1
  has "the build" "$(cat err)" "built" || return 1
  same "the last line" "$(tail -n 1 err)" "the store is kept; try: ./ckpt list out/first-store" || return 1
  (cd tree && examples/first-run > ../out 2> ../err) || { cat err; return 1; }
  same "what the second look says" "$(cat err)" "the store is kept; try: ./ckpt list out/first-store" || return 1
  same "the command" "$(cd tree && bash -c "$(sed 's/.*try: //' ../err)" 2> ../told)" "built list out/first-store"
}

try examples_print_what_stands_beside_them
try first_run_prints_what_the_readme_has
try first_run_checks_its_argument
try launcher_reads_by_the_kept_program
try first_run_keeps_its_program
