# What the README shows of a run, of its images and of a shell is what the programs print, but for the seconds.

readme_shows_what_is_printed() {
  sed -n '/^    \$ \.\/ckpt run --summary/,/^$/p' "$here/../README.md" | sed '/^$/d; s/^    //' > block
  ln -s "$ckpt" ckpt
  ln -s "$here/../examples" examples
  grep '^\$ ' block | sed 's/^\$ //' > commands
  [ "$(wc -l < commands)" = 5 ] || { cat block; return 1; }
  while IFS= read -r words; do
    echo "$ $words"
    bash -c "$words" < /dev/null 2> told
    cat told
  done < commands > printed
  same "the README" "$(sed -E 's/[0-9]+\.[0-9]{6}/S/g' printed)" "$(sed -E 's/[0-9]+\.[0-9]{6}/S/g' block)"
}

# The README's example of the library stands in a program that the gate proves, builds and runs.
readme_example_is_of_a_program() {
  sed -n '/^```rust$/,/^```$/p' "$here/../README.md" | sed '1d; $d' > block
  [ "$(wc -l < block)" -ge 20 ] || { cat block; return 1; }
  has "example_world" "$(cat "$here/../crates/example_world/src/main.rt")" "$(cat block)"
}

try readme_shows_what_is_printed
try readme_example_is_of_a_program
