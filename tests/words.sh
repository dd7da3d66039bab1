# The command line, the help, and faults of the script.

help_into_a_full_device() {
  has_full_device || return
  "$ckpt" --help > /dev/full 2> err
  same "the status" $? 1 || return 1
  same "the text" "$(cat err)" "ckpt: standard output: No space left on device (os error 28)"
}

answers_into_a_full_device() {
  has_full_device || return
  make_store store || return 1
  "$ckpt" restore store > /dev/full 2> err
  same "the status" $? 1 || return 1
  same "the text" "$(cat err)" "ckpt: standard output: No space left on device (os error 28)" || return 1
  "$ckpt" restore --quiet store > /dev/full 2> err
  same "the status with --quiet" $? 1 || return 1
  same "the text with --quiet" "$(cat err)" ""
}

# Also where more is printed than waits to be written, it is reported once.
many_answers_into_a_full_device() {
  has_full_device || return
  make_image store/img-000 "2 2 1 1 0 1" 4 1 "1 0, 1 1 1, 16 4 3 0, 16 4 1 0"
  "$ckpt" restore store > /dev/full 2> err
  same "the status" $? 1 || return 1
  same "the text" "$(cat err)" "ckpt: standard output: No space left on device (os error 28)" || return 1
  "$ckpt" restore -q store > /dev/full 2> err
  same "the text with -q" "$(cat err)" ""
}

# A pipe that nobody reads, as descriptor 8.
open_unread_pipe() {
  mkfifo unread && exec 7<> unread 8> unread 7>&-
}

# Where whoever read the answers is gone, as after `head`, there is nobody to report it to.
answers_that_nobody_reads() {
  local words
  make_store store || return 1
  open_unread_pipe || { echo "needs named pipes"; return 77; }
  for words in --help "restore store" "list store" "verify store" "show store" "restore --json store" \
    "run next script" "shell store" "merge store"; do
    "$ckpt" $words < /dev/null >&8 2> err
    same "the status of $words" $? 1 || return 1
    same "what $words tells" "$(cat err)" "" || return 1
  done
}

folder_that_is_no_text() {
  same "the status" "$(ends "$ckpt" restore $'d\xff')" 2 || return 1
  same "the output" "$(cat out)" "" || return 1
  has "the text" "$(cat err)" "ckpt: the command line: " || return 1
  case $(cat err) in *Kind\(* | *Error:*) cat err; return 1 ;; esac
}

help_has_examples_and_statuses() {
  local program
  for program in run shell merge mutate restore list verify history diff drop show export import send; do
    "$ckpt" $program --help > out || return 1
    has "$program" "$(cat out)" "ckpt $program store" || return 1
    has "$program" "$(cat out)" "Status: 0" || return 1
    has "$program" "$(cat out)" "The folder of a store" || return 1
  done
  has "the limits" "$("$ckpt" --help)" "65,536 mapped pages"
}

# The table of the language, as the help has it: each form of a line.
forms_of_help() {
  "$ckpt" run --help | sed -n '/^hexadecimal; empty lines/,/^Status/p' | grep '^  ' | cut -c 3-38 | sed 's/ *$//'
}

# A line of a form, each field with a value that fits.
line_of_form() {  # line_of_form FORM
  sed -E 's/ SPACE/ 1/; s/ ADDRESS/ 0x10000/; s/ LENGTH/ 4096/; s/ PROT/ rw/; s/ HEX/ 6a/
    s/ ROUNDS/ 0/; s/ WORKER/ dumper/; s/ [NK]$/ 1/' <<< "$1"
}

# What the parser says of a line.
checked() {  # checked LINE
  "$ckpt" run --check - <<< "$1" 2> why
}

# The parser takes a line of each form of the table, and none with a field more or less, which is explained by the
# table's count.
help_of_run_has_the_language() {
  local form line fields
  forms_of_help > forms
  [ "$(wc -l < forms)" = 22 ] || { cat forms; return 1; }
  while read -r form; do
    line=$(line_of_form "$form")
    fields=$(wc -w <<< "$form")
    case $line in *[A-Z]*) echo "$line has an unknown field"; return 1 ;; esac
    same "$line" "$(checked "$line")" "ok 1 requests" || return 1
    same "$line 1" "$(checked "$line 1")" "script line 1" || return 1
    has "$line 1" "$(cat why)" "it has $((fields + 1)) fields, separated by single spaces, and needs $fields" \
      || return 1
    [ "$fields" = 1 ] && continue
    same "${line% *}" "$(checked "${line% *}")" "script line 1" || return 1
    has "${line% *}" "$(cat why)" "it has $((fields - 1)) fields, separated by single spaces, and needs $fields" \
      || return 1
  done < forms
}

# The table of docs/SCRIPTS.md has the same forms.
page_has_the_language() {
  sed -n '/^| Line | Does |/,/^$/p' "$here/../docs/SCRIPTS.md" | sed -nE 's/^\| (`.*`) \| .*/\1/p' \
    | grep -oE '`[^`]+`' | tr -d '`' | sort > readme
  forms_of_help | sort > forms
  same "the table of docs/SCRIPTS.md" "$(cat readme)" "$(cat forms)"
}

# The man page has each form with what it does.
manual_has_the_language() {
  local form first rest
  sed 's/\\-/-/g' "$here/../docs/ckpt.1" | sed -n '/^.SH REQUESTS$/,/^.SH REQUESTS OF A SHELL/p' | sed '1,/^.TP/d' \
    | grep -vE '^\.(TP|SH)' > page
  "$ckpt" run --help | sed -n '/^hexadecimal; empty lines/,/^Status/p' \
    | sed -nE 's/^  (.{36})(.)(.*)/\1|\2|\3/p' > forms
  while IFS='|' read -r form first rest; do
    echo ".B ${form%"${form##*[! ]}"}"
    echo "${first^^}$rest."
  done < forms > wanted
  same "the requests of the manual" "$(cat page)" "$(cat wanted)"
}

quiet_tells_no_cause() {
  printf 'mmap 1 0x10000 4096 wr\n' > script
  ends_with 2 "script line 1" "" "$ckpt" run --quiet store script || return 1
  same "the status of a missing script" "$(ends "$ckpt" run --quiet store missing)" 1 || return 1
  same "its cause" "$(cat err)" ""
}

version_is_printed() {
  local number
  number=$(sed -nE 's/^## ([0-9.]+),.*/\1/p' "$here/../docs/CHANGELOG.md" | head -n 1)
  same "the version" "$("$ckpt" --version)" \
    "ckpt $number, writes images of version 2 and reads 1 and 2, rattle-kit-13f"
}

unfit_line_is_explained() {
  printf '# a comment\nmmap 1 0x10000 4096 wr\n' > script
  same "the status" "$(ends "$ckpt" run store script)" 2 || return 1
  same "the line" "$(cat out)" "script line 2" || return 1
  has "the field" "$(cat err)" "ckpt: script: line 2: field 5 has to be none, or some of rwx" || return 1
  [ ! -e store ] || { echo "a store was made"; return 1; }
}

missing_script_is_told() {
  same "the status" "$(ends "$ckpt" run store missing)" 1 || return 1
  same "the line" "$(cat out)" "cannot read SCRIPT" || return 1
  has "its cause" "$(cat err)" "ckpt: missing: No such file or directory (os error 2)"
}

script_beyond_memory() {
  [ -z "${CHECKED:-}" ] || { echo "a build with checks needs more memory"; return 77; }
  truncate -s 8G script || { echo "needs a sparse file"; return 77; }
  same "the status" "$( (ulimit -v 1000000; ends "$ckpt" run store script) )" 1 || return 1
  same "the line" "$(cat out)" "out-of-memory"
}

try help_into_a_full_device
try answers_into_a_full_device
try many_answers_into_a_full_device
try answers_that_nobody_reads
try folder_that_is_no_text
try help_has_examples_and_statuses
try help_of_run_has_the_language
try page_has_the_language
try manual_has_the_language
try quiet_tells_no_cause
try version_is_printed
try unfit_line_is_explained
try missing_script_is_told
try script_beyond_memory
