# docs/PROMISE.md, docs/BELIEVED.md, docs/CLAUSES.md and the README: what they quote, link to and list stands in the
# sources.

sources=$(cd "$here/.." && pwd)
headline=(sd_run run_lines promise so_far + sd_readers restore_to restored + sd_disk DirDisk for Disk)
# The words of the two other tiers: the file format, and the printed text.
tiers=(--above Shows --above answer_line --above memory_text --above ExitsAs)

# Each definition that is quoted stands in the file that its block names, word for word.
promise_quotes_the_definitions() {
  needs_python || return
  python3 - "$sources" << 'PYTHON'
import re, sys
from pathlib import Path

top = Path(sys.argv[1])
pages = [(top / "docs" / name).read_text() for name in ("PROMISE.md", "SHOWN.md", "PRINTED.md")]
blocks = [block for page in pages for block in re.findall(r"^```antt (\S+)\n(.*?)\n```$", page, re.M | re.S)]
quotes = [(path, quote) for path, block in blocks for quote in block.split("\n\n")]
wrong = [(path, quote) for path, quote in quotes if f"\n{quote}\n" not in (top / path).read_text()]
for path, quote in wrong:
    print(f"{path} has not:\n{quote}")
sys.exit(1 if wrong or len(quotes) < 20 else 0)
PYTHON
}

# From `main` the calls lead to each function that the table of docs/CLAUSES.md names, through those before it.
programs_call_what_is_promised() {
  needs_python || return
  python3 - "$sources" << 'PYTHON'
import re, sys
from pathlib import Path

top = Path(sys.argv[1])
calls = {}
programs = ["ckpt", "sd_queries", "sd_cores", "sd_jobs", "sd_send", "sd_arrivals", "sd_shell"]
for file in sorted(file for name in programs for file in (top / "crates" / name / "src").glob("*.rt")):
    for indent, name, body in re.findall(r"^( *)(?:pub(?:\(\w+\))? )?fn (\w+).*?\{\n(.*?)^\1\}$", file.read_text(), re.M | re.S):
        calls.setdefault(name, set()).update(re.findall(r"\b(\w+)\(", body))


def reached(start):
    found, open_ = {start}, [start]
    while open_:
        for name in calls.get(open_.pop(), ()):
            if name not in found:
                found.add(name)
                open_.append(name)
    return found


page = (top / "docs/CLAUSES.md").read_text().partition("## What each program calls")[2].partition("\n## ")[0]
rows = [[cell.strip() for cell in line.split("|")[1:4]] for line in page.splitlines() if line.startswith("| `") or line.startswith("| those")]
wrong = []
for program, by, to in rows:
    way = ["main", *re.findall(r"`(\w+)`", by)]
    ends = re.findall(r"`(\w+)`", to)
    steps = [*zip(way, way[1:]), *((way[-1], end) for end in ends)]
    wrong += [f"{program}: {first} doesn't lead to {then}" for first, then in steps if then not in reached(first)]
print(*wrong, sep="\n")
sys.exit(1 if wrong or len(rows) < 12 else 0)
PYTHON
}

# The number of definitions that have to be believed for the first tier is the one that the page has, and at most 100.
promise_is_small() {
  needs_python || return
  local told count
  told=$(grep -oE '[0-9]+ definitions of [0-9]+ lines' "$sources/docs/PROMISE.md" | head -n 1)
  "$sources/docs/believe" "${tiers[@]}" "${headline[@]}" > counted || return 1
  same "the count" "$(sed -E 's/^([0-9]+ definitions), ([0-9]+ lines).*/\1 of \2/' counted)" "$told" || return 1
  count=${told%% *}
  [ "$count" -le 100 ] || { echo "$count definitions"; return 1; }
  has "docs/BELIEVED.md" "$(cat "$sources/docs/BELIEVED.md")" "$told" || return 1
  has "the README" "$(cat "$sources/README.md")" "$told" || return 1
  [ "$(wc -l < "$sources/docs/PROMISE.md")" -le 340 ] || { echo "the page is too long"; return 1; }
}

# docs/BELIEVED.md and the README have the same number, and the former lists the definitions.
what_is_believed_is_listed() {
  needs_python || return
  local told row
  told=$(grep -oE '[0-9]+ definitions of [0-9]+ lines' "$sources/docs/PROMISE.md" | tail -n 1)
  same "all tiers" "$("$sources/docs/believe" "${headline[@]}" | sed -E 's/^([0-9]+ definitions), ([0-9]+ lines).*/\1 of \2/')" \
    "$told" || return 1
  has "the README" "$(cat "$sources/README.md")" "$told" || return 1
  has "docs/BELIEVED.md" "$(cat "$sources/docs/BELIEVED.md")" "$told" || return 1
  "$sources/docs/believe" --table "${headline[@]}" | grep '^| `' > rows
  [ "$(wc -l < rows)" -ge 10 ] || { cat rows; return 1; }
  while read -r row; do
    grep -qxF "$row" "$sources/docs/BELIEVED.md" || { printf 'docs/BELIEVED.md lacks\n%s\n' "$row"; return 1; }
  done < rows
}

# Whoever hides a definition from the count is found out.
hidden_definitions_are_counted() {
  needs_python || return
  local told
  told=$(python3 "$sources/tests/cheat_believe.py") || { echo "$told"; return 1; }
  same "the ways that were tried" "$(grep -c '^ok ' <<< "$told")" 13
}

# Each link of the README and of docs/CLAUSES.md leads to the line of its function or clause.
links_lead_to_clauses() {
  needs_python || return
  "$sources/docs/links"
}

# Each row of a page's table of promises names planted bugs that the gate refuses.
rows_name_planted_bugs() {  # rows_name_planted_bugs PAGE HEAD LEAST
  local rows name
  sed -n "/^$2/,/^\$/p" "$sources/$1" | sed '1,2d; /^$/d' > rows
  rows=$(wc -l < rows)
  [ "$rows" -ge "$3" ] || { cat rows; return 1; }
  same "the rows of $1 with a planted bug" "$(grep -cE '\| `[a-z_]+`[^|]* \|$' rows)" "$rows" || return 1
  for name in $(sed -E 's/.*\| ([^|]*) \|$/\1/; s/[`,]//g' rows); do
    ls "$sources"/crates/*/must-fail/"$name.edit" > /dev/null 2>&1 || { echo "no planted bug $name"; return 1; }
  done
}

each_promise_names_planted_bugs() {
  rows_name_planted_bugs README.md '| Promise | Carried by | Refused' 6 || return 1
  rows_name_planted_bugs docs/CLAUSES.md '| Promise | Carried by | Definitions to believe | Refused' 12
}

try promise_quotes_the_definitions
try promise_is_small
try what_is_believed_is_listed
try hidden_definitions_are_counted
try links_lead_to_clauses
try each_promise_names_planted_bugs
try programs_call_what_is_promised
