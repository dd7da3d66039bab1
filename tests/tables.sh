# Tables that are made by hand, and the reason that is named for each. They stand in images of serial 2 and checkpoint
# 2, whose parent is 1 but of a whole dump and of a merged image.
declare -A table_headers=([pre_dump]="2 1 2 2 1 2" [dump]="2 2 2 2 1 2" [whole]="2 2 2 2 0 2" [merged]="2 3 2 1 0 2")

end=0x800000000  # the first page after the last of a space
most=0xffffffffffffffff

# A store of one image with this table shows this: a number is the reason of its damage, and all else is printed by
# verify.
table_shows() {  # table_shows KIND PAGES ITEMS ANSWER
  rm -rf store
  make_image store/img-000 "${table_headers[$1]}" "$2" 7 "$3"
  case $4 in
    18) breaks 000 ;;
    [0-9]*) finds "damaged 000 $4" ;;
    *) reader_prints 0 "$4" verify ;;
  esac
}

# Each row of items, after others, has its answer.
tables_show() {  # tables_show KIND FIRST-ITEMS ROWS
  local items answer
  while IFS='|' read -r items answer; do
    table_shows "$1" 0 "$2$items" "$answer" || { echo "after $2$items"; return 1; }
  done <<< "$3"
}

table_heads() {
  tables_show dump "" "\
17 0|11
17 1|11
0xffffffff 0|11
0 1|14
16 0x80000000|14
0 0|ok checkpoint 2 images 1"
}

# 1,024 areas and any number of runs may come: they are missed where they aren't there.
space_heads() {
  tables_show dump "1 0," "\
0 0 0|11
17 0 0|11
17 1025 0|11
1 1025 0|12
1 1024 0|10
1 0 $most|10" || return 1
  tables_show merged "1 0," "1 1025 0|12" || return 1
  tables_show pre_dump "1 0," "1 1 1|12"
}

# The numbers of spaces rise.
second_space_heads() {
  tables_show dump "2 0,3 0 0," "\
3 0 0|11
2 0 0|11
4 0 0|ok checkpoint 2 images 1"
}

# The first area of a dump of one space, after which one run would come: what may stand there lets the run be missed.
first_areas() {
  tables_show dump "1 0,1 1 1," "\
16 0 3 0|12
$end 1 3 0|12
$end-1 2 3 0|12
1 $end 3 0|12
1 $most 3 0|12
$most 1 3 0|12
16 1 8 0|12
16 1 0x103 0|12
16 0 8 1|12
16 1 3 1|14
16 1 3 0x80000000|14
0 $end 7 0|10
$end-1 1 0 0|10"
}

# An area after one of pages 16 and 17 with permissions 3.
second_areas() {
  tables_show dump "1 0,1 2 1,16 2 3 0," "\
17 1 1 0|12
2 1 1 0|12
18 1 3 0|12
18 1 3 1|12
18 1 1 1|14
18 1 1 0|10
19 1 3 0|10"
}

# The first run of a pre-dump of one space that would have two.
first_runs() {
  tables_show pre_dump "1 0,1 0 2," "\
16 0 1 0|13
$end 1 1 0|13
$end-1 2 3 0|13
1 $most 3 0|13
16 1 0 0|13
16 1 4 0|13
16 1 0x101 0|13
16 0 4 1|13
16 1 1 1|14
16 1 1 0x80000000|14
0 $end 2 0|10
$end-1 1 3 0|10"
}

# A run after one of data pages 16 and 17; a third would come.
second_runs() {
  tables_show pre_dump "1 0,1 0 3,16 2 1 0," "\
17 1 3 0|13
2 1 3 0|13
18 1 1 0|13
18 1 1 1|13
18 1 3 1|14
18 1 2 0|10
19 1 1 0|10"
}

# Where there is no parent, no page is in it.
runs_in_a_parent() {
  local items="1 0,1 1 1,16 1 3 0,16 1 2 0"
  table_shows whole 0 "$items" 13 && table_shows merged 0 "$items" 13 && table_shows dump 0 "$items" 18
}

# Two runs in a space with an area of pages 16 to 19, which are not its pages.
not_covered="\
16 1 3 0,18 2 3 0|15
17 1 3 0,19 1 3 0|15
16 3 3 0,20 1 3 0|15
15 1 3 0,17 3 3 0|15
16 4 3 0,20 1 1 0|15
15 1 1 0,16 4 3 0|15"

ends_of_spaces() {
  tables_show dump "1 0,1 1 2,16 4 3 0," "$not_covered" || return 1
  tables_show merged "1 0,1 1 2,16 4 3 0," "$not_covered" || return 1
  table_shows pre_dump 0 "1 0,1 0 0" 15
}

a_run_goes_over_a_border_of_areas() {
  table_shows dump 0 "1 0,1 2 1,16 1 3 0,17 3 1 0,16 4 3 0" "ok checkpoint 2 images 1"
}

# Bytes after the last space, and other numbers of data pages than the header's.
ends_of_tables() {
  local pages items="1 0,1 1 1,16 2 3 0,16 2 1 0"
  for pages in 0 1 3 4; do
    table_shows dump $pages "$items" 16 || return 1
  done
  table_shows dump 2 "$items" "ok checkpoint 2 images 1" || return 1
  make_image store/img-000 "2 2 2 2 1 2" 0 0 "0 0"
  put_byte store/img-000 4104 0
  put_byte store/img-000 56 9
  put_digest store/img-000
  finds "damaged 000 16"
}

# At most 65,536 pages are mapped, in all spaces together. A pre-dump maps none.
too_many_pages() {
  local kind
  for kind in dump merged; do
    tables_show $kind "2 0,1 1 1," "\
0 65535 3 0,0 65535 3 0,2 1 1,0 1 3 0,0 1 3 0|ok checkpoint 2 images 1
0 65536 3 0,0 65536 3 0,2 1 1,0 1 3 0,0 1 3 0|16
0 1 3 0,0 1 3 0,2 1 1,0 65536 3 0,0 65536 3 0|16" || return 1
  done
  table_shows pre_dump 0 "1 0,1 0 1,0 $end 2 0" "ok empty"
}

# Of two items at fault the first is named, also where the second has the lesser number.
the_first_item_at_fault_is_named() {
  tables_show dump "" "\
0 1,17 1025 0|14
1 0,1 2 1,16 1 3 1,1 1 3 0|14
2 0,1 1 0,16 0 3 0,17 0 0|12
2 0,1 0 1,16 1 4 0,17 1025 0|13
2 0,1 1 0,16 1 3 0,17 0 0|15"
}

# 1,024 areas of one page, and as many runs, every second in a parent that isn't there: the table is taken.
a_table_at_the_limit_is_taken() {
  local page areas="" runs=""
  for page in {0..1023}; do
    areas+=",$page 1 $((page % 2)) 0"
    runs+=",$page 1 $((page % 2 + 1)) 0"
  done
  table_shows dump 512 "1 0,16 1024 1024$areas$runs" 18
}

# Makes a file of 1 GiB that is a table but for its header, as that says: these first bytes, and zeros that take no
# room on the disk.
make_sparse() {  # make_sparse KIND FIRST-BYTES
  rm -rf store
  mkdir store
  { header 2 "$1" 1 1 0 1 0 $((1073741824 - 4096)); cat "$2"; } > store/img-000
  truncate -s 1G store/img-000
}

# Every program that reads names the reason, in seconds, and with 300 MB of memory: the table is read front by front. A
# build with checks takes memory of its own, so only the answers of two are looked at.
sparse_is_told() {  # sparse_is_told REASON
  local program programs=("verify store" "run --quiet store script")
  [ -n "${CHECKED:-}" ] || programs+=("list store" "restore store" "export store cores")
  for program in "${programs[@]}"; do
    same "the status of $program" \
      "$([ -n "${CHECKED:-}" ] || ulimit -v 300000; ends timeout 60 "$ckpt" $program)" 1 || return 1
    same "$program" "$(cat out)" "damaged 000 $1" || return 1
  done
}

# A table that is long by its header alone.
sparse_tables_are_read_front_by_front() {
  echo 'checkpoint 0' > script
  table "0 0" > first
  make_sparse 2 first && sparse_is_told 16 || return 1
  table "1 0" > first
  make_sparse 2 first && sparse_is_told 11 || return 1
  table "1 0,1 0 40000000,0 1 3 0" > first
  make_sparse 1 first && sparse_is_told 13
}

# Runs of pages of zeros through three fronts, or in a build with checks through one. The next one has an item of zeros.
sparse_tables_may_go_on_for_fronts() {
  needs_python || return
  local runs=400000
  [ -z "${CHECKED:-}" ] || runs=90000
  echo 'checkpoint 0' > script
  { table "1 0,1 0 40000000"; python3 -c '
import struct, sys
for i in range(int(sys.argv[1])):
    sys.stdout.buffer.write(struct.pack("<QQII", 2 * i, 1, 3, 0))' "$runs"; } > first
  make_sparse 1 first && sparse_is_told 13
}

# `show` prints no more of such a table than its first 2 MiB, here 87,380 areas, and takes 300 MB of memory too, also for
# its document. It reads the whole file for the digest.
sparse_tables_are_shown_front_by_front() {
  [ -z "${CHECKED:-}" ] || { echo "a build with checks is too slow"; return 77; }
  table "1 0,1 40000000 0" > first
  make_sparse 2 first || return 1
  same "the status" "$(ulimit -v 300000; ends timeout 60 "$ckpt" show store)" 1 || return 1
  same "the fault" "$(sed -n 2p out)" "damaged 12 an area is wrong, or there are too many" || return 1
  same "the areas" "$(grep -c '^area 0x0 0x0 ---$' out)" 87380 || return 1
  same "the status of its document" "$(ulimit -v 300000; ends timeout 60 "$ckpt" show store --json)" 1 || return 1
  same "its areas" "$(grep -o '"count":0' out | wc -l)" 87380
}

try table_heads
try space_heads
try second_space_heads
try first_areas
try second_areas
try first_runs
try second_runs
try runs_in_a_parent
try ends_of_spaces
try a_run_goes_over_a_border_of_areas
try ends_of_tables
try too_many_pages
try the_first_item_at_fault_is_named
try a_table_at_the_limit_is_taken
try sparse_tables_are_read_front_by_front
try sparse_tables_may_go_on_for_fronts
try sparse_tables_are_shown_front_by_front
