# Slots whose bytes were changed or made by hand, and the reason that is named for each.

# Changes of one byte: each breaks one rule.
one_byte="\
1=0x73|1
8=3|2
10=4|3
12=1|4
15=0x80|4
96=1|4
100=1|4
4095=1|4
16=0|5
24=2|6
32=1|7
40=0|8
55=0x80|9
8192=2|10
8192=0x11|11
8205=4|12
8232=8|12
8256=2|13
8196=1|14
8260=1|14
8240=0x11|15
8256=3|16
8264=0|9"

# Changes of a header: each rule, also where a later one is broken too. A merged image (`10=3`) stands for a lower
# number than its own and not for 0, and has no parent. 2^52 pages more are 2^64 bytes more, also where the table
# takes the place of the page.
header_changes="\
1=0|1
7=0x4f 8=2|1
7=0x4f 12=1 40=0|1
8=3|2
8=0 12=1|2
9=1 10=0|2
10=0|3
11=1|3
10=4 64=1 16=0|3
12=1|4
15=0x80|4
96=1|4
64=1 96=1|4
4095=0x80 16=0|4
16=0|5
16=0 24=0 40=0|5
24=2 32=1|6
10=3|6
10=3 24=0 32=1|6
32=1 40=0|7
10=1 39=1|7
10=3 16=2 32=1|7
40=0 48=0|8
48=0|9
48=2|9
54=0x10|9
48=0 54=0x10 57=0x10|9
56=0x49|9
56=0x47|9
63=0x80|9"

# Each row of changes has its reason, in a version of the format.
have_reasons() {  # have_reasons VERSION ROWS
  local changes reason
  while IFS='|' read -r changes reason; do
    hello_store "$1" || return 1
    change $changes
    finds "damaged 000 $reason" || { echo "after $changes in version $1"; return 1; }
  done <<< "$2"
}

changed_bytes_have_their_reasons() { have_reasons 1 "$one_byte" && have_reasons 2 "$one_byte"; }

headers_have_their_least_reasons() { have_reasons 1 "$header_changes" && have_reasons 2 "$header_changes"; }

version_one_has_zeros_for_a_digest() {
  have_reasons 1 "64=1|4
80=1|4
95=1|4
64=0x80 95=1|4"
}

# Places in the checkpoint, the digest, the data page and the permissions, where another byte breaks no rule but the
# digest's.
a_changed_byte_breaks_the_digest() {
  local place
  for place in 41 64 95 4096 5000 8191 8232; do
    hello_store 2 || return 1
    flip $place
    finds "damaged 000 17" || return 1
  done
}

# In version 1 a changed byte of a page isn't seen; both versions are in order as they are.
a_file_without_a_digest_is_read() {
  hello_store 1 && flip 5000 && reader_prints 0 "ok checkpoint 1 images 1" verify || return 1
  hello_store 1 && reader_prints 0 "ok checkpoint 1 images 1" verify || return 1
  hello_store 2 && reader_prints 0 "ok checkpoint 1 images 1" verify
}

# Proper fronts of a file that have a header.
a_front_is_too_short() {
  local version length
  for version in 1 2; do
    for length in 4096 4097 8191 8192 8193 8200 8262 8263; do
      hello_store $version || return 1
      truncate -s $length store/img-000
      finds "damaged 000 9" || return 1
    done
  done
}

# Each proper front of a table goes past its end.
a_front_of_a_table_goes_past_its_end() {
  local length
  for length in {0..71}; do
    hello_store 2 || return 1
    truncate -s $((8192 + length)) store/img-000
    change 56="$length"
    reader_prints 1 "damaged 000 10" verify || { echo "of $length bytes"; return 1; }
  done
}

try changed_bytes_have_their_reasons
try headers_have_their_least_reasons
try version_one_has_zeros_for_a_digest
try a_changed_byte_breaks_the_digest
try a_file_without_a_digest_is_read
try a_front_is_too_short
try a_front_of_a_table_goes_past_its_end
