# The language of scripts: which scripts don't fit, and on which line; and which spellings are taken.

# Scripts that don't fit: the line that is blamed, and the script, with escapes as `printf %b` takes them.
unfit_scripts='1 load 1  2 3
3 \n#\nload 1 2 3\x20\n
2 checkpoint 0\nload 1 2\t3\n
1 load 1 2 3\r\n
1 load 1 0X10 3
1 load 1 +5 3
1 load 1 0x 3
1 load 1 0x+5 3
1 load 1 18446744073709551616 3
1 load 1 0x10000000000000000 3
1 load 1 a 3
1 load 1 2
1 load 1 2 3 4
2 checkpoint 0\nload 1 0x10000\n
1 Load 1 2 3
1 store 1 2 abc
1 store 1 2\x20
1 store 1 2 0x
2 cancel\nstore 1 0x10000 6\n
1 mmap 1 2 3 wr
1 mmap 1 2 3\x20
1 mmap 1 0x10000 4096
1 mmap 1 0x10000 4096 wr\n
3 \n# a comment\nmmap 1 0x10000 4096 rw x\n
1 checkpoint one
1 checkpoint
2 checkpoint 0\n \ncheckpoint 1
1 unmap 1 2 3
1 munmap 1 2
1 mprotect 1 2 3
1 fork
1 fork 1 2
1 exit 1 2
1 fault 1
1 try 1 2 3
1 words 1 2 0
1 words 1 2
1 begin
1 begin\n
1 begin 1 2
1 begin one\n
1 cancel 1
2 cancel\ncancel now\n
1 reopen\x20
1 work
1 work\n
1 work writer
1 work Dumper\n
1 perform dumper 1
1 perform dumper 1\n
1 perform-at dumper
1 perform-at dumper x
1 perform-at writer 0
1 perform-at dumper -1
1 perform-at dumper 0 0\n
1 step dumper 0
1 step dumper 0\n
1 step dumper
1 step dumper\n
1 step 3 dumper
1 finish Opener
1 finish dumper 1\n
1 merge 1
1 merge 1\n
1 begin-merge 0
1 begin-merge 0\n
1 begin_merge
1 \x20\n
1 \x20# no comment
2 \n#\xff\n'

# A script that doesn't fit is blamed for its line, and makes no folder; a store that is there stays as it is.
is_blamed() {  # is_blamed LINE SCRIPT
  local told="script line $1"
  printf %b "$2" > script
  same "the status of '$2'" "$(ends "$ckpt" run missing script)" 2 || return 1
  same "the output of '$2'" "$(cat out)" "$told" || return 1
  [ ! -e missing ] || { echo "a folder was made for '$2'"; return 1; }
  same "'$2' over a store" "$("$ckpt" run --quiet store script)" "$told"
}

scripts_that_do_not_fit() {
  make_store store || return 1
  local row before
  before=$(sums store)
  while IFS= read -r row; do
    is_blamed "${row%% *}" "${row#* }" || return 1
  done <<< "$unfit_scripts"
  same "the store" "$(sums store)" "$before"
}

# Scripts that fit, ` => `, and what they print over an empty store after `reopened none`, each with such escapes.
fit_scripts='# a page\n\nmmap 1 0x10000 4096 rx\nload 1 0x10000 1\nstore 1 0x10000 61\n => done\nbytes 00\nsegv accerr\n
mmap 1 4096 0x2000 rw\nmunmap 1 4096 0x1000\nload 1 4096 1\nload 1 8192 1 => done\ndone\nsegv maperr\nbytes 00\n
munmap 2 4096 0x1000 => refused 3 no-such-space\n
mprotect 1 0 1 none => refused 2 ENOMEM\n
mmap 1 65536 4096 rw\nmprotect 1 65536 1 none\nload 1 0x10000 1 => done\ndone\nsegv accerr\n
mmap 1 0 4096 r\nmmap 1 0 4096 w\nmmap 1 0 4096 x\nmmap 1 0 4096 wx\nmmap 1 0 4096 rwx => done\ndone\ndone\ndone\ndone\n
fork 1\nexit 16\nexit 2 => child 2\nrefused 3 no-such-space\ndone\n
load 18446744073709551615 007 0x0010\n => refused 3 no-such-space\n
mmap 1 0 4096 rw\nload 0001 007 0x0010 => done\nbytes 00000000000000000000000000000000\n
mmap 1 0 4096 rw\nload 1 0x00007 007 => done\nbytes 00000000000000\n
try 1 2 00 => segv maperr\n
fault 1 0xf => segv maperr\n
store 0 0xfF 0aFf\n => refused 3 no-such-space\n
mmap 1 0 4096 rw\nstore 1 0xfF 0aFf\nload 1 255 2\nload 1 0xFf 2\n => done\ndone\nbytes 0aff\nbytes 0aff\n
words 1 0x10000 600 => refused 1 EINVAL\n
checkpoint 0 => acked 1\n
begin 0x9\ncheckpoint 8 => refused 1 EINVAL\nacked 1\n
begin-merge\ncancel => refused 14 idle\nrefused 14 idle\n
merge\nreopen\ntrim => refused 14 idle\nrefused 11 busy\nrefused 14 idle\n
work dumper => refused 14 idle\n
perform merger => refused 14 idle\n
perform-at dumper 0\nperform-at merger 0x7 => refused 14 idle\nrefused 14 idle\n
step opener 1 => refused 14 idle\n
step dumper 0x10 => refused 14 idle\n
mmap 1 0 1 w\nstore 1 0 61\nbegin 0\nstep dumper 0x24\nstep dumper 1 => done\ndone\nbegun 1\nworked\nacked 1\n
finish merger => refused 14 idle\n'

# A script that fits is taken, and prints this.
is_taken() {  # is_taken SCRIPT PRINTED
  printf %b "$1" > script
  rm -rf store
  same "the status of '$1'" "$(ends "$ckpt" run store script)" 0 || return 1
  same "the output of '$1'" "$(cat out; echo .)" "$(printf %b "reopened none\n$2."; echo)"
}

scripts_that_fit() {
  local row
  while IFS= read -r row; do
    is_taken "${row%% => *}" "${row##* => }" || return 1
  done <<< "$fit_scripts"
  is_taken "" "" || return 1
  is_taken "\n# nothing" ""
}

try scripts_that_do_not_fit
try scripts_that_fit
