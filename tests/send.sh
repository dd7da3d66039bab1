# What `ckpt send` writes: a stream, as another program reads it.

# A store whose second checkpoint has two rounds, so that pre-dumps are sent too.
make_sent() {  # make_sent DIR
  printf '%s\n' 'mmap 1 0x10000 8192 rw' 'store 1 0x10000 61' 'checkpoint 0' 'store 1 0x11000 62' 'checkpoint 2' \
    'store 1 0x10000 63' 'checkpoint 0' > script
  "$ckpt" run "$1" script > made || { cat made; return 1; }
  same "the run" "$(grep -c acked made)" 3
}

# A stream, as another program reads it: a line for each record, and whether the digest is right.
read_stream() {  # read_stream FILE
  python3 - "$1" << 'END'
import hashlib, struct, sys
text = open(sys.argv[1], "rb").read()
assert text[:8] == b"ckptsend"
version, base = struct.unpack("<QQ", text[8:24])
print("head", version, base, text[24:56].hex() if base else text[24:56] == bytes(32))
at, kind = 56, 0
while kind != 3:
    kind, value = struct.unpack("<QQ", text[at:at + 16])
    at += 16
    if kind == 1:
        print("image", hashlib.sha256(text[at:at + value]).hexdigest())
        at += value
    else:
        print({2: "acknowledged", 3: "end"}[kind], value)
print("whole" if text[at:] == hashlib.sha256(text[:at]).digest() else "cut")
END
}

# The line of a slot's image in a stream.
image_of() {  # image_of DIR SLOT
  echo "image $(sha256sum < "$1/img-$2" | cut -d ' ' -f 1)"
}

a_whole_chain_is_sent() {
  needs_python || return
  make_sent store || return 1
  local files
  files=$(sums store)
  same "the status" "$(ends "$ckpt" send store)" 0 || return 1
  same "the standard error" "$(cat err)" "sent 5 images 33152 bytes" || return 1
  same "the stream" "$(read_stream out)" "head 1 0 True
$(image_of store 000)
acknowledged 1
$(image_of store 001)
$(image_of store 002)
$(image_of store 003)
acknowledged 2
$(image_of store 004)
acknowledged 3
end 0
whole" || return 1
  same "the files" "$(sums store)" "$files" || return 1
  "$ckpt" send -q store > quiet 2> err || return 1
  same "the standard error with -q" "$(cat err)" "" || return 1
}

what_came_since_is_sent() {
  needs_python || return
  make_sent store || return 1
  local memory
  memory=$("$ckpt" restore --checkpoint 2 store | sha256sum | cut -d ' ' -f 1)
  same "the status" "$(ends "$ckpt" send --since 2 store)" 0 || return 1
  same "the standard error" "$(cat err)" "sent 1 images 8288 bytes" || return 1
  same "the stream" "$(read_stream out)" "head 1 2 $memory
$(image_of store 004)
acknowledged 3
end 0
whole" || return 1
  same "the status of nothing new" "$(ends "$ckpt" send --since 3 store)" 0 || return 1
  same "nothing new" "$(cat err)" "sent 0 images 0 bytes" || return 1
  same "its stream" "$(read_stream out | tail -n 2)" "end 0
whole"
}

# Where a merge took the images between, the merged one is sent.
a_merged_image_is_sent() {
  needs_python || return
  make_sent store || return 1
  "$ckpt" merge store > out || return 1
  same "the status" "$(ends "$ckpt" send store)" 0 || return 1
  same "the standard error" "$(cat err | cut -d ' ' -f 1-3)" "sent 1 images" || return 1
  same "the stream" "$(read_stream out | tail -n 3)" "acknowledged 3
end 0
whole" || return 1
  ends_with 3 "" "ckpt: store: no checkpoint 2
ckpt: store: it has the checkpoints 3" "$ckpt" send --since 2 store
}

sends_are_refused() {
  make_sent store || return 1
  ends_with 3 "" "ckpt: store: no checkpoint 9
ckpt: store: it has the checkpoints 3, 2, 1" "$ckpt" send --since 9 store || return 1
  ends_with 3 "" "" "$ckpt" send -q --since 9 store || return 1
  same "a number that is none" "$(ends "$ckpt" send --since 0 store)" 2 || return 1
  mkdir empty
  ends_with 3 "" "ckpt: empty: it has none of the files img-000 to img-063; is it the folder that is meant?" \
    "$ckpt" send empty || return 1
  same "a missing folder" "$(ends "$ckpt" send missing)" 1 || return 1
  same "its output" "$(cat out)" "" || return 1
  has "its cause" "$(cat err)" "ckpt: missing: No such file or directory" || return 1
  truncate -s 5000 store/img-002
  same "a damaged store" "$(ends "$ckpt" send store)" 1 || return 1
  same "its output" "$(cat out)" "" || return 1
  has "its cause" "$(cat err)" "ckpt: store: img-002 is damaged: "
}

a_terminal_takes_no_stream() {
  command -v script > /dev/null || { echo "needs script"; return 77; }
  make_sent store || return 1
  script -qec "$ckpt send store" /dev/null > out < /dev/null
  same "the status" $? 1 || return 1
  same "the text" "$(tr -d '\r' < out)" \
    "ckpt: store: a stream isn't written to a terminal: lead it into a pipe or a file"
}

a_full_device_takes_no_stream() {
  has_full_device || return
  make_sent store || return 1
  "$ckpt" send store > /dev/full 2> err
  same "the status" $? 1 || return 1
  has "the cause" "$(cat err)" "ckpt: standard output: No space left on device" || return 1
  case $(cat err) in *sent*) cat err; return 1 ;; esac
}

try a_whole_chain_is_sent
try what_came_since_is_sent
try a_merged_image_is_sent
try sends_are_refused
try a_terminal_takes_no_stream
try a_full_device_takes_no_stream
