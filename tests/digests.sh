# The two versions of the format: the digest of each image that is written, and an image of version 1, which is read and
# merged.

# Prints bytes of a file in hexadecimal.
bytes_of() {  # bytes_of FILE PLACE COUNT
  od -An -v -tx1 -j "$2" -N "$3" "$1" | tr -d ' \n'
}

# Turns an image into that of version 1, which has zeros in the place of a digest.
to_version_one() {  # to_version_one FILE
  put_byte "$1" 8 1
  head -c 32 /dev/zero | dd of="$1" bs=1 seek=64 conv=notrunc status=none
}

an_image_has_its_digest() {
  make_store store || return 1
  local image=store/img-000 digest
  same "the length" "$(wc -c < "$image")" 8264 || return 1
  same "the version" "$(bytes_of "$image" 8 2)" 0200 || return 1
  digest=$({ tail -c +4097 "$image"; head -c 64 "$image" | tail -c 63; } | sha256sum | cut -d ' ' -f 1)
  same "the digest" "$(bytes_of "$image" 64 32)" "$digest"
}

an_image_of_version_one_is_merged() {
  make_store store || return 1
  local shown
  shown=$("$ckpt" restore store)
  to_version_one store/img-000
  same "the first bytes" "$(bytes_of store/img-000 0 64)" "a553444348414\
94e01000200000000000100000000000000010000000000000000000000000000000100000000000000010000000000000048000000000\
00000" || return 1
  same "restore of version 1" "$("$ckpt" restore store)" "$shown" || return 1
  same "the status" "$(ends "$ckpt" merge store)" 0 || return 1
  same "the output" "$(cat out)" "merged 2" || return 1
  same "the version" "$(bytes_of store/img-001 8 2)" 0200 || return 1
  same "the length of the old one" "$(wc -c < store/img-000)" 1 || return 1
  same "restore" "$("$ckpt" restore store)" "$shown"
}

try an_image_has_its_digest
try an_image_of_version_one_is_merged
