#!/usr/bin/env python3
"""ELF core files of x86-64, apart from the crate that reads and writes them; standard library alone.

core_files.py make SEED FILE    makes a random core: areas, holes, permissions, sizes in the file, places of pages
core_files.py same FILE FILE    ends with 0 where two cores say the same memory
core_files.py pages FILE        prints how many pages of memory a core has
core_files.py notes FILE        prints the bytes of its notes, each segment's up to a multiple of 4, in hexadecimal
core_files.py trial CKPT COUNT  imports so many random cores, 40 into each store, exports each, and compares
core_files.py edit FILE PLACE BYTES NUMBER    puts a number into a file, little endian"""
import random
import struct
import subprocess
import sys

PAGE = 4096
KERNEL = 1 << 63


def headers(data):
    """The program headers of a core: type, flags, offset, address, size in the file, size in memory."""
    assert data[:7] == b"\x7fELF\x02\x01\x01", "e_ident"
    kind, machine = struct.unpack_from("<HH", data, 16)
    assert (kind, machine) == (4, 62), "e_type, e_machine"
    (phoff,) = struct.unpack_from("<Q", data, 32)
    size, count = struct.unpack_from("<HH", data, 54)
    assert size == 56
    found = []
    for k in range(count):
        kind, flags, offset, address, _, in_file, in_memory, _ = struct.unpack_from("<IIQQQQQQ", data, phoff + 56 * k)
        found.append((kind, flags, offset, address, in_file, in_memory))
    return found


def memory(name):
    """Each page of memory by its number: its permissions and its bytes."""
    data = open(name, "rb").read()
    pages = {}
    for kind, flags, offset, address, in_file, in_memory in headers(data):
        if kind != 1 or address >= KERNEL:
            continue
        held = data[offset:offset + in_file].ljust(in_memory, b"\0")
        for at in range(0, in_memory, PAGE):
            pages[(address + at) // PAGE] = (flags & 7, held[at:at + PAGE])
    return pages


def notes(name):
    """The bytes of the notes."""
    data = open(name, "rb").read()
    parts = [data[offset:offset + in_file] for kind, _, offset, _, in_file, _ in headers(data) if kind == 4]
    return b"".join(part + bytes(-len(part) % 4) for part in parts)


def page_bytes(chance):
    """The bytes of a page: zeros, a few bytes, or many."""
    which = chance.randrange(4)
    page = bytearray(PAGE)
    if which == 1:
        for _ in range(chance.randrange(1, 6)):
            page[chance.randrange(PAGE)] = chance.randrange(256)
    elif which == 2:
        page[:] = chance.randbytes(PAGE)
    elif which == 3:
        at = chance.randrange(PAGE)
        part = chance.randbytes(chance.randrange(1, 200))[:PAGE - at]
        page[at:at + len(part)] = part
    return bytes(page)


def segments(chance):
    """One segment or more, rising: flags, address, size in memory, bytes in the file."""
    address = chance.randrange(1, 1 << 20) * PAGE
    found = []
    for _ in range(chance.randrange(1, 8)):
        if chance.randrange(2):
            address += chance.randrange(1, 40) * PAGE
        count = chance.randrange(1, 5)
        held = b"".join(page_bytes(chance) for _ in range(count))
        which = chance.randrange(4)
        if which == 0:
            held = b""
        elif which == 1:
            held = held[:chance.randrange(len(held) + 1)]
        found.append((chance.randrange(8), address, count * PAGE, held))
        address += count * PAGE
    return found


def make(seed, name):
    chance = random.Random(seed)
    parts = segments(chance)
    note = struct.pack("<III8s", 5, 336, 1, b"CORE") + bytes(336)
    table_first = chance.randrange(2)
    count = len(parts) + 2
    start = 64 + 56 * count if table_first else 64
    body = bytearray(note)
    table = [struct.pack("<IIQQQQQQ", 4, 4, start, 0, 0, len(note), 0, 4)]
    for flags, address, in_memory, held in parts:
        body += bytes(chance.randrange(9))
        table.append(struct.pack("<IIQQQQQQ", 1, flags, start + len(body), address, 0, len(held), in_memory, 1))
        body += held
    table.append(struct.pack("<IIQQQQQQ", 1, 5, 0, 0xffffffffff600000, 0, 0, PAGE, 1))
    phoff = 64 if table_first else 64 + len(body)
    head = b"\x7fELF\x02\x01\x01".ljust(16, b"\0")
    head += struct.pack("<HHIQQQIHHHHHH", 4, 62, 1, 0, phoff, 0, 0, 64, 56, count, 0, 0, 0)
    rest = b"".join(table) + body if table_first else bytes(body) + b"".join(table)
    open(name, "wb").write(head + rest)


def trial(ckpt, count):
    """Each core has to come out as it went in."""
    for seed in range(1, count + 1):
        store = f"store-{seed // 40}"
        make(seed, "core")
        for words in (["import", store, "core"], ["export", store, "cores", "--force"]):
            ended = subprocess.run([ckpt] + words, capture_output=True, text=True, check=False)
            if ended.returncode != 0:
                sys.exit(f"seed {seed}: {words[0]}: {ended.stdout}{ended.stderr}")
        if memory("core") != memory("cores/space-1.core"):
            sys.exit(f"seed {seed}: the memory differs")
    print(f"{count} cores")


def main(words):
    if words[0] == "make":
        make(int(words[1]), words[2])
    elif words[0] == "same":
        one, other = memory(words[1]), memory(words[2])
        if one != other:
            apart = sorted(k for k in one.keys() | other.keys() if one.get(k) != other.get(k))
            sys.exit(f"pages that differ: {[hex(k) for k in apart[:9]]}")
    elif words[0] == "trial":
        trial(words[1], int(words[2]))
    elif words[0] == "pages":
        print(len(memory(words[1])))
    elif words[0] == "notes":
        print(notes(words[1]).hex(), end="")
    elif words[0] == "edit":
        with open(words[1], "r+b") as file:
            file.seek(int(words[2], 0))
            file.write(int(words[4], 0).to_bytes(int(words[3]), "little"))


main(sys.argv[1:])
