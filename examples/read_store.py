#!/usr/bin/env python3
"""Reads a store by the tables of docs/FORMATS.md alone, and prints what `ckpt restore DIR` prints of it.

It checks the digest of each image, and takes the rest of a file as it stands.
"""
import hashlib
import struct
import sys
from pathlib import Path
from typing import NamedTuple

PAGE = 4096
OPEN, PRE_DUMP, DATA, PARENT = 0xA5, 1, 1, 2


class Image(NamedTuple):
    data: bytes
    kind: int
    serial: int
    stands_for: int
    parent: int
    checkpoint: int
    spaces: dict  # by number: its areas (first page, pages, permissions), and its runs (first page, pages, kind, place)


def read_image(path):
    """The image of an open slot, or None."""
    data = path.read_bytes()
    if len(data) < PAGE or data[0] != OPEN:
        return None
    version, kind, serial, stands_for, parent, checkpoint, pages, _ = struct.unpack_from("<HH4x6Q", data, 8)
    if version == 2 and hashlib.sha256(data[PAGE:] + data[1:64]).digest() != data[64:96]:
        print(f"damaged {path.name[4:]} 17")
        sys.exit(1)
    return Image(data, kind, serial, stands_for, parent, checkpoint, read_table(data, PAGE + pages * PAGE))


def read_table(data, at):
    spaces, place = {}, PAGE
    count, = struct.unpack_from("<I4x", data, at)
    at += 8
    for _ in range(count):
        space, areas, runs = struct.unpack_from("<IIQ", data, at)
        at += 16
        listed = [struct.unpack_from("<QQI4x", data, at + 24 * number) for number in range(areas + runs)]
        at += 24 * (areas + runs)
        spaces[space] = listed[:areas], []
        for first, pages, kind in listed[areas:]:
            spaces[space][1].append((first, pages, kind, place))
            place += pages * PAGE if kind == DATA else 0
    return spaces


def page_of(images, image, space, page):
    """The bytes that an image holds at a page: its own, its parent's, or none where they are zeros."""
    for first, pages, kind, place in image.spaces[space][1]:
        if first <= page < first + pages and kind == PARENT:
            named = [other for other in images if other.stands_for == image.parent]
            return page_of(images, max(named, key=lambda other: other.serial), space, page)
        if first <= page < first + pages:
            start = place + (page - first) * PAGE
            return image.data[start : start + PAGE] if kind == DATA else b""
    return b""


def print_space(images, tip, space, areas):
    print(f"space {space}")
    for first, pages, permissions in areas:
        letters = "".join(letter if permissions >> bit & 1 else "-" for bit, letter in enumerate("rwx"))
        print(f"area {first * PAGE:#x} {(first + pages) * PAGE:#x} {letters}")
    for page in (page for first, pages, _ in areas for page in range(first, first + pages)):
        data = page_of(images, tip, space, page)
        for at in range(0, len(data), 32):
            if any(data[at : at + 32]):
                print(f"bytes {page * PAGE + at:#x} {data[at:at + 32].hex()}")


def main():
    if len(sys.argv) != 2:
        sys.exit(__doc__)
    images = [image for image in map(read_image, sorted(Path(sys.argv[1]).glob("img-*"))) if image]
    tips = [image for image in images if image.kind != PRE_DUMP]
    if not tips:
        print("empty chain")
        sys.exit(3)
    tip = max(tips, key=lambda image: (image.checkpoint, image.serial))
    print(f"checkpoint {tip.checkpoint}")
    for space, (areas, _) in tip.spaces.items():
        print_space(images, tip, space, areas)


if __name__ == "__main__":
    main()
