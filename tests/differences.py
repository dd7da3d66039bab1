"""What differs between two memories that `restore` printed, as `diff` prints it; and random scripts for that.

differences.py diff OLD NEW    the lines of what differs
differences.py script SEED     a script of five checkpoints
"""
import random
import sys

PAGE = 4096


def memory_of(name):
    """The permissions and the bytes of each page, by space and page."""
    pages, space = {}, 0
    with open(name) as lines:
        for line in lines:
            word, *rest = line.split()
            if word == "space":
                space = int(rest[0])
            elif word == "area":
                for page in range(int(rest[0], 16) // PAGE, int(rest[1], 16) // PAGE):
                    pages[space, page] = [rest[2], {}]
            elif word == "bytes":
                address = int(rest[0], 16)
                pages[space, address // PAGE][1][address % PAGE] = rest[1]
    return pages


def runs_of(items):
    """Runs of pages, one after the other with one mark, from pairs of a page and a mark that rise."""
    runs = []
    for (space, page), mark in items:
        if runs and runs[-1][0] == space and runs[-1][2] == page and runs[-1][3] == mark:
            runs[-1][2] = page + 1
        else:
            runs.append([space, page, page + 1, mark])
    return runs


def lines_of(old, new):
    """The lines of what differs."""
    places = sorted(set(old) | set(new))
    areas, written, counts = [], [], {"+": 0, "-": 0, "~": 0, "*": 0}
    for place in places:
        was, now = old.get(place), new.get(place)
        prots = tuple(page and page[0] for page in (was, now))
        if prots[0] != prots[1]:
            sign = "+" if was is None else "-" if now is None else "~"
            areas.append((place, (sign, " ".join(prot for prot in prots if prot))))
            counts[sign] += 1
        if was and now and was[1] != now[1]:
            written.append((place, ("*", "")))
            counts["*"] += 1
    runs = [(run, 0) for run in runs_of(areas)] + [(run, 1) for run in runs_of(written)]
    for (space, first, end, (sign, prots)), _ in sorted(runs, key=lambda item: (item[0][0], item[0][1], item[1])):
        yield f"{sign} {space} {first * PAGE:#x}-{end * PAGE:#x} {prots or end - first}"
    yield f"came {counts['+']} went {counts['-']} protected {counts['~']} written {counts['*']}"


def script_of(seed):
    """A script of five checkpoints over twelve pages of two spaces."""
    chance = random.Random(seed)
    print("mmap 1 0x10000 49152 rw")
    for number in range(5):
        if number == 1:
            print("fork 1")
        for _ in range(12):
            space = chance.choice((1, 2)) if number else 1
            address = (16 + chance.randrange(12)) * PAGE
            length = chance.randrange(1, 4) * PAGE
            line = chance.choice(("mmap", "munmap", "mprotect", "store", "store", "store"))
            if line == "store":
                print(f"store {space} {address:#x} {chance.randrange(1, 4):02x}")
            elif line == "munmap":
                print(f"munmap {space} {address:#x} {length}")
            else:
                print(f"{line} {space} {address:#x} {length} {chance.choice(('rw', 'rw', 'r', 'rwx'))}")
        print(f"checkpoint {chance.randrange(3)}")


if sys.argv[1] == "script":
    script_of(int(sys.argv[2]))
else:
    for text in lines_of(memory_of(sys.argv[2]), memory_of(sys.argv[3])):
        print(text)
