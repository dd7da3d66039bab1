"""A plain memory: what the commands of a script make, page by page, and what `restore` prints of it."""
PAGE = 4096
LINE = 32
NOTHING = bytes(PAGE)


class Memory:
    """The living spaces, each with its pages: permissions and bytes."""

    def __init__(self):
        self.spaces = {1: {}}

    def copy(self):
        other = Memory()
        other.spaces = {space: dict(pages) for space, pages in self.spaces.items()}
        return other

    def make(self, line):
        """Makes a command, and returns what it answers."""
        command, space, *words = line.split()
        if int(space) not in self.spaces:
            return "refused 3 no-such-space"
        return getattr(self, command)(int(space), *words)

    def mmap(self, space, address, length, prot):
        for page in pages_of(address, length):
            self.spaces[space][page] = prot, NOTHING
        return "done"

    def munmap(self, space, address, length):
        for page in pages_of(address, length):
            self.spaces[space].pop(page, None)
        return "done"

    def mprotect(self, space, address, length, prot):
        pages = self.spaces[space]
        if any(page not in pages for page in pages_of(address, length)):
            return "refused 2 ENOMEM"
        for page in pages_of(address, length):
            pages[page] = prot, pages[page][1]
        return "done"

    def fork(self, space):
        child = next(number for number in range(1, 17) if number not in self.spaces)
        self.spaces[child] = dict(self.spaces[space])
        return f"child {child}"

    def exit(self, space):
        if len(self.spaces) == 1:
            return "refused 15 last-space"
        del self.spaces[space]
        return "done"

    def store(self, space, address, hexadecimal):
        page, start = divmod(int(address, 0), PAGE)
        prot, content = self.spaces[space].get(page, (None, None))
        if prot is None:
            return "segv maperr"
        if "w" not in prot:
            return "segv accerr"
        stored = bytes.fromhex(hexadecimal)
        content = content[:start] + stored + content[start + len(stored):]
        self.spaces[space][page] = prot, content
        return "done"

    def restored(self, checkpoint):
        """What `restore` prints."""
        lines = [f"checkpoint {checkpoint}"]
        for space, pages in sorted(self.spaces.items()):
            lines += [f"space {space}", *areas(pages), *shown_bytes(pages)]
        return "\n".join(lines)


def pages_of(address, length):
    """The pages that have a part of a range."""
    first, end = int(address, 0), int(address, 0) + int(length, 0)
    return range(first // PAGE, -(-end // PAGE))


def areas(pages):
    """The lines of the areas: pages side by side with the same permissions."""
    runs = []
    for page, (prot, _) in sorted(pages.items()):
        if runs and runs[-1][1] == page and runs[-1][2] == prot:
            runs[-1][1] = page + 1
        else:
            runs.append([page, page + 1, prot])
    return [f"area {first * PAGE:#x} {end * PAGE:#x} {prot_text(prot)}" for first, end, prot in runs]


def prot_text(prot):
    return "---" if prot == "none" else "".join(letter if letter in prot else "-" for letter in "rwx")


def shown_bytes(pages):
    """The lines of the bytes that aren't all zeros."""
    lines = []
    for page, (_, content) in sorted(pages.items()):
        for start in range(0, PAGE, LINE) if content != NOTHING else ():
            part = content[start:start + LINE]
            if any(part):
                lines.append(f"bytes {page * PAGE + start:#x} {part.hex()}")
    return lines
