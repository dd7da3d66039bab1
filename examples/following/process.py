"""The memory of a process that runs, as /proc has it."""
from __future__ import annotations

import ctypes
import mmap
import os
from array import array
from typing import Dict, Iterator, List, NamedTuple, Optional

PAGE = 4096
HIGHEST = 1 << 47

# Bits of a page's word in /proc/PID/pagemap.
SOFT_DIRTY = 1 << 55
IS_THERE = 3 << 62

# How much is read at once.
CHUNK = 256 * PAGE

# The kernel's own areas: they can't be read, or not be mapped.
OF_KERNEL = ("[vvar]", "[vvar_vclock]", "[vsyscall]")


class Gone(Exception):
    """The process ended, or there is none."""


class Forbidden(Exception):
    """The memory of the process may not be read."""


class Area(NamedTuple):
    """Pages side by side: addresses from `first` up to `end`, and permissions as the store has them."""

    first: int
    end: int
    prot: str
    is_shared: bool
    is_anonymous: bool


class Process:
    """A process whose memory is read."""

    def __init__(self, pid: int) -> None:
        self.pid = pid
        self.folder = f"/proc/{pid}"
        self.left_out = 0
        try:
            self.memory = os.open(f"{self.folder}/mem", os.O_RDONLY)
            self.words = os.open(f"{self.folder}/pagemap", os.O_RDONLY)
        except FileNotFoundError:
            raise Gone(f"there is no process {pid}") from None
        except PermissionError as error:
            raise Forbidden(f"process {pid} may not be read: {error.strerror}") from None

    def areas(self) -> List[Area]:
        """The areas with some permission, rising. Counts those that are left out."""
        try:
            with open(f"{self.folder}/maps", encoding="utf-8", errors="replace") as maps:
                lines = maps.read().splitlines()
        except (FileNotFoundError, ProcessLookupError):
            lines = []
        if not lines:
            raise Gone(f"process {self.pid} ended")
        found = [area for area in map(area_of, lines) if area is not None]
        self.left_out = len(lines) - len(found)
        return found

    def read(self, first: int, count: int) -> bytes:
        """Bytes of whole pages. Pages that can't be read are zeros."""
        try:
            data = os.pread(self.memory, count, first)
        except OSError:
            data = b""
        if len(data) == count:
            return data
        if not data and count == PAGE:
            return bytes(PAGE)
        done = max(len(data) // PAGE * PAGE, PAGE)
        head = data[:done] if len(data) >= done else self.read(first, PAGE)
        return head + (self.read(first + done, count - done) if done < count else b"")

    def pages(self, area: Area) -> Iterator[tuple]:
        """Each chunk of an area: its first address, and its bytes."""
        for first in range(area.first, area.end, CHUNK):
            yield first, self.read(first, min(CHUNK, area.end - first))

    def page_words(self, area: Area) -> array:
        """The words of an area's pages, in order."""
        words = array("Q")
        wanted = (area.end - area.first) // PAGE * 8
        words.frombytes(os.pread(self.words, wanted, area.first // PAGE * 8))
        return words

    def clear_bits(self) -> None:
        """Clears the soft-dirty bit of each page."""
        with open(f"{self.folder}/clear_refs", "w") as refs:
            refs.write("4")


def area_of(line: str) -> Optional[Area]:
    """The area of a line of `maps`; none where it has no permission, or is the kernel's."""
    fields = line.split(None, 5)
    first, end = (int(number, 16) for number in fields[0].split("-"))
    prot = fields[1][:3].replace("-", "")
    name = fields[5] if len(fields) > 5 else ""
    if not prot or name in OF_KERNEL or end > HIGHEST:
        return None
    return Area(first, end, prot, fields[1][3] == "s", fields[4] == "0")


def has_soft_dirty_bits() -> bool:
    """Whether this kernel sets the bits: tried on a page of this process. One without them takes the `4` too."""
    room = mmap.mmap(-1, PAGE)
    room[0] = 1
    first = ctypes.addressof(ctypes.c_char.from_buffer(room))
    try:
        this = Process(os.getpid())
        area = Area(first, first + PAGE, "rw", False, True)
        this.clear_bits()
        was_cleared = not this.page_words(area)[0] & SOFT_DIRTY
        room[0] = 2
        return was_cleared and bool(this.page_words(area)[0] & SOFT_DIRTY)
    except (OSError, Gone, Forbidden):
        return False


def threads_of(pid: int) -> Dict[str, str]:
    """The state of each thread of a process."""
    states = {}
    try:
        for thread in os.listdir(f"/proc/{pid}/task"):
            with open(f"/proc/{pid}/task/{thread}/stat") as stat:
                states[thread] = stat.read().rpartition(")")[2].split()[0]
    except (FileNotFoundError, ProcessLookupError):
        pass
    return states
