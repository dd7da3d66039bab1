"""The memory of a process in space 1 of a store, kept up to date."""
from __future__ import annotations

from typing import Callable, Dict, Iterator, List, Tuple

from .process import IS_THERE, PAGE, SOFT_DIRTY, Area, Process

SPACE = 1
PIECE = 64

# The limits of a store.
MOST_PAGES = 65_536
MOST_AREAS = 1_024

# Behind so many entries of a run's journal, of 1,048,576, there is a checkpoint in between; and how many pages are
# stored between two looks at that.
ENTRIES = 900_000
AT_ONCE = 1_000

ZEROS = bytes(PAGE)

Change = Tuple[int, bytes]


class TooLarge(Exception):
    """The process has more than a store holds."""


class Copy:
    """What the store has of a process: its areas, and each page that isn't zeros."""

    def __init__(self, store, is_marked: bool, save_part: Callable[[], None]) -> None:
        self.store = store
        self.is_marked = is_marked
        self.save_part = save_part
        self.areas: List[Area] = []
        self.pages: Dict[int, bytes] = {}
        self.entries = 0
        store.munmap(SPACE, 0, 1 << 47)

    # ---- what changed

    def changes(self, process: Process, areas: List[Area], is_first: bool) -> List[Change]:
        """The pages of the process that the copy doesn't have so."""
        changed = []
        for area in areas:
            looks_at_all = is_first or not self.is_marked or area.is_shared or not self.has(area)
            pages = whole(process, area) if looks_at_all else marked(process, area)
            changed += [(at, page) for at, page in pages if self.pages.get(at, ZEROS) != page]
        return changed

    def has(self, area: Area) -> bool:
        """Whether the copy has an area with these addresses."""
        return any(have.first <= area.first and area.end <= have.end for have in self.areas)

    # ---- bringing the store up to date

    def take_areas(self, areas: List[Area]) -> int:
        """Maps, unmaps and protects what is other than before. Returns how many areas changed."""
        check_size(areas)
        old, new = set(self.areas), set(areas)
        for area in old - new:
            self.store.munmap(SPACE, area.first, area.end - area.first)
        kept = {}
        for area in new - old:
            self.store.mmap(SPACE, area.first, area.end - area.first, area.prot)
        for area in old - new:
            for at in range(area.first, area.end, PAGE):
                page = self.pages.pop(at, None)
                if page is not None:
                    kept[at] = page
        self.areas = areas
        self.entries += len(old - new) + len(new - old)
        self.put_back(kept, new - old)
        return len(old ^ new)

    def put_back(self, kept: Dict[int, bytes], mapped) -> None:
        """Stores what the copy had of areas that are mapped anew, as those that grew or were protected."""
        again = []
        for area in mapped:
            again += [(at, kept[at]) for at in range(area.first, area.end, PAGE) if at in kept]
        self.take_pages(again)

    def take_pages(self, changed: List[Change]) -> None:
        """Stores what is other in these pages. Pages of areas that can't be written are made writable meanwhile."""
        by_area = sorted(changed)
        place = 0
        for area in self.areas:
            first = place
            while place < len(by_area) and by_area[place][0] < area.end:
                place += 1
            if first < place:
                self.take_pages_of(area, by_area[first:place])

    def take_pages_of(self, area: Area, changed: List[Change]) -> None:
        for first in range(0, len(changed), AT_ONCE):
            if self.entries > ENTRIES:
                self.save_part()
            self.take_some_of(area, changed[first : first + AT_ONCE])

    def take_some_of(self, area: Area, changed: List[Change]) -> None:
        length = area.end - area.first
        with self.store.batch() as batch:
            if "w" not in area.prot:
                batch.mprotect(SPACE, area.first, length, "rw")
            for at, page in changed:
                for offset, part in parts(self.pages.get(at, ZEROS), page):
                    batch.write(SPACE, at + offset, part)
                    self.entries += (len(part) + PIECE - 1) // PIECE
                self.keep(at, page)
            if "w" not in area.prot:
                batch.mprotect(SPACE, area.first, length, area.prot)
        self.entries += 2

    def keep(self, at: int, page: bytes) -> None:
        if page == ZEROS:
            self.pages.pop(at, None)
        else:
            self.pages[at] = page


def check_size(areas: List[Area]) -> None:
    """Raises `TooLarge` where a store can't have these areas."""
    pages = page_count(areas)
    if pages > MOST_PAGES:
        raise TooLarge(f"too large: {pages} pages, and a store has {MOST_PAGES} at most")
    if len(areas) > MOST_AREAS:
        raise TooLarge(f"too large: {len(areas)} areas, and a space has {MOST_AREAS} at most")


def page_count(areas: List[Area]) -> int:
    return sum(area.end - area.first for area in areas) // PAGE


def whole(process: Process, area: Area) -> Iterator[Change]:
    """Each page of an area."""
    for first, data in process.pages(area):
        for offset in range(0, len(data), PAGE):
            yield first + offset, data[offset : offset + PAGE]


def marked(process: Process, area: Area) -> Iterator[Change]:
    """The pages of an area that are marked, and those that aren't there: what was there may have been given up, which
    marks nothing."""
    for place, word in enumerate(process.page_words(area)):
        at = area.first + place * PAGE
        if word & SOFT_DIRTY and word & IS_THERE:
            yield at, process.read(at, PAGE)
        elif not word & IS_THERE:
            yield at, ZEROS if area.is_anonymous else process.read(at, PAGE)


def parts(old: bytes, new: bytes) -> Iterator[Change]:
    """What is other in a page: offsets, and bytes of whole pieces of 64."""
    first = None
    for offset in range(0, PAGE, PIECE):
        if old[offset : offset + PIECE] != new[offset : offset + PIECE]:
            first = offset if first is None else first
        elif first is not None:
            yield first, new[first:offset]
            first = None
    if first is not None:
        yield first, new[first:PAGE]
