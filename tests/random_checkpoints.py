#!/usr/bin/env python3
"""Random checkpoints while random calls are made on the memory, beside a plain one.

random_checkpoints.py CKPT SEED COUNT    makes so many checkpoints, over stores in the folder that it is run in

Between the steps of a checkpoint of no to three rounds there are random calls on three pages of a few spaces, at a
border of page tables. Each is answered as a plain memory answers it. Where no checkpoint runs, so are the words of the
pages: which have a frame, alone or not, and which are soft-dirty; and whether a store needs a fault. Each checkpoint is
restored to the memory at its freeze, after which calls are refused. The status is 0 where all of that is so.
"""
import pathlib
import random
import subprocess
import sys

sys.dont_write_bytecode = True
sys.path.insert(0, str(pathlib.Path(__file__).resolve().parent.parent / "bench"))

from cuts.plain import PAGE, Memory, pages_of  # noqa: E402

PAGES = 3
# The pages at which a table of each level begins, and one in the midst of a table.
BORDERS = 1 << 9, 1 << 18, 1 << 27, 100
PROTS = "rw", "rw", "rw", "rw", "r", "none", "rwx"
# A folder has 64 slots, of which a checkpoint takes four at most.
MOST_IMAGES = 60
PRESENT, ALONE, SOFT_DIRTY = 1 << 63, 1 << 56, 1 << 55
FROZEN = "refused 6 frozen"


class Page:
    """A page's frame, if it has one, and whether it is soft-dirty, and writable; None where a cancelled checkpoint may
    have cleared it."""

    def __init__(self, frame=None):
        self.frame, self.dirty, self.writable = frame, True, False


class Paged(Memory):
    """A plain memory with a state of each page beside it."""

    def __init__(self):
        super().__init__()
        self.states, self.last_frame = {}, 0

    def mmap(self, space, address, length, prot):
        for page in pages_of(address, length):
            self.states[space, page] = Page()
        return super().mmap(space, address, length, prot)

    def munmap(self, space, address, length):
        for page in pages_of(address, length):
            self.states.pop((space, page), None)
        return super().munmap(space, address, length)

    def mprotect(self, space, address, length, prot):
        answer = super().mprotect(space, address, length, prot)
        for page in pages_of(address, length) if answer == "done" else ():
            self.states[space, page].writable = False
        return answer

    def fork(self, space):
        if len(self.spaces) == 16:
            return "refused 4 too-many-spaces"
        answer = super().fork(space)
        child = int(answer.split()[1])
        for page in self.spaces[space]:
            self.states[space, page].writable = False
            self.states[child, page] = Page(self.states[space, page].frame)
        return answer

    def exit(self, space):
        answer = super().exit(space)
        self.states = {place: page for place, page in self.states.items() if place[0] in self.spaces}
        return answer

    def store(self, space, address, hexadecimal):
        answer = super().store(space, address, hexadecimal)
        if answer == "done":
            self.make_writable(self.states[space, int(address, 0) // PAGE])
        return answer

    def fault(self, space, address):
        return self.store(space, address, "")

    def is_alone(self, page):
        return page.frame is not None and sum(other.frame == page.frame for other in self.states.values()) == 1

    def make_writable(self, page):
        """Gives a page a frame where it has none of its own."""
        if not self.is_alone(page):
            self.last_frame += 1
            page.frame = self.last_frame
        page.dirty = page.writable = True

    def clear(self, is_sure):
        """A checkpoint visited each page, or maybe some."""
        for page in self.states.values():
            page.dirty = page.dirty and (False if is_sure else None)
            page.writable = page.writable and (False if is_sure else None)

    def shows(self, place, word):
        """Whether a page may have a word."""
        page = self.states.get(place)
        if page is None:
            return word == 0
        frame = PRESENT * (page.frame is not None) | ALONE * self.is_alone(page)
        return word & ~SOFT_DIRTY == frame and page.dirty in (None, bool(word & SOFT_DIRTY))


class Course:
    """Follows a run line by line. `kept` has the memory at the freeze of each checkpoint that was acknowledged, and
    `running` is the number of the one that runs."""

    def __init__(self):
        self.memory = Paged()
        self.begun, self.running, self.is_frozen, self.kept = 0, None, False, {}

    def take(self, line, answer):
        if not getattr(self, line.split()[0], self.call)(line, answer):
            sys.exit(f"{line}: {answer}")

    def call(self, line, answer):
        self.is_frozen = bool(self.running) and answer == FROZEN
        return self.is_frozen or answer == self.memory.make(line)

    def take_try(self, line, answer):
        """A store that needs a fault stores nothing."""
        _, space, address, _ = line.split()
        place = int(space), int(address, 0) // PAGE
        page = self.memory.states.get(place)
        if answer == "needs-fault":
            return "w" in self.memory.spaces[place[0]][place[1]][0] and (self.running or not page.writable)
        is_writable = answer != "done" or (page.writable is not False and self.memory.is_alone(page))
        return is_writable and self.call(line.replace("try", "store"), answer)

    def words(self, line, answer):
        _, space, address, _ = line.split()
        if int(space) not in self.memory.spaces:
            return answer == "refused 3 no-such-space"
        found = enumerate(answer.split()[1:], int(address, 0) // PAGE)
        return all(self.memory.shows((int(space), page), int(word, 16)) for page, word in found)

    def begin(self, _, answer):
        self.begun += 1
        self.running = self.begun
        return answer == f"begun {self.begun}"

    def step(self, _, answer):
        if self.running and answer == f"acked {self.running}":
            self.kept[self.running] = self.memory.copy()
            self.end(True)
            return True
        return answer == ("worked" if self.running else "refused 14 idle")

    def finish(self, line, answer):
        return answer != "worked" and self.step(line, answer)

    def cancel(self, _, answer):
        """It is refused while a call is out."""
        if answer == f"cancelled {self.running}":
            self.end(False)
            return True
        return answer == ("refused 11 busy" if self.running else "refused 14 idle")

    def end(self, is_sure):
        self.running = None
        self.memory.clear(is_sure)


setattr(Course, "try", Course.take_try)


class Run:
    """A shell over a store, to which random lines are written."""

    def __init__(self, ckpt, store, chance):
        self.chance, self.course, self.images = chance, Course(), 0
        self.first = chance.choice(BORDERS) - 2
        self.shell = subprocess.Popen([ckpt, "shell", store], stdin=subprocess.PIPE, stdout=subprocess.PIPE, text=True)
        self.shell.stdout.readline()

    def ask(self, *lines):
        """Writes lines, and follows what they are answered."""
        self.shell.stdin.write("".join(line + "\n" for line in lines))
        self.shell.stdin.flush()
        for line in lines:
            self.course.take(line, self.shell.stdout.readline().rstrip("\n"))

    def range(self):
        start = self.chance.randrange(PAGES)
        return f"{(self.first + start) * PAGE:#x} {self.chance.randint(1, PAGES - start) * PAGE}"

    def sector(self):
        return f"{(self.first + self.chance.randrange(PAGES)) * PAGE + self.chance.randrange(8) * 512:#x}"

    def space(self):
        """A living space, or maybe another one."""
        return self.chance.choice([*self.course.memory.spaces, *self.course.memory.spaces, 4])

    def spaces_call(self):
        return f"fork {self.space()}" if len(self.course.memory.spaces) < 3 else f"exit {self.space()}"

    def call(self):
        """A random call, which may be refused."""
        space, byte, prot = self.space(), f"{self.chance.randrange(3):02x}", self.chance.choice(PROTS)
        return self.chance.choice([
            f"mmap {space} {self.range()} {prot}", f"munmap {space} {self.range()}",
            f"mprotect {space} {self.range()} {prot}", f"mprotect {space} {self.range()} rw",
            self.spaces_call(), f"fault {space} {self.sector()}", *[f"try {space} {self.sector()} {byte}"] * 3,
            *[f"store {space} {self.sector()} {byte}"] * 7])

    def words(self):
        return f"words {self.space()} {self.first * PAGE:#x} {PAGES}"

    def steps(self):
        """Steps of the checkpoint, each after some calls. Once it has frozen the memory it comes to its end."""
        for _ in range(self.chance.randint(1, 4)):
            yield from (self.call() for _ in range(self.chance.randrange(3)))
            yield f"step dumper {self.chance.choice([1, 1, 1, 1, 2, 3])}"
        if self.course.is_frozen:
            yield "finish dumper"
        elif self.chance.random() < 0.005:
            yield "cancel"

    def checkpoint(self):
        rounds = self.chance.randrange(4)
        self.images += rounds + 1
        self.ask(f"begin {rounds}")
        while self.course.running:
            self.ask(*self.steps())

    def turn(self):
        """A checkpoint, and calls after it, each with the words that it leaves."""
        self.checkpoint()
        for _ in range(self.chance.randrange(6)):
            self.ask(self.words(), self.call(), self.words())

    def end(self):
        self.shell.stdin.close()
        return self.shell.wait()


def printed(*words):
    return subprocess.run(words, stdout=subprocess.PIPE, text=True, check=True).stdout


def restored(ckpt, store, number):
    return printed(ckpt, "restore", store, "--checkpoint", str(number))


def numbers_in(ckpt, store):
    """The checkpoints that a store has, rising."""
    lines = printed(ckpt, "history", store).splitlines()
    return sorted(int(line.split()[1]) for line in lines if line.startswith("checkpoint "))


def are_there(numbers, course):
    """Whether a store has the checkpoints since the last that was cancelled, and none that wasn't acknowledged. The
    first after a cancelled one needs no image before it, so slots of those may be taken."""
    cancelled = max(set(range(course.begun + 1)) - set(course.kept))
    return {number for number in course.kept if number > cancelled} <= set(numbers) <= set(course.kept)


def try_store(ckpt, seed, most):
    """Fills a store, and restores each checkpoint that it has, so many at most. Returns how many were acknowledged."""
    store = f"store-{seed}"
    run = Run(ckpt, store, random.Random(seed))
    run.ask(f"mmap 1 {run.first * PAGE:#x} {PAGE} rw")
    while run.images + 4 <= MOST_IMAGES and len(run.course.kept) < most:
        run.turn()
    if run.end() != 0:
        sys.exit(f"{store}: the shell failed")
    numbers = numbers_in(ckpt, store)
    if not are_there(numbers, run.course):
        sys.exit(f"{store}: it has the checkpoints {numbers}, of {list(run.course.kept)}")
    for number in numbers:
        if restored(ckpt, store, number) != run.course.kept[number].restored(number) + "\n":
            sys.exit(f"{store}: checkpoint {number} isn't restored")
    return len(run.course.kept)


def main():
    ckpt, seed, count = sys.argv[1], int(sys.argv[2]), int(sys.argv[3])
    while count > 0:
        count -= try_store(ckpt, seed, count)
        seed += 1


main()
