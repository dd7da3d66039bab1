"""Random scripts whose answers and checkpoints the plain memory can follow."""
from .plain import PAGE, Memory

FIRST = 0x10000
PAGES = 6
MOST_SPACES = 3
PROTS = "rw", "rw", "rw", "r", "none", "rwx"
# The images that a script makes at most between two merges; a folder has 64 slots.
MOST_IMAGES = 40
COMMANDS = ("store",) * 12 + ("mmap", "munmap", "mprotect", "fork", "exit")


class Writer:
    """Writes a script, and keeps the memory that its commands make, to name spaces that live."""

    def __init__(self, chance):
        self.chance = chance
        self.memory = Memory()
        self.lines = []
        self.images = 0

    def add(self, line):
        self.lines.append(line)

    def command(self, line):
        self.add(line)
        self.memory.make(line)

    def address(self):
        return FIRST + self.chance.randrange(PAGES) * PAGE

    def add_random(self):
        """A command on the memory."""
        space = self.chance.choice(list(self.memory.spaces))
        getattr(self, self.chance.choice(COMMANDS))(space)

    def store(self, space):
        content = self.chance.randbytes(self.chance.choice([1, 4, 16, 64]))
        place = self.address() + self.chance.randrange(PAGE // 64) * 64
        self.command(f"store {space} {place:#x} {content.hex()}")

    def mmap(self, space):
        prot = self.chance.choice(PROTS)
        self.command(f"mmap {space} {self.address():#x} {self.length()} {prot}")

    def munmap(self, space):
        self.command(f"munmap {space} {self.address():#x} {self.length()}")

    def mprotect(self, space):
        prot = self.chance.choice(PROTS)
        self.command(f"mprotect {space} {self.address():#x} {self.length()} {prot}")

    def length(self):
        return self.chance.randint(1, 4) * PAGE

    def fork(self, space):
        if len(self.memory.spaces) < MOST_SPACES:
            self.command(f"fork {space}")

    def exit(self, space):
        if space != 1:
            self.command(f"exit {space}")

    def commands(self, most):
        for _ in range(self.chance.randint(1, most)):
            self.add_random()

    def rounds(self):
        rounds = self.chance.choice([0, 0, 1, 2, 3])
        self.images += rounds + 1
        return rounds

    def at_once(self):
        self.add(f"checkpoint {self.rounds()}")

    def beside_stores(self):
        """A checkpoint with stores beside it."""
        self.add(f"begin {self.rounds()}")
        for _ in range(self.chance.randint(1, 3)):
            self.add(f"step dumper {self.chance.randint(1, 60)}")
            for _ in range(self.chance.randint(1, 3)):
                self.store(self.chance.choice(list(self.memory.spaces)))
        self.add("finish dumper")

    def given_up(self):
        """A checkpoint that is cancelled, or finished where a cancel is refused because a call is out."""
        self.add(f"begin {1 + self.rounds()}")
        self.images += 1
        self.add(f"step dumper {self.chance.randint(1, 12)}")
        self.store(1)
        self.add("cancel")
        self.add("finish dumper")

    def checkpoint(self):
        self.commands(6)
        if self.chance.random() < 0.15:
            self.given_up()
            self.commands(3)
        self.chance.choice([self.at_once, self.at_once, self.beside_stores])()
        if self.images > MOST_IMAGES or self.chance.random() < 0.3:
            self.add("merge")
            self.images = 0
        if self.chance.random() < 0.3:
            self.add("trim")


def random_script(chance):
    """The lines of a random script with 3 to 9 checkpoints."""
    writer = Writer(chance)
    writer.command(f"mmap 1 {FIRST:#x} {PAGES * PAGE} rw")
    for _ in range(chance.randint(3, 9)):
        writer.checkpoint()
    return writer.lines


def goes_on(chance):
    """The lines of a run that goes on from what a store shows."""
    writer = Writer(chance)
    writer.mmap(1)
    writer.store(1)
    writer.add("checkpoint 1")
    writer.command(f"mmap 1 {FIRST:#x} {PAGE} rw")
    writer.store(1)
    writer.add("merge")
    writer.add("checkpoint 0")
    return writer.lines
