"""What a run has answered, held against a plain memory, and what its store may show then."""
import re

from .plain import Memory

MEMORY_COMMANDS = "mmap", "munmap", "mprotect", "fork", "exit", "store"
FROZEN = "refused 6 frozen"
BUSY = "refused 11 busy"


class Unexpected(Exception):
    """An answer, or a memory that is shown, which isn't that of the plain memory."""


class Course:
    """Follows a script line by line. `acked` is the last acknowledged checkpoint, 0 for none, and `kept` the memory at
    its freeze; `saved` has each that was acknowledged, by its number. While a checkpoint runs beside commands, `running` is its number, and `freezes` are the memories that
    its freeze may have."""

    def __init__(self, memory=None, last=0):
        self.memory = memory.copy() if memory else Memory()
        self.begun = last
        self.acked = last
        self.kept = memory.copy() if memory else None
        self.saved = {}
        self.running = None
        self.freezes = []

    def take(self, line, answer):
        """Takes a line with its answer."""
        word = line.split()[0]
        if word in MEMORY_COMMANDS:
            self.take_command(line, answer)
        else:
            getattr(self, word)(line, answer)

    def take_command(self, line, answer):
        if self.running and answer == FROZEN:
            return
        wanted = self.memory.make(line)
        self.want(line, answer, wanted)
        self.note_freeze()

    def note_freeze(self):
        """A freeze may come at any step of the checkpoint that runs."""
        if self.running:
            self.freezes.append(self.memory.copy())

    def want(self, line, answer, *wanted):
        if answer not in wanted:
            raise Unexpected(f"{line}: {answer}, not {' or '.join(wanted)}")

    def checkpoint(self, line, answer):
        self.begun += 1
        self.want(line, answer, f"acked {self.begun}")
        self.acknowledge()

    def begin(self, line, answer):
        self.begun += 1
        self.want(line, answer, f"begun {self.begun}")
        self.running = self.begun
        self.note_freeze()

    def acknowledge(self):
        """The memory is that of the freeze: commands after it were refused."""
        self.acked, self.kept = self.begun, self.memory.copy()
        self.saved[self.acked] = self.kept
        self.running, self.freezes = None, []

    def step(self, line, answer):
        if not self.running:
            return self.want(line, answer, "refused 14 idle")
        self.want(line, answer, "worked", f"acked {self.running}")
        if answer != "worked":
            self.acknowledge()

    def finish(self, line, answer):
        if not self.running:
            return self.want(line, answer, "refused 14 idle")
        self.want(line, answer, f"acked {self.running}")
        self.acknowledge()

    def cancel(self, line, answer):
        """A cancel is refused while a call is out."""
        self.want(line, answer, f"cancelled {self.running}", BUSY)
        if answer != BUSY:
            self.running, self.freezes = None, []

    def merge(self, line, answer):
        self.want_number(line, answer, "merged")

    def trim(self, line, answer):
        self.want_number(line, answer, "trimmed")

    def want_number(self, line, answer, word):
        if not re.fullmatch(rf"{word} \d+", answer):
            raise Unexpected(f"{line}: {answer}, not {word} N")

    def pending(self, lines):
        """What the lines to come may show up to the next acknowledgement, as pairs of a number and a memory. A cancel
        may be refused."""
        begun, is_running, memory = self.begun, bool(self.running), self.memory.copy()
        may_show = [(self.running, freeze) for freeze in self.freezes]
        for line in lines:
            word = line.split()[0]
            if word in MEMORY_COMMANDS:
                memory.make(line)
            elif word in ("begin", "checkpoint"):
                begun, is_running = begun + 1, True
            elif word == "finish" and is_running:
                break
            elif word == "cancel":
                is_running = False
            if is_running:
                may_show.append((begun, memory.copy()))
            if word == "checkpoint":
                break
        return may_show


def follow(lines, answers, memory=None, last=0):
    """The course of a run with the answers that were seen, and the lines that weren't answered yet."""
    course = Course(memory, last)
    for line, answer in zip(lines, answers):
        course.take(line, answer)
    return course, lines[len(answers):]
