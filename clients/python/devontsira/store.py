"""A store, and its memory, as a program sees them."""
from __future__ import annotations

import os
from types import TracebackType
from typing import List, Optional, Sequence, Type, Union

from .answers import Answer
from .errors import Error, Unfit
from .pipes import Pipes

# The most bytes of a `put` or a `get`.
MOST_BYTES = 1 << 20

Buffer = Union[bytes, bytearray, memoryview]
Path = Union[str, "os.PathLike[str]"]


class Requests:
    """The requests that a store and a batch have in common. Addresses and lengths are in bytes."""

    def _do(self, line: str) -> Optional[int]:
        raise NotImplementedError

    def mmap(self, space: int, address: int, length: int, prot: str) -> None:
        """Maps whole pages of zeros, whatever was there. `prot` is `none`, or some of `rwx` in this order."""
        self._do(f"mmap {space} {address:#x} {length} {prot}")

    def munmap(self, space: int, address: int, length: int) -> None:
        """Unmaps each whole page that has a part of the range."""
        self._do(f"munmap {space} {address:#x} {length}")

    def mprotect(self, space: int, address: int, length: int, prot: str) -> None:
        """Gives whole pages other permissions."""
        self._do(f"mprotect {space} {address:#x} {length} {prot}")

    def exit(self, space: int) -> None:
        """Ends a space. The only one can't be ended."""
        self._do(f"exit {space}")


class Store(Requests):
    """A store that is open, until `close` or the end of a `with`. `reopened` is the number of the checkpoint whose
    memory it goes on from, or None for an empty one."""

    def __init__(self, pipes: Pipes) -> None:
        self._pipes = pipes
        self._is_open = True
        self.reopened = pipes.wait_for(pipes.expect(Answer())).number()

    @property
    def pid(self) -> int:
        """The process of the shell."""
        return self._pipes.process.pid

    # ---- requests

    def ask(self, line: str) -> str:
        """Sends a line of the language of scripts, and returns its answer, as it is printed."""
        if "\n" in line or line.startswith("#") or line.split(" ")[0] in ("", "quit", "put", "get"):
            raise Unfit(f"not one request of the language: {line!r}")
        answer = self._ask(line)
        answer.check()
        return answer.line or ""

    def _ask(self, line: str) -> Answer:
        self._pipes.send(line.encode() + b"\n")
        return self._pipes.wait_for(self._pipes.expect(Answer()))

    def _do(self, line: str) -> Optional[int]:
        answer = self._ask(line)
        answer.check()
        return answer.number() if len(answer.words) > 1 else None

    def _number(self, line: str) -> int:
        return int(self._do(line) or 0)

    def fork(self, space: int) -> int:
        """Makes a child with a copy of the memory of a space, and returns its number."""
        return self._number(f"fork {space}")

    def write(self, space: int, address: int, data: Buffer) -> None:
        """Stores bytes, of any number. Where a store is refused, the exception has its address: what was before it is
        stored, and nothing after it."""
        view = memoryview(data).cast("B")
        for first in range(0, len(view), MOST_BYTES):
            part = view[first : first + MOST_BYTES]
            self._pipes.send(put_line(space, address + first, len(part)), part)
            self._pipes.wait_for(self._pipes.expect(Answer())).check()

    def read(self, space: int, address: int, length: int) -> bytes:
        """Loads bytes, of any number."""
        answers = []
        for first in range(0, length, MOST_BYTES):
            self._pipes.send(get_line(space, address + first, min(length - first, MOST_BYTES)))
            answers.append(self._pipes.expect(Answer(has_bytes=True)))
        for answer in answers:
            self._pipes.wait_for(answer)
        for answer in answers:
            answer.check()
        return b"".join(answer.data for answer in answers)

    def checkpoint(self, rounds: int = 0) -> int:
        """Makes a checkpoint with 0 to 8 rounds before its freeze, and returns its number: it is on the device then."""
        return self._number(f"checkpoint {rounds}")

    def begin(self, rounds: int = 0) -> int:
        """Begins a checkpoint, and returns its number. `ask` makes its steps: `step dumper N`, `finish dumper`."""
        return self._number(f"begin {rounds}")

    def cancel(self) -> int:
        """Gives up the checkpoint that runs, and returns its number."""
        return self._number("cancel")

    def merge(self) -> int:
        """Merges the chain of the newest checkpoint into one image, and returns its serial."""
        return self._number("merge")

    def trim(self) -> int:
        """Folds the journal up to the last checkpoint, and returns how many entries that made room for."""
        return self._number("trim")

    def reopen(self) -> Optional[int]:
        """Opens the store again, after its device failed, and returns the number of the checkpoint that it shows. The
        memory stays as it is."""
        return self._do("reopen")

    def batch(self) -> "Batch":
        """Requests that are sent without waiting for their answers."""
        return Batch(self._pipes)

    # ---- the end

    def close(self) -> int:
        """Ends the shell, and returns its exit status. What was not saved by a checkpoint is gone."""
        if not self._is_open:
            return self._pipes.process.wait()
        self._is_open = False
        return self._pipes.close()

    def __enter__(self) -> "Store":
        return self

    def __exit__(
        self,
        kind: Optional[Type[BaseException]],
        error: Optional[BaseException],
        trace: Optional[TracebackType],
    ) -> None:
        if self.close() != 0 and error is None:
            raise self._pipes.end()


class Batch(Requests):
    """Requests that are sent without waiting. At its end all answers are waited for, and the first failure is raised;
    the requests after it were carried out nevertheless."""

    def __init__(self, pipes: Pipes) -> None:
        self._pipes = pipes
        self._answers: List[Answer] = []
        self._failure: Optional[Error] = None

    def _do(self, line: str) -> Optional[int]:
        self._send(line.encode() + b"\n")
        return None

    def _send(self, *parts: Buffer) -> None:
        self._answers.append(self._pipes.expect(Answer()))
        self._pipes.send(*parts)
        if len(self._answers) >= 4096:
            self._drop_answered()

    def _drop_answered(self) -> None:
        """Forgets the answers that came, but the first failure."""
        for place, answer in enumerate(self._answers):
            if answer.line is None:
                del self._answers[:place]
                return
            self._failure = self._failure or answer.failure()
        self._answers.clear()

    def write(self, space: int, address: int, data: Buffer) -> None:
        """Stores bytes, of any number, which are copied here."""
        view = memoryview(bytes(data))
        for first in range(0, len(view), MOST_BYTES):
            part = view[first : first + MOST_BYTES]
            self._send(put_line(space, address + first, len(part)), part)

    def finish(self) -> None:
        """Waits for all answers, and raises the first failure."""
        for answer in self._answers:
            self._pipes.wait_for(answer)
        self._drop_answered()
        failure, self._failure = self._failure, None
        if failure is not None:
            raise failure

    def __enter__(self) -> "Batch":
        return self

    def __exit__(
        self,
        kind: Optional[Type[BaseException]],
        error: Optional[BaseException],
        trace: Optional[TracebackType],
    ) -> None:
        if error is None:
            self.finish()


def put_line(space: int, address: int, length: int) -> bytes:
    return b"put %d %#x %d\n" % (space, address, length)


def get_line(space: int, address: int, length: int) -> bytes:
    return b"get %d %#x %d\n" % (space, address, length)


def open(folder: Path, program: Path = "ckpt", options: Sequence[str] = ()) -> Store:
    """Opens the store of a folder, which is made where it is missing, by `program shell`: a path, or the name of a
    program on the PATH. `options` are words for `ckpt shell`, as `--quiet`.

    Raises `Locked` where another process has it open, `Damaged` where it can't be read, and else `Ended`.
    """
    pipes = Pipes([os.fspath(program), "shell", *options, os.fspath(folder)])
    try:
        return Store(pipes)
    except BaseException:
        pipes.abandon()
        raise
