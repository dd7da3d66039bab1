"""The answers of a shell, and what they mean."""
from __future__ import annotations

from typing import List, Optional

from .errors import DeviceFailed, Error, Refused, Segv, Unfit

# The numbers of the refusals that report a device: it was down already, or it failed now.
OF_DEVICE = (13, 22)


class Answer:
    """What a request is answered, once it is: a line, and the raw bytes of a `get`."""

    def __init__(self, has_bytes: bool = False) -> None:
        self.has_bytes = has_bytes
        self.line: Optional[str] = None
        self.data = b""

    @property
    def words(self) -> List[str]:
        """The words of the line, which has come."""
        return (self.line or "").split(" ")

    def failure(self) -> Optional[Error]:
        """The exception that the line stands for, if it is one of a failure."""
        words = self.words
        if words[0] == "refused":
            refused = DeviceFailed if int(words[1]) in OF_DEVICE else Refused
            return refused(int(words[1]), words[2], address_of(words[3:]))
        if words[0] == "segv":
            return Segv(words[1], address_of(words[2:]))
        if words[0] in ("script", "too-long", "cut-off"):
            return Unfit(self.line)
        return None

    def check(self) -> None:
        """Raises the exception that the line stands for, if it is one of a failure."""
        failure = self.failure()
        if failure is not None:
            raise failure

    def number(self) -> Optional[int]:
        """The number after the first word of the line; None where that is `none`."""
        self.check()
        return None if self.words[1] == "none" else int(self.words[1])


def address_of(words: List[str]) -> Optional[int]:
    """The address at the end of a refusal, if it has one."""
    return int(words[0], 16) if words else None
