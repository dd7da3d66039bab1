"""What a request or a store may end with in place of an answer."""
from __future__ import annotations

from typing import Optional


class Error(Exception):
    """What all exceptions of this package are."""


class Refused(Error):
    """A request was refused, and changed nothing: `refused NUMBER NAME`.

    `address` is where a `write` or a `read` stopped: what was before it is stored.
    """

    def __init__(self, number: int, name: str, address: Optional[int] = None) -> None:
        super().__init__(f"refused {number} {name}" + at(address))
        self.number = number
        self.name = name
        self.address = address


class DeviceFailed(Refused):
    """The device failed, now (22) or before (13); `Store.reopen` opens the store again."""


class Segv(Error):
    """The memory isn't mapped (`maperr`), or its permissions don't allow the access (`accerr`)."""

    def __init__(self, kind: str, address: Optional[int] = None) -> None:
        super().__init__(f"segv {kind}" + at(address))
        self.kind = kind
        self.address = address


class Unfit(Error):
    """A line given to `Store.ask` doesn't fit the language of scripts."""


class Ended(Error):
    """The shell ended before it answered: its exit status, its last line, and the cause that it told."""

    def __init__(self, status: Optional[int], line: str = "", cause: str = "") -> None:
        told = [text for text in (line, cause) if text]
        super().__init__(f"the shell ended with status {status}" + "".join(": " + text for text in told))
        self.status = status
        self.line = line
        self.cause = cause


class Locked(Ended):
    """Another process has the store open."""


class Damaged(Ended):
    """The file of a slot isn't what the store needs: `damaged SLOT REASON`."""

    def __init__(self, slot: int, reason: int, status: Optional[int] = None, cause: str = "") -> None:
        super().__init__(status, f"damaged {slot:03} {reason}", cause)
        self.slot = slot
        self.reason = reason


def at(address: Optional[int]) -> str:
    """The words for an address, where there is one."""
    return "" if address is None else f" at {address:#x}"
