"""A shell at the other end of three pipes, of which none is waited for alone."""
from __future__ import annotations

import logging
import os
import selectors
import subprocess
from collections import deque
from typing import Deque, List, Union

from .answers import Answer
from .errors import Damaged, Ended, Locked

log = logging.getLogger("devontsira")

# How much one read takes, and how much may wait to be sent before `send` waits too.
TAKEN = 1 << 18
HELD = 1 << 21

# What the shell says where another process has the store open.
OPEN_ELSEWHERE = "another run has this store open"


class Pipes:
    """Sends requests, and gives each answer to the request that it belongs to."""

    def __init__(self, command: List[str]) -> None:
        pipe = subprocess.PIPE
        self.process = subprocess.Popen(command, stdin=pipe, stdout=pipe, stderr=pipe, bufsize=0)
        self.inlet = self.process.stdin.fileno()
        self.outlet = self.process.stdout.fileno()
        self.causes = self.process.stderr.fileno()
        self.unsent: Deque[memoryview] = deque()
        self.held = 0
        self.received = bytearray()
        self.told = bytearray()
        self.cause = ""
        self.waiting: Deque[Answer] = deque()
        self.last_line = ""
        self.selector = selectors.DefaultSelector()
        self.is_writing = False
        for descriptor in (self.inlet, self.outlet, self.causes):
            os.set_blocking(descriptor, False)
        for descriptor in (self.outlet, self.causes):
            self.selector.register(descriptor, selectors.EVENT_READ)
        self.open_ends = {self.outlet, self.causes}

    # ---- requests

    def expect(self, answer: Answer) -> Answer:
        """Has the next answer that nobody expects yet given to this one."""
        self.waiting.append(answer)
        return answer

    def send(self, *parts: Union[bytes, memoryview]) -> None:
        """Sends bytes, now or while an answer is waited for. Much that is unsent is waited for here."""
        for part in parts:
            view = memoryview(part).cast("B")
            self.unsent.append(view)
            self.held += len(view)
        self.write_some()
        while self.held > HELD and self.open_ends:
            self.turn()

    def wait_for(self, answer: Answer) -> Answer:
        """Waits until a request is answered."""
        while answer.line is None:
            if not self.open_ends:
                raise self.end()
            self.turn()
        return answer

    # ---- bytes

    def turn(self) -> None:
        """Waits until something can be sent or was told, and sends and takes it."""
        self.watch_inlet()
        for key, _ in self.selector.select():
            if key.fd == self.inlet:
                self.write_some()
            else:
                self.read_some(key.fd)

    def watch_inlet(self) -> None:
        """Looks whether something can be sent exactly while something is unsent."""
        if self.is_writing == bool(self.unsent):
            return
        if self.unsent:
            self.selector.register(self.inlet, selectors.EVENT_WRITE)
        else:
            self.selector.unregister(self.inlet)
        self.is_writing = bool(self.unsent)

    def write_some(self) -> None:
        """Sends what the pipe takes now."""
        try:
            while self.unsent:
                count = os.write(self.inlet, self.unsent[0])
                self.held -= count
                self.unsent[0] = self.unsent[0][count:]
                if not self.unsent[0]:
                    self.unsent.popleft()
        except BlockingIOError:
            pass
        except BrokenPipeError:
            self.unsent.clear()
            self.held = 0

    def read_some(self, descriptor: int) -> None:
        """Takes what was told at one of the two ends that are read."""
        try:
            part = os.read(descriptor, TAKEN)
        except BlockingIOError:
            return
        if not part:
            self.selector.unregister(descriptor)
            self.open_ends.discard(descriptor)
        if descriptor == self.outlet:
            self.received += part
            self.take_answers()
        else:
            self.told += part
            self.take_causes()

    # ---- answers and causes

    def take_answers(self) -> None:
        """Gives each whole answer that came to its request."""
        taken = 0
        while True:
            end = self.received.find(b"\n", taken)
            if end < 0:
                break
            line = self.received[taken:end].decode("utf-8", "replace")
            length = self.raw_length(line)
            if len(self.received) - end - 1 < length:
                break
            self.give(line, bytes(self.received[end + 1 : end + 1 + length]))
            taken = end + 1 + length
        del self.received[:taken]

    def raw_length(self, line: str) -> int:
        """How many raw bytes stand after a line."""
        if self.waiting and self.waiting[0].has_bytes and line.startswith("bytes "):
            return int(line[len("bytes ") :])
        return 0

    def give(self, line: str, data: bytes) -> None:
        self.last_line = line
        if not self.waiting or is_end(line):
            return
        answer = self.waiting.popleft()
        answer.data = data
        answer.line = line

    def take_causes(self) -> None:
        *lines, rest = self.told.split(b"\n")
        self.told = bytearray(rest)
        for line in lines:
            self.cause = line.decode("utf-8", "replace")
            log.warning("%s", self.cause)

    # ---- the end

    def end(self) -> Ended:
        """Why the shell ended, once it did."""
        status = self.process.wait()
        words = self.last_line.split(" ")
        if words[0] == "damaged":
            return Damaged(int(words[1]), int(words[2]), status, self.cause)
        if OPEN_ELSEWHERE in self.cause:
            return Locked(status, self.last_line, self.cause)
        return Ended(status, self.last_line, self.cause)

    def close(self) -> int:
        """Sends what is unsent, ends the input, takes what is still told, and returns the exit status."""
        while self.unsent and self.open_ends:
            self.turn()
        self.close_inlet()
        while self.open_ends:
            self.turn()
        return self.release()

    def abandon(self) -> None:
        """Ends the input where it is, and the process with it."""
        self.close_inlet()
        self.release()

    def close_inlet(self) -> None:
        self.unsent.clear()
        self.watch_inlet()
        self.process.stdin.close()

    def release(self) -> int:
        """Closes the pipes, and waits for the end of the process."""
        self.selector.close()
        self.process.stdout.close()
        self.process.stderr.close()
        return self.process.wait()


def is_end(line: str) -> bool:
    """Whether a line is no answer, but tells why the shell ends."""
    ends = ("device", "out-of-memory", "cannot open DIR", "cannot read SCRIPT")
    return line in ends or line.startswith("damaged ")
