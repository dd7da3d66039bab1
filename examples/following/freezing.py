"""Stopping a process for a moment. It goes on again also where the one who stopped it is killed."""
from __future__ import annotations

import os
import signal
import time
from typing import Callable

from .process import Gone, threads_of

# How long a process may take to stop, in seconds.
PATIENCE = 10.0

# What the watcher is told: the process is about to be stopped, or it goes on.
STOPPED = b"s"
GOES_ON = b"g"


class Freezer:
    """Stops a process by signals, or each process of a cgroup."""

    def __init__(self, pid: int, way: str) -> None:
        self.pid = pid
        self.cgroup = None if way == "stop" else way
        try:
            self.process = os.pidfd_open(pid)
        except ProcessLookupError:
            raise Gone(f"there is no process {pid}") from None
        self.teller = start_watcher(self.let_go)

    def stop(self) -> None:
        """Stops it, and waits until it stands."""
        os.write(self.teller, STOPPED)
        if self.cgroup is not None:
            self.write_freeze("1")
            self.wait(self.is_cgroup_frozen)
        else:
            self.signal(signal.SIGSTOP)
            self.wait(self.is_stopped)

    def go_on(self) -> None:
        """Lets it go on."""
        self.let_go()
        os.write(self.teller, GOES_ON)

    def let_go(self) -> None:
        if self.cgroup is not None:
            self.write_freeze("0")
        else:
            self.signal(signal.SIGCONT)

    def signal(self, number: int) -> None:
        try:
            signal.pidfd_send_signal(self.process, number)
        except ProcessLookupError:
            raise Gone(f"process {self.pid} ended") from None

    def write_freeze(self, text: str) -> None:
        with open(os.path.join(self.cgroup or "", "cgroup.freeze"), "w") as freeze:
            freeze.write(text)

    def wait(self, has_happened: Callable[[], bool]) -> None:
        end = time.monotonic() + PATIENCE
        while not has_happened():
            if time.monotonic() > end:
                raise TimeoutError(f"process {self.pid} did not stop")
            time.sleep(0.0002)

    def is_stopped(self) -> bool:
        states = threads_of(self.pid)
        if not states or "Z" in states.values() and len(states) == 1:
            raise Gone(f"process {self.pid} ended")
        return all(state in "tT" for state in states.values())

    def is_cgroup_frozen(self) -> bool:
        with open(os.path.join(self.cgroup or "", "cgroup.events")) as events:
            return "frozen 1" in events.read()


def start_watcher(let_go: Callable[[], None]) -> int:
    """Starts a process that lets the stopped one go on where this one ends meanwhile. Returns where it is told."""
    heard, teller = os.pipe()
    if os.fork() == 0:
        os.setsid()
        os.close(teller)
        watch(heard, let_go)
        os._exit(0)
    os.close(heard)
    return teller


def watch(heard: int, let_go: Callable[[], None]) -> None:
    for number in (signal.SIGINT, signal.SIGTERM, signal.SIGHUP):
        signal.signal(number, signal.SIG_IGN)
    last = GOES_ON
    while True:
        told = os.read(heard, 64)
        if not told:
            break
        last = told[-1:]
    if last == STOPPED:
        try:
            let_go()
        except (Gone, OSError):
            pass
