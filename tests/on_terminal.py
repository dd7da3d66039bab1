#!/usr/bin/env python3
"""Runs a command of which some descriptors are a terminal, and prints what it writes there; standard library alone.

on_terminal.py DESCRIPTORS COMMAND..    DESCRIPTORS are some of 0, 1 and 2, as in 01; the others are this program's

Where the command's standard input is the terminal, what this program reads is typed there. Nothing is echoed, and
newlines stay as they are. The status is that of the command."""
import os
import pty
import subprocess
import sys
import termios


def open_terminal():
    """Both ends of a terminal without an echo."""
    ours, theirs = pty.openpty()
    modes = termios.tcgetattr(theirs)
    modes[1] &= ~termios.OPOST
    modes[3] &= ~termios.ECHO
    termios.tcsetattr(theirs, termios.TCSANOW, modes)
    return ours, theirs


def read_all(terminal):
    """What comes until nobody has the other end open."""
    told = b""
    while True:
        try:
            part = os.read(terminal, 4096)
        except OSError:
            return told
        if not part:
            return told
        told += part


def main(descriptors, *command):
    ours, theirs = open_terminal()
    streams = ("stdin", "stdout", "stderr")
    process = subprocess.Popen(command, **{streams[int(digit)]: theirs for digit in descriptors})
    os.close(theirs)
    if "0" in descriptors:
        os.write(ours, sys.stdin.buffer.read())
    sys.stdout.buffer.write(read_all(ours))
    sys.exit(process.wait())


main(*sys.argv[1:])
