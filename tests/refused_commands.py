#!/usr/bin/env python3
"""Runs a script with each of its growths refused in turn, and holds what it answers and saves against a plain memory.

    refused_commands.py CKPT LIBRARY

LIBRARY is made of refuse_growth.c. A command that is refused as out of memory changes nothing, and all others are
answered and made as on the plain memory. The status is 0 where every run was so; then it prints how many growths were
refused, and to how many commands.
"""
import os
import pathlib
import shutil
import subprocess
import sys

sys.dont_write_bytecode = True
sys.path.insert(0, str(pathlib.Path(__file__).resolve().parent.parent / "bench"))

from cuts.plain import Memory  # noqa: E402

REFUSED = "refused 8 out-of-memory"
# What the checkpoints are answered where the growth was the opening's.
NOT_OPEN = "refused 10 not-open"
# Spaces that are copied, shared pages that are stored to, areas that are split, cut and joined.
COMMANDS = """mmap 1 0x10000 32768 rw
store 1 0x10000 6162
store 1 0x13000 61626364
fork 1
store 1 0x10004 63
store 2 0x10008 64
mprotect 1 0x12000 8192 r
fork 2
munmap 2 0x11000 4096
store 3 0x15000 65
mmap 3 0x8000000000 4096 rw
fork 3
exit 2
store 4 0x8000000000 66
mprotect 4 0x10000 32768 rw""".splitlines()
# The others make up for a first that is refused as it begins, or half way.
SAVES = ["checkpoint 0", "finish dumper", "checkpoint 0"]


def run_without(ckpt, library, number):
    """Runs the script without one growth. Returns whether it has so many, and the answers, or None where none came."""
    shutil.rmtree("refused", ignore_errors=True)
    pathlib.Path("refused.ckpt").write_text("".join(line + "\n" for line in COMMANDS + SAVES))
    environment = os.environ | {"REFUSED": str(number), "LD_PRELOAD": library}
    ran = subprocess.run([ckpt, "run", "-q", "refused", "refused.ckpt"], env=environment, capture_output=True, text=True)
    answers = ran.stdout.splitlines()[1:]
    return "growth refused" in ran.stderr, answers if len(answers) == len(COMMANDS + SAVES) else None


def refusals(ckpt, answers):
    """How many commands were refused. What the run saved is what the others made."""
    memory = Memory()
    count = 0
    for line, answer in zip(COMMANDS, answers):
        if answer == REFUSED:
            count += 1
        elif answer != (wanted := memory.make(line)):
            raise SystemExit(f"{line}: {answer}, not {wanted}")
    if answers[-1] == NOT_OPEN:
        return count
    acked = [int(answer.split()[1]) for answer in answers if answer.startswith("acked ")]
    shown = subprocess.run([ckpt, "restore", "-q", "refused"], capture_output=True, text=True).stdout.rstrip("\n")
    if not acked or shown != memory.restored(acked[-1]):
        raise SystemExit(f"{answers}: another memory is shown")
    return count


def main():
    ckpt, library = sys.argv[1:]
    number, commands, ended = 1, 0, 0
    while True:
        was_refused, answers = run_without(ckpt, library, number)
        if not was_refused:
            break
        if answers is None:
            ended += 1
        else:
            commands += refusals(ckpt, answers)
        number += 1
    print(f"{number - 1} growths, {commands} of commands, {ended} ended the run")


main()
