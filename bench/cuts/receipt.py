"""What a store showed after a power cut beneath `receive`, held against the checkpoints that were sent."""
import typing

from . import course
from .verdict import Damage, check_goes_on, check_verify, parts_of


class Sent(typing.NamedTuple):
    """The numbers of the checkpoints that were sent, in order, and the memory of each."""
    numbers: list
    memories: dict


def numbers_in(lines):
    return [int(line.split()[1]) for line in lines if line.startswith("received ")]


def sent(script, told):
    """What a run saved that was sent: it told its answers, and what a store in memory received."""
    parts = parts_of(told)
    followed, _ = course.follow(script, parts["run"].text.split("\n")[1:])
    numbers = numbers_in(parts["sent"].text.split("\n"))
    if not numbers or numbers[-1] != followed.acked:
        raise Damage(f"checkpoints {numbers} were sent, and {followed.acked} was the last")
    return Sent(numbers, followed.saved)


def may_show(numbers, last):
    """The checkpoints that a store may show which received some, up to the last: that, or the next."""
    count = numbers.index(last) + 1 if last else 0
    return numbers[max(count - 1, 0):count + 1]


def shown(sent, lines, part):
    """Which checkpoint a store shows, as its kind, number and memory."""
    last = (numbers_in(lines) or [0])[-1]
    if (part.status, part.text) in [(3, "empty chain"), (1, "cannot open DIR")] and not last:
        return "nothing", 0, None
    for number in may_show(sent.numbers, last):
        memory = sent.memories[number]
        if part.status == 0 and part.text == memory.restored(number):
            return "acknowledged" if number == last else "pending", number, memory
    raise Damage(f"received {last}, and then: status {part.status}, {part.text.splitlines()[:1]}")


def judge(sent, lines, told, goes_on):
    """The kind of what a store shows: of what was sent, the lines that were seen, what was told of the store, and the
    script of the run that goes on."""
    parts = parts_of(told)
    if "run" not in parts:
        raise Damage("the machine ended while it looked")
    if parts["mount"].status:
        raise Damage("the file system isn't mounted")
    kind, number, memory = shown(sent, lines, parts["restore"])
    check_verify(parts["verify"], number, parts["restore"].text == "cannot open DIR")
    check_goes_on(parts["run"], goes_on, number, memory)
    return kind
