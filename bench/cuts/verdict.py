"""What a store showed after a power cut, held against what its run may have left."""
import collections
import re

from . import course
from .plain import Memory

KINDS = "acknowledged", "pending", "nothing"
PARTS = re.compile(r"guest begins (\w+)\n(.*?)guest ends \1 (\d+)\n", re.DOTALL)

Part = collections.namedtuple("Part", "status text")


class Damage(Exception):
    """A store that shows what it may not, or can't be used."""


def parts_of(told):
    """The commands that a machine made on one disk, each with its status and what it printed."""
    return {name: Part(int(status), text.rstrip("\n")) for name, text, status in PARTS.findall(told)}


def shown_memory(followed, lines, text):
    """Which memory a store may show is the one that it does: its kind, number and memory."""
    if followed.acked and text == followed.kept.restored(followed.acked):
        return "acknowledged", followed.acked, followed.kept
    for number, memory in followed.pending(lines):
        if text == memory.restored(number):
            return "pending", number, memory
    raise Damage(f"shows neither checkpoint {followed.acked} nor the one after it: {text.splitlines()[:1]}")


def nothing_shown(followed, part):
    """A store that shows nothing: only before a checkpoint was acknowledged."""
    if followed.acked:
        raise Damage(f"{part.text}, and checkpoint {followed.acked} was acknowledged")
    return "nothing", 0, None


def shown(followed, lines, part):
    if (part.status, part.text) in [(3, "empty chain"), (1, "cannot open DIR")]:
        return nothing_shown(followed, part)
    if part.status:
        raise Damage(f"restore: status {part.status}, {part.text}")
    return shown_memory(followed, lines, part.text)


def check_verify(part, number, is_missing):
    """`verify` has to say what `restore` shows."""
    wanted = "cannot open DIR" if is_missing else rf"ok checkpoint {number} images \d+" if number else "ok empty"
    if not re.fullmatch(wanted, part.text):
        raise Damage(f"verify: {part.text}, not {wanted}")


def check_goes_on(part, lines, number, memory):
    """The run that goes on answers as it should, and its last checkpoint is shown after its answers."""
    first, *told = part.text.split("\n")
    if first != (f"reopened {number}" if number else "reopened none"):
        raise Damage(f"a run that goes on: {first}")
    answers, restored = told[:len(lines)], told[len(lines):]
    if not restored:
        raise Damage(f"a run that goes on: status {part.status}, {told[-1:]}")
    begun = next(int(answer.split()[1]) for answer in answers if answer.startswith("acked ")) - 1
    if begun < number:
        raise Damage(f"a run that goes on acknowledges {begun + 1} above {number}")
    followed, _ = course.follow(lines, answers, memory or Memory(), begun)
    if "\n".join(restored) != followed.kept.restored(followed.acked):
        raise Damage("a run that goes on: another memory is shown than it made")


def judge(script, answers, told, goes_on):
    """The kind of what a store shows: of the run's script, the answers that were seen, what was told of the store, and
    the script of the run that goes on."""
    followed, lines = course.follow(script, answers)
    parts = parts_of(told)
    if "run" not in parts:
        raise Damage("the machine ended while it looked")
    if parts["mount"].status:
        raise Damage("the file system isn't mounted")
    kind, number, memory = shown(followed, lines, parts["restore"])
    check_verify(parts["verify"], number, parts["restore"].text == "cannot open DIR")
    check_goes_on(parts["run"], goes_on, number, memory)
    return kind
