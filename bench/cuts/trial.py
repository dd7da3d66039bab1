"""One run under a power cut: a machine that is killed, the disks that the cut may leave, and a look at each."""
import contextlib
import random
import select
import typing

from . import course, jobs, receipt, record, scripts, verdict
from .machine import Ended, Silence, pause
from .network_disk import NetworkDisk

MOUNTED = b"guest mounted\n"
RAN = b"guest ran "
DISK = b"guest disk\n"
# The most requests that come after the last acknowledgement before the power is cut.
MOST_REQUESTS = 60
# The most bytes of a stream after which it is cut off first.
MOST_BYTES = 100_000


class Saving:
    """A run of a random script over the disk, which acknowledges checkpoints."""
    mark = b"\nacked "

    def __init__(self, chance):
        self.script = scripts.random_script(chance)
        self.checkpoints = sum(line.split()[0] in ("checkpoint", "finish") for line in self.script)

    def job(self, system):
        return jobs.run_job(system)

    def judge(self, run, lines, told, goes_on):
        return verdict.judge(self.script, lines[1:], told, goes_on)


class Receiving:
    """A store on the disk that receives what a run over a store in memory saved."""
    mark = b"\nreceived "
    checkpoints = 6

    def __init__(self, chance):
        self.script, self.count = scripts.random_script(chance), chance.randrange(MOST_BYTES)

    def job(self, system):
        return jobs.receive_job(system, self.count)

    def judge(self, run, lines, told, goes_on):
        sent = receipt.sent(self.script, run.told.partition(MOUNTED)[0].decode(errors="replace"))
        return receipt.judge(sent, lines, told, goes_on)


class Run(typing.NamedTuple):
    """A run that was cut: what it did, what its disk was asked for, and what was told over the line."""
    work: Saving | Receiving
    record: record.Record
    told: bytes


class Found(typing.NamedTuple):
    """What was found at one moment: the kind, or why it is none, and whether writes were lost."""
    kind: str | None
    why: str
    has_lost: bool


def cut(bench, work, chance):
    """Has the work done, and kills the machine at a random moment."""
    last, more = chance.randint(1, work.checkpoints), chance.randint(0, MOST_REQUESTS)
    with contextlib.closing(NetworkDisk(bench.room, bench.fresh("live"))) as disk:
        machine = bench.start(work.job(bench.system), work.script, [disk.word()])
        try:
            disk.greet()
            machine.tell(b"go\n")
            until_cut(machine, disk, (work.mark, last), more, bench.patience)
        finally:
            machine.kill()
    return Run(work, disk.record, machine.told)


def until_cut(machine, disk, marks, more, patience):
    """Serves the disk until a mark has come so many times since it was mounted, and then so many more requests, or the
    work ends."""
    mark, count = marks
    while not disk.record.is_full() and RAN not in machine.told:
        ready, _, _ = select.select([machine.line, disk.peer], [], [], patience)
        if not ready:
            raise Silence(machine.last_words())
        machine.drain()
        if disk.record.limit is None and machine.told.partition(MOUNTED)[2].count(mark[1:]) >= count:
            disk.record.limit = len(disk.record.entries) + more
        if disk.peer in ready:
            disk.serve(len(machine.told))
    pause()
    machine.drain()


def moments_of(run, count, chance):
    """Moments of a run, as numbers of entries: that at which it was killed, and random others, each after a write that
    came since the disk was mounted."""
    mounted = run.told.index(MOUNTED)
    entries = run.record.entries
    after = [number for number, entry in enumerate(entries, 1) if entry.content is not None and entry.seen > mounted]
    others = [number for number in after if number < len(entries)]
    return sorted([len(entries), *chance.sample(others, min(count - 1, len(others)))])


def answers_at(run, moment):
    """The lines that had come since the disk was mounted, at a moment."""
    entries = run.record.entries
    seen = entries[moment].seen if moment < len(entries) else len(run.told)
    told = run.told[:seen].partition(MOUNTED)[2].partition(RAN)[0].decode(errors="replace")
    return told.split("\n")[:-1]


def leave(bench, run, moment, chance, reorder, name):
    """The disk that a cut at a moment leaves, and whether writes are lost."""
    path = bench.fresh(name)
    writes, has_lost = record.left_at(run.record, moment, chance, reorder, bench.system.sector)
    with path.open("r+b", buffering=0) as file:
        for place, content in writes:
            file.seek(place)
            file.write(content)
    return path, has_lost


def look(bench, images, script):
    """What is told of each disk. Where a machine ends by itself, another one goes on after the disk that it had."""
    told = look_once(bench, images, script)
    return told if len(told) == len(images) else told + look(bench, images[len(told):], script)


def look_once(bench, images, script):
    disks = [f"driver=file,filename={image},cache.no-flush=on" for image in images]
    machine = bench.start(jobs.look_job(bench.system, len(images)), script, disks)
    try:
        machine.tell(b"go\n")
        machine.wait_for(b"guest looked\n", bench.patience)
    except Ended:
        if DISK not in machine.told:
            raise
    finally:
        machine.kill()
    return [part.decode(errors="replace") for part in machine.told.split(DISK)[1:]]


def judged(run, moment, told, goes_on, has_lost):
    try:
        return Found(run.work.judge(run, answers_at(run, moment), told, goes_on), "", has_lost)
    except (verdict.Damage, course.Unexpected) as fault:
        return Found(None, f"moment {moment} of {len(run.record.entries)}: {fault}", has_lost)


def keep(folder, run, moment, path, told):
    """Keeps what was found at a moment: the disk after the look, the script, and what was told."""
    folder.mkdir(parents=True, exist_ok=True)
    path.rename(folder / "disk")
    (folder / "script").write_text("".join(line + "\n" for line in run.work.script))
    (folder / "answers").write_text("".join(line + "\n" for line in answers_at(run, moment)))
    (folder / "told").write_text(told)


def try_run(bench, seed, count, given):
    """Cuts one run, and looks at so many of its moments. Yields what was found at each."""
    chance = random.Random(seed)
    run = cut(bench, given.work(chance), chance)
    moments = moments_of(run, count, chance)
    left = [leave(bench, run, moment, chance, given.reorder, f"left{place}") for place, moment in enumerate(moments)]
    goes_on = scripts.goes_on(chance)
    told = look(bench, [path for path, _ in left], goes_on)
    for moment, (path, has_lost), text in zip(moments, left, told, strict=True):
        found = judged(run, moment, text, goes_on, has_lost)
        if not found.kind and given.keep:
            keep(given.keep / f"{seed}.{moment}", run, moment, path, text)
        path.unlink(missing_ok=True)
        yield found
