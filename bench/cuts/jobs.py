"""File systems, and what a machine does with disks that have them, as scripts of its shell."""
import typing


class FileSystem(typing.NamedTuple):
    """How a file system is made and mounted, its module, and the size of the disk's sectors."""
    make: tuple
    module: str
    options: str
    sector: int


QUICK = "lazy_itable_init=0,lazy_journal_init=0,nodiscard"
EXT4 = FileSystem(("mkfs.ext4", "-q", "-F", "-E", QUICK), "ext4", "rw", 512)
FILE_SYSTEMS = {
    "ext4": EXT4,
    "ext4-nobarrier": EXT4._replace(options="barrier=0"),
    "xfs": FileSystem(("mkfs.xfs", "-q", "-f", "-K"), "xfs", "rw", 512),
    "btrfs": FileSystem(("mkfs.btrfs", "-q", "-f", "-K"), "btrfs", "rw", 4096),
}

RUN = """mount -t {module} -o {options} /dev/vdb /disk && echo guest mounted
ckpt run --quiet /disk/store /script
echo guest ran $?
"""

TELL = """tell() { name=$1; shift; echo guest begins $name; "$@"; echo guest ends $name $?; }
"""

# The stream of a sender in memory. Another store, in memory too, receives it first, which says of which checkpoints it is.
# The store on the disk receives so many of its bytes, and then what it lacks.
RECEIVE = """tell run ckpt run --quiet /sender /script
ckpt send -q /sender > /whole
tell sent ckpt receive -q /other < /whole
mount -t {module} -o {options} /dev/vdb /disk && echo guest mounted
head -c {count} /whole | ckpt receive -q /disk/store
set -- $(ckpt receive -q --tip /disk/store)
[ "$1" = tip ] || set --
ckpt send -q ${{2:+--since $2}} /sender > /rest
ckpt receive -q /disk/store < /rest
echo guest ran $?
"""

LOOK = """for disk in {disks}; do
  echo guest disk
  tell mount mount -t {module} -o {options} /dev/$disk /disk
  tell verify ckpt verify /disk/store
  tell restore ckpt restore /disk/store
  tell run ckpt run --quiet --restore /disk/store /script
  umount /disk
done
echo guest looked
"""


def run_job(system):
    """Mounts the disk, and runs the script."""
    return RUN.format(module=system.module, options=system.options)


def receive_job(system, count):
    """Runs the script over a store in memory, mounts the disk, and receives what was saved: first so many bytes of it,
    as of a sender that was killed."""
    return TELL + RECEIVE.format(count=count, module=system.module, options=system.options)


def look_job(system, count):
    """Mounts so many disks one after the other, and looks at the store of each."""
    disks = " ".join(f"vd{chr(ord('b') + number)}" for number in range(count))
    return TELL + LOOK.format(module=system.module, options=system.options, disks=disks)
