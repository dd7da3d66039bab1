"""The kernel that the machine boots, and the initramfs that it starts from."""
import gzip
import lzma
import pathlib
import re
import stat
import subprocess
import zlib

# What the kernel needs for a virtio disk, and for the checksums of the file systems.
MODULES = "virtio_pci", "virtio_blk", "crc32c_generic"
APPLETS = "sh", "cat", "head", "insmod", "mount", "sleep", "stty", "umount"
PACKERS = {b"\xfd7zXZ\0": lzma.LZMADecompressor, b"\x1f\x8b\x08": lambda: zlib.decompressobj(31)}
READERS = {".ko": bytes, ".xz": lzma.decompress, ".gz": gzip.decompress}

INIT = """#!/bin/sh
export PATH=/bin
mount -t devtmpfs devices /dev
mount -t proc processes /proc
echo 1 > /proc/sys/vm/overcommit_memory
while read name; do insmod /modules/$name; done < /modules/order
exec < /dev/ttyS0 > /dev/ttyS0 2> /dev/ttyS1
stty raw -echo
echo guest up
read go
cat /dev/vda > /job
. /job
sleep 1000
"""


class Missing(Exception):
    """What has to be installed."""


def newest_kernel():
    """The newest kernel in /boot, and the folder of its modules."""
    kernels = sorted(pathlib.Path("/boot").glob("vmlinuz-*"), key=lambda path: path.stat().st_mtime)
    if not kernels:
        raise Missing("no kernel in /boot: apt-get install linux-image-amd64, or --kernel PATH [--modules DIR]")
    return kernels[-1]


def modules_of(kernel):
    """The folder of a kernel's modules, beside the folder that the kernel is in."""
    release = kernel.name.partition("vmlinuz-")[2]
    for top in kernel.resolve().parent.parent, pathlib.Path("/usr"):
        folder = top / "lib/modules" / release
        if folder.is_dir():
            return folder
    raise Missing(f"no modules of {kernel}: --modules DIR")


def unpacked(kernel):
    """The kernel itself of an image that unpacks itself, which takes long under software emulation; or None, where its
    compression is another one."""
    image = kernel.read_bytes()
    for magic, reader in PACKERS.items():
        for found in re.finditer(re.escape(magic), image):
            try:
                content = reader().decompress(image[found.start():])
            except (lzma.LZMAError, zlib.error):
                continue
            if content.startswith(b"\x7fELF"):
                return content
    return None


def plain_name(path):
    return path.name.partition(".ko")[0].replace("-", "_")


def module_bytes(path):
    reader = READERS.get(path.suffix)
    if reader is None:
        raise Missing(f"{path} can't be read: its compression is none of {', '.join(READERS)}")
    return reader(path.read_bytes())


def in_order(folder, names):
    """The modules with those that they need, each after what it needs, as pairs of a name and bytes."""
    paths = {plain_name(path): path for path in folder.rglob("*.ko*")}
    ordered = {}

    def add(name):
        if name in ordered or name not in paths:
            return
        content = module_bytes(paths[name])
        needed = re.search(rb"\0depends=([^\0]*)\0", content)
        for other in needed[1].decode().split(",") if needed else ():
            add(other.replace("-", "_"))
        ordered[name] = content

    for name in names:
        add(name)
    return list(ordered.items())


def libraries(program):
    """The shared libraries of a program."""
    listed = subprocess.run(["ldd", program], capture_output=True, text=True).stdout
    return [pathlib.Path(path) for path in re.findall(r"(/\S+) \(0x", listed)]


def archive(entries):
    """An archive in the format of the kernel's initramfs, of triples of a name, a mode and bytes."""
    parts = []
    for number, (name, mode, content) in enumerate([*entries, ("TRAILER!!!", 0, b"")], 1):
        fields = number, mode, 0, 0, 1, 0, len(content), 0, 0, 0, 0, len(name) + 1, 0
        head = b"070701" + b"".join(b"%08x" % field for field in fields) + name.encode() + b"\0"
        parts += [head, bytes(-len(head) % 4), content, bytes(-len(content) % 4)]
    return b"".join(parts)


def folder_entry(name):
    return name, stat.S_IFDIR | 0o755, b""


def file_entry(name, content):
    return name, stat.S_IFREG | 0o755, content


def link_entry(name, target):
    return name, stat.S_IFLNK | 0o777, target.encode()


def folders_above(names):
    """The folders that names are in, each after its own folder."""
    found = {str(parent) for name in names for parent in pathlib.PurePath(name).parents}
    return [folder_entry(name) for name in sorted(found - {"."})]


def initramfs(ckpt, busybox, modules, file_system):
    """The initramfs: tools, libraries, modules, and `init`."""
    files = {"bin/ckpt": pathlib.Path(ckpt).read_bytes(), "bin/busybox": pathlib.Path(busybox).read_bytes()}
    for path in libraries(ckpt):
        files[str(path).lstrip("/")] = path.read_bytes()
    ordered = in_order(modules, [*MODULES, file_system])
    for name, content in ordered:
        files[f"modules/{name}.ko"] = content
    files["modules/order"] = "".join(f"{name}.ko\n" for name, _ in ordered).encode()
    files["init"] = INIT.encode()
    links = [link_entry(f"bin/{applet}", "busybox") for applet in APPLETS]
    entries = [folder_entry(name) for name in ("dev", "proc", "disk")]
    return archive([*entries, *folders_above(files), *links, *(file_entry(*item) for item in files.items())])
