"""A machine under QEMU, and the serial line over which it tells what it does."""
import ctypes
import json
import select
import signal
import socket
import subprocess
import time

QEMU = "qemu-system-x86_64"
COMMAND_LINE = ("console=ttyS1 loglevel=4 panic=-1 random.trust_cpu=on mitigations=off nokaslr no_timer_check"
                " tsc=reliable")


# How long QEMU may take to connect, in seconds.
PATIENCE_TO_CONNECT = 120


class Silence(Exception):
    """The machine told nothing for too long."""


class Ended(Silence):
    """The machine ended by itself."""


def die_with_the_tool():
    ctypes.CDLL(None).prctl(1, signal.SIGKILL)


def listen(path):
    path.unlink(missing_ok=True)
    listener = socket.socket(socket.AF_UNIX)
    listener.bind(str(path))
    listener.listen()
    listener.settimeout(PATIENCE_TO_CONNECT)
    return listener


class Machine:
    """A machine that boots a kernel with an initramfs, or goes on from a state that was saved, over disks that are
    told as QEMU's `-blockdev` words."""

    def __init__(self, room, accelerator, boot, disks, sector, state=None):
        self.told = b""
        self.room = room
        self.errors = (room / "qemu").open("w+")
        with listen(room / "line") as lines, listen(room / "control") as controls:
            words = [*self.words(accelerator, boot), *disk_words(disks, sector)]
            words += ["-incoming", f"exec:cat {state}"] if state else []
            self.process = subprocess.Popen(words, stdin=subprocess.DEVNULL, stdout=self.errors,
                                            stderr=self.errors, preexec_fn=die_with_the_tool)
            self.connect(lines, controls)

    def connect(self, lines, controls):
        try:
            self.line, _ = lines.accept()
            self.control = controls.accept()[0].makefile("rw")
        except TimeoutError:
            self.process.kill()
            raise Silence(self.last_words()) from None

    def words(self, accelerator, boot):
        kernel, initramfs = boot
        return [QEMU, "-nodefaults", "-no-user-config", "-no-reboot", "-display", "none", "-machine", "pc",
                "-accel", accelerator, "-cpu", "max", "-smp", "1", "-m", "512",
                "-kernel", str(kernel), "-initrd", str(initramfs), "-append", COMMAND_LINE,
                "-chardev", f"socket,id=line,path={self.room}/line", "-serial", "chardev:line",
                "-chardev", f"socket,id=control,path={self.room}/control", "-mon", "chardev=control,mode=control",
                "-serial", f"file:{self.room}/console"]

    def drain(self):
        """Takes what has come over the line."""
        while select.select([self.line], [], [], 0)[0]:
            came = self.line.recv(1 << 16)
            if not came:
                raise Ended(self.last_words())
            self.told += came

    def wait_for(self, text, seconds):
        """Waits until a text has come over the line, and no longer than so many seconds without a word."""
        while text not in self.told:
            if not select.select([self.line], [], [], seconds)[0]:
                raise Silence(self.last_words())
            self.drain()

    def tell(self, text):
        self.line.sendall(text)

    def ask(self, command, **arguments):
        """Makes a command of QEMU's control protocol."""
        self.control.write(json.dumps({"execute": command, "arguments": arguments}))
        self.control.flush()
        while True:
            answer = json.loads(self.control.readline())
            if "return" in answer:
                return answer["return"]
            if "error" in answer:
                raise Silence(answer["error"]["desc"])

    def save(self, path):
        """Saves the machine's state. It stands still then."""
        self.ask("qmp_capabilities")
        self.ask("migrate", uri=f"exec:cat > {path}")
        while (status := self.ask("query-migrate").get("status")) != "completed":
            if status == "failed":
                raise Silence("the machine's state can't be saved")
            time.sleep(0.1)

    def last_words(self):
        """What was told last, for a message."""
        self.errors.seek(0)
        console = self.room / "console"
        shown = console.read_text(errors="replace") if console.exists() else ""
        return f"{self.told[-300:].decode(errors='replace')}\n{shown[-1500:]}\n{self.errors.read()[-500:]}"

    def kill(self):
        self.process.kill()
        self.process.wait()
        self.line.close()
        self.control.close()
        self.errors.close()


def disk_words(disks, sector):
    kind = f"virtio-blk-pci,write-cache=on,logical_block_size={sector},physical_block_size={sector}"
    words = []
    for number, disk in enumerate(disks):
        words += ["-blockdev", f"{disk},node-name=disk{number}"]
        words += ["-device", f"{kind},drive=disk{number},addr={number + 4:x}"]
    return words


def pause(seconds=0.05):
    """Time for what was printed to come over the line."""
    time.sleep(seconds)
