"""What all runs over one file system share: an empty disk, and the state of a machine that waits for its job."""
import os
import subprocess

from . import guest
from .machine import Machine, Silence

# The greatest number of disks that a machine looks at.
MOST_DISKS = 16
DISK_SIZE = 320 << 20
JOB_SIZE = 64 << 10
# How long KVM may take until the machine waits for its job, in seconds, before software emulation is tried.
PATIENCE_FOR_KVM = 15


class Bench:
    """The files are in the folder `room`. A machine that tells nothing for `patience` seconds is given up."""

    def __init__(self, room, system, given, busybox):
        self.room = room
        self.system = system
        self.patience = given.patience
        self.boot = self.unpack(given.kernel), self.initramfs(given, busybox)
        self.empty = self.make_empty()
        self.state = room / "state"
        self.accelerator = self.wait_for_job(given.accelerator)

    def initramfs(self, given, busybox):
        path = self.room / "initramfs"
        path.write_bytes(guest.initramfs(given.ckpt, busybox, given.modules, self.system.module))
        return path

    def unpack(self, kernel):
        content = guest.unpacked(kernel)
        if content is None:
            return kernel
        path = self.room / "kernel"
        path.write_bytes(content)
        return path

    def make_empty(self):
        """A disk with an empty file system."""
        path = self.room / "empty"
        with path.open("wb") as file:
            file.truncate(DISK_SIZE)
        subprocess.run([*self.system.make, path], check=True, stdout=subprocess.DEVNULL)
        return path

    def wait_for_job(self, accelerator):
        """Boots a machine up to where it waits for its job, and saves its state. Returns what runs it: KVM where it is
        there and soon gets so far, or software emulation."""
        if not accelerator and os.access("/dev/kvm", os.R_OK | os.W_OK):
            try:
                self.boot_by("kvm", PATIENCE_FOR_KVM)
                return "kvm"
            except Silence:
                pass
        self.boot_by(accelerator or "tcg", self.patience)
        return accelerator or "tcg"

    def boot_by(self, accelerator, patience):
        machine = Machine(self.room, accelerator, self.boot, self.disks([]), self.system.sector)
        try:
            machine.wait_for(b"guest up\n", patience)
            machine.save(self.state)
        finally:
            machine.kill()

    def disks(self, words):
        """The disks of a machine: that with its job, those with words, and unused ones up to the greatest number."""
        job = self.room / "job"
        if not job.exists():
            job.write_bytes(b"\n" * JOB_SIZE)
        unused = [f"driver=null-co,size={DISK_SIZE},read-zeroes=on"] * (MOST_DISKS - len(words))
        return [f"driver=file,filename={job},read-only=on", *words, *unused]

    def fresh(self, name):
        """A new disk with the empty file system."""
        path = self.room / name
        subprocess.run(["cp", "--sparse=always", "--reflink=auto", self.empty, path], check=True)
        return path

    def start(self, job, script, disks):
        """A machine that has its job, and waits to be told `go`."""
        lines = "".join(line + "\n" for line in script)
        text = f"cat > /script <<'end of script'\n{lines}end of script\n{job}".encode()
        (self.room / "job").write_bytes(text.ljust(JOB_SIZE, b"\n"))
        return Machine(self.room, self.accelerator, self.boot, self.disks(disks), self.system.sector, self.state)
