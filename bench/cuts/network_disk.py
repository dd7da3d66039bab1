"""A disk over the network block device protocol, which records each write and flush in the order of their coming."""
import os
import struct

from . import record
from .machine import PATIENCE_TO_CONNECT, Ended, listen

GREETING = b"NBDMAGIC" + b"IHAVEOPT" + struct.pack(">H", 3)
OPTION_REPLY = 0x3E889045565A9
GO = 7
ACKNOWLEDGED, INFORMED, UNSUPPORTED = 1, 3, (1 << 31) + 1
HAS_FLAGS_AND_FLUSH = 5
REPLY = 0x67446698
HEAD = struct.Struct(">IHHQQI")
READ, WRITE, LEAVE, FLUSH = range(4)


class NetworkDisk:
    """Serves the bytes of a file, which no power cut harms, to one machine."""

    def __init__(self, room, image):
        self.path = room / "disk"
        self.listener = listen(self.path)
        self.file = os.open(image, os.O_RDWR)
        self.size = os.fstat(self.file).st_size
        self.record = record.Record()
        self.arrived = b""
        self.peer = None

    def word(self):
        """The disk as a word of QEMU's."""
        return f"driver=nbd,server.type=unix,server.path={self.path},export="

    def greet(self):
        """Takes the machine's connection, and negotiates until it goes on to requests."""
        self.peer, _ = self.listener.accept()
        self.peer.settimeout(PATIENCE_TO_CONNECT)
        self.peer.sendall(GREETING)
        self.exactly(4)
        while self.option() != GO:
            pass

    def exactly(self, count):
        got = b""
        while len(got) < count:
            more = self.peer.recv(count - len(got))
            if not more:
                raise Ended("the machine left the disk")
            got += more
        return got

    def option(self):
        _, option, length = struct.unpack(">QII", self.exactly(16))
        self.exactly(length)
        if option == GO:
            self.reply_option(option, INFORMED, struct.pack(">HQH", 0, self.size, HAS_FLAGS_AND_FLUSH))
            self.reply_option(option, ACKNOWLEDGED, b"")
        else:
            self.reply_option(option, UNSUPPORTED, b"")
        return option

    def reply_option(self, option, kind, content):
        self.peer.sendall(struct.pack(">QIII", OPTION_REPLY, option, kind, len(content)) + content)

    def serve(self, seen):
        """Answers the requests that have arrived, up to the record's last entry. `seen` is how many bytes had come
        over the line before."""
        came = self.peer.recv(1 << 20)
        if not came:
            raise Ended("the machine left the disk")
        self.arrived += came
        self.record.next_batch()
        while (request := self.next_request()) and not self.record.is_full():
            self.take(*request, seen)

    def next_request(self):
        """The next request that has arrived in whole: kind, handle, place, length."""
        if len(self.arrived) < HEAD.size:
            return None
        _, _, kind, handle, place, length = HEAD.unpack_from(self.arrived)
        if kind == WRITE and len(self.arrived) < HEAD.size + length:
            return None
        return kind, handle, place, length

    def take(self, kind, handle, place, length, seen):
        content, end = b"", HEAD.size
        if kind == WRITE:
            end += length
            self.record.write(place, self.arrived[HEAD.size:end], seen)
            os.pwrite(self.file, self.arrived[HEAD.size:end], place)
        elif kind == FLUSH:
            self.record.flush(seen)
        elif kind == READ:
            content = os.pread(self.file, length, place)
        self.arrived = self.arrived[end:]
        if kind != LEAVE:
            self.peer.sendall(struct.pack(">IIQ", REPLY, 0, handle) + content)

    def close(self):
        os.close(self.file)
        self.listener.close()
        if self.peer:
            self.peer.close()
