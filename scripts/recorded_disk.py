"""A disk whose writes and flushes are recorded, so that a loss of power at any moment can be played: a file that this process gives to the kernel by
/dev/fuse, below a loop device. It is in no need of a library; root, a kernel with fuse and loop devices, and `mount` of util-linux are.

    with Disk(place, octets) as disk:       # an empty one; `disk.file` is to be mounted with `-o loop`
        ...
        disk.left_by(len(disk.record), draw)     # what is on it where the power goes now
"""
import ctypes
import errno
import os
import struct
import subprocess
import threading

# Of linux/fuse.h: the calls that are answered.
LOOKUP, FORGET, GETATTR, SETATTR, OPEN, READ, WRITE, STATFS, RELEASE, FSYNC, FLUSH = 1, 2, 3, 4, 14, 15, 16, 17, 18, 20, 25
INIT, OPENDIR, RELEASEDIR, ACCESS, INTERRUPT, DESTROY, BATCH_FORGET = 26, 27, 29, 34, 36, 38, 42
HEADER = struct.Struct("<IIQQIIIHH")
ROOT, FILE = 1, 2


class Lacking(Exception):
    """Why there is no such disk here."""


class Disk:
    """The disk. `record` has each write, as its place and octets, and a None for each flush."""

    def __init__(self, place, size):
        self.image, self.record, self.fails = bytearray(size), [], False
        self.below = f"{place}/recorded"
        self.file = f"{self.below}/image"
        os.makedirs(self.below)
        try:
            self.channel = os.open("/dev/fuse", os.O_RDWR | os.O_CLOEXEC)
        except OSError as why:
            raise Lacking("/dev/fuse") from why
        said = f"fd={self.channel},rootmode=40000,user_id=0,group_id=0,allow_other"
        libc = ctypes.CDLL(None, use_errno=True)
        if libc.mount(b"recorded", self.below.encode(), b"fuse", 0, said.encode()):
            os.close(self.channel)
            raise Lacking(f"mount: {os.strerror(ctypes.get_errno())}")
        self.thread = threading.Thread(target=self.serve, daemon=True)
        self.thread.start()
        self.start = b""

    def begin(self):
        """What was recorded so far is what the disk begins with."""
        self.start, self.record = bytes(self.image), []

    def left_by(self, moment, draw):
        """What is on the disk where the power goes after so many entries of the record: all that was written before the last flush, and of
        what was written since a part that is drawn, or all."""
        image, before = bytearray(self.start), self.record[:moment]
        flushed = max((at for at, it in enumerate(before) if it is None), default=0)
        odds = draw.choice([0.0, 0.5, 0.9, 1.0])
        for at, it in enumerate(before):
            if it and (at < flushed or draw.random() < odds):
                image[it[0] : it[0] + len(it[1])] = it[1]
        return image

    def __enter__(self):
        return self

    def __exit__(self, *_):
        subprocess.run(["umount", "-l", self.below], stderr=subprocess.DEVNULL, check=False)
        self.thread.join(5)

    def serve(self):
        """Answers the kernel until the disk is gone."""
        while True:
            try:
                asked = os.read(self.channel, 1 << 20)
            except OSError as why:
                if why.errno in (errno.EINTR, errno.EAGAIN, errno.ENOENT):
                    continue
                break
            _, call, unique, node, *_ = HEADER.unpack_from(asked)
            if call in (FORGET, BATCH_FORGET, INTERRUPT):
                continue
            try:
                status, answer = 0, self.answer(call, node, asked[HEADER.size :])
            except OSError as why:
                status, answer = -why.errno, b""
            try:
                os.write(self.channel, struct.pack("<IiQ", 16 + len(answer), status, unique) + answer)
            except OSError:
                pass
        os.close(self.channel)

    def attributes(self, node):
        size, mode = (len(self.image), 0o100600) if node == FILE else (0, 0o40755)
        return struct.pack("<QQQQQQIIIIIIIIII", node, size, size // 512, 0, 0, 0, 0, 0, 0, mode, 1, 0, 0, 0, 4096, 0)

    def answer(self, call, node, rest):
        if call == INIT:
            major, minor, ahead, _ = struct.unpack_from("<IIII", rest)
            return struct.pack("<IIIIHHIIHH8I", major, min(minor, 31), ahead, 1 << 5, 16, 12, 131_072, 1, 0, 0, *[0] * 8)
        if call == LOOKUP and rest.rstrip(b"\0") == b"image":
            return struct.pack("<QQQQII", FILE, 0, 3600, 3600, 0, 0) + self.attributes(FILE)
        if call in (GETATTR, SETATTR):
            return struct.pack("<QII", 3600, 0, 0) + self.attributes(node)
        if call in (OPEN, OPENDIR):
            return struct.pack("<QII", 0, 0, 0)
        if call == READ:
            _, at, size = struct.unpack_from("<QQI", rest)
            return bytes(self.image[at : at + size])
        if call == WRITE:
            return self.written(*struct.unpack_from("<QQI", rest)[1:], rest[40:])
        if call in (FSYNC, FLUSH):
            return self.flushed(call)
        if call == STATFS:
            return struct.pack("<QQQQQIIII6I", 1 << 20, 1 << 19, 1 << 19, 100, 50, 4096, 255, 4096, 0, *[0] * 6)
        if call in (RELEASE, RELEASEDIR, ACCESS, DESTROY):
            return b""
        raise OSError(errno.ENOENT if call == LOOKUP else errno.ENOSYS, "")

    def written(self, at, size, octets):
        if self.fails:
            raise OSError(errno.EIO, "")
        self.image[at : at + size] = octets[:size]
        self.record.append((at, bytes(octets[:size])))
        return struct.pack("<II", size, 0)

    def flushed(self, call):
        if self.fails:
            raise OSError(errno.EIO, "")
        if call == FSYNC:
            self.record.append(None)
        return b""
