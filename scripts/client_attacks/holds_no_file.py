#!/usr/bin/env python3
"""A `get`, a `put` and a `mirror` either way hold no file in memory: what comes goes to the disk as it comes, what goes is read as it goes. A device that is full, a file that is
cut or grows while it is read, and a program that is killed in the middle: each is told, and nothing takes the place of FILE that is not whole.
"""
import os
import resource
import shutil
import signal
import socket
import subprocess
import time

from hostile import TOOL, FakeServer, Rows

LARGE = 128 * 1_048_576
MOST = 32 * 1024
PIECE = bytes(range(256)) * 256
OLDER = b"older"
KEPT = "out.ftp-part"
NOTE = KEPT + ".note"


def get(rows, server, *words):
    """The status, FILE, and standard error of a get over an older FILE."""
    (rows.folder / "out").write_bytes(OLDER)
    status, _, told = rows.tool("get", f"127.0.0.1:{server.port}/f", "out", *words)
    return status, (rows.folder / "out").read_bytes(), told.decode()


def clear(rows):
    for name in rows.folder.glob("out*"):
        name.unlink()


def started(rows, *words, most=None):
    """Starts the tool, for which no file may have more octets than `most`."""

    def limit():
        signal.signal(signal.SIGXFSZ, signal.SIG_IGN)
        if most is not None:
            resource.setrlimit(resource.RLIMIT_FSIZE, (most, most))

    return subprocess.Popen([TOOL, *words], cwd=rows.folder, stderr=subprocess.PIPE, preexec_fn=limit)


def ended(process):
    """The status, standard error, and the most memory in KiB."""
    told = process.stderr.read().decode()
    _, status, used = os.wait4(process.pid, 0)
    process.returncode = os.waitstatus_to_exitcode(status)
    return process.returncode, told, used.ru_maxrss


def sent(count):
    """A transfer of so many octets."""

    def retr(session, _):
        session.reply("150 here")
        link = session.data.accept()[0]
        at, session.offset = session.offset, 0
        try:
            while at < count:
                at += link.send(PIECE[at % len(PIECE):][: count - at])
            link.close()
            session.reply("226 done")
        except OSError:
            session.reply("426 broken")

    return retr


class Taker:
    """A server that takes an upload, and calls `amid` behind so many octets."""

    def __init__(self, behind=None, amid=None):
        self.behind, self.amid, self.took, self.was_reset = behind, amid, 0, False
        self.server = FakeServer({"SIZE": self.size, "STOR": self.stor, "MDTM": "502 no", "MLSD": lambda session, _: session.send(b"")})
        self.port = self.server.port

    def size(self, session, _):
        session.reply(f"213 {self.took}" if self.took else "550 none")

    def stor(self, session, _):
        session.reply("150 here")
        link = session.data.accept()[0]
        link.setsockopt(socket.SOL_SOCKET, socket.SO_RCVBUF, 65_536)
        try:
            while octets := link.recv(65_536):
                self.took += len(octets)
                if self.amid and self.took >= self.behind:
                    self.amid()
                    self.amid = None
        except ConnectionResetError:
            self.was_reset = True
        link.close()
        session.reply("426 broken" if self.was_reset else "226 done")


def in_little_memory(rows):
    server = FakeServer({"SIZE": f"213 {LARGE}", "MDTM": "213 20260101000000", "RETR": sent(LARGE)})
    status, told, used = ended(started(rows, "get", f"127.0.0.1:{server.port}/f", "out"))
    count = (rows.folder / "out").stat().st_size
    rows.row("a get of 128 MiB", (status, count, used < MOST) == (0, LARGE, True), (status, count, used, told))
    taker = Taker()
    status, told, used = ended(started(rows, "put", "out", f"127.0.0.1:{taker.port}/f"))
    rows.row("a put of 128 MiB", (status, taker.took, used < MOST) == (0, LARGE, True), (status, taker.took, used, told))
    folder = rows.folder / "tree"
    folder.mkdir()
    (rows.folder / "out").rename(folder / "f")
    for limit in ((), ("--limit", "1000000000")):
        taker = Taker()
        status, told, used = ended(started(rows, "mirror", "./tree", f"127.0.0.1:{taker.port}/", *limit))
        rows.row(f"a mirror of 128 MiB up {limit}", (status, taker.took, used < MOST) == (0, LARGE, True), (status, taker.took, used, told))
    taker = Taker()
    status, told, _ = ended(started(rows, "mirror", "./tree", f"127.0.0.1:{taker.port}/", "--limit", "100000"))
    rows.row("a mirror up past a limit", (status, taker.took) == (1, 0) and "134217728" in told, (status, taker.took, told))
    shutil.rmtree(folder)
    listing = b"Type=file;Size=%d;Modify=20260101000000; f\r\n" % LARGE
    says = {"SIZE": f"213 {LARGE}", "MDTM": "213 20260101000000", "RETR": sent(LARGE), "MLSD": lambda session, _: session.send(listing)}
    status, told, used = ended(started(rows, "mirror", f"127.0.0.1:{FakeServer(says).port}/", "./tree"))
    count = (folder / "f").stat().st_size
    rows.row("a mirror of 128 MiB down", (status, count, used < MOST) == (0, LARGE, True), (status, count, used, told))
    shutil.rmtree(folder)
    clear(rows)


def onto_a_full_device(rows):
    server = FakeServer({"SIZE": "213 1000000", "MDTM": "213 20260101000000", "RETR": sent(1_000_000)})
    for words, stays in (((), False), (("--keep",), True)):
        (rows.folder / "out").write_bytes(OLDER)
        status, told, _ = ended(started(rows, "get", f"127.0.0.1:{server.port}/f", "out", *words, most=300_000))
        part = rows.folder / KEPT
        left = part.exists() and part.stat().st_size > 0 and (rows.folder / NOTE).exists()
        holds = (status, (rows.folder / "out").read_bytes(), left) == (3, OLDER, stays) and "too large" in told
        rows.row(f"a get onto a device that is full {words}", holds, (status, told, left))
    status, octets, told = get(rows, server, "--continue")
    rows.row("and --continue goes on behind what had room", (status, len(octets)) == (0, 1_000_000) and any(it.startswith("REST ") for it in server.commands) and "anew" not in told, (status, len(octets), told, server.commands))
    clear(rows)


def of_a_file_that_changes(rows):
    file = rows.folder / "in"
    for what, change in (("is cut", lambda: os.truncate(file, 4_000_000)), ("grows", lambda: open(file, "ab").write(b"more"))):
        file.write_bytes(PIECE * 300)
        taker = Taker(1_000_000, change)
        status, told, _ = ended(started(rows, "put", "in", f"127.0.0.1:{taker.port}/f"))
        time.sleep(0.3)
        holds = status == 3 and taker.was_reset and "has changed" in told
        rows.row(f"a put of a file that {what} while it is read", holds, (status, told, taker.took, taker.was_reset))
    file.unlink()
    folder = rows.folder / "changing"
    folder.mkdir()
    file = folder / "f"
    for what, change in (("is cut", lambda: os.truncate(file, 4_000_000)), ("grows", lambda: open(file, "ab").write(b"more"))):
        file.write_bytes(PIECE * 300)
        taker = Taker(1_000_000, change)
        status, told, _ = ended(started(rows, "mirror", "./changing", f"127.0.0.1:{taker.port}/"))
        time.sleep(0.3)
        holds = status == 1 and taker.was_reset and "f: " in told and "has changed" in told and "1 failed" in told
        rows.row(f"a mirror of a file that {what} while it is read", holds, (status, told, taker.took, taker.was_reset))
    shutil.rmtree(folder)


def stalled(count):
    """A transfer that brings so many octets, and then nothing for a while."""

    def retr(session, _):
        session.reply("150 here")
        link = session.data.accept()[0]
        link.sendall(PIECE[:count])
        time.sleep(3)
        link.close()

    return retr


def rest_of(octets):
    """A transfer of what stands behind the offset."""

    def retr(session, _):
        rest, session.offset = octets[session.offset:], 0
        session.send(rest)

    return retr


def killed_in_the_middle(rows):
    whole = PIECE[:20_000]
    slow = FakeServer({"SIZE": "213 20000", "MDTM": "213 20260101000000", "RETR": stalled(7_000)})
    (rows.folder / "out").write_bytes(OLDER)
    place = f"127.0.0.1:{slow.port}/f"
    process = started(rows, "get", place, "out", "--keep")
    time.sleep(1)
    other = started(rows, "get", place, "out", "--continue")
    time.sleep(1)
    second = rows.folder / (KEPT + "-1")
    rows.row("one that another get writes is not gone on behind", second.exists() and second.stat().st_size == 7_000, sorted(it.name for it in rows.folder.iterdir()))
    for it in (other, process):
        it.kill()
        ended(it)
    part = rows.folder / KEPT
    left = part.exists() and part.read_bytes() == whole[:7_000] and (rows.folder / NOTE).exists()
    rows.row("killed with --keep: the part and its note stay, and the older file", left and (rows.folder / "out").read_bytes() == OLDER, sorted(it.name for it in rows.folder.iterdir()))
    slow.says["RETR"] = rest_of(whole)
    status, octets, told = get(rows, slow, "--continue")
    rows.row("and --continue goes on behind it", (status, octets) == (0, whole) and "7000 of 20000 octets came; going on" in told and "anew" not in told, (status, len(octets), told, slow.commands))
    clear(rows)


def main():
    rows = Rows()
    in_little_memory(rows)
    onto_a_full_device(rows)
    of_a_file_that_changes(rows)
    killed_in_the_middle(rows)
    rows.finish()


if __name__ == "__main__":
    main()
