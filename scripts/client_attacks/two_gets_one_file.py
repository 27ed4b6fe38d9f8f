#!/usr/bin/env python3
"""Two `get` to one FILE at once never leave a cut file, and a file of the user's beside FILE stays.

What is under way beside FILE is seen by its name, so it is slowed down: strace (Debian's) holds a call up. Without strace those rows are left out.
"""
import os
import shutil
import signal
import subprocess
import time

from hostile import TOOL, FakeServer, Rows

A, B = b"A" * 50_000, b"B" * 900_000


def server_of(octets):
    return FakeServer({"SIZE": f"213 {len(octets)}", "RETR": lambda session, _: session.send(octets)})


def slowed(rows, server, call, micros):
    """A `get` of which the first such call is held up."""
    words = ["strace", "-qq", "-o", "/dev/null", "-e", f"trace={call}", "-e", f"inject={call}:delay_enter={micros}:when=1"]
    return subprocess.Popen([*words, TOOL, "get", f"127.0.0.1:{server.port}/f", "out"], cwd=rows.folder, stderr=subprocess.DEVNULL, start_new_session=True)


def beside(rows):
    """A file of the user's, or another's part, has the name that a part would have."""
    a = server_of(A)
    mine = rows.folder / "out.ftp-part"
    mine.write_bytes(b"mine")
    status, _, told = rows.tool("get", f"127.0.0.1:{a.port}/f", "out")
    seen = mine.exists() and mine.read_bytes()
    rows.row("the user's FILE.ftp-part stays", (status, seen) == (0, b"mine"), (status, seen, told))
    rows.row("the download is whole", (rows.folder / "out").read_bytes() == A, "")
    rows.row("nothing else is left", sorted(os.listdir(rows.folder)) == ["out", "out.ftp-part"], os.listdir(rows.folder))
    cut = FakeServer({"SIZE": "502 no", "RETR": lambda session, _: cut_off(session)})
    status, _, told = rows.tool("get", f"127.0.0.1:{cut.port}/f", "out", "--keep")
    seen = mine.read_bytes(), (rows.folder / "out").read_bytes() == A
    named = [name for name in os.listdir(rows.folder) if name not in ("out", "out.ftp-part")]
    holds = status == 1 and seen == (b"mine", True) and len(named) == 1 and named[0].encode() in told
    rows.row("--keep leaves both as they were, and says where the octets are", holds, (status, seen, named, told))
    for name in [*named, "out.ftp-part", "out"]:
        (rows.folder / name).unlink(missing_ok=True)


def cut_off(session):
    """Some octets, and then a reset."""
    import socket
    import struct

    session.reply("150 here")
    link = session.data.accept()[0]
    link.sendall(b"part")
    time.sleep(0.3)
    link.setsockopt(socket.SOL_SOCKET, socket.SO_LINGER, struct.pack("ii", 1, 0))
    link.close()
    session.reply("426 broken")


def at_once(rows):
    """The first is held up at its flush; meanwhile the second begins to write, and is killed in its middle."""
    a, b = server_of(A), server_of(B)
    (rows.folder / "out").write_bytes(b"older")
    first = slowed(rows, a, "fsync", 2_000_000)
    time.sleep(1)
    second = slowed(rows, b, "write", 4_000_000)
    status = first.wait()
    got = (rows.folder / "out").read_bytes()
    rows.row("the first ends with 0 and its whole file", (status, got) == (0, A), (status, len(got)))
    os.killpg(second.pid, signal.SIGKILL)
    second.wait()
    got = (rows.folder / "out").read_bytes()
    rows.row("the second is killed, and FILE stays whole", got == A, len(got))


def many(rows):
    """Eight at once, of two contents: each that ends with 0 leaves a whole file."""
    a, b = server_of(A), server_of(B)
    for turn in range(3):
        running = [
            subprocess.Popen([TOOL, "get", f"127.0.0.1:{(a, b)[number % 2].port}/f", "many"], cwd=rows.folder, stderr=subprocess.DEVNULL)
            for number in range(8)
        ]
        ends = [each.wait() for each in running]
        got = (rows.folder / "many").read_bytes()
        rows.row(f"eight at once, {turn}: one of the whole files", ends == [0] * 8 and got in (A, B), (ends, len(got)))
    left = [name for name in os.listdir(rows.folder) if name.startswith("many.")]
    rows.row("no part is left", left == [], left)


def main():
    rows = Rows()
    beside(rows)
    if shutil.which("strace"):
        at_once(rows)
    else:
        print("left out: no strace")
    many(rows)
    rows.finish()


main()
