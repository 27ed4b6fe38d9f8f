#!/usr/bin/env python3
"""What stands by the names of a part and of its note is never written over, removed or followed: it may be of the user, or put there by another."""
import os
import socket
import struct
import time

from hostile import FakeServer, Rows

WHOLE = bytes(range(256)) * 40
PART, NOTE = "f.ftp-part", "f.ftp-part.note"
TEXT = b"of the user"


def broken(count):
    """Each transfer breaks after so many octets."""

    def retr(session, _):
        octets, session.offset = WHOLE[session.offset:], 0
        session.reply("150 here")
        link = session.data.accept()[0]
        link.sendall(octets[:count])
        time.sleep(0.02)
        link.setsockopt(socket.SOL_SOCKET, socket.SO_LINGER, struct.pack("ii", 1, 0))
        link.close()
        session.reply("426 broken")

    return retr


def server_of(retr):
    return FakeServer({"SIZE": f"213 {len(WHOLE)}", "MDTM": "213 20260101000000", "RETR": retr})


def whole(session, _):
    octets, session.offset = WHOLE[session.offset:], 0
    session.send(octets)


def clear(rows):
    for file in rows.folder.iterdir():
        file.unlink()


def kept(rows, *words, server=None):
    """Runs a download that breaks each time, whose part is kept."""
    server = server or server_of(broken(100))
    status, _, told = rows.tool("get", f"127.0.0.1:{server.port}/f", "f", "--keep", *words)
    return status, told, server


def own(rows):
    victim = rows.folder / "victim"
    for name in (PART, NOTE):
        for what in ("a file", "a link", "a link to nothing", "a pipe"):
            clear(rows)
            victim.write_bytes(TEXT)
            file = rows.folder / name
            if what == "a file":
                file.write_bytes(TEXT)
            elif what == "a pipe":
                os.mkfifo(file)
            else:
                file.symlink_to(victim if what == "a link" else rows.folder / "nothing")
            before = os.lstat(file)
            status, told, _ = kept(rows)
            stays = os.lstat(file).st_ino == before.st_ino and victim.read_bytes() == TEXT and not (rows.folder / "nothing").exists()
            if what == "a file":
                stays = stays and file.read_bytes() == TEXT
            part = rows.folder / f"{PART}-1"
            rows.row(f"{what} that is called {name} stays", stays and status == 1, (status, told))
            rows.row(f"{what} that is called {name}: the part is beside it", part.exists() and WHOLE.startswith(part.read_bytes()), (status, told))


def continued(rows):
    """A part that is gone on with takes its own place; neither a pipe nor a directory by its name is waited for."""
    clear(rows)
    _, _, server = kept(rows)
    server.says["RETR"] = broken(200)
    status, told, _ = kept(rows, "--continue", server=server)
    names = sorted(file.name for file in rows.folder.iterdir())
    octets = (rows.folder / PART).read_bytes()
    rows.row("a part that is gone on with keeps its name", names == [PART, NOTE] and WHOLE.startswith(octets) and len(octets) > 1600, (status, told, names))
    server.says["RETR"] = whole
    status, _, told = rows.tool("get", f"127.0.0.1:{server.port}/f", "f", "--continue")
    names = sorted(file.name for file in rows.folder.iterdir())
    rows.row("and is gone once the file is whole", (status, names) == (0, ["f"]) and (rows.folder / "f").read_bytes() == WHOLE, (status, told, names))
    for name in (PART, NOTE):
        clear(rows)
        os.mkfifo(rows.folder / name)
        status, _, told = rows.tool("get", f"127.0.0.1:{server.port}/f", "f", "--continue", seconds=20)
        rows.row(f"--continue with a pipe that is called {name}: whole", status == 0 and (rows.folder / "f").read_bytes() == WHOLE, (status, told))


def main():
    rows = Rows()
    own(rows)
    continued(rows)
    rows.finish()


main()
