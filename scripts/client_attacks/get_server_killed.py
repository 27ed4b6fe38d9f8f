#!/usr/bin/env python3
"""A server that is killed ends its connections in order, as after a whole file. `get` and `mirror` never take that for the end of the file: status 0 comes
only after the reply that all is sent, and after size and moment were asked again.
"""
import os
import signal
import socket
import threading
import time

from hostile import FakeServer, OwnServer, Rows

WHOLE = bytes(range(256)) * 40
SIZE = 30_000_000


def silent_end(count):
    """So many octets, and then all connections end in order, with no reply; later ones end at once."""
    kept = []

    def retr(session, _):
        if kept:
            session.connection.shutdown(socket.SHUT_RDWR)
            return
        kept.append(session)
        session.reply("150 here")
        link = session.data.accept()[0]
        link.sendall(WHOLE[:count])
        link.shutdown(socket.SHUT_WR)
        time.sleep(0.1)
        link.close()
        session.connection.shutdown(socket.SHUT_RDWR)

    return retr


def told_nothing(rows):
    """All at a time, since each waits for further control connections."""
    ways = [
        (what, count, name, size, words)
        for what, count in (("amid its octets", 1000), ("after its last octet", len(WHOLE)))
        for name, size, words in (("its size told", f"213 {len(WHOLE)}", ()), ("no size told", "500 what", ()), ("type A", "500 what", ("--type", "A")))
    ]
    waits = [threading.Thread(target=one, args=(rows, f"out{number}", *way)) for number, way in enumerate(ways)]
    for wait in waits:
        wait.start()
    for wait in waits:
        wait.join()


def one(rows, file, what, count, name, size, words):
    (rows.folder / file).write_bytes(b"older")
    server = FakeServer({"SIZE": size, "MDTM": "213 20260101000000", "RETR": silent_end(count)})
    status, _, told = rows.tool("get", f"127.0.0.1:{server.port}/f", file, *words)
    octets = (rows.folder / file).read_bytes()
    rows.row(f"get, {name}, no reply {what}: not status 0, the older file", status in (1, 3) and octets == b"older", (status, len(octets), told))


def killed(rows):
    """The tool's own server, killed amid a transfer."""
    served = rows.folder / "served"
    server = OwnServer(served)
    (served / "f").write_bytes(os.urandom(SIZE))
    for program, words in (("get", ("get", "P/f", "got")), ("mirror", ("mirror", "P/", "into"))):
        server = server or OwnServer(served)
        words = [word.replace("P/", f"127.0.0.1:{server.port}/") for word in words]
        threading.Timer(0.35, lambda process: process.send_signal(signal.SIGKILL), [server.process]).start()
        status, _, told = rows.tool(*words)
        server.close()
        server = None
        file = rows.folder / ("got" if program == "get" else "into/f")
        holds = file.read_bytes() == (served / "f").read_bytes() if file.exists() else status in (1, 3)
        rows.row(f"{program}, the server killed: whole or not status 0", holds and (status != 0 or file.exists()), (status, told))


def main():
    rows = Rows()
    told_nothing(rows)
    killed(rows)
    rows.finish()


main()
