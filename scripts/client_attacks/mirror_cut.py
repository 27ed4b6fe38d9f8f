#!/usr/bin/env python3
"""A mirror whose data connections are cut, by FIN or by RST, ends with 0 and both trees the same, or with 1 and a sentence; each file that stands
then is whole, and another run finishes. A download that is cut goes on in the same run, also where the control connection ends with it. A listing that is cut by FIN before its first octet can't be told from an empty one, where its server has given
all to the system: that run finds nothing to copy.
"""
import random
import shutil
import socket
import struct
import threading

from hostile import OwnServer, Relay, Rows
from mirror import fill, tree_at

RANDOM = random.Random(11)
FILES = {"a": RANDOM.randbytes(3_000_000), "b": RANDOM.randbytes(5_000), "d/c": RANDOM.randbytes(1_000), "d/empty": b"", "z": b"last"}
NUMBERS = (0, 1, 2, 4)
LISTINGS = (0, 3)
END = None
PLACES = (0, 1, 1_000, END)


class Cutter(Relay):
    """Stands before a server, and cuts the data connection of one number, whichever way its octets go: after so many, or where they end."""

    def __init__(self, port, number, place, how):
        self.number, self.place, self.how = number, place, how
        super().__init__(port, {number: number})

    def link(self, listener, port, cut):
        client = listener.accept()[0]
        listener.close()
        ends = client, socket.create_connection(("127.0.0.1", port))
        left = [self.place] if cut is not None else [float("inf")]
        cuts = self.cut if cut is not None else lambda ends: None
        threading.Thread(target=passes, args=(*ends, left, cuts), daemon=True).start()
        passes(*reversed(ends), left, cuts)

    def cut(self, ends):
        for end in ends:
            if self.how == "RST":
                end.setsockopt(socket.SOL_SOCKET, socket.SO_LINGER, struct.pack("ii", 1, 0))
                end.shutdown(socket.SHUT_RD)  # wakes who waits for octets of it: before that it is not closed
                end.close()
            else:
                end.shutdown(socket.SHUT_RDWR)


def passes(source, sink, left, cuts):
    """Passes octets on until as many as are left have gone, or to their end where no number is."""
    try:
        while left[0] is END or left[0] > 0:
            octets = source.recv(65536 if left[0] is END else int(min(left[0], 65536)))
            if not octets:
                break
            sink.sendall(octets)
            left[0] = END if left[0] is END else left[0] - len(octets)
        else:
            return cuts((sink, source))
        if left[0] is END:
            cuts((sink, source))
        elif left[0] != 0:
            sink.shutdown(socket.SHUT_WR)
    except OSError:
        sink.close()


def is_whole(found):
    """Whether each file that stands is one of the source."""
    return all(octets is None or octets == FILES.get(path) for path, octets in found.items())


def try_one(rows, way, number, place, how):
    """One mirror through a cut, and one behind it without any."""
    served, local = rows.folder / "served", rows.folder / "local"
    for folder in (served, local):
        shutil.rmtree(folder, ignore_errors=True)
        folder.mkdir()
    fill(served if way == "down" else local, FILES)
    server = OwnServer(served)
    relay = Cutter(server.port, number, place, how)
    name = f"{way}, the data connection {number} by {how} {'at its end' if place is END else f'after {place}'}"
    there = lambda port: (f"127.0.0.1:{port}/", "./local") if way == "down" else ("./local", f"127.0.0.1:{port}/")
    target = local if way == "down" else served
    status, _, told = rows.tool("mirror", *there(relay.port), "--timeout", "5")
    seen = tree_at(target)
    same = seen == tree_at(served if way == "down" else local)
    is_empty = (way, number, place, how) == ("down", 0, 0, "FIN") and seen == {}
    may_fail = way == "up" or number in LISTINGS
    is_told = may_fail and status == 1 and (way == "up" or is_whole(seen)) and b"error" in told
    rows.row(name, is_told or (status == 0 and (same or is_empty)), (status, told))
    status, _, told = rows.tool("mirror", *there(server.port))
    rows.row(f"{name}: the next run", status == 0 and tree_at(local) == tree_at(served), (status, told))
    relay.close()
    server.close()


def try_delete(rows):
    """A listing that is cut before its first octet takes nothing away here, though it looks empty; what the server has no more goes."""
    served, local = rows.folder / "served", rows.folder / "local"
    for folder in (served, local):
        shutil.rmtree(folder, ignore_errors=True)
        folder.mkdir()
    fill(served, FILES)
    server = OwnServer(served)
    rows.tool("mirror", f"127.0.0.1:{server.port}/", "./local")
    relay = Cutter(server.port, 0, 0, "FIN")
    status, _, told = rows.tool("mirror", f"127.0.0.1:{relay.port}/", "./local", "--delete", "--timeout", "5")
    rows.row("--delete, an empty listing: all stays", tree_at(local) == tree_at(served) and status in (0, 1), (status, told))
    rows.row("--delete, an empty listing: it is told", status == 1 and (b"its listing lacked it" in told or b"lists nothing there" in told), (status, told))
    (served / "b").unlink()
    shutil.rmtree(served / "d")
    status, _, told = rows.tool("mirror", f"127.0.0.1:{server.port}/", "./local", "--delete")
    rows.row("--delete, what is gone there goes", status == 0 and tree_at(local) == tree_at(served), (status, told))
    relay.close()
    server.close()


def main():
    rows = Rows()
    try_delete(rows)
    for way in ("down", "up"):
        for how in ("FIN", "RST"):
            for number in NUMBERS:
                for place in PLACES:
                    try_one(rows, way, number, place, how)
    rows.finish()


if __name__ == "__main__":
    main()
