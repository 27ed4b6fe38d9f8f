#!/usr/bin/env python3
"""The server has `x` and `x.ftp-part`, the name of a part of `x`: each file gets its own octets, in words, patterns and `mirror`, whichever is slower."""
import itertools
import shutil
import time

from hostile import Rows
from shelf import Shelf

FILES = {"x": b"A" * 3000, "x.ftp-part": b"B" * 3000, "x.ftp-part-1": b"C" * 3000}


def shelf_of(slow):
    """A server that halts for a while amid the file of this name."""

    def retr(session, argument):
        path = argument.strip("/")
        octets = shelf.tree[path]
        session.reply("150 here")
        link = session.data.accept()[0]
        if path == f"m/{slow}":
            link.sendall(octets[:1500])
            time.sleep(1)
            octets = octets[1500:]
        link.sendall(octets)
        link.close()
        session.reply("226 done")

    shelf = Shelf({"m": None, **{f"m/{name}": octets for name, octets in FILES.items()}}, says={"RETR": retr})
    return shelf


def fetched(rows, what, words, slow):
    shelf = shelf_of(slow)
    into = rows.folder / "into"
    shutil.rmtree(into, ignore_errors=True)
    into.mkdir()
    words = [word.replace("H/", shelf.place) for word in words]
    status, _, told = rows.tool(*words, "into" if words[0] == "mirror" else "into/", seconds=30)
    there = {file.name: file.read_bytes() for file in into.iterdir()}
    shelf.server.close()
    seen = {name: (len(octets), octets[:1]) for name, octets in there.items()}
    rows.row(f"{what}, slow {slow}", (status, there) == (0, FILES), (status, seen, told))


def main():
    rows = Rows()
    for parallel, slow in itertools.product(("1", "2", "8"), (None, *FILES)):
        for names in itertools.permutations(FILES):
            words = [f"H/m/{name}" for name in names]
            fetched(rows, f"get {' '.join(names)} --parallel {parallel}", ["get", *words, "--parallel", parallel], slow)
        fetched(rows, f"get x* --parallel {parallel}", ["get", "H/m/x*", "--parallel", parallel], slow)
        fetched(rows, f"mirror --parallel {parallel}", ["mirror", "H/m", "--parallel", parallel], slow)
    rows.finish()


main()
