#!/usr/bin/env python3
"""Links in the folder of a mirror, there before or put there during the run, lead nothing out of it; up, what is no file is left out and told."""
import os
import shutil
import socket

from hostile import Rows
from mirror import fill, tree_at
from shelf import Shelf

KEPT = {"kept": b"kept"}


class Place:
    """A folder `t` for the mirror, and one `outside` to which links lead."""

    def __init__(self, rows):
        self.rows = rows
        self.target, self.outside = rows.folder / "t", rows.folder / "outside"
        for folder in (self.target, self.outside):
            shutil.rmtree(folder, ignore_errors=True)
            folder.mkdir()
        fill(self.outside, KEPT)

    def swap(self):
        """The directory `d` of the target becomes a link."""
        if not (self.target / "d").is_symlink():
            (self.target / "d").rename(self.target / "d2")
            (self.target / "d").symlink_to(self.outside)

    def row(self, what, shelf, *words):
        """Nothing outside is written, made or removed."""
        status, _, told = self.rows.tool("mirror", shelf.place, "./t", *words, seconds=30)
        shelf.server.close()
        self.rows.row(what, tree_at(self.outside) == KEPT, (status, told, tree_at(self.outside)))


def before(rows):
    evil = {"f": b"EVIL"}
    for words in ((), ("--delete",), ("--checksum", "--delete")):
        place = Place(rows)
        (place.target / "d").symlink_to(place.outside)
        place.row(f"a directory is a link {words}", Shelf({"d": None, "d/kept": b"EVIL", "d/n": b"EVIL"}), *words)
        for what, name in (("a file", "kept"), ("nothing", "new"), ("a directory", "")):
            place = Place(rows)
            (place.target / "f").symlink_to(place.outside / name)
            place.row(f"a link to {what} {words}", Shelf(evil), *words)
        place = Place(rows)
        (place.target / "f.ftp-part").symlink_to(place.outside / "kept")
        place.row(f"a part is a link {words}", Shelf(evil), *words)
        rows.row("and the file has come", (place.target / "f").read_bytes() == b"EVIL")


def meanwhile(rows):
    """Between what is asked of the server and what is done here, a directory becomes a link."""
    tree = {"d": None, "d/kept": b"EVIL", "d/n": b"EVIL"}
    for verb in ("RETR", "MLSD", "MLST"):
        place = Place(rows)
        fill(place.target, {"d/kept": b"x", "d/more": b"x"})
        shelf = Shelf({"d": None, "d/n": b"EVIL"} if verb == "MLST" else tree)
        own = shelf.server.says[verb]

        def swapped(session, argument, own=own, place=place):
            if argument.strip("/").startswith("d"):
                place.swap()
            own(session, argument)

        shelf.server.says[verb] = swapped
        place.row(f"a directory becomes a link while {verb} is answered", shelf, "--delete")


def up(rows):
    place = Place(rows)
    os.symlink("/etc/hostname", place.target / "l")
    os.symlink("/etc", place.target / "ld")
    os.mkfifo(place.target / "p")
    listener = socket.socket(socket.AF_UNIX)
    listener.bind(str(place.target / "s"))
    fill(place.target, {"f": b"f"})
    shelf = Shelf({})
    status, _, told = rows.tool("mirror", "./t", shelf.place, seconds=30)
    names = all(f"error: {name}: neither".encode() in told for name in ("l", "ld", "p", "s"))
    rows.row("up: links, pipes and sockets are left out, each is told, status 1", (status, names, shelf.tree) == (1, True, {"f": b"f"}), (status, told))


def main():
    rows = Rows()
    before(rows)
    meanwhile(rows)
    up(rows)
    rows.finish()


if __name__ == "__main__":
    main()
