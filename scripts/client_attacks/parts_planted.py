#!/usr/bin/env python3
"""Another program put parts and notes beside a file: nothing is written through a link or to a file of two names, no octets of a part are taken whose note
does not fit, or with other octets at its end than the server's, and what stands there stays."""
import os
import shutil

from hostile import Rows
from shelf import Shelf

WHOLE, OTHER = b"B" * 50_000, b"E" * 20_000
MOMENT = 1_577_836_800
PART, NOTE = "f.ftp-part", "f.ftp-part.note"
COMMANDS = (
    ("get", "H/f", "into/f", "--continue"),
    ("get", "H/f", "H/g", "into/", "--continue", "--parallel", "3"),
    ("get", "H/f", "into/f", "--keep"),
    ("get", "H/f", "H/g", "into/", "--parallel", "3"),
    ("mirror", "H/", "into", "--parallel", "3"),
)


class Planting:
    """A folder in which something stands before a file is fetched."""

    def __init__(self, rows):
        self.rows, self.shelf = rows, Shelf({"f": WHOLE, "g": WHOLE})
        self.into, self.outside = rows.folder / "into", rows.folder / "outside"

    def note(self, size=len(WHOLE), moment=MOMENT, count=len(OTHER), place=None):
        place = place or self.shelf.place + "f"
        (self.into / NOTE).write_bytes(b"%018d\n%018d\n%018d\n" % (size, moment, count) + place.encode())

    def part(self, octets=OTHER):
        (self.into / PART).write_bytes(octets)

    def hard_link(self):
        self.outside.write_bytes(OTHER)
        os.link(self.outside, self.into / PART)

    def link(self):
        self.outside.write_bytes(OTHER)
        (self.into / PART).symlink_to(self.outside)

    def hundred(self):
        for number in range(100):
            (self.into / (PART + (f"-{number}" if number else ""))).write_bytes(b"U")

    def fetched(self, what, plant, words):
        """Whether the file is whole or none, and what stood there stays."""
        shutil.rmtree(self.into, ignore_errors=True)
        self.into.mkdir()
        self.outside.write_bytes(b"S")
        plant()
        before = self.outside.read_bytes()
        planted = {file.name: os.lstat(file).st_ino for file in self.into.iterdir()}
        status, _, told = self.rows.tool(*[word.replace("H/", self.shelf.place) for word in words], seconds=60)
        file = self.into / "f"
        octets = file.read_bytes() if file.is_file() and not file.is_symlink() else None
        is_whole = octets == WHOLE if status == 0 else octets is None
        # what has a note of this file is gone on with, or emptied
        is_taken = what in ("a note of another size", "a note that fits") and "--continue" in words
        stays = is_taken or all(os.path.lexists(self.into / name) and os.lstat(self.into / name).st_ino == inode for name, inode in planted.items())
        seen = (status, octets and len(octets), sorted(planted), told)
        self.rows.row(f"{' '.join(words)}, {what}", is_whole and stays and self.outside.read_bytes() == before, seen)
        return told


def rows_of(planting, words):
    def both(*more):
        return lambda: [one() for one in more]

    for what, plant in (
        ("a part without a note", planting.part),
        ("a note that fits", both(planting.part, planting.note)),
        ("a note of another size", both(planting.part, lambda: planting.note(size=49_999))),
        ("a note of another place", both(planting.part, lambda: planting.note(place="127.0.0.1:1/f"))),
        ("a part that is a link", both(planting.link, planting.note)),
        ("a part that has another name too", both(planting.hard_link, planting.note)),
        ("a part that is a pipe", both(lambda: os.mkfifo(planting.into / PART), lambda: planting.note(count=1))),
        ("a note that is a link", both(planting.part, lambda: (planting.into / NOTE).symlink_to(planting.outside))),
        ("a note that is a pipe", both(planting.part, lambda: os.mkfifo(planting.into / NOTE))),
        ("all 100 names taken", planting.hundred),
    ):
        told = planting.fetched(what, plant, words)
        if "--continue" in words and what in ("a part that is a link", "a part that has another name too"):
            planting.rows.row(f"{' '.join(words)}, {what}: told by its name", PART.encode() in told, told)


LARGE = bytes((number * number >> 3) & 255 for number in range(200_000))
CUT, FRONT = 150_000, 150_000 - 65_536


def put_over(octets, at):
    """The same octets, but another one there."""
    return octets[:at] + bytes([octets[at] ^ 1]) + octets[at + 1:]


class Continuing:
    """A part with a note that fits, and `get --continue` from a server that answers so."""

    def __init__(self, rows, says=None):
        self.rows, self.folder = rows, rows.folder / "continued"
        self.says = says or {}

    def got(self, octets, whole=LARGE):
        """Fetches, and gives the status, the file, what is told, what was asked, and whether part and note are as they were."""
        shutil.rmtree(self.folder, ignore_errors=True)
        self.folder.mkdir()
        shelf = Shelf({"f": whole}, self.says)
        (self.folder / PART).write_bytes(octets)
        note = b"%018d\n%018d\n%018d\n" % (len(whole), MOMENT, len(octets)) + shelf.place.encode() + b"f"
        (self.folder / NOTE).write_bytes(note)
        status, _, told = self.rows.tool("get", shelf.place + "f", "continued/f", "--continue", seconds=60)
        shelf.server.close()
        file, part = self.folder / "f", self.folder / PART
        stays = part.exists() and part.read_bytes() == octets and (self.folder / NOTE).exists()
        return status, file.read_bytes() if file.exists() else None, told.decode(), shelf.server.commands, stays


def read_back(rows):
    """The end of a part is read back: one transfer brings that and the rest, and nothing is joined to another end."""
    for count in (1, 20_000, 65_535, 65_536, 65_537, CUT, len(LARGE) - 1, len(LARGE)):
        status, octets, told, asked, _ = Continuing(rows).got(LARGE[:count])
        rests, start = [it for it in asked if it.startswith("REST ")], max(count - 65_536, 0)
        holds = (status, octets) == (0, LARGE) and rests == ([f"REST {start}"] if start else []) and asked.count("RETR f") == 1
        rows.row(f"a part of {count} octets: one transfer, from {start} on", holds and "anew" not in told, (status, told, asked))
    for count, at in ((65_536, 0), (65_536, 1), (65_536, 20_000), (65_536, 65_535), (CUT, FRONT), (CUT, CUT - 1)):
        status, octets, told, _, stays = Continuing(rows).got(put_over(LARGE[:count], at))
        rows.row(f"a part of {count} octets, another one at {at}: begun anew, and told", (status, octets) == (0, LARGE) and "anew" in told and not stays, (status, told))
    for at in (0, FRONT - 1):
        planted = put_over(LARGE[:CUT], at)
        status, octets, told, _, _ = Continuing(rows).got(planted)
        rows.row(f"another octet at {at}, before the last 65,536: not seen, as OPERATOR says", (status, octets) == (0, planted + LARGE[CUT:]), (status, told))


def servers(rows):
    """Servers that do not send the end of a part once more."""
    refusing = Continuing(rows, {"REST": "502 no"})
    for octets in (LARGE[:CUT], put_over(LARGE[:CUT], CUT - 1)):
        status, file, told, _, stays = refusing.got(octets)
        rows.row("REST is refused: status 1, and the part stays", (status, file, stays) == (1, None, True), (status, told))
    status, file, told, _, _ = refusing.got(LARGE[:65_536])
    rows.row("REST is refused, and not needed: whole", (status, file) == (0, LARGE) and "anew" not in told, (status, told))

    def from_0(session, _):
        session.offset = 0
        session.send(LARGE)

    status, file, told, _, _ = Continuing(rows, {"RETR": from_0}).got(LARGE[:CUT])
    rows.row("REST is taken and not heeded: begun anew, whole", (status, file) == (0, LARGE) and "anew" in told, (status, told))
    for more in (0, 100, 65_535):
        status, file, told, _, _ = Continuing(rows, {"RETR": short_of([more], "226 done")}).got(LARGE[:CUT])
        rows.row(f"an end after {more} of the octets of before: begun anew, whole", (status, file) == (0, LARGE) and "anew" in told, (status, told))
    for count in (20_000, len(LARGE)):
        status, file, told, _, _ = Continuing(rows, {"RETR": short_of([0] * 99, "226 done")}).got(LARGE[:count])
        rows.row(f"a part of {count} octets, and nothing is sent any more: no file", (status, file) == (1, None), (status, told))
    status, file, told, asked, _ = Continuing(rows, {"RETR": short_of([10_000, 50_000, 10_000], "426 broken")}).got(LARGE[:CUT])
    rests = [it for it in asked if it.startswith("REST ")]
    goes = [f"REST {at}" for at in (FRONT, FRONT + 10_000, FRONT + 60_000, CUT + 4_464)]
    rows.row("broken amid the octets of before: goes on there", (status, file) == (0, LARGE) and rests == goes and "anew" not in told, (status, told, rests))


def short_of(counts, last):
    """The first transfers bring so many octets each, and end so; the next ones are whole."""
    counts = list(counts)

    def retr(session, _):
        octets, session.offset = LARGE[session.offset:], 0
        if counts:
            session.send(octets[: counts.pop(0)], last)
        else:
            session.send(octets)

    return retr


def main():
    rows = Rows()
    read_back(rows)
    servers(rows)
    planting = Planting(rows)
    for words in COMMANDS:
        rows_of(planting, words)
    rows.finish()


main()
