#!/usr/bin/env python3
"""A download whose data connection ends cleanly before all octets came is never taken for the whole file.

In stream mode the end of the data connection is the end of the file, so a middlebox that cuts it cleanly makes a short file. Where the server
tells size and moment, `get` goes on by REST, and FILE is whole with status 0 or the older one stands with status 1.
"""
import os
import random

from hostile import FakeServer, OwnServer, Relay, Rows

OLDER = b"older"
WHOLE = bytes(range(256)) * 400


class File:
    """A file of a fake server. Its first transfers are cut behind so many octets each; `shown` is what SIZE tells."""

    def __init__(self, octets, cuts, shown=None, moment="213 20260101000000"):
        self.octets, self.cuts, self.moment = octets, list(cuts), moment
        self.shown = shown if shown is not None else (lambda: f"213 {len(self.octets)}")

    def size(self, session, _):
        session.reply(self.shown())

    def retr(self, session, _):
        octets, session.offset = self.octets[session.offset:], 0
        session.send(octets[: self.cuts.pop(0)] if self.cuts else octets)


def get(rows, file, words=(), more=()):
    """Downloads a file over an older one: status, what FILE has then, standard error, the commands."""
    (rows.folder / "out").write_bytes(OLDER)
    server = FakeServer({"SIZE": file.size, "MDTM": file.moment, "RETR": file.retr, **dict(more)})
    status, _, told = rows.tool("get", f"127.0.0.1:{server.port}/f", "out", *words)
    server.close()
    return status, (rows.folder / "out").read_bytes(), told, server.commands


def first_then(first, rest):
    """Tells the one, and from then on the other."""
    told = [first]
    return lambda: told.pop() if told else rest


def fakes(rows):
    status, octets, told, commands = get(rows, File(WHOLE, []))
    asked = (commands.count("SIZE f"), commands.count("MDTM f"), commands.count("RETR f"))
    rows.row("whole at once, with size and moment asked before and after", (status, octets, asked) == (0, WHOLE, (2, 2, 1)), (status, told, commands))
    for cut in (0, 1, 4096, len(WHOLE) - 1):
        status, octets, told, commands = get(rows, File(WHOLE, [cut]))
        went_on = cut == 0 or f"REST {cut}" in commands
        rows.row(f"cut behind {cut} octets: goes on there", (status, octets, went_on) == (0, WHOLE, True), (status, len(octets), told, commands))
    status, octets, told, commands = get(rows, File(WHOLE, [4096], moment="500 what"))
    is_anew = not any(command.startswith("REST") for command in commands)
    rows.row("cut, and no moment is told: begins anew", (status, octets, is_anew) == (0, WHOLE, True), (status, len(octets), told, commands))
    status, octets, told, _ = get(rows, File(WHOLE, [5000] * 5))
    rows.row("cut five times: whole", (status, octets) == (0, WHOLE), (status, len(octets), told))
    status, octets, told, commands = get(rows, File(WHOLE, [7] * 100))
    tries = commands.count("RETR f")
    rows.row("cut each time: status 1, the older file, 16 tries", (status, octets, tries) == (1, OLDER, 16), (status, len(octets), tries, told))
    status, octets, told, _ = get(rows, File(WHOLE, [7]), more={"REST": "502 no"})
    rows.row("cut, and no restart: status 1, the older file", (status, octets) == (1, OLDER), (status, len(octets), told))
    status, octets, told, _ = get(rows, File(WHOLE, [], lambda: "213 1000"))
    rows.row("more than SIZE tells: status 1, the older file", (status, octets) == (1, OLDER), (status, len(octets), told))
    status, octets, told, _ = get(rows, File(WHOLE, [], first_then("213 1000", f"213 {len(WHOLE)}")))
    rows.row("grown between SIZE and RETR: whole", (status, octets) == (0, WHOLE), (status, len(octets), told))
    status, octets, told, _ = get(rows, File(WHOLE, [], first_then(f"213 {len(WHOLE) + 9}", f"213 {len(WHOLE)}")))
    rows.row("shrunk between SIZE and RETR: whole", (status, octets) == (0, WHOLE), (status, len(octets), told))


def unknown(rows):
    for what, words, shown in (
        ("SIZE is refused", (), "502 no"),
        ("SIZE has no such file", (), "550 no"),
        ("type A", ("--type", "A"), "213 9"),
    ):
        status, octets, told, _ = get(rows, File(b"abc\r\n", [], lambda: shown), ("--progress", *words))
        rows.row(f"{what}: --progress tells what is not known", status == 0 and b"not known" in told, (status, told))
        status, octets, told, _ = get(rows, File(b"abc\r\n", [], lambda: shown), words)
        rows.row(f"{what}: nothing is told without it", (status, told) == (0, b""), (status, told))


def kept(rows):
    status, octets, told, _ = get(rows, File(WHOLE, [7, 0] * 9), ("--keep",))
    part = rows.folder / "out.ftp-part"
    rows.row("--keep has what came", status == 1 and part.exists() and part.read_bytes() == WHOLE[: len(part.read_bytes())] != b"", (status, told))


def relayed(rows):
    """The tool's own server behind a relay that cuts each of the first data connections cleanly."""
    server = OwnServer(rows.folder / "served")
    random.seed(7)
    for size in (1, 1000, 100_000, 3_000_000):
        octets = os.urandom(size)
        (rows.folder / "in").write_bytes(octets)
        rows.tool("put", "in", f"127.0.0.1:{server.port}/r{size}")
        for _ in range(4):
            (rows.folder / "out").write_bytes(OLDER)
            cuts = {number: random.randrange(size) for number in range(random.randint(1, 3))}
            relay = Relay(server.port, cuts)
            status, _, told = rows.tool("get", f"127.0.0.1:{relay.port}/r{size}", "out")
            relay.close()
            got = (rows.folder / "out").read_bytes()
            holds = got == (octets if status == 0 else OLDER) and status in (0, 1)
            rows.row(f"serve, {size} octets, cut {sorted(cuts.values())}: whole or refused ({status})", holds, (status, len(got), told))
    server.close()


def main():
    rows = Rows()
    fakes(rows)
    unknown(rows)
    kept(rows)
    relayed(rows)
    rows.finish()


main()
