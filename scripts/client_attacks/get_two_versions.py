#!/usr/bin/env python3
"""A file that is replaced at the server while it is downloaded: octets of two versions of it are never joined, and none is taken for whole that is
another one by then. `get` and `mirror` ask size and moment again after each break and after the last octet, also over several control connections, where
that is asked ahead.
"""
import socket
import struct
import time

from hostile import FakeServer, Rows

PROGRAMS = ("get", "mirror", "mirror --parallel 4")
OLD, CUT = b"1" * 1000, 400
FIRST, SECOND = "20200101000000", "20200101000001"


def end(connection, by):
    """Ends a connection, by FIN or by RST."""
    if by == "RST":
        connection.setsockopt(socket.SOL_SOCKET, socket.SO_LINGER, struct.pack("ii", 1, 0))
    else:
        connection.shutdown(socket.SHUT_RDWR)
    connection.close()


class Replaced:
    """A file that is another one after its first transfer, which is cut in the way that `how` names."""

    def __init__(self, octets, how, moments=(FIRST, SECOND), cut=CUT):
        self.octets, self.how, self.moments, self.cut, self.tries = octets, how, moments, cut, 0

    def now(self):
        return OLD if self.tries == 0 else self.octets

    def size(self, session, _):
        session.reply(f"213 {len(self.now())}")

    def mdtm(self, session, _):
        moment = self.moments[min(self.tries, 1)]
        session.reply(f"213 {moment}" if moment else "500 what")

    def retr(self, session, _):
        octets, session.offset = self.now()[session.offset:], 0
        self.tries += 1
        if self.tries > 1:
            return session.send(octets)
        session.reply("150 here")
        link = session.data.accept()[0]
        link.sendall(octets[: self.cut])
        time.sleep(0.1)
        end(link, "RST" if self.how == "RST" else "FIN")
        if self.how == "control":
            return end(session.connection, "FIN")
        session.reply("426 broken" if self.how == "RST" else "226 done")

    def listing(self, session, _):
        session.send(b"Type=file;Size=%d;Modify=%s; s\r\n" % (len(OLD), FIRST.encode()))

    def server(self):
        return FakeServer({"SIZE": self.size, "MDTM": self.mdtm, "RETR": self.retr, "MLSD": self.listing})


def fetched(rows, program, server):
    """Downloads the file by a program: the status, and what is there then."""
    file = rows.folder / "into" / "s"
    file.parent.mkdir(exist_ok=True)
    file.unlink(missing_ok=True)
    if program.startswith("mirror"):
        status, _, told = rows.tool(*program.split(), f"127.0.0.1:{server.port}/", "into")
    else:
        status, _, told = rows.tool("get", f"127.0.0.1:{server.port}/s", "into/s")
    return status, file.read_bytes() if file.exists() else b"", told


def replaced(rows):
    """Another file stands there after the first try: the first, the second, or none, and never both."""
    for program in PROGRAMS:
        for how in ("RST", "FIN", "control"):
            for size in (1000, 2000, 500, 401) if how == "RST" else (1000,):
                server = Replaced(b"2" * size, how).server()
                status, octets, told = fetched(rows, program, server)
                server.close()
                rows.row(f"{program}, cut by {how}, then {size} others: anew", (status, octets) == (0, b"2" * size), (status, octets[:1], octets[-1:], len(octets), told))
        server = Replaced(b"2" * 1000, "RST", (FIRST, FIRST)).server()
        status, octets, told = fetched(rows, program, server)
        rows.row(f"{program}, cut, and size and moment are the same: goes on", status == 0 and f"REST {CUT}" in server.commands, (status, told))
        server = Replaced(b"2" * 1000, "RST", ("", "")).server()
        status, octets, told = fetched(rows, program, server)
        rows.row(f"{program}, cut, and no moment is told: anew", (status, octets) == (0, b"2" * 1000), (status, octets[:1], octets[-1:], told))


def after_the_last(rows):
    """What came whole is another one by then: it comes once more. Where it is another one each time, it is told, and nothing is written."""
    for program in PROGRAMS:
        server = Replaced(b"2" * 1000, "FIN", cut=1000).server()
        status, octets, told = fetched(rows, program, server)
        rows.row(f"{program}, replaced after the last octet: anew", (status, octets) == (0, b"2" * 1000), (status, octets[:1], told))
        moments = iter(range(10_000))
        server = FakeServer({
            "SIZE": "213 1000",
            "MDTM": lambda session, _: session.reply(f"213 2021010100{next(moments):04}"),
            "RETR": lambda session, _: session.send(OLD),
            "MLSD": Replaced(OLD, "FIN").listing,
        })
        status, octets, told = fetched(rows, program, server)
        tries = server.commands.count("RETR s") + server.commands.count("RETR /s")
        rows.row(f"{program}, replaced each time: status 1, 16 tries, no file", (status, octets, tries) == (1, b"", 16), (status, octets[:1], tries, told))


def listed_otherwise(rows):
    """The listing tells another moment than MDTM: a second run copies nothing, and one after a change does."""
    for number, listed in enumerate(("99991231235959", "19700101000000", "20380119031408", "21060207062816")):
        file = rows.folder / f"twice{number}" / "s"
        for run, octets, moment, comes in (("first", b"12", FIRST, True), ("second", b"12", FIRST, False), ("changed", b"21", SECOND, True)):
            server = FakeServer({
                "SIZE": "213 2",
                "MDTM": f"213 {moment}",
                "RETR": lambda session, _: session.send(octets),
                "MLSD": lambda session, _: session.send(f"Type=file;Size=2;Modify={listed}; s\r\n".encode()),
            })
            status, _, told = rows.tool("mirror", f"127.0.0.1:{server.port}/", file.parent.name)
            server.close()
            came = any(command.startswith("RETR") for command in server.commands)
            seen = (status, came, file.read_bytes() if file.exists() else b"")
            rows.row(f"mirror, listed as of {listed}, {run} run", seen == (0, comes, octets), (seen, told))


def main():
    rows = Rows()
    replaced(rows)
    after_the_last(rows)
    listed_otherwise(rows)
    rows.finish()


main()
