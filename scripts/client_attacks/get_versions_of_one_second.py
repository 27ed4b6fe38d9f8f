#!/usr/bin/env python3
"""A file of a server that is replaced within the second of its last change by one of the same size, amid a download that is cut: octets of both are never
joined. A file that was changed two seconds before it was asked for, or earlier, goes on where it was cut."""
import time

from hostile import FakeServer, OwnServer, Relay, Rows

SIZE, CUT = 300_000, 100_000
OLD, NEW = b"1" * SIZE, b"2" * SIZE
PROGRAMS = (
    ("get", "H/f", "into/f"),
    ("get", "H/f", "H/f", "into/", "--parallel", "4"),
    ("get", "H/f", "into/f", "--keep"),
    ("get", "H/f*", "into/"),
    ("mirror", "H/", "into"),
    ("mirror", "H/", "into", "--parallel", "4"),
)


class Replaced:
    """A file that was changed `age` seconds before the first question for it, and is replaced amid its first transfer."""

    def __init__(self, age, is_replaced=True):
        self.age, self.is_replaced, self.octets, self.began, self.tries = age, is_replaced, OLD, None, 0
        says = {"SIZE": f"213 {SIZE}", "MDTM": self.mdtm, "RETR": self.retr, "MLSD": self.mlsd}
        self.server = FakeServer(says)

    def moment(self):
        self.began = self.began or time.time()
        return time.strftime("%Y%m%d%H%M%S", time.gmtime(self.began - self.age))

    def mdtm(self, session, _):
        session.reply(f"213 {self.moment()}")

    def mlsd(self, session, _):
        session.send(f"type=file;size={SIZE};modify={self.moment()}; f\r\n".encode())

    def retr(self, session, _):
        offset, session.offset = session.offset, 0
        octets = self.octets[offset:]
        self.tries += 1
        if self.tries > 1:
            return session.send(octets)
        session.reply("150 here")
        link = session.data.accept()[0]
        link.sendall(octets[:CUT])
        time.sleep(0.2)
        if self.is_replaced:
            self.octets = NEW
        link.close()
        session.reply("426 cut")


def fetched(rows, words, age, is_replaced):
    """The status, the octets that came, and whether the download went on."""
    file = rows.folder / "into" / "f"
    file.parent.mkdir(exist_ok=True)
    file.unlink(missing_ok=True)
    replaced = Replaced(age, is_replaced)
    status, _, told = rows.tool(*[word.replace("H/", f"127.0.0.1:{replaced.server.port}/") for word in words], seconds=60)
    replaced.server.close()
    octets = file.read_bytes() if file.exists() else b""
    return status, octets, f"REST {CUT}" in replaced.server.commands, told


def replaced_rows(rows):
    for words in PROGRAMS:
        for age in (0, 1, -3600):
            status, octets, goes_on, told = fetched(rows, words, age, True)
            seen = (status, octets.count(b"1"), octets.count(b"2"), told)
            rows.row(f"{' '.join(words)}, changed {age} s before, replaced: anew", (status, octets, goes_on) == (0, NEW, False), seen)
        for age in (60, 86_400):
            status, octets, goes_on, told = fetched(rows, words, age, False)
            seen = (status, octets.count(b"1"), octets.count(b"2"), told)
            rows.row(f"{' '.join(words)}, changed {age} s before, not replaced: goes on", (status, octets, goes_on) == (0, OLD, True), seen)


def kept_rows(rows):
    """A part of a recent file is kept without a note, so that no later run goes on behind it."""
    for age, notes in ((0, 0), (3600, 1)):
        for file in (rows.folder / "into").iterdir():
            file.unlink()
        replaced = Replaced(age)

        def cut(session, _):
            session.reply("150 here")
            link = session.data.accept()[0]
            link.sendall(OLD[session.offset:session.offset + 1000])
            session.offset = 0
            link.close()
            session.reply("426 cut")

        replaced.server.says["RETR"] = cut
        status, _, told = rows.tool("get", f"127.0.0.1:{replaced.server.port}/f", "into/f", "--keep", seconds=60)
        seen = sorted(file.name for file in (rows.folder / "into").iterdir())
        rows.row(f"get --keep, changed {age} s before, cut each time: {notes} note", status == 1 and len([name for name in seen if name.endswith(".note")]) == notes, (status, seen, told))
        replaced.server.close()


def own_rows(rows):
    """The same with the tool's own server, whose file is replaced within a second."""
    folder = rows.folder / "served"
    own = OwnServer(folder)
    relay = Relay(own.port, {0: CUT})
    (folder / "f").write_bytes(OLD)
    file = rows.folder / "into" / "f"
    file.unlink(missing_ok=True)
    status, _, told = rows.tool("get", f"127.0.0.1:{relay.port}/f", "into/f", seconds=60)
    rows.row("get of a file that was made just now, cut: whole", (status, file.read_bytes() if file.exists() else b"") == (0, OLD), (status, told))
    relay.close()
    own.close()


def main():
    rows = Rows()
    replaced_rows(rows)
    kept_rows(rows)
    own_rows(rows)
    rows.finish()


main()
