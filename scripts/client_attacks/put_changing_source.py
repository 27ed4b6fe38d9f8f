#!/usr/bin/env python3
"""A file that changes while it is sent is not told as sent: by put the status is 3, by a mirror 1, and it is told why. One that is replaced by a rename is sent
as it was.
"""
import os

from hostile import FakeServer, Rows

HALF = 4_000_000
OLD = b"o" * (2 * HALF)


def overwrite(path):
    with open(path, "r+b") as file:
        file.seek(HALF)
        file.write(b"n" * HALF)


def overwrite_what_went(path):
    with open(path, "r+b") as file:
        file.write(b"n" * 1000)


def append(path):
    with open(path, "ab") as file:
        file.write(b"n")


def cut(path):
    os.truncate(path, HALF)


def touch(path):
    os.utime(path, (1, 1))


def replace(path):
    path.with_name("other").write_bytes(b"n" * (2 * HALF))
    path.with_name("other").rename(path)


CHANGES = {
    "overwritten ahead of what went": (overwrite, False),
    "overwritten behind what went": (overwrite_what_went, False),
    "appended to": (append, False),
    "cut": (cut, False),
    "touched": (touch, False),
    "replaced by a rename": (replace, True),
    "left alone": (lambda path: None, True),
}


class Taking:
    """A server that changes the file of the other end once it took some of it, and then takes the rest."""

    def __init__(self, path, change):
        self.path, self.change, self.stands, self.done = path, change, None, False
        own = {"STOR": self.stor, "SIZE": self.size, "MLSD": lambda session, _: session.send(b""), "MDTM": "213 20200101000000"}
        self.server = FakeServer(own)
        self.place = f"127.0.0.1:{self.server.port}/"

    def size(self, session, _):
        session.reply("550 no file" if self.stands is None else f"213 {len(self.stands)}")

    def stor(self, session, _):
        session.reply("150 here")
        link = session.data.accept()[0]
        came = link.recv(1000)
        if not self.done:
            self.done = True
            self.change(self.path)
        while more := link.recv(65536):
            came += more
        link.close()
        self.stands = came
        session.reply("226 done")


def main():
    rows = Rows()
    folder = rows.folder / "local"
    folder.mkdir()
    for name, (change, is_done) in CHANGES.items():
        for words, failure in ((("put", "local/up", "{}up"), 3), (("put", "local/up", "{}", "--parallel", "2"), 3), (("mirror", "./local", "{}"), 1)):
            for path in folder.iterdir():
                path.unlink()
            (folder / "up").write_bytes(OLD)
            taking = Taking(folder / "up", change)
            status, _, told = rows.tool(*[word.replace("{}", taking.place) for word in words])
            taking.server.close()
            said = f"{words[0]}{' --parallel' if len(words) > 3 else ''}, {name}"
            if is_done:
                rows.row(f"{said}: sent as it was", status == 0 and taking.stands == OLD, (status, told))
            else:
                rows.row(f"{said}: status {failure}, and why", status == failure and b"changed" in told, (status, told))
    rows.finish()


main()
