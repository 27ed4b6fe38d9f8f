#!/usr/bin/env python3
"""An upload goes on only behind its own octets: where another's file stands at the server once its data connection broke, whatever its size, it begins anew, and
so it does where the server does not give back what stands. Of its own front it sends the rest alone.
"""
import socket
import struct

from hostile import FakeServer, Rows

OWN = bytes(range(251)) * 12_000
OTHER = b"o" * len(OWN) * 2
CUT = 1_500_000


class Store:
    """A server that takes so many octets of the first upload, leaves `front` in its place, and answers 426; later uploads it takes. `says` as of a fake one."""

    def __init__(self, front, says=None, before=None):
        self.front, self.stands, self.cut = front, before, False
        own = {"STOR": self.stor, "SIZE": self.size, "RETR": self.retr}
        self.server = FakeServer({**own, **(says or {})})
        self.place = f"127.0.0.1:{self.server.port}/f"

    def size(self, session, _):
        session.reply("550 no file" if self.stands is None else f"213 {len(self.stands)}")

    def retr(self, session, _):
        offset, session.offset = session.offset, 0
        session.send(self.stands[offset:])

    def stor(self, session, _):
        offset, session.offset = session.offset, 0
        session.reply("150 here")
        link = session.data.accept()[0]
        came = b""
        while more := link.recv(65536):
            came += more
            if not self.cut and len(came) >= CUT:
                break
        if self.cut:
            self.stands = (self.stands or b"")[:offset] + came
            link.close()
            session.reply("226 done")
            return
        self.cut = True
        link.setsockopt(socket.SOL_SOCKET, socket.SO_LINGER, struct.pack("ii", 1, 0))
        link.close()
        self.stands = self.front
        session.reply("426 broken")

    def restarts(self):
        """From where uploads went on."""
        said = self.server.commands
        return [line for line, after in zip(said, said[1:]) if line.startswith("REST") and after.startswith("STOR")]


def put(rows, name, store, goes_on_at=None, status=0, stands=OWN):
    seen = rows.tool("put", "up", store.place, "--timeout", "10")
    store.server.close()
    rows.row(f"{name}: the status", seen[0] == status, seen)
    what = store.stands and (len(store.stands), store.stands[:1])
    rows.row(f"{name}: what stands", store.stands == stands, (what, store.server.commands))
    wanted = [f"REST {goes_on_at}"] if goes_on_at else []
    rows.row(f"{name}: from where it goes on", store.restarts() == wanted, store.server.commands)


def main():
    rows = Rows()
    (rows.folder / "up").write_bytes(OWN)
    for count in (1, 4_000, 65_535, 65_536, 65_537, 1_000_000, CUT):
        put(rows, f"its own front of {count}", Store(OWN[:count]), count)
        put(rows, f"another's of {count}", Store(OTHER[:count]))
    put(rows, "another's that is as long", Store(OTHER[: len(OWN)]))
    put(rows, "another's that is longer", Store(OTHER))
    put(rows, "one that differs in its last octet alone", Store(OWN[:999_999] + b"\xff"))
    put(rows, "one whose front differs before the last 64 KiB alone goes on", Store(b"\xff" + OWN[1:1_000_000]), 1_000_000, stands=b"\xff" + OWN[1:])
    old = b"o" * 1_000_000
    put(rows, "an older one that SIZE hid at first", Store(old, before=old, says={"SIZE": hidden_once()}))
    for code in (450, 502, 504, 550):
        put(rows, f"reading back is refused by {code}", Store(OWN[:1_000_000], {"RETR": refused(code)}))
        put(rows, f"REST is refused by {code}", Store(OWN[:1_000_000], {"REST": f"{code} no"}))
    rows.finish()


def refused(code):
    """Refuses a download; what was said of its beginning is forgotten."""

    def retr(session, _):
        session.offset = 0
        session.reply(f"{code} no")

    return retr


def hidden_once():
    """Says 550 of the first SIZE, and then what stands."""
    said = []

    def size(session, argument):
        if not said:
            said.append(argument)
            session.reply("550 busy")
        else:
            session.server.says["STOR"].__self__.size(session, argument)

    return size


main()
