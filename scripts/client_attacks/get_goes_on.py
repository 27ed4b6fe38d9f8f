#!/usr/bin/env python3
"""A download goes on behind what came: where its control connection ended, and with --continue behind a part that was kept. It never goes on behind
octets of another file, whatever note stands beside them; and no file, listing or transfer takes more memory or time than it may.
"""
import os
import socket
import struct
import time

from hostile import FakeServer, Rows

OLDER = b"older"
WHOLE = bytes(range(256)) * 40
OTHER = bytes(reversed(range(256))) * 40
NOTE = "out.ftp-part.note"


def drop(connection, by):
    """Ends a connection, by FIN or by RST."""
    if by == "RST":
        # (closed while a file over it is open, a socket would stay)
        connection.setsockopt(socket.SOL_SOCKET, socket.SO_LINGER, struct.pack("ii", 1, 0))
        os.close(connection.detach())
        return
    try:
        connection.shutdown(socket.SHUT_RDWR)
    except OSError:
        pass
    connection.close()


class File:
    """A file of a fake server. In its first transfers the control connection ends behind so many octets each."""

    def __init__(self, octets, cuts=(), by="FIN", moments=("20260101000000",)):
        self.octets, self.cuts, self.by, self.moments = octets, list(cuts), by, list(moments)

    def size(self, session, _):
        session.reply(f"213 {len(self.octets)}")

    def mdtm(self, session, _):
        moment = self.moments.pop(0) if len(self.moments) > 1 else self.moments[0]
        session.reply(f"213 {moment}" if moment else "502 no")

    def retr(self, session, _):
        octets, session.offset = self.octets[session.offset:], 0
        if not self.cuts:
            return session.send(octets)
        session.reply("150 here")
        link = session.data.accept()[0]
        link.sendall(octets[: self.cuts.pop(0)])
        time.sleep(0.3)
        drop(session.connection, self.by)
        time.sleep(0.1)
        drop(link, self.by)

    def server(self, more=()):
        return FakeServer({"SIZE": self.size, "MDTM": self.mdtm, "RETR": self.retr, **dict(more)})


def get(rows, server, *words, older=OLDER):
    (rows.folder / "out").write_bytes(older)
    begun = time.monotonic()
    status, _, told = rows.tool("get", f"127.0.0.1:{server.port}/f", "out", *words)
    return status, (rows.folder / "out").read_bytes(), told.decode(), time.monotonic() - begun


def resumed(told, count):
    """Whether it is told that the download goes on after a part of so many octets, and not that it begins anew."""
    return f"{count} of {len(WHOLE)} octets came; going on" in told and "anew" not in told


def clear(rows):
    for name in rows.folder.glob("out*"):
        name.unlink()


def said_and_dropped(then):
    """The first transfer brings 1,000 octets and a 226, and then its control connection ends, and no data connection."""
    kept = []

    def retr(session, argument):
        if kept:
            return then(session, argument)
        session.reply("150 here")
        link = session.data.accept()[0]
        kept.append(link)
        link.sendall(WHOLE[:1000])
        session.reply("226 done")
        time.sleep(0.3)
        drop(session.connection, "FIN")

    return retr


def over_control_connections(rows):
    for by in ("FIN", "RST"):
        for cut in (0, 1, len(WHOLE) // 2, len(WHOLE) - 1, len(WHOLE)):
            server = File(WHOLE, [cut], by).server()
            status, octets, told, _ = get(rows, server)
            went_on = cut == 0 or f"REST {cut}" in server.commands
            rows.row(f"control connection ended by {by} behind {cut} octets: goes on there", (status, octets, went_on) == (0, WHOLE, True), (status, len(octets), told, server.commands))
    server = File(WHOLE, moments=["20260101000000"]).server()
    server.says["RETR"] = said_and_dropped(server.says["RETR"])
    status, octets, told, _ = get(rows, server)
    rows.row("control connection ended behind a 226, with octets under way: goes on there", (status, octets) == (0, WHOLE) and "REST 1000" in server.commands, (status, len(octets), told, server.commands))
    clear(rows)
    server = File(WHOLE, [1000] * 99).server()
    status, octets, told, _ = get(rows, server, "--keep")
    part = rows.folder / "out.ftp-part"
    stays = part.exists() and part.read_bytes() == WHOLE[:5000] and (rows.folder / NOTE).exists()
    rows.row("each time, with --keep: the part and its note stay", status in (1, 3) and octets == OLDER and stays, (status, told))
    status, octets, told, _ = go_on(rows, server, WHOLE)
    rows.row("and --continue goes on behind it", (status, octets) == (0, WHOLE) and resumed(told, 5000), (status, told, server.commands))
    server = File(WHOLE, [1000] * 4).server()
    status, octets, told, _ = get(rows, server)
    rows.row("four times: whole", (status, octets) == (0, WHOLE) and "REST 4000" in server.commands, (status, len(octets), told))
    server = File(WHOLE, [1000] * 99).server()
    status, octets, told, _ = get(rows, server)
    rows.row("each time: not whole, the older file", status in (1, 3) and octets == OLDER and told, (status, len(octets), told))
    server = File(WHOLE, [1000], moments=["20260101000000", "20260101000001"]).server()
    status, octets, told, _ = get(rows, server)
    rows.row("another moment then: begins anew", (status, octets) == (0, WHOLE) and "anew" in told and "REST 1000" not in server.commands, (status, told))
    server = File(WHOLE, [1000], moments=["20260101000000", ""]).server()
    status, octets, told, _ = get(rows, server)
    rows.row("no moment any more: begins anew", (status, octets) == (0, WHOLE) and "anew" in told and "REST 1000" not in server.commands, (status, told))


def keep(rows, octets=WHOLE, moment="20260101000000", *words):
    """Leaves a part, of a download whose data connection breaks each time; it begins anew each time where no moment is told."""
    clear(rows)
    file = File(octets, moments=[moment])
    cuts = [3000]

    def retr(session, _):
        count = cuts.pop(0) if cuts else 0 if moment else 3000
        rest, session.offset = octets[session.offset:], 0
        session.send(rest[:count], "426 broken")

    server = file.server({"RETR": retr})
    status, _, told, _ = get(rows, server, "--keep", *words)
    return server, (rows.folder / "out.ftp-part"), (rows.folder / NOTE), status, told


def go_on(rows, server, octets, moment="20260101000000", *words):
    """Goes on at the server of before, which has these octets now."""
    file = File(octets, moments=[moment])
    server.says.update({"SIZE": file.size, "MDTM": file.mdtm, "RETR": file.retr})
    server.commands.clear()
    return get(rows, server, "--continue", *words)


def continued(rows):
    server, part, note, status, told = keep(rows)
    rows.row("--keep leaves the part and its note", status == 1 and part.read_bytes() == WHOLE[:3000] and note.exists(), (status, told))
    status, octets, told, _ = go_on(rows, server, WHOLE)
    rows.row("--continue goes on behind it", (status, octets) == (0, WHOLE) and resumed(told, 3000), (status, told, server.commands))
    rows.row("the part and its note are gone", not part.exists() and not note.exists(), list(rows.folder.iterdir()))
    for what, octets, moment in (
        ("another size", OTHER + b"x", "20260101000000"),
        ("another moment", OTHER, "20260101000001"),
        ("no moment", OTHER, ""),
    ):
        server, part, note, status, told = keep(rows)
        status, got, told, _ = go_on(rows, server, octets, moment)
        rows.row(f"{what}: begins anew, and says so", (status, got) == (0, octets) and "anew" in told and "going on" not in told, (status, told))
    server, part, note, status, told = keep(rows)
    note.unlink()
    status, octets, told, _ = go_on(rows, server, OTHER)
    rows.row("no note: begins anew, and says so; the part stays", (status, octets) == (0, OTHER) and "anew" in told and part.read_bytes() == WHOLE[:3000], (status, told))
    server, part, note, status, told = keep(rows, WHOLE, "")
    rows.row("no moment at the server: a part without a note", part.exists() and not note.exists(), told)
    mistaken(rows)
    again(rows)


def mistaken(rows):
    """Each front of a note, and a note or a part with an octet changed, as a crash leaves them: nothing is gone on behind them."""
    server, part, note, status, told = keep(rows)
    text, octets = note.read_bytes(), part.read_bytes()
    notes = [text[:length] for length in range(len(text))]
    notes += [text[:at] + bytes([text[at] ^ 1]) + text[at + 1:] for at in range(len(text)) if text[at] != 10]
    wrong = 0
    for changed in notes + [b"\0" * len(text), text + b"\n"]:
        part.write_bytes(octets)
        note.write_bytes(changed)
        status, got, told, _ = go_on(rows, server, OTHER)
        wrong += (status, got) != (0, OTHER) or "going on" in told
    rows.row(f"{len(notes) + 2} notes that are none: each begins anew", wrong == 0, wrong)
    for changed in (octets[:-1], octets + b"x", b""):
        part.write_bytes(changed)
        note.write_bytes(text)
        status, got, told, _ = go_on(rows, server, WHOLE)
        rows.row(f"a part of {len(changed)} octets with a note of {len(octets)}: begins anew", (status, got) == (0, WHOLE) and "going on" not in told, (status, told))
    other = File(OTHER).server()
    part.write_bytes(octets)
    note.write_bytes(text)
    status, got, told, _ = go_on(rows, other, OTHER)
    rows.row("a note of another server: begins anew", (status, got) == (0, OTHER) and "going on" not in told, (status, told))


def again(rows):
    """What is cut again with --continue is kept in the place of the part that it went on behind."""
    server, part, note, status, told = keep(rows)
    cuts = [5000]

    def retr(session, _):
        count = cuts.pop(0) if cuts else 0
        rest, session.offset = WHOLE[session.offset:], 0
        session.send(rest[:count], "426 broken")

    server.says["RETR"] = retr
    status, _, told, _ = get(rows, server, "--continue")
    rows.row("cut again: the part has grown", status == 1 and part.read_bytes() == WHOLE[:5000], (status, told, part.stat().st_size))
    status, octets, told, _ = go_on(rows, server, WHOLE)
    rows.row("and is gone on behind", (status, octets) == (0, WHOLE) and resumed(told, 5000) and not part.exists(), (status, told))


def limits(rows):
    clear(rows)
    server = File(WHOLE).server()
    status, octets, told, _ = get(rows, server, "--limit", str(len(WHOLE) - 1))
    rows.row("SIZE past the limit: refused with its size, nothing is asked for", status == 1 and octets == OLDER and str(len(WHOLE)) in told and "RETR f" not in server.commands, (status, told, server.commands))
    status, octets, told, _ = get(rows, server, "--limit", str(len(WHOLE)))
    rows.row("SIZE at the limit: whole", (status, octets) == (0, WHOLE), (status, told))
    server = FakeServer({"SIZE": "502 no", "RETR": lambda session, _: session.send(WHOLE)})
    status, octets, told, _ = get(rows, server, "--limit", str(len(WHOLE) - 1))
    rows.row("no size, and past the limit: status 1, the older file", (status, octets) == (1, OLDER) and "limit" in told, (status, told))
    status, octets, told, _ = get(rows, server, "--limit", str(len(WHOLE)))
    rows.row("no size, at the limit: whole", (status, octets) == (0, WHOLE), (status, told))
    server = FakeServer({"SIZE": "502 no", "RETR": endless})
    status, octets, told, took = get(rows, server, "--limit", "1000000")
    rows.row("no size, and no end: status 1", (status, octets) == (1, OLDER) and "limit" in told, (status, told, took))
    (rows.folder / "in").write_bytes(WHOLE)
    server = FakeServer({"SIZE": "550 no", "STOR": lambda session, _: session.receive()})
    status, _, told = rows.tool("put", "in", f"127.0.0.1:{server.port}/f", "--limit", str(len(WHOLE) - 1))
    rows.row("put past the limit: status 1, and nothing is asked", status == 1 and str(len(WHOLE)).encode() in told and not server.commands, (status, told))
    status, _, told = rows.tool_in(rows.folder, WHOLE, "put", "-", f"127.0.0.1:{server.port}/f", "--limit", str(len(WHOLE) - 1))
    rows.row("put - past the limit: status 1, and nothing is asked", status == 1 and b"limit" in told and not server.commands, (status, told))
    server = FakeServer({"MLSD": endless_lines})
    status, out, told = rows.tool("ls", f"127.0.0.1:{server.port}/")
    rows.row("a listing without an end: refused by name", (status, out) == (1, b"") and b"1,000,000 entries" in told, (status, told))


def rates(rows):
    clear(rows)
    status, octets, told, took = get(rows, File(WHOLE).server(), "--limit-rate", "4K")
    rows.row("get --limit-rate 4K: 10,240 octets take two seconds and more", (status, octets) == (0, WHOLE) and 2 <= took < 8, (status, told, took))
    status, octets, told, took = get(rows, File(WHOLE).server(), "--limit-rate", "1G")
    rows.row("get --limit-rate 1G: at once", (status, octets) == (0, WHOLE) and took < 2, (status, told, took))
    got = []

    def stor(session, _):
        session.reply("150 here")
        link = session.data.accept()[0]
        while octets := link.recv(65536):
            got.append(octets)
        session.reply("226 done")

    server = FakeServer({"SIZE": lambda session, _: session.reply(f"213 {len(b''.join(got))}" if got else "550 no"), "STOR": stor})
    begun = time.monotonic()
    status, _, told = rows.tool_in(rows.folder, WHOLE, "put", "-", f"127.0.0.1:{server.port}/f", "--limit-rate", "4096")
    took = time.monotonic() - begun
    rows.row("put --limit-rate 4096: the same", (status, b"".join(got)) == (0, WHOLE) and 2 <= took < 8, (status, told, took))
    for word in ("4k", "K", "-1", "4 K", "99999999999G"):
        status, octets, told, _ = get(rows, File(WHOLE).server(), f"--limit-rate={word}")
        rows.row(f"--limit-rate {word}: refused with its name", (status, octets) == (2, OLDER) and "--limit-rate" in told, (status, told))


def endless(session, _):
    session.reply("150 here")
    link = session.data.accept()[0]
    try:
        while True:
            link.sendall(b"x" * 65536)
    except OSError:
        session.reply("426 broken")


def endless_lines(session, _):
    session.reply("150 here")
    link = session.data.accept()[0]
    try:
        while True:
            link.sendall(b"Type=file; a\r\n" * 5000)
    except OSError:
        session.reply("426 broken")


def standard_input(rows):
    got = []

    def stor(session, _):
        session.reply("150 here")
        link = session.data.accept()[0]
        while octets := link.recv(65536):
            got.append(octets)
        session.reply("226 done")

    server = FakeServer({"SIZE": lambda session, _: session.reply(f"213 {len(b''.join(got))}" if got else "550 no"), "STOR": stor})
    status, _, told = rows.tool_in(rows.folder, WHOLE, "put", "-", f"127.0.0.1:{server.port}/f")
    rows.row("put - sends standard input", (status, b"".join(got)) == (0, WHOLE), (status, told))
    there = bytearray()

    def part(session, _):
        session.reply("150 here")
        link = session.data.accept()[0]
        del there[session.offset:]
        for _ in range(1 + 99 * (session.offset > 0)):
            there.extend(link.recv(1000))
        session.offset = 0
        drop(link, "RST")
        session.reply("226 done")

    def back(session, _):
        offset, session.offset = session.offset, 0
        session.send(bytes(there[offset:]))

    server = FakeServer({"SIZE": lambda session, _: session.reply(f"213 {len(there)}" if there else "550 no"), "STOR": part, "RETR": back})
    status, _, told = rows.tool_in(rows.folder, WHOLE, "put", "-", f"127.0.0.1:{server.port}/f")
    rows.row("put - goes on behind a break", (status, bytes(there)) == (0, WHOLE) and b"going on" in told, (status, len(there), told))


def not_ended(rows):
    kept = []

    def open_behind(count):
        def retr(session, _):
            session.reply("150 here")
            link = session.data.accept()[0]
            kept.append(link)
            link.sendall(WHOLE[session.offset:][:count])
            session.reply("226 done")

        return retr

    clear(rows)
    size = f"213 {len(WHOLE)}"
    server = FakeServer({"SIZE": size, "RETR": open_behind(len(WHOLE))})
    status, octets, told, took = get(rows, server, "--timeout", "2")
    rows.row("226, all came, and the data connection stays open: whole", (status, octets) == (0, WHOLE) and took < 8, (status, told, took))
    server = FakeServer({"SIZE": size, "RETR": open_behind(1000)})
    status, octets, told, took = get(rows, server, "--timeout", "2")
    rows.row("226, a part came, and it stays open: status 1 behind one try", (status, octets) == (1, OLDER) and took < 8 and server.commands.count("RETR f") == 1, (status, told, took))
    server = FakeServer({"SIZE": size, "RETR": lambda session, _: session.send(WHOLE), "QUIT": lambda session, _: (session.reply("221 bye"), time.sleep(30))})
    status, octets, told, took = get(rows, server)
    rows.row("221, and the control connection stays open: ends", (status, octets) == (0, WHOLE) and took < 8, (status, told, took))


def main():
    rows = Rows()
    over_control_connections(rows)
    continued(rows)
    limits(rows)
    rates(rows)
    standard_input(rows)
    not_ended(rows)
    rows.finish()


main()
