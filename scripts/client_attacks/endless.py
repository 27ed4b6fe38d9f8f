#!/usr/bin/env python3
"""A server that goes on and on holds nobody for good: a reply that never ends counts as silence, so that --timeout bounds each try, and --max-time bounds all
that is asked, over all control connections, whatever comes.
"""
import socket
import time

from hostile import Rows
from shelf import Shelf

FILES = {"f": b"x" * 400, "g": b"y" * 400}
PIECES = 400
SLOW = 0.2


def until_gone(session, octets, seconds=0.0):
    """Says the same again and again until the other end is gone."""
    session.connection.settimeout(60)
    try:
        for _ in range(3_000_000):
            session.connection.sendall(octets)
            time.sleep(seconds)
    except OSError:
        raise OSError from None


STORMS = {
    "1xx": lambda session, _: until_gone(session, b"150 wait\r\n" * 200, 0.02),
    "1xx, slowly": lambda session, _: until_gone(session, b"150 wait\r\n", SLOW),
    "an octet at a time": lambda session, _: until_gone(session, b"2", SLOW),
}


def dripping(session, _):
    """A file, an octet at a time."""
    session.reply("150 here")
    link = session.data.accept()[0]
    try:
        for _ in range(PIECES):
            link.sendall(b"x")
            time.sleep(SLOW)
    except OSError:
        pass
    link.close()
    session.reply("226 done")


def sipping(session, _):
    """An upload, of which some octets are taken at a time."""
    session.data.setsockopt(socket.SOL_SOCKET, socket.SO_RCVBUF, 4096)
    session.reply("150 here")
    link = session.data.accept()[0]
    for _ in range(PIECES):
        if not link.recv(1000):
            break
        time.sleep(SLOW)
    link.close()
    session.reply("226 done")


def words_of(verb, place):
    return {
        "get": ("get", place + "f", "into"),
        "several": ("get", place + "f", place + "g", "folder/"),
        "put": ("put", "up", place + "up"),
        "ls": ("ls", place),
        "mirror": ("mirror", place, "./folder"),
    }[verb]


def ask(rows, name, verb, says, most, *more, told=b""):
    """Asks a server that says so, which ends within so many seconds, with status 3."""
    shelf = Shelf(FILES, says)
    begun = time.monotonic()
    try:
        status, _, text = rows.tool(*words_of(verb, shelf.place), *more, seconds=90)
    except Exception as error:
        status, text = "hangs", repr(error).encode()
    took = time.monotonic() - begun
    shelf.server.close()
    rows.row(f"{name}: ends within {most} s, with status 3", status == 3 and took < most and told in text, (status, round(took, 1), text))


def main():
    rows = Rows()
    (rows.folder / "up").write_bytes(b"u" * 30_000_000)
    (rows.folder / "folder").mkdir()
    over = b"--max-time is over"
    for lanes in (("--parallel", "1"), ("--parallel", "3")):
        said = " ".join(lanes)
        for storm, says in STORMS.items():
            for verb, command in (("several", "RETR"), ("put", "STOR"), ("mirror", "MLSD")):
                ask(rows, f"{verb} {said}, {storm} for {command}, --max-time", verb, {command: says}, 8, "--max-time", "3", *lanes, told=over)
        ask(rows, f"get {said}, a file that drips", "several", {"RETR": dripping}, 8, "--max-time", "3", *lanes, told=over)
        ask(rows, f"mirror {said}, a listing that drips", "mirror", {"MLSD": dripping}, 8, "--max-time", "3", *lanes, told=over)
        ask(rows, f"put {said}, an upload that is sipped", "put", {"STOR": sipping}, 8, "--max-time", "3", *lanes, told=over)
        ask(rows, f"mirror {said}, 1xx without end, --timeout alone", "mirror", {"MLSD": STORMS["1xx, slowly"]}, 60, "--timeout", "1", *lanes)
    ask(rows, "ls, 1xx without end", "ls", {"MLSD": STORMS["1xx"]}, 8, "--max-time", "3", told=over)
    ask(rows, "ls, 1xx without end, --timeout alone", "ls", {"MLSD": STORMS["1xx, slowly"]}, 60, "--timeout", "1")
    ask(rows, "get, no further try past the time", "get", {"RETR": "421 bye"}, 8, "--max-time", "5")
    shelf = Shelf(FILES)
    status, _, told = rows.tool("get", shelf.place + "f", "into", "--max-time", "60")
    rows.row("a time that suffices changes nothing", status == 0 and (rows.folder / "into").read_bytes() == FILES["f"], (status, told))
    rows.finish()


main()
