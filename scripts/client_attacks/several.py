#!/usr/bin/env python3
"""Several files of one `get` or `put`, and where they go; the words that ask one thing of a server; `ls --long` and `--json`; `run --user`; and
a control connection that ends under `run`."""
import json
import os
import socket
import struct

from hostile import FakeServer, OwnServer, Rows
from mirror import fill, tree_at

MOMENT = 951_868_799
JSON = [
    {"name": "a", "type": "file", "size": 3, "modified": "2000-02-29T23:59:59Z", "perm": "adfrw"},
    {"name": "d", "type": "dir", "perm": "cdeflmp"},
]
LONG = b"-              3  2000-02-29 23:59:59  a\nd              -                    -  d\n"


def get_rows(rows, at, local):
    """What is fetched, what stands here then, and the status."""
    for words, wanted in (
        ((f"{at}/a", f"{at}/d/b", "local/"), {"a": b"abc", "b": b"hello"}),
        ((f"{at}/a", f"{at}/d/b", "local"), {"a": b"abc", "b": b"hello"}),
        ((f"{at}/a", "local/"), {"a": b"abc"}),
        ((f"{at}/a", "local"), {"a": b"abc"}),
        ((f"{at}/a", "local/c"), {"c": b"abc"}),
        ((f"ftp://{at}/a", f"ftp://{at}/d/b", "local/"), {"a": b"abc", "b": b"hello"}),
        ((f"{at}/a", "--user", "anonymous", f"{at}/d/b", "--moment", "local/"), {"a": b"abc", "b": b"hello"}),
        ((f"{at}/a", "--keep", "--", "local/"), {"a": b"abc"}),
    ):
        got(rows, local, words, 0, wanted)
    got(rows, local, (f"{at}/a", f"{at}/none", f"{at}/d/b", "local/"), 1, {"a": b"abc", "b": b"hello"}, b"note: not copied: none\n")
    got(rows, local, (f"{at}/a", f"{at}/d/", "local/"), 2, {})
    got(rows, local, (f"{at}/a", f"{at}:0/b", "local/"), 2, {})
    status, _, told = rows.tool("get", f"ftp://{at}/a", f"ftp://{at}/d/b")
    both = [(rows.folder / name).read_bytes() for name in ("a", "b")]
    rows.row("get of two URLs goes here", status == 0 and both == [b"abc", b"hello"], (status, told))


def got(rows, local, words, wanted, files, tells=b""):
    for name in local.iterdir():
        name.unlink()
    status, _, told = rows.tool("get", *words)
    rows.row(f"get {' '.join(words)}", (status, tree_at(local)) == (wanted, files) and tells in told, (status, told, tree_at(local)))


def put_rows(rows, at, served):
    """What is sent, what the server has then, and the status."""
    fill(rows.folder, {"x": b"1", "y": b"22", "-w": b"333"})
    for words, wanted, files in (
        (("x", "y", f"{at}/in/"), 0, {"x": b"1", "y": b"22"}),
        (("x", f"{at}/in/"), 0, {"x": b"1"}),
        (("x", f"{at}/in/z"), 0, {"z": b"1"}),
        (("x", "--user", "anonymous", f"{at}/in/z"), 0, {"z": b"1"}),
        (("x", "--timeout", "9", "y", "--extended", f"{at}/in/", "--type", "I"), 0, {"x": b"1", "y": b"22"}),
        (("--user", "anonymous", "--", "-w", f"{at}/in/"), 0, {"-w": b"333"}),
        (("x", "--", "--user", f"{at}/in/"), 3, {"x": b"1"}),
        (("x", "--user", "anonymous"), 2, {}),
        (("x", "none", "y", f"{at}/in/"), 3, {"x": b"1", "y": b"22"}),
        (("x", "y", f"{at}/in/z"), 2, {}),
        (("x", "-", f"{at}/in/"), 2, {}),
        (("x", "./", f"{at}/in/"), 2, {}),
    ):
        folder = served / "in"
        folder.mkdir(exist_ok=True)
        for name in folder.iterdir():
            name.unlink()
        status, _, told = rows.tool("put", *words)
        rows.row(f"put {' '.join(words)}", (status, tree_at(folder)) == (wanted, files), (status, told, tree_at(folder)))
    status, _, told = rows.tool("put", "x", "y", f"{at}/")
    rows.row("put of two at the login's directory", status == 0 and (served / "y").read_bytes() == b"22", (status, told))


def word_rows(rows, at, served):
    """Each word that asks one thing: its status, what it writes, and what stands then."""
    fill(served, {"w/a": b"abc"})
    for words, wanted, written, files in (
        (("cat", f"{at}/w/a"), 0, b"abc", {"a": b"abc"}),
        (("cat", f"{at}/w/b"), 1, b"", {"a": b"abc"}),
        (("size", f"{at}/w/a"), 0, b"3\n", {"a": b"abc"}),
        (("size", f"{at}/w/b"), 1, b"", {"a": b"abc"}),
        (("mkdir", f"{at}/w/d"), 0, b"", {"a": b"abc", "d": None}),
        (("mkdir", f"{at}/w/d"), 1, b"", {"a": b"abc", "d": None}),
        (("mv", f"{at}/w/a", "w/d/b"), 0, b"", {"d": None, "d/b": b"abc"}),
        (("mv", f"{at}/w/a", "w/d/c"), 1, b"", {"d": None, "d/b": b"abc"}),
        (("rmdir", f"{at}/w/d"), 1, b"", {"d": None, "d/b": b"abc"}),
        (("rm", f"{at}/w/d/b"), 0, b"", {"d": None}),
        (("rm", f"{at}/w/d/b"), 1, b"", {"d": None}),
        (("rmdir", f"{at}/w/d"), 0, b"", {}),
        (("mkdir", f"{at}/w/d", f"{at}/w/e"), 0, b"", {"d": None, "e": None}),
        (("mkdir", f"{at}/w/d", f"{at}/w/f"), 1, b"", {"d": None, "e": None, "f": None}),
        (("rmdir", f"{at}/w/none", f"{at}/w/e", f"{at}/w/f"), 1, b"", {"d": None}),
        (("mkdir", f"{at}/w/g/h"), 1, b"", {"d": None}),
        (("mkdir", "-p", f"{at}/w/d/g/"), 0, b"", {"d": None, "d/g": None}),
        (("mkdir", "--parents", f"{at}/w/d/g", f"{at}/w/i/k"), 0, b"", {"d": None, "d/g": None, "i": None, "i/k": None}),
        (("rmdir", f"{at}/w/d/g", f"{at}/w/d", f"{at}/w/i/k", f"ftp://{at}/w/i"), 0, b"", {}),
        (("mkdir", f"{at}/w/d", "127.0.0.1:99999/a"), 2, b"", {}),
        (("size", "127.0.0.1:1/a"), 3, b"", {}),
        (("rm", "127.0.0.1:99999/a"), 2, b"", {}),
    ):
        status, out, told = rows.tool(*words)
        found = status, out, tree_at(served / "w")
        rows.row(" ".join(words), found == (wanted, written, files) and (status == 0 or b"error: " in told), (found, told))


def lost_rows(rows):
    """A word whose control connection ends before the reply is asked once: it may be done, and the status is 3."""
    for words, verb in ((("rm",), "DELE"), (("mkdir",), "MKD"), (("rmdir",), "RMD"), (("size",), "SIZE"), (("mv",), "RNFR")):
        server = FakeServer({verb: lambda session, _: session.connection.shutdown(2)})
        place = f"127.0.0.1:{server.port}/a"
        status, _, told = rows.tool(*words, place, *(["b"] if words == ("mv",) else []))
        server.close()
        asked = sum(it.startswith(verb) for it in server.commands)
        rows.row(f"{words[0]}, the control connection ends", (status, asked) == (3, 1) and b"may be done" in told, (status, told, server.commands))


def end(session, _):
    """The server ends the control connection, in order."""
    session.connection.shutdown(socket.SHUT_RDWR)


def reset(session, _):
    """It breaks."""
    session.connection.setsockopt(socket.SOL_SOCKET, socket.SO_LINGER, struct.pack("ii", 1, 0))
    raise OSError("it breaks")


def ended_rows(rows):
    """A control connection that ends in a script: a report like another where its server ended it, and a failure where it broke."""
    for what, says, wanted in (
        ("421, and open", "421 over", 1),
        ("421, and ended", lambda session, _: (session.reply("421 over"), end(session, _)), 1),
        ("ended", end, 1),
        ("reset", reset, 3),
    ):
        for script, words in ((b"login a b\nup\nwhere\nwhere\n", ()), (b"up\nwhere\nwhere\n", ("--user", "anonymous"))):
            server = FakeServer({"CDUP": "250 up", "PWD": says})
            found = rows.tool_in(rows.folder, script, "run", "--host", "127.0.0.1", "--port", str(server.port), *words)
            server.close()
            rows.row(f"run {' '.join(words)}, {what}", found[:2] == (wanted, b"done\nlost\nlost\n"), found)


def run_rows(rows, port):
    """A script whose user is said by the command line."""
    file = rows.folder / "password"
    file.write_text("secret\n")
    file.chmod(0o600)
    by_guest = "--user", "guest", "--password-file", "password"
    for script, words, wanted in (
        (b"where\n", by_guest, (0, b"path /\n")),
        (b"where\n", ("--user", "anonymous"), (0, b"path /\n")),
        (b"where\n", (), (2, b"")),
        (b"login guest secret\nwhere\n", (), (0, b"path /\n")),
        (b"login guest secret\nwhere\n", by_guest, (2, b"")),
        (b"where\nlook\n", by_guest, (2, b"")),
        (b"", by_guest, (0, b"")),
        (b"where\n", ("--user", "guest", "--password-file", "none"), (2, b"")),
    ):
        status, out, told = rows.tool_in(rows.folder, script, "run", "--host", "127.0.0.1", "--port", str(port), *words)
        rows.row(f"run {' '.join(words)}, {script}", (status, out) == wanted, (status, out, told))
    ended_rows(rows)
    _, _, told = rows.tool_in(rows.folder, b"where\nlook\n", "run", "--host", "127.0.0.1", "--port", str(port), *by_guest)
    rows.row("run --user, the second line fits no form", told == b"error: line 2 fits no form\n", told)


def main():
    rows = Rows()
    served, local = rows.folder / "served", rows.folder / "local"
    for folder in (served, local):
        folder.mkdir()
    fill(served, {"a": b"abc", "d/b": b"hello"})
    os.utime(served / "a", (MOMENT, MOMENT))
    server = OwnServer(served)
    at = f"127.0.0.1:{server.port}"
    status, out, told = rows.tool("ls", "--long", f"{at}/")
    rows.row("ls --long", (status, out) == (0, LONG), (status, out, told))
    status, out, told = rows.tool("ls", "--json", f"{at}/")
    rows.row("ls --json", (status, [json.loads(line) for line in out.splitlines()]) == (0, JSON), (status, out, told))
    get_rows(rows, at, local)
    put_rows(rows, at, served)
    word_rows(rows, at, served)
    lost_rows(rows)
    run_rows(rows, server.port)
    server.close()
    rows.finish()


if __name__ == "__main__":
    main()
