#!/usr/bin/env python3
"""Lines of a listing that are no entries take no other line with them, and nothing is removed for them; where a server does not know MLSD, `ls`, `get` by a
pattern and `mirror` go by LIST in the columns of `ls -l`, and by SIZE and MDTM where it does not tell enough.
"""
import json
import os

from hostile import FakeServer, Rows
from mirror import fill, summary, tree_at
from shelf import Shelf

GOOD = b"type=file;size=1; a.csv\r\n"
LATIN = b"type=file;size=1; caf\xe9.csv\r\n"
BELL = b"type=file;size=1; b\x07.csv\r\n"
NAMELESS = b"nonsense\r\n"
UNKNOWN = ("500 what", "502 no")


class Columns(Shelf):
    """A shelf whose server knows neither MLSD nor MLST, and whose LIST tells the year, or a time of day in place of it."""

    def __init__(self, tree, when="2020", more=b"", says=None):
        self.when, self.more = when, more
        super().__init__(tree, {"MLSD": "500 what", "MLST": "500 what", "LIST": self.list, **(says or {})})

    def line(self, path, name):
        octets = self.tree[path]
        rights, size = ("drwxr-xr-x", 4096) if octets is None else ("-rw-r--r--", len(octets))
        return f"{rights} 1 ftp ftp {size:12} Jan  1 {self.when:>5} {name}\r\n"

    def list(self, session, argument):
        path = argument.strip("/")
        front = path + "/" if path else ""
        below = [(key, key[len(front):]) for key in self.tree if key.startswith(front)]
        lines = [self.line(key, name) for key, name in below if name and "/" not in name]
        session.send(("total 8\r\n" + "".join(lines)).encode("latin1") + self.more)

    def asked(self, *verbs):
        """How often each verb was sent."""
        said = [command.split()[0] for command in self.server.commands]
        return [said.count(verb) for verb in verbs]


def sender(octets):
    return lambda session, _: session.send(octets)


def is_plain(octets):
    """Whether nothing in it is obeyed by a terminal."""
    return all(octet >= 0x20 or octet == 10 for octet in octets) and octets.isascii()


def ls_odd(rows):
    """Lines of MLSD that are no entries are shown after the others, and counted."""
    server = FakeServer({"MLSD": sender(LATIN + NAMELESS + GOOD + BELL)})
    at = f"127.0.0.1:{server.port}/"
    status, out, told = rows.tool("ls", at)
    lines = out.split(b"\n")
    holds = status == 0 and lines[0].endswith(b" a.csv") and [b"caf\\xe9" in lines[1], lines[2], b"b\\x07" in lines[3]] == [True, b"nonsense", True]
    rows.row("ls: lines that are no entries after the others", holds and is_plain(out + told), (status, out, told))
    rows.row("ls: they are counted", told.startswith(b"note: ") and told.endswith(b": 3\n"), told)
    status, out, told = rows.tool("ls", at, "--json")
    read = [json.loads(line) for line in out.splitlines()]
    holds = status == 0 and read[0].get("name") == "a.csv" and [list(it) for it in read[1:]] == [["line"]] * 3 and read[2]["line"] == "nonsense"
    rows.row("ls --json: each as a line", holds and is_plain(out), (status, out, told))
    status, out, told = rows.tool("ls", at, "--long")
    rows.row("ls --long: after the columns", status == 0 and out.split(b"\n")[2] == b"nonsense" and is_plain(out), (status, out, told))
    status, out, told = rows.tool("ls", at, "--quiet")
    rows.row("ls --quiet: no note", (status, out.count(b"\n"), told) == (0, 4, b""), (status, out, told))
    server.close()
    for octets, wanted in ((b"", b""), (b"\r\n", b"\n"), (b"type=file;size=x; a\r\n", b"type=file;size=x; a\n"), (GOOD[:-2], b"Type=file;Size=1; a.csv\n")):
        server = FakeServer({"MLSD": sender(octets), "MLST": "550 nothing"})
        status, out, told = rows.tool("ls", f"127.0.0.1:{server.port}/d/")
        server.close()
        rows.row(f"ls of {octets}", (status, out) == (0, wanted), (status, out, told))


def ls_columns(rows):
    """Where MLSD is not known, LIST, whose lines are shown as they came, but as entries by --long and --json; where LIST is not known either, NLST."""
    odd = b"-rw-r--r-- 1 u g 3 Nov 28 12:34 caf\xe9\r\n-rw-r--r-- 1 u g 3 Nov 28 12:34 a\x1b[2Jb\r\nanything\r\n"
    text = b"total 8\r\ndrwxr-xr-x 2 u g 4096 Nov 28  2025 ..\r\n-rw-r--r-- 1 u g 3 Nov 28 12:34 a b\r\ndrwxr-xr-x 2 u g 4096 Nov 28  2025 d\r\n" + odd
    shown = b"-rw-r--r-- 1 u g 3 Nov 28 12:34 caf\\xe9\n-rw-r--r-- 1 u g 3 Nov 28 12:34 a\\x1b[2Jb\nanything\n"
    wanted = text[: -len(odd)].replace(b"\r", b"") + shown
    entries = [{"name": "a b", "type": "file", "size": 3}, {"name": "d", "type": "dir"}, *({"line": it} for it in shown.decode().splitlines())]
    columns = f"-{3:15}  {'-':>19}  a b\nd{'-':>15}  {'-':>19}  d\n".encode() + shown
    for reply in UNKNOWN:
        server = FakeServer({"MLSD": reply, "LIST": sender(text), "NLST": sender(b"no\r\n")})
        status, out, told = rows.tool("ls", f"127.0.0.1:{server.port}/d/")
        asked = [it for it in server.commands if it[:4] in ("MLSD", "LIST", "NLST")]
        rows.row(f"ls, MLSD {reply[:3]}: by LIST", (status, out, told, asked) == (0, wanted, b"", ["MLSD d/", "LIST d/"]), (status, out, told, asked))
        status, out, told = rows.tool("ls", f"127.0.0.1:{server.port}/d/", "--json")
        read = [json.loads(line) for line in out.splitlines()]
        rows.row(f"ls --json, MLSD {reply[:3]}", (status, read) == (0, entries) and b"as they came: 3" in told, (status, out, told))
        status, out, told = rows.tool("ls", f"127.0.0.1:{server.port}/d/", "--long")
        rows.row(f"ls --long, MLSD {reply[:3]}", (status, out) == (0, columns) and b"as they came: 3" in told, (status, out, told))
        server.close()
        server = FakeServer({"MLSD": reply, "LIST": reply, "NLST": sender(b"a\r\nb\r\n")})
        status, out, told = rows.tool("ls", f"127.0.0.1:{server.port}/")
        rows.row(f"ls, LIST {reply[:3]} too: by NLST", (status, out) == (0, b"a\nb\n"), (status, out, told))
        server.close()
    server = FakeServer({"MLSD": "550 no", "LIST": sender(text)})
    status, out, told = rows.tool("ls", f"127.0.0.1:{server.port}/d/")
    rows.row("ls, MLSD 550: refused, no LIST", (status, out) == (1, b"") and b"550 no" in told, (status, out, told))
    server.close()


def patterns(rows):
    """What is fetched by a pattern: files that a line tells, and no other line."""
    octets = {"d/a.csv": b"one", "d/b.csv": b"two", "d/c.txt": b"three", "d/e.csv": None}
    into = rows.folder / "into"
    odd = b"?rw 1 x.csv\r\n-rw-r--r-- 1 u g 3 Nov 28 12:34 ../up.csv\r\n-rw-r--r-- 1 u g 1 Nov 28 12:34 \xff.csv\r\n"
    shelf = Columns({"d": None, **octets}, more=odd)
    into.mkdir()
    status, _, told = rows.tool("get", f"{shelf.place}d/*.csv", "into/")
    rows.row("get by a pattern, MLSD 500", (status, tree_at(into)) == (0, {"a.csv": b"one", "b.csv": b"two"}), (status, told, tree_at(into)))
    rows.row("get by a pattern: MLSD is asked for once", shelf.asked("MLSD", "LIST") == [1, 1], shelf.server.commands)
    shelf.server.close()
    shelf = Shelf({"a.csv": b"x"}, lists={"": LATIN + GOOD + BELL + NAMELESS})
    status, _, told = rows.tool("get", f"{shelf.place}*.csv", "into/")
    rows.row("get by a pattern: lines that are no entries are passed over", (status, tree_at(into).get("a.csv")) == (0, b"x"), (status, told))
    shelf.server.close()


def put_octets(folder, name, octets):
    folder.mkdir(parents=True, exist_ok=True)
    with open(os.fsencode(folder) + b"/" + name, "wb") as opened:
        opened.write(octets)


def down_odd(rows):
    """What has the name of such a line stays, and where it has none nothing is removed."""
    for odd, told_as in ((LATIN, b"caf\\xe9.csv: "), (BELL, b"b\\x07.csv: ")):
        folder = rows.folder / f"down{len(os.listdir(rows.folder))}"
        name = odd[odd.index(b" ") + 1:-2]
        put_octets(folder, name, b"here")
        fill(folder, {"gone": b"g", "kept": b"k"})
        shelf = Shelf({"a.csv": b"x", "kept": b"k"}, lists={"": odd + GOOD + b"type=file;size=1; kept\r\n"})
        status, out, told = rows.tool("mirror", shelf.place, f"./{folder.name}", "--delete")
        left = sorted(os.listdir(os.fsencode(folder)))
        rows.row(f"down --delete beside {odd}: its name stays", (status, left) == (1, sorted([name, b"a.csv", b"kept"])), (status, left, told))
        rows.row(f"down --delete beside {odd}: told by its name", told_as in told and is_plain(told + out), told)
        shelf.server.close()
    folder = rows.folder / "nameless"
    fill(folder, {"gone": b"g", "sub/x": b"x"})
    shelf = Shelf({"a.csv": b"x"}, lists={"": NAMELESS + GOOD})
    status, _, told = rows.tool("mirror", shelf.place, "./nameless", "--delete")
    left = sorted(tree_at(folder))
    rows.row("down --delete beside a line without a name: nothing is removed", (status, left) == (1, ["a.csv", "gone", "sub", "sub/x"]), (status, left, told))
    shelf.server.close()
    fill(rows.folder / "up", {"new": b"n"})
    shelf = Shelf({"a.csv": b"x"}, lists={"": LATIN + NAMELESS + GOOD})
    status, _, told = rows.tool("mirror", "./up", shelf.place, "--delete")
    rows.row("up --delete: such lines of the target are left alone, and the rest is done", sorted(shelf.tree) == ["new"], (status, told, shelf.tree))
    shelf.server.close()


TREE = {"a": b"one", "d": None, "d/b": b"two", "d/e": None, "d/e/f": b"", "d/g h": b"blank", "big": bytes(range(256)) * 300}


def down_columns(rows):
    """Down from a server without MLSD: the same tree, and nothing to do the next time."""
    for when, each in (("2020", 0), ("12:34", 5)):
        name = f"columns{each}"
        shelf = Columns(TREE, when)
        status, _, told = rows.tool("mirror", shelf.place, f"./{name}")
        rows.row(f"down by LIST ({when})", (status, tree_at(rows.folder / name)) == (0, dict(sorted(TREE.items()))), (status, told))
        asked = shelf.asked("MLSD", "LIST")
        rows.row(f"down by LIST ({when}): MLSD is asked for once", asked == [1, 3], shelf.server.commands)
        shelf.server.commands.clear()
        status, _, told = rows.tool("mirror", shelf.place, f"./{name}")
        holds = status == 0 and summary(told).startswith("0 files copied, 0 directories made, 0 removed, 0 failed; 0 octets")
        rows.row(f"down by LIST ({when}) again: no file is copied", holds and shelf.asked("RETR") == [0], (told, shelf.server.commands))
        shelf.server.close()
    for lanes in (1, 4):
        files = [name for name, octets in TREE.items() if octets is not None]
        shelf = Columns(TREE, "2020", says={"MDTM": "213 20200101123456"})
        for run, fetched in (("first", len(files)), ("second", 0)):
            shelf.server.commands.clear()
            status, _, told = rows.tool("mirror", shelf.place, f"./day{lanes}", "--parallel", str(lanes))
            moments = {(rows.folder / f"day{lanes}" / name).stat().st_mtime for name in files}
            holds = status == 0 and moments == {1_577_882_096} and b"anew" not in told
            name = f"down by LIST (2020) by {lanes}, {run} run: the moment of MDTM, and no download begins anew"
            rows.row(name, holds and shelf.asked("RETR") == [fetched], (status, told, moments, shelf.server.commands))
        shelf.server.close()
    for reply in UNKNOWN:
        shelf = Columns(TREE, says={"LIST": reply})
        status, _, told = rows.tool("mirror", shelf.place, "./neither")
        rows.row(f"down, LIST {reply[:3]} too: ended with 1", status == 1 and not (rows.folder / "neither").exists(), (status, told))
        shelf.server.close()


def down_delete(rows):
    """--delete without MLSD: a file goes where SIZE says 550, a directory stays, and where a line is of another form all does."""
    extra = {"gone": b"g", "sub/x": b"x", "d/b": b"two"}
    folder = rows.folder / "less"
    fill(folder, extra)
    shelf = Columns(TREE)
    status, _, told = rows.tool("mirror", shelf.place, "./less", "--delete")
    found = tree_at(folder)
    rows.row("down --delete by LIST: the file goes, the directory stays", status == 1 and "gone" not in found and "sub" in found, (status, told, sorted(found)))
    rows.row("down --delete by LIST: SIZE is asked of the file", "SIZE gone" in shelf.server.commands, shelf.server.commands)
    shelf.server.close()
    folder = rows.folder / "other"
    fill(folder, extra)
    shelf = Columns(TREE, more=b"11-28-26  12:34PM                    3 x\r\n")
    status, _, told = rows.tool("mirror", shelf.place, "./other", "--delete")
    found = tree_at(folder)
    holds = status == 1 and [found.get(name) for name in ("gone", "sub/x", "a")] == [b"g", b"x", b"one"]
    rows.row("down --delete by LIST, a line of another form: nothing is removed, the rest is copied", holds, (status, told, sorted(found)))
    shelf.server.close()
    links = b"lrwxrwxrwx 1 u g 4 Nov 28 12:34 link -> /etc/passwd\r\nprw-r--r-- 1 u g 0 Nov 28 12:34 pipe\r\n"
    links += b"drwxr-xr-x 2 u g 4 Nov 28 12:34 .\r\ndrwxr-xr-x 2 u g 4 Nov 28 12:34 ..\r\n"
    shelf = Columns({"a": b"one"}, more=links)
    status, _, told = rows.tool("mirror", shelf.place, "./links")
    rows.row("down by LIST: a link and a pipe are passed over, `.` and `..` are none", tree_at(rows.folder / "links") == {"a": b"one"}, (status, told))
    shelf.server.close()


def up_columns(rows):
    """Up to a server without MLSD: the same tree, nothing to do the next time, and what is there alone is removed."""
    folder = rows.folder / "local"
    fill(folder, TREE)
    for path in folder.rglob("*"):
        os.utime(path, (1_500_000_000, 1_500_000_000))
    shelf = Columns({"old": b"o", "olds": None, "olds/x": b"x", "d": None, "d/b": b"tw"})
    status, _, told = rows.tool("mirror", "./local", shelf.place, "--delete")
    rows.row("up --delete by LIST", (status, dict(sorted(shelf.tree.items()))) == (0, dict(sorted(TREE.items()))), (status, told, sorted(shelf.tree)))
    shelf.server.commands.clear()
    status, _, told = rows.tool("mirror", "./local", shelf.place, "--delete")
    rows.row("up by LIST again: no file is sent", (status, shelf.asked("STOR", "DELE")) == (0, [0, 0]), (status, told, shelf.server.commands))
    shelf.server.close()
    shelf = Columns({})
    status, _, told = rows.tool("mirror", "./local", shelf.place + "to")
    wanted = {"to": None, **{f"to/{path}": octets for path, octets in TREE.items()}}
    rows.row("up by LIST to what does not stand, and is listed as empty: it is made", (status, shelf.tree) == (0, wanted), (status, told, sorted(shelf.tree)))
    shelf.server.close()


def down_missing(rows):
    """A source that LIST lists as empty is gone into, and left again: where that is refused nothing is made."""
    for says, wanted in (("550 none", (1, False, ["PWD", "CWD none"])), ("250 in", (0, True, ["PWD", "CWD none", "CWD /home"]))):
        shelf = Columns({}, says={"PWD": '257 "/home" here', "CWD": says})
        folder = rows.folder / "missing"
        status, _, told = rows.tool("mirror", shelf.place + "none", f"./{folder.name}")
        asked = [command for command in shelf.server.commands if command.split()[0] in ("PWD", "CWD")]
        rows.row(f"down by LIST of a source without an entry, CWD {says}", (status, folder.exists(), asked) == wanted, (status, told, asked))
        shelf.server.close()


def ls_missing(rows):
    """`ls` of a directory of which LIST lists nothing: who refuses to go into it has none."""
    for path in ("none", "none/"):
        for says, wanted in (("550 no such directory", 1), ("250 in", 0), ("500 what", 0)):
            shelf = Columns({}, says={"LIST": sender(b""), "CWD": says})
            status, out, told = rows.tool("ls", shelf.place + path)
            holds = (status, out) == (wanted, b"") and (b"no such directory" in told) == (wanted == 1)
            rows.row(f"ls {path} of which LIST lists nothing, CWD {says}", holds, (status, out, told))
            shelf.server.close()


def main():
    rows = Rows()
    ls_missing(rows)
    ls_odd(rows)
    down_missing(rows)
    ls_columns(rows)
    patterns(rows)
    down_odd(rows)
    down_columns(rows)
    down_delete(rows)
    up_columns(rows)
    rows.finish()


if __name__ == "__main__":
    main()
