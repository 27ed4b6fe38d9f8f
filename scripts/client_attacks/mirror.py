#!/usr/bin/env python3
"""A mirror ends with both trees the same, changes nothing where nothing differs, keeps to its folder whatever a server names, and leaves whole
files of this machine alone where it is killed; another run finishes.
"""
import json
import os
import random
import shutil
import signal
import subprocess
import time

from hostile import TOOL, FakeServer, OwnServer, Rows
from shelf import Shelf

RANDOM = random.Random(7)


def tree_at(folder):
    """What stands below a folder: a path to the octets of a file, or to none for a directory. Parts that were left are no files of it."""
    found = {}
    for path in sorted(folder.rglob("*")):
        if ".ftp-part" not in path.name:
            found[str(path.relative_to(folder))] = path.read_bytes() if path.is_file() else None
    return found


def fill(folder, files):
    for name, octets in files.items():
        path = folder / name
        if octets is None:
            path.mkdir(parents=True, exist_ok=True)
        else:
            path.parent.mkdir(parents=True, exist_ok=True)
            path.write_bytes(octets)


def some_files():
    files = {f"d{number % 3}/e/f{number}": RANDOM.randbytes(number * 97) for number in range(40)}
    return {**files, "empty": b"", "none": None, "a b": b"blank", "é": b"accent", "big": RANDOM.randbytes(3_000_000)}


def summary(told):
    return told.decode().strip().split("\n")[-1]


def honest(rows):
    """Down, up and back, against the tool's own server."""
    served, local = rows.folder / "served", rows.folder / "local"
    fill(served, some_files())
    local.mkdir()
    server = OwnServer(served)
    place = f"127.0.0.1:{server.port}/"
    status, out, told = rows.tool("mirror", place, "./fresh", "--dry-run")
    rows.row("a dry run makes nothing", status == 0 and not (rows.folder / "fresh").exists() and b"copy d0/e/f0\n" in out, (status, told))
    status, out, told = rows.tool("mirror", place, "./fresh", "--dry-run", "--json")
    wanted = [{"deed": "make", "path": "."}, {"deed": "copy", "path": "d0/e/f0"}]
    deeds = [json.loads(line) for line in out.splitlines()]
    rows.row("a dry run in JSON", status == 0 and not (rows.folder / "fresh").exists() and all(it in deeds for it in wanted), (status, out, told))
    status, out, told = rows.tool("mirror", place, "./fresh", "--json")
    copied = [it["path"] for it in map(json.loads, out.splitlines()) if it["deed"] == "copy"]
    files = [path for path, octets in tree_at(served).items() if octets is not None]
    rows.row("each copy in JSON", sorted(copied) == sorted(files), (out, told))
    rows.row("down into a folder that does not stand", (status, tree_at(rows.folder / "fresh")) == (0, tree_at(served)), (status, told))
    status, _, told = rows.tool("mirror", place, "./local")
    rows.row("down", (status, tree_at(local)) == (0, tree_at(served)), (status, told))
    moments = [int((folder / "big").stat().st_mtime) for folder in (served, local)]
    rows.row("a file has the server's moment", moments[0] == moments[1], moments)
    status, _, told = rows.tool("mirror", place, "./local")
    rows.row("again: no file is copied", status == 0 and summary(told).startswith("0 files copied, 0 directories made, 0 removed, 0 failed; 0 octets"), told)
    changed(rows, served, local, place)
    excluded(rows, served, local, place)
    up(rows, served, local, place)
    missing(rows, served, place)
    flushed(rows, served, place)
    killed(rows, served, place)
    server.close()


def flushed(rows, served, place):
    """Each file is flushed before it has its name, or none with --no-flush; `strace` counts, where it is there."""
    files = sum(octets is not None for octets in tree_at(served).values())
    for options, wanted in (([], files), (["--no-flush"], 0)):
        told = rows.folder / "calls"
        words = [TOOL, "mirror", place, "./flushed", *options]
        if shutil.which("strace"):
            words = ["strace", "-f", "-e", "trace=fsync", "-o", str(told), *words]
        done = subprocess.run(words, cwd=rows.folder, capture_output=True, timeout=120)
        count = told.read_text().count("fsync(") if told.exists() else wanted
        same = tree_at(rows.folder / "flushed") == tree_at(served)
        rows.row(f"mirror {' '.join(options)}: the files, and {wanted} flushes", (done.returncode, same, count) == (0, True, wanted), (done.returncode, same, count))
        shutil.rmtree(rows.folder / "flushed")


def changed(rows, served, local, place):
    (served / "big").write_bytes(b"small now")
    (local / "more").mkdir()
    (local / "more/of").write_bytes(b"it")
    (local / "empty").write_bytes(b"not")
    status, _, told = rows.tool("mirror", place, "./local")
    rows.row("what differs is copied, what is alone stays", status == 0 and (local / "more/of").exists() and summary(told).startswith("2 files"), told)
    status, _, told = rows.tool("mirror", place, "./local", "--delete")
    rows.row("--delete", (status, tree_at(local)) == (0, tree_at(served)) and ", 2 removed," in summary(told), told)
    (local / "big").unlink()
    (local / "big").mkdir()
    (local / "big/in").write_bytes(b"x")
    status, _, told = rows.tool("mirror", place, "./local")
    rows.row("a file onto a directory is refused", status == 1 and (local / "big/in").exists() and b"a directory stands" in told, told)
    status, _, told = rows.tool("mirror", place, "./local", "--delete")
    rows.row("and is copied with --delete", (status, tree_at(local)) == (0, tree_at(served)), told)
    octets = (local / "d0/e/f30").read_bytes()
    moment = (local / "d0/e/f30").stat().st_mtime_ns
    (local / "d0/e/f30").write_bytes(octets[::-1])
    os.utime(local / "d0/e/f30", ns=(moment, moment))
    status, _, told = rows.tool("mirror", place, "./local")
    rows.row("other octets alone are not seen", status == 0 and summary(told).startswith("0 files"), told)
    status, _, told = rows.tool("mirror", place, "./local", "--checksum")
    rows.row("--checksum sees them", (status, tree_at(local)) == (0, tree_at(served)) and summary(told).startswith("1 files"), told)
    outside = rows.folder / "outside"
    outside.mkdir()
    (outside / "kept").write_bytes(b"kept")
    for name in ("none", "empty"):
        path = local / name
        path.rmdir() if path.is_dir() else path.unlink()
        path.symlink_to(outside)
    status, _, told = rows.tool("mirror", place, "./local")
    rows.row("a link of this machine is not followed", status == 1 and tree_at(outside) == {"kept": b"kept"}, told)
    status, _, told = rows.tool("mirror", place, "./local", "--delete")
    rows.row("--delete removes the link, not what it leads to", (status, tree_at(local), tree_at(outside)) == (0, tree_at(served), {"kept": b"kept"}), told)


def excluded(rows, served, local, place):
    fill(served, {"x/a.tmp": b"1", "x/b": b"2", "y/a.tmp": b"3"})
    status, _, told = rows.tool("mirror", place, "./local", "--exclude", "x/*.tmp", "--exclude", "é")
    seen = tree_at(local)
    rows.row("--exclude by path", status == 0 and "x/a.tmp" not in seen and seen["x/b"] == b"2" and seen["y/a.tmp"] == b"3", (status, told))
    status, _, told = rows.tool("mirror", place, "./local", "--exclude", "*.tmp", "--delete")
    rows.row("what is excluded is not removed", status == 0 and (local / "y/a.tmp").exists(), (status, told))
    status, _, told = rows.tool("mirror", place, "./local", "--delete")
    rows.row("and all is the same without it", (status, tree_at(local)) == (0, tree_at(served)), told)


def up(rows, served, local, place):
    fill(local, {"new/deep/file": b"new", "big": b"other again"})
    (local / "none").rmdir()
    status, _, told = rows.tool("mirror", "./local", place)
    rows.row("up", status == 0 and (served / "new/deep/file").read_bytes() == b"new" and (served / "big").read_bytes() == b"other again", told)
    status, _, told = rows.tool("mirror", "./local", place, "--delete")
    rows.row("up with --delete", (status, tree_at(served)) == (0, tree_at(local)) and ", 1 removed," in summary(told), told)
    status, _, told = rows.tool("mirror", "./local", place)
    rows.row("up again: no file is copied", status == 0 and summary(told).startswith("0 files"), told)
    ahead = int(time.time()) + 1_000_000
    os.utime(local / "big", (ahead, ahead))
    os.utime(local / "new/deep/file", (ahead, ahead))
    rows.tool("mirror", "./local", place)
    status, _, told = rows.tool("mirror", "./local", place)
    rows.row("up again, with moments in the future: no file is copied", status == 0 and summary(told).startswith("0 files"), told)
    time.sleep(1.1)
    (local / "big").write_bytes(b"other now..")
    os.utime(local / "big", (ahead, ahead))
    status, _, told = rows.tool("mirror", "./local", place)
    rows.row("one of them that changed is", status == 0 and summary(told).startswith("1 files") and (served / "big").read_bytes() == b"other now..", told)
    os.utime(served / "big", (ahead, ahead))
    rows.tool("mirror", place, "./local")
    status, _, told = rows.tool("mirror", place, "./local")
    rows.row("down again, with moments in the future: no file is copied", status == 0 and summary(told).startswith("0 files"), told)
    status, _, told = rows.tool("mirror", "./local", place + "made/", "--exclude", "big")
    rows.row("up into a directory that does not stand", status == 1 or (served / "made/a b").read_bytes() == b"blank", told)
    status, _, told = rows.tool("mirror", "./local", place, "--delete")
    rows.row("a tree is removed with all below it", (status, tree_at(served)) == (0, tree_at(local)), told)


def missing(rows, served, place):
    """A source that is not there: nothing is made at the other end. What is not there is named, a target too."""
    status, _, told = rows.tool("mirror", place + "no/such/", "./neither")
    rows.row("down from a path that is not there: no folder is made", (status, (rows.folder / "neither").exists()) == (1, False) and b"0 directories made" in told, (status, told))
    rows.row("and its path is named", b"error: no/such/: " in told, told)
    status, _, told = rows.tool("mirror", "./neither", place + "neither/")
    rows.row("up from a folder that is not there: no directory is made", (status, (served / "neither").exists()) == (1, False) and b"0 directories made" in told, (status, told))
    for words, name in (((place, "./no/such"), b"./no/such"), (("./local", place + "no/such/"), b"no/such/")):
        status, _, told = rows.tool("mirror", *words)
        rows.row(f"a target whose parent is not there is named: {name}", status == 1 and b"error: " + name + b": " in told, (status, told))


def killed(rows, served, place):
    files = {f"k/{number}": RANDOM.randbytes(100_000) for number in range(150)}
    fill(served, files)
    wanted = tree_at(served)
    target = rows.folder / "killed"
    whole = True
    for turn in range(6):
        process = subprocess.Popen([TOOL, "mirror", place, "./killed"], cwd=rows.folder, stderr=subprocess.DEVNULL)
        time.sleep(0.02 + 0.03 * turn)
        process.send_signal(signal.SIGKILL)
        process.wait()
        whole = whole and all(wanted.get(path, b"-") == octets for path, octets in tree_at(target).items())
    rows.row("killed six times: each file is whole", whole, "")
    status, _, told = rows.tool("mirror", place, "./killed")
    rows.row("and another run finishes", (status, tree_at(target)) == (0, wanted), (status, told))


class Tree:
    """A fake server's directories: a path to the lines of its listing; each file has three octets."""

    def __init__(self, dirs, more=()):
        self.dirs = dirs
        self.server = FakeServer({"MLSD": self.mlsd, "RETR": self.retr, "SIZE": "213 3", "STOR": self.stor, **dict(more)})
        self.place = f"127.0.0.1:{self.server.port}/"

    def mlsd(self, session, argument):
        lines = self.dirs.get(argument.strip("/"), [])
        session.send("".join(line + "\r\n" for line in lines).encode())

    def retr(self, session, _):
        session.send(b"abc")

    def stor(self, session, _):
        session.receive()


def file(name):
    return f"type=file;size=3;modify=20200101000000; {name}"


def hostile(rows):
    """Servers that name what is no single file, end early, or never end."""
    above = rows.folder / "above"
    (above / "in").mkdir(parents=True)
    names = ["..", ".", "../out", "/tmp/ftp_mirror_out", "a/../../out", "..\\out"]
    tree = Tree({"": [file(name) for name in names] + ["type=dir; ..", "type=dir; ../up", file("good")]})
    status, _, told = rows.tool_in(above, None, "mirror", tree.place, "./in", "--delete")
    seen = tree_at(above)
    rows.row("names of no single file are refused", status == 1 and set(seen) == {"in", "in/good", "in/..\\out"}, (status, seen, told))
    rows.row("nothing is made outside", not os.path.exists("/tmp/ftp_mirror_out"), told)
    tree = Tree({"": [file("a\x1b[2Jb")]})
    status, _, told = rows.tool_in(above, None, "mirror", tree.place, "./ctl", "--timeout", "2")
    rows.row("no control character comes to the terminal", status != 0 and b"\x1b" not in told, (status, told))
    tree = Tree({"": [file("a\u202eb")]})
    status, _, told = rows.tool_in(above, None, "mirror", tree.place, "./mark", "--progress")
    rows.row("a mark of direction is escaped", status == 0 and b"a\\xe2\\x80\\xaeb" in told, (status, told))
    tree = Tree({}, {"MLSD": "500 what"}.items())
    status, _, told = rows.tool_in(above, None, "mirror", tree.place, "./old")
    rows.row("neither MLSD nor LIST: told, status 1", status == 1 and b"the server lists nothing" in told, (status, told))
    tree = Tree({"": [file("a"), file("b"), file("c")]}, {"RETR": fails_at("b")}.items())
    status, _, told = rows.tool_in(above, None, "mirror", tree.place, "./some")
    rows.row("a file that fails does not stop the others", status == 1 and set(tree_at(above / "some")) == {"a", "c"} and b"error: b: " in told, (status, told))
    tree = Tree({"": [file("same"), "type=dir; same"]})
    status, _, told = rows.tool_in(above, None, "mirror", tree.place, "./twice")
    rows.row("a name twice, as file and directory: told, status 1", status == 1 and tree_at(above / "twice") == {"same": b"abc"}, (status, told))
    made(rows, above)
    deep(rows, above)
    drops(rows, above)
    listings(rows, above)


def fails_at(name):
    def retr(session, argument):
        if argument.endswith(name):
            session.reply("550 not this one")
        else:
            session.send(b"abc")

    return retr


def made(rows, above):
    """A place that is not there is made, by whichever code the server says so (RFC 3659, section 7.2.1)."""
    (above / "new").mkdir()
    (above / "new/a").write_bytes(b"abc")
    for code in ("550", "501"):
        shelf = Shelf({"x": b"x"})
        listed = shelf.mlsd

        def mlsd(session, argument):
            path = argument.strip("/")
            if path and path not in shelf.tree:
                session.reply(f"{code} no such directory")
            else:
                listed(session, argument)

        shelf.server.says["MLSD"] = mlsd
        status, _, told = rows.tool_in(above, None, "mirror", "./new", shelf.place + "t")
        shelf.server.close()
        rows.row(f"up to a place that is not there, MLSD {code}: it is made", (status, shelf.tree.get("t/a")) == (0, b"abc"), (status, told))


def deep(rows, above):
    class Endless(dict):
        def get(self, path, other):
            return ["type=dir; d", file("f")]

    tree = Tree(Endless())
    status, _, told = rows.tool_in(above, None, "mirror", tree.place, "./deep", "--dry-run")
    rows.row("directories without an end: told, status 1", status == 1 and b"no path that can be sent" in told, (status, told[-200:]))


def drops(rows, above):
    """A server that ends the control connection behind each second file."""
    count = [0]

    def retr(session, _):
        count[0] += 1
        if count[0] % 3 == 0:
            session.connection.shutdown(2)
            return
        session.send(b"abc")

    tree = Tree({"": [file(f"f{number}") for number in range(8)]}, {"RETR": retr}.items())
    status, _, told = rows.tool_in(above, None, "mirror", tree.place, "./drops")
    rows.row("a control connection that ends again and again", (status, len(tree_at(above / "drops"))) == (0, 8), (status, told))
    tree = Tree({"": [file("f")]}, {"RETR": lambda session, _: session.connection.shutdown(2)}.items())
    status, _, told = rows.tool_in(above, None, "mirror", tree.place, "./lost")
    rows.row("one that ends each time: status 3, behind five that get no further", status == 3 and told.count(b"trying again") == 8, (status, told))


def listings(rows, above):
    """A listing without an end, and one of more entries than are taken; within 4 GB of memory."""

    def endless(session, _):
        session.reply("150 here")
        link = session.data.accept()[0]
        lines = b"".join(b"type=file;size=3; f%d\r\n" % number for number in range(5000))
        try:
            while True:
                link.sendall(lines)
        except OSError:
            pass

    def long(session, _):
        session.send(b"".join(b"type=file;size=3; f%d\r\n" % number for number in range(1_000_000)))

    for mlsd, kilobytes, wanted, text in ((endless, 4_000_000, 1, b"more than 1,000,000"), (long, 4_000_000, 1, b"more than 1,000,000")):
        tree = Tree({}, {"MLSD": mlsd}.items())
        words = ["sh", "-c", f'ulimit -v {kilobytes}; exec "$0" mirror {tree.place} ./many', TOOL]
        done = subprocess.run(words, cwd=above, capture_output=True, timeout=300)
        rows.row(f"a listing that is too long: {text.decode()}", (done.returncode, text in done.stderr) == (wanted, True), (done.returncode, done.stderr))


def main():
    rows = Rows()
    honest(rows)
    hostile(rows)
    rows.finish()


if __name__ == "__main__":
    main()
