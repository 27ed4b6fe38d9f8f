#!/usr/bin/env python3
"""Names of a local folder that can't be sent, and what can't be read there: each is left out and told, with status 1, and the rest is copied."""
import os
import shutil
import subprocess

from hostile import TOOL, Rows
from mirror import fill
from shelf import Shelf


def put(folder, name):
    with open(os.fsencode(folder) + b"/" + name, "wb") as opened:
        opened.write(b"x")


def names(rows):
    folder = rows.folder / "names"
    fill(folder, {"good": b"1", "sub/deep": b"2"})
    put(folder, b"bad\xff")
    os.mkdir(os.fsencode(folder) + b"/\xfe")
    put(os.fsencode(folder) + b"/\xfe", b"in")
    shelf = Shelf({})
    status, _, told = rows.tool("mirror", "./names", shelf.place)
    rows.row("up: the rest is copied", (status, sorted(shelf.tree)) == (1, ["good", "sub", "sub/deep"]), (status, told, shelf.tree))
    rows.row("each name is told in escapes", b"bad\\xff: " in told and b"\\xfe: " in told, told)
    shelf = Shelf({})
    status, _, told = rows.tool("mirror", "./names", shelf.place, "--exclude", "bad*", "--exclude", "?")
    rows.row("a pattern leaves such names alone", (status, "good" in shelf.tree) == (0, True), (status, told))
    (rows.folder / "down").mkdir()
    put(rows.folder / "down", b"\xff")
    fill(rows.folder / "down", {"?": b"keep", "gone": b"x"})
    shelf = Shelf({"came": b"1"})
    status, _, told = rows.tool("mirror", shelf.place, "./down", "--delete", "--exclude", "?")
    left = sorted(os.listdir(os.fsencode(rows.folder / "down")))
    rows.row("down --delete: a file `?` that is left alone stays, beside one whose name is no text", left == [b"?", b"came", b"\xff"], (status, told, left))


def unreadable(rows):
    """As nobody, where this runs as root: no other user is kept from reading."""
    if os.getuid() != 0:
        return
    os.chmod(rows.folder, 0o755)
    program = rows.folder / "program"
    shutil.copy(TOOL, program)
    fill(rows.folder / "up", {"d/x": b"x", "f": b"f", "good": b"g"})
    os.chmod(rows.folder / "up/d", 0)
    os.chmod(rows.folder / "up/f", 0)
    shelf = Shelf({"d": None, "d/x": b"x", "f": b"f", "alone": b"a"})
    words = [str(program), "mirror", str(rows.folder / "up"), shelf.place, "--delete"]
    done = subprocess.run(words, cwd="/", env={"HOME": "/nonexistent"}, capture_output=True, timeout=60, user=65534, group=65534)
    seen = (done.returncode, sorted(shelf.tree))
    rows.row("what can't be read stays there, is told, and the rest is copied", seen == (1, ["d", "d/x", "f", "good"]), (done, shelf.tree))


def no_folder(rows):
    for name in ("nowhere", "names/good"):
        shelf = Shelf({"a": b"a"})
        status, _, told = rows.tool("mirror", f"./{name}", shelf.place, "--delete")
        rows.row("a source that is no folder: nothing is removed", status != 0 and "a" in shelf.tree, (status, told))


def main():
    rows = Rows()
    names(rows)
    unreadable(rows)
    no_folder(rows)
    rows.finish()


if __name__ == "__main__":
    main()
