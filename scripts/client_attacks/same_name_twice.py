#!/usr/bin/env python3
"""Two words of `get` or `put` that end in one name are refused before anything is asked; of what patterns find, the second file of one name is not copied.
One file that is named twice is fetched."""
import shutil

from hostile import Rows
from shelf import Shelf

TREE = {"a": None, "b": None, "c": None, "a/x": b"A" * 3000, "b/x": b"B" * 2000, "b/y": b"Y", "c/x": b"C"}
REFUSED = b"will not overwrite just-created"


def got(rows, words, status, there, is_asked=True):
    shelf = Shelf(TREE)
    into = rows.folder / "into"
    shutil.rmtree(into, ignore_errors=True)
    into.mkdir()
    seen, _, told = rows.tool("get", *[word.replace("H/", shelf.place) for word in words], "into/", seconds=60)
    files = {file.name: file.read_bytes() for file in into.iterdir()}
    asked = bool(shelf.server.commands)
    shelf.server.close()
    holds = (seen, files, asked, REFUSED in told) == (status, there, is_asked, status != 0)
    rows.row(f"get {' '.join(words)}", holds, (seen, {name: len(octets) for name, octets in files.items()}, asked, told))


def put(rows, words, status, there):
    shelf = Shelf({"in": None})
    seen, _, told = rows.tool("put", *words, f"{shelf.place}in/", *rows.more, seconds=60)
    files = {path: octets for path, octets in shelf.tree.items() if octets is not None}
    asked = bool(shelf.server.commands)
    shelf.server.close()
    holds = (seen, files, asked, REFUSED in told) == (status, there, status == 0, status != 0)
    rows.row(f"put {' '.join(words)} {' '.join(rows.more)}", holds, (seen, files, asked, told))


def main():
    rows = Rows()
    for name in ("a", "b"):
        (rows.folder / name).mkdir()
    (rows.folder / "a" / "x").write_bytes(b"A" * 3000)
    (rows.folder / "b" / "x").write_bytes(b"B" * 2000)
    (rows.folder / "b" / "y").write_bytes(b"Y")
    for parallel in ("1", "2", "8"):
        rows.more = ["--parallel", parallel]
        got(rows, ["H/a/x", "H/b/x", *rows.more], 2, {}, is_asked=False)
        got(rows, ["H/b/y", "H/b/x", "ftp://H/a/x", *rows.more], 2, {}, is_asked=False)
        got(rows, ["H/a/x", "H/a/x", *rows.more], 0, {"x": TREE["a/x"]})
        got(rows, ["H/a/x", "H/b/y", *rows.more], 0, {"x": TREE["a/x"], "y": b"Y"})
        got(rows, ["H/a/*", "H/b/*", *rows.more], 3, {"x": TREE["a/x"], "y": b"Y"})
        got(rows, ["H/a/x", "H/b/*", *rows.more], 3, {"x": TREE["a/x"], "y": b"Y"})
        got(rows, ["H/b/*", "H/a/x", *rows.more], 3, {"x": TREE["a/x"], "y": b"Y"})
        got(rows, ["H/a/x", "H/a/*", *rows.more], 0, {"x": TREE["a/x"]})
        put(rows, ["a/x", "b/x"], 2, {})
        put(rows, ["b/y", "a/x", "b/x"], 2, {})
        put(rows, ["a/x", "a/x"], 0, {"in/x": b"A" * 3000})
        put(rows, ["a/x", "b/y"], 0, {"in/x": b"A" * 3000, "in/y": b"Y"})
    rows.finish()


main()
