#!/usr/bin/env python3
"""`mirror --delete` takes no copy away for a listing that lies, is cut or is empty: it removes half of the target at most, nothing below a directory
that is listed empty, and no name of which MLST is not answered 550; and what comes stands before what gives way to it is removed.
"""
from hostile import Rows
from mirror import fill, tree_at
from shelf import Shelf

OLD = {"a": b"old a", "b": b"old b", "d/c": b"old c", "d/e/f": b"old f"}
HELD = {"a": b"old a", "b": b"old b", "d": None, "d/c": b"old c", "d/e": None, "d/e/f": b"old f"}
ALL = dict(HELD)


class Runs:
    """Mirrors down into folders that are made anew."""

    def __init__(self, rows):
        self.rows, self.count = rows, 0

    def down(self, shelf, files, *words):
        self.count += 1
        folder = self.rows.folder / f"t{self.count}"
        folder.mkdir()
        fill(folder, files)
        status, _, told = self.rows.tool("mirror", shelf.place, f"./t{self.count}", *words)
        shelf.server.close()
        return status, tree_at(folder), told


def listings(rows, runs):
    """What is listed is less than what stands there."""
    shown = b"type=file;size=5;modify=20200101000000; a\r\n"
    lists = {"an empty listing": b"", "one cut at the end of a line": shown, "one cut within a line": shown + b"type=file;si"}
    for what, octets in lists.items():
        seen = runs.down(Shelf(HELD, lists={"": octets}), OLD, "--delete")
        rows.row(f"{what}, MLST knows the rest: all stays", seen[:2] == (1, ALL), seen)
    seen = runs.down(Shelf(HELD, lists={"d": b""}), {**OLD, "a": b"old A"}, "--delete")
    rows.row("a directory that is listed empty: what stood below it stays", seen[0] == 1 and "d/e/f" in seen[1], seen)
    seen = runs.down(Shelf({}), OLD, "--delete")
    rows.row("an export that is empty: all stays, and it is told of how many", seen[:2] == (1, ALL) and b"3 entries" in seen[2], seen)
    seen = runs.down(Shelf({}), OLD, "--delete-any")
    rows.row("the same with --delete-any: all goes", seen[:2] == (0, {}), seen)
    for reply in ("426 broken", "451 local", "550 no", "425 no"):
        cut = {"MLSD": lambda session, _, last=reply: session.send(shown, last)}
        seen = runs.down(Shelf({}, cut), OLD, "--delete")
        rows.row(f"a listing that ends with {reply[:3]}: all stays", seen[0] in (1, 3) and seen[1] == ALL, seen)
    for gone, what, replies in (
        (False, "MLST is answered 451", {"MLST": "451 left out"}),
        (True, "MLST is answered 500, SIZE 550", {"MLST": "500 what", "SIZE": "550 nothing"}),
        (False, "MLST is answered 500, SIZE 451", {"MLST": "500 what", "SIZE": "451 left out"}),
        (False, "MLST is answered 500, SIZE 213", {"MLST": "500 what", "SIZE": "213 5"}),
        (True, "MLST is answered 550", {"MLST": "550-no\r\n550 nothing"}),
    ):
        seen = runs.down(Shelf({"a": b"old a"}, replies), {"a": b"old a", "b": b"old b"}, "--delete")
        rows.row(what, ("b" not in seen[1], seen[0]) == (gone, 0 if gone else 1), seen)


def halves(rows, runs):
    """How much of a target may go."""
    for held, kept, goes in ((10, 1, True), (11, 1, True), (12, 1, False), (40, 20, True), (40, 19, False)):
        files = {f"f{number:03}": b"abc" for number in range(held)}
        stays = dict(list(files.items())[:kept])
        seen = runs.down(Shelf(stays), files, "--delete")
        left = kept if goes else held
        is_told = goes or f"{held - kept} of the {held}".encode() in seen[2]
        rows.row(f"{held - kept} of {held} are not listed", (seen[0], len(seen[1]), is_told) == (0 if goes else 1, left, True), seen)
        if not goes:
            seen = runs.down(Shelf(stays), files, "--delete-any")
            rows.row("the same with --delete-any", (seen[0], len(seen[1])) == (0, kept), seen)
    deep = {"keep": b"k", **{f"d/e/f{number}": b"abc" for number in range(30)}}
    seen = runs.down(Shelf({"keep": b"k"}), deep, "--delete")
    rows.row("a directory counts with all below it", seen[0] == 1 and len(seen[1]) == 33, seen)
    shelf = Shelf({f"f{number}": b"abc" for number in range(30)} | {"keep": b"k"})
    fill(rows.folder / "up", {"keep": b"k"})
    status, _, told = rows.tool("mirror", "./up", shelf.place, "--delete")
    rows.row("to a server likewise", (status, len(shelf.tree)) == (1, 31), (status, told))


def replaced(rows, runs):
    """What stands in another kind gives way only to what has come."""
    refused = {"RETR": "550 no"}
    seen = runs.down(Shelf({**HELD, "d": b"file"}, refused), OLD, "--delete")
    rows.row("a directory, and the file in its place is refused: it stays", seen[0] == 1 and "d/e/f" in seen[1], seen)
    seen = runs.down(Shelf({"d": b"file now"}), {"d/c": b"old c", "d/e/f": b"old f"}, "--delete")
    rows.row("a file comes: the directory goes", seen[:2] == (0, {"d": b"file now"}), seen)
    unlisted = {"MLSD": lambda session, path: session.send(b"type=dir; x\r\n") if not path.strip("/") else session.reply("550 no")}
    seen = runs.down(Shelf({}, unlisted), {"x": b"precious"}, "--delete")
    rows.row("a file, and the directory in its place can't be listed: it stays", seen[0] == 1 and seen[1] == {"x": b"precious"}, seen)
    seen = runs.down(Shelf({"x": None, "x/n": b"new"}), {"x": b"a file"}, "--delete")
    rows.row("a directory comes: the file goes", seen[:2] == (0, {"x": None, "x/n": b"new"}), seen)
    seen = runs.down(Shelf({"x": None, "x/n": b"new"}, refused), {"x": b"a file"}, "--delete")
    kept = [octets for octets in seen[1].values() if octets == b"a file"]
    is_told = seen[0] == 1 and b".ftp-old" in seen[2]
    rows.row("a directory comes, and its file is refused: the old file is kept, and its name is told", bool(kept) and is_told, seen)
    fill(rows.folder / "kinds", {"d": b"file now", "x/n": b"new"})
    shelf = Shelf({"d": None, "d/c": b"old c", "x": b"a file"})
    status, _, told = rows.tool("mirror", "./kinds", shelf.place, "--delete")
    rows.row("to a server likewise", (status, shelf.tree) == (0, {"d": b"file now", "x": None, "x/n": b"new"}), (status, told, shelf.tree))


def main():
    rows = Rows()
    runs = Runs(rows)
    listings(rows, runs)
    halves(rows, runs)
    replaced(rows, runs)
    rows.finish()


if __name__ == "__main__":
    main()
