#!/usr/bin/env python3
"""`put --temp`: a file goes up as PATH.ftp-part and is renamed to PATH once the server has all of it, so PATH has the older file or the new one at each moment."""
import signal
import subprocess
import time

from hostile import TOOL, OwnServer, Rows
from shelf import Shelf

OLD, NEW = b"old" * 100, bytes(range(256)) * 400


def said(shelf, *verbs):
    return [command for command in shelf.server.commands if command.split()[0] in verbs]


def put(rows, words, says=None, text=b""):
    shelf = Shelf({"d": None, "d/f": OLD}, says)
    status, out, told = rows.tool_in(rows.folder, text, "put", *[word.replace("AT/", shelf.place) for word in words], "--temp")
    shelf.server.close()
    return status, told, shelf


def renamed(rows):
    """Files, standard input and several files of one directory."""
    (rows.folder / "f").write_bytes(NEW)
    (rows.folder / "g").write_bytes(b"g")
    moves = ["STOR d/f.ftp-part", "RNFR d/f.ftp-part", "RNTO d/f"]
    for words, text in ((["f", "AT/d/f"], b""), (["-", "AT/d/f"], NEW), (["f", "AT/d/"], b"")):
        status, told, shelf = put(rows, words, text=text)
        holds = (status, told, shelf.tree) == (0, b"", {"d": None, "d/f": NEW}) and said(shelf, "STOR", "RNFR", "RNTO") == moves
        rows.row(f"put --temp {' '.join(words)}: stored beside, then renamed", holds, (status, told, said(shelf, "STOR", "RNFR", "RNTO")))
    status, told, shelf = put(rows, ["f", "g", "AT/d/", "--parallel", "4"])
    holds = (status, shelf.tree) == (0, {"d": None, "d/f": NEW, "d/g": b"g"})
    rows.row("put --temp of two files, with --parallel: one after another", holds, (status, told, shelf.tree.keys()))


def refused(rows):
    """Where the upload or the name is refused, the older file stays, and what came stays beside it."""
    status, told, shelf = put(rows, ["f", "AT/d/f"], {"STOR": "552 full"})
    holds = (status, shelf.tree) == (1, {"d": None, "d/f": OLD}) and not said(shelf, "RNFR", "RNTO") and b"552 full" in told
    rows.row("the upload is refused: no name is given", holds, (status, told, shelf.server.commands))
    for verb in ("RNFR", "RNTO"):
        status, told, shelf = put(rows, ["f", "AT/d/f"], {verb: "553 no such name"})
        holds = (status, shelf.tree) == (1, {"d": None, "d/f": OLD, "d/f.ftp-part": NEW}) and b"553 no such name" in told
        rows.row(f"{verb} is refused: status 1, both files stand", holds, (status, told, shelf.tree.keys()))
    status, told, shelf = put(rows, ["f", "AT/d/f"], {"SIZE": "213 5"})
    holds = status == 1 and shelf.tree["d/f"] == OLD and not said(shelf, "RNTO")
    rows.row("the server has another size: no name is given", holds, (status, told, shelf.server.commands[-4:]))


def killed(rows):
    """At our own server a client that is killed in the middle leaves the older file at its path."""
    folder = rows.folder / "served"
    folder.mkdir()
    (folder / "f").write_bytes(OLD)
    (rows.folder / "large").write_bytes(NEW * 100)
    server = OwnServer(folder)
    words = ["put", "large", f"127.0.0.1:{server.port}/f", "--temp", "--limit-rate", "1M", "--quiet"]
    program = subprocess.Popen([TOOL, *words], cwd=rows.folder)
    time.sleep(3)
    program.send_signal(signal.SIGKILL)
    program.wait()
    time.sleep(1)
    server.close()
    rows.row("a client that is killed: the older file stays", (folder / "f").read_bytes() == OLD, sorted(it.name for it in folder.iterdir()))


def main():
    rows = Rows()
    renamed(rows)
    refused(rows)
    killed(rows)
    rows.finish()


main()
