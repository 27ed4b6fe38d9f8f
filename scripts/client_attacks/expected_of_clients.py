#!/usr/bin/env python3
"""What users of other clients expect: `ls` of a file, patterns of `get`, `--quiet`, sizes of progress, and a `mirror` of what is not there."""
import json
import os
import time

from hostile import FakeServer, OwnServer, Rows
from mirror import fill, tree_at

MOMENT = 951_868_799
FILES = {"pub/a.csv": b"one", "pub/b.csv": b"two", "pub/c.txt": b"three", "pub/d.csv/e": b"four", "pub/*.csv": b"star", "pub/empty/x/y": b""}


def ls_rows(rows, at, served):
    """A file is one line; a directory without an entry is none; what is not there is refused with the server's text."""
    os.utime(served / "pub" / "a.csv", (MOMENT, MOMENT))
    (served / "pub" / "empty" / "x" / "y").unlink()
    for words, wanted, holds in (
        (("--long", f"{at}/pub/a.csv"), 0, lambda out: out == b"-              3  2000-02-29 23:59:59  a.csv\n"),
        (("--json", f"{at}/pub/a.csv"), 0, lambda out: json.loads(out)["name"] == "a.csv" and json.loads(out)["size"] == 3),
        ((f"{at}/pub/a.csv",), 0, lambda out: out.endswith(b" a.csv\n") and out.count(b"\n") == 1),
        ((f"{at}/pub/empty/x",), 0, lambda out: out == b""),
        ((f"{at}/pub/none",), 1, lambda out: out == b""),
        ((f"{at}/pub/a.csv/",), 1, lambda out: out == b""),
    ):
        status, out, told = rows.tool("ls", *words)
        rows.row(f"ls {' '.join(words)}", status == wanted and holds(out) and (status == 0) == (told == b""), (status, out, told))


def glob_rows(rows, at, local):
    """What is fetched by a pattern, what stands here then, and the status."""
    for words, wanted, files in (
        ((f"{at}/pub/*.csv", "local/"), 0, {"a.csv": b"one", "b.csv": b"two", "*.csv": b"star"}),
        ((f"{at}/pub/*.csv", "local"), 0, {"a.csv": b"one", "b.csv": b"two", "*.csv": b"star"}),
        ((f"{at}/pub/?.txt", "local/"), 0, {"c.txt": b"three"}),
        ((f"{at}/pub/[ab].csv", "local/"), 1, {}),
        ((f"{at}/pub/*.none", "local/"), 1, {}),
        ((f"{at}/none/*.csv", "local/"), 1, {}),
        ((f"{at}/*/a.csv", "local/"), 1, {}),
        ((f"{at}/pub/*.csv", "-g", "local/"), 0, {"*.csv": b"star"}),
        ((f"{at}/pub/*.csv", "--no-glob", "local/x"), 0, {"x": b"star"}),
        ((f"ftp://{at}/pub/%2A.txt", f"{at}/pub/a.csv", "local/"), 0, {"a.csv": b"one", "c.txt": b"three"}),
        ((f"{at}//pub/*.txt", "local/"), 0, {"c.txt": b"three"}),
    ):
        for name in local.iterdir():
            name.unlink()
        status, _, told = rows.tool("get", *words)
        found = status, tree_at(local)
        rows.row(f"get {' '.join(words)}", found == (wanted, files) and (status == 0 or b"error: " in told), (found, told))
    _, _, told = rows.tool("get", f"{at}/pub/*.none", "local/")
    rows.row("no file is of the pattern: it is named", told.startswith(b"error: pub/*.none: "), told)


def names_rows(rows, local):
    """The files of a pattern come over one control connection, where MLSD is not known by the names of NLST; where it ends, the rest comes over another."""
    names = b"d/b.csv\r\nd/a.csv\r\nd/a.csv\r\nd/../x.csv\r\nd/c.txt\r\n"

    def octets(session, path):
        if path == "d/b.csv" and not session.server.ended:
            session.server.ended = True
            session.connection.shutdown(2)
        else:
            session.send(path.encode())

    for ended, users in ((True, 1), (False, 2)):
        for name in local.iterdir():
            name.unlink()
        server = FakeServer({"MLSD": "500 no", "NLST": lambda session, _: session.send(names), "RETR": octets})
        server.ended = ended
        status, _, told = rows.tool("get", f"127.0.0.1:{server.port}/d/*.csv", "local/")
        server.close()
        asked = [it for it in server.commands if it.startswith(("NLST", "RETR"))]
        wanted = ["NLST d/", "RETR d/a.csv"] + ["RETR d/b.csv"] * users
        found = tree_at(local)
        holds = status == 0 and asked == wanted and sum(it.startswith("USER") for it in server.commands) == users
        what = "a pattern by NLST" + ("" if ended else ", the control connection ends once")
        rows.row(what, holds and found == {"a.csv": b"d/a.csv", "b.csv": b"d/b.csv"}, (status, told, server.commands, found))


def quiet_rows(rows, at, local):
    """Nothing but errors on standard error, and the same status."""
    fill(rows.folder, {"x": b"1"})
    for words, wanted in (
        (("get", f"{at}/pub/a.csv", "local/", "--quiet"), 0),
        (("get", f"{at}/pub/a.csv", f"{at}/pub/none", "local/", "-q", "--progress"), 1),
        (("put", "-q", "x", f"{at}/x"), 0),
        (("mirror", "-q", f"{at}/pub", "./mirrored"), 0),
        (("mirror", "--quiet", f"{at}/none", "./unmade"), 1),
        (("mkdir", "-q", f"{at}/q", f"{at}/q"), 1),
        (("rmdir", "-q", f"{at}/q"), 0),
        (("rm", "--quiet", f"{at}/none", f"{at}/x"), 1),
    ):
        status, _, told = rows.tool(*words)
        errors = [line.startswith(b"error: ") for line in told.splitlines()]
        rows.row(" ".join(words), status == wanted and all(errors) and len(errors) == (status != 0), (status, told))


def mirror_rows(rows, at):
    """A mirror of what is not there makes nothing, and names it."""
    for words, here, named in (
        ((f"{at}/none", "made"), "made", b"error: none: "),
        ((f"{at}/pub/a.csv", "made"), "made", b"error: pub/a.csv: "),
        (("./none", f"{at}/made"), "served/made", b"error: ./none: "),
    ):
        status, _, told = rows.tool("mirror", *words)
        rows.row(f"mirror {' '.join(words)}", status == 1 and not (rows.folder / here).exists() and told.startswith(named), (status, told))


def progress_rows(rows):
    """Sizes of progress are written in units of 1,024."""
    half = bytes(3 << 19)

    def slowly(session, _):
        session.reply("150 here")
        link = session.data.accept()[0]
        link.sendall(half)
        time.sleep(1.5)
        link.sendall(half)
        link.close()
        session.data.close()
        session.reply("226 done")

    server = FakeServer({"SIZE": f"213 {2 * len(half)}", "RETR": slowly})
    status, _, told = rows.tool("get", f"127.0.0.1:{server.port}/big", "big", "--progress")
    server.close()
    rows.row("a download with --progress", status == 0 and b" of 3.0 MiB, " in told and b"3.0 of 3.0 MiB, 100 %, " in told, (status, told))


def main():
    rows = Rows()
    served, local = rows.folder / "served", rows.folder / "local"
    for folder in (served, local):
        folder.mkdir()
    fill(served, FILES)
    server = OwnServer(served)
    at = f"127.0.0.1:{server.port}"
    ls_rows(rows, at, served)
    glob_rows(rows, at, local)
    quiet_rows(rows, at, local)
    mirror_rows(rows, at)
    server.close()
    names_rows(rows, local)
    progress_rows(rows)
    rows.finish()


if __name__ == "__main__":
    main()
