#!/usr/bin/env python3
"""Patterns of `ls` and `rm`: what has a name of the pattern is shown or removed, in the order of the names, each removal is asked once, and nothing outside the
pattern is ever asked for, whatever a server lists: names with slashes, `..`, stars and control characters; by MLSD, LIST or NLST; also where control
connections end.
"""
import json
import socket
import time

from hostile import FakeServer, OwnServer, Rows
from mirror import fill, tree_at

FILES = {"in/a.tmp": b"1", "in/b.tmp": b"22", "in/c.txt": b"333", "in/d.tmp/e": b"4", "in/*.tmp": b"5", "top.tmp": b"6"}
ODD = [b"../up.tmp", b"/etc/x.tmp", b"a/b.tmp", b"..", b".", b"", b"x\x1b[2J.tmp", b"y\r.tmp", b"z\x00.tmp", b"caf\xe9.tmp", "\u202eq.tmp".encode()]
PLAIN = [b"b.tmp", b"a.tmp", b"c.txt", b"*.tmp", b"b.tmp"]
# Names that a line of NLST can have: by any other the whole listing is refused.
NAMES = [b"../up.tmp", b"/etc/x.tmp", b"a/b.tmp", b"..", b".", "\u202eq.tmp".encode()]
UNKNOWN = "500 what"


def facts(names, kind=b"file"):
    """Lines of MLSD."""
    return b"".join(b"type=" + kind + b";size=1; " + name + b"\r\n" for name in names)


def columns(names, rights=b"-rw-r--r--"):
    """Lines of LIST as `ls -l` has them."""
    return b"".join(rights + b" 1 u g 1 Nov 28 12:34 " + name + b"\r\n" for name in names)


def sender(octets):
    return lambda session, _: session.send(octets)


def listing(how, names, directories=(b"dir.tmp",)):
    """What a server says that knows this command for its listings alone."""
    if how == "MLSD":
        return {"MLSD": sender(facts(names) + facts(directories, b"dir"))}
    if how == "LIST":
        return {"MLSD": UNKNOWN, "LIST": sender(b"total 8\r\n" + columns(names) + columns(directories, b"drwxr-xr-x"))}
    return {"MLSD": "502 no", "LIST": UNKNOWN, "NLST": sender(b"".join(name + b"\r\n" for name in names))}


def removed(server):
    """The paths that were asked to be removed, in their order."""
    return [line[5:] for line in server.commands if line.startswith("DELE")]


def is_plain(octets, is_json=False):
    """Whether nothing in it is obeyed by a terminal; JSON has letters of other scripts as they are."""
    return all(octet >= 0x20 or octet == 10 for octet in octets) and (is_json or octets.isascii())


def own_ls(rows, at):
    """`ls` of our own server: directories too, in each form."""
    for words, wanted in (
        ((f"{at}/in/*.tmp",), ["*.tmp", "a.tmp", "b.tmp", "d.tmp"]),
        ((f"{at}/in/?.tmp", "--long"), ["*.tmp", "a.tmp", "b.tmp", "d.tmp"]),
        ((f"{at}/in/*.txt", "--json"), ["c.txt"]),
        ((f"ftp://{at}/in/%3F.t*",), ["*.tmp", "a.tmp", "b.tmp", "c.txt", "d.tmp"]),
        ((f"{at}/*.tmp",), ["top.tmp"]),
        ((f"{at}//in/[ab].tmp",), []),
        ((f"{at}/in/*.none",), []),
        ((f"{at}/in/{'*' * 900}.txt",), ["c.txt"]),
        ((f"{at}/in/*.tmp", "--no-glob"), ["*.tmp"]),
        ((f"{at}/in/*.tmp", "-g", "--json"), ["*.tmp"]),
    ):
        status, out, told = rows.tool("ls", *words)
        lines = out.decode().splitlines()
        names = sorted(json.loads(line)["name"] if "--json" in words else line.split(" ")[-1] for line in lines)
        holds = (status, names) == (0 if wanted else 1, wanted) and (status == 0) == (told == b"")
        rows.row(f"ls {' '.join(words)[:60]}", holds, (status, out, told))
    for path in ("in/*.none", "*.none", "in/d.tmp/[e]*"):
        status, out, told = rows.tool("ls", f"{at}/{path}")
        line = b"error: " + path.encode() + b": nothing there is of this pattern; with --no-glob it is a name\n"
        rows.row(f"ls of {path}: none is of it", (status, out, told) == (1, b"", line), (status, out, told))
    status, out, told = rows.tool("ls", f"{at}/none/*.tmp")
    rows.row("ls of a pattern in a directory that does not stand", (status, out) == (1, b"") and told.startswith(b"error: none/*.tmp: "), (status, told))


def odd_ls(rows):
    """What a hostile server lists: no name but one of the pattern, and nothing that a terminal obeys."""
    for how in ("MLSD", "LIST", "NLST"):
        for form in ((), ("--long",), ("--json",)):
            server = FakeServer(listing(how, (NAMES if how == "NLST" else ODD) + PLAIN))
            status, out, told = rows.tool("ls", f"127.0.0.1:{server.port}/d/*.tmp", *form)
            asked = [line for line in server.commands if line.split()[0] in ("MLSD", "LIST", "NLST", "MLST")]
            server.close()
            here = [b"up.tmp", b"etc", b"a/b", b"c.txt", b"total"]
            holds = status == 0 and is_plain(out + told, form == ("--json",)) and not any(name in out for name in here) and b"a.tmp" in out and b"b.tmp" in out
            holds = holds and (b"dir.tmp" in out) == (how != "NLST") and set(line.split(" ", 1)[1] for line in asked) == {"d/"}
            rows.row(f"ls of a pattern by {how} {' '.join(form)}", holds, (status, out, told, asked))
    server = FakeServer(listing("LIST", [b"a.tmp"], ()) | {"LIST": sender(b"11-28-26  12:34PM     3 a.tmp\r\n")})
    status, out, told = rows.tool("ls", f"127.0.0.1:{server.port}/d/*.tmp")
    server.close()
    holds = (status, out) == (1, b"") and b"are left out: 1\n" in told and b"nothing there is of this pattern" in told
    rows.row("ls of a pattern: lines of another form are counted", holds, (status, out, told))


def own_rm(rows, served, at):
    """`rm` at our own server: the files of the pattern and no other."""
    for words, wanted, left in (
        ((f"{at}/in/*.tmp",), 0, ["in/c.txt", "in/d.tmp/e", "top.tmp"]),
        ((f"{at}/in/*.tmp", "--parallel", "4"), 0, ["in/c.txt", "in/d.tmp/e", "top.tmp"]),
        ((f"{at}/in/?.t*", f"{at}/top.tmp"), 0, ["in/d.tmp/e"]),
        ((f"{at}/top.tmp", f"{at}/in/?.t*", "--parallel", "8"), 0, ["in/d.tmp/e"]),
        ((f"{at}/top.tmp", f"{at}/in/*.none", f"{at}/in/a.tmp", "--parallel", "2"), 1, ["in/*.tmp", "in/b.tmp", "in/c.txt", "in/d.tmp/e"]),
        ((f"{at}/in/*.tmp", "--no-glob"), 0, ["in/a.tmp", "in/b.tmp", "in/c.txt", "in/d.tmp/e", "top.tmp"]),
        ((f"{at}/in/*.none",), 1, sorted(FILES)),
        ((f"{at}/none/*",), 1, sorted(FILES)),
        ((f"{at}/i*/a.tmp",), 1, sorted(FILES)),
        ((f"{at}/in/d*",), 1, sorted(FILES)),
    ):
        fill(served, FILES)
        status, out, told = rows.tool("rm", *words)
        found = sorted(path for path, octets in tree_at(served).items() if octets is not None)
        holds = (status, out, found) == (wanted, b"", sorted(left)) and (status == 0 or b"error: " in told)
        rows.row(f"rm {' '.join(words)}", holds, (status, told, found))
    fill(served, FILES)
    _, _, told = rows.tool("rm", f"{at}/in/*.tmp")
    rows.row("rm: a directory of the pattern is told", told == b"note: directories of this pattern are left out\n", told)
    _, _, told = rows.tool("rm", f"{at}/in/*.none", "--quiet")
    rows.row("rm --quiet: none is of the pattern", told == b"error: in/*.none: no file there is of this pattern; with --no-glob it is a name\n", told)


def odd_rm(rows):
    """What a hostile server lists: each name of the pattern is asked once, in order, and no other path ever."""
    for how in ("MLSD", "LIST", "NLST"):
        for lanes in (1, 4):
            names = (NAMES if how == "NLST" else ODD) + PLAIN
            server = FakeServer({**listing(how, names), "DELE": "250 gone", "PWD": '257 "/" here'})
            status, out, told = rows.tool("rm", f"127.0.0.1:{server.port}/d/*.tmp", "--parallel", str(lanes), "--timeout", "4")
            asked = removed(server)
            users = sum(line.startswith("USER") for line in server.commands)
            server.close()
            plain = [path for path in asked if path in ("d/*.tmp", "d/a.tmp", "d/b.tmp")]
            holds = status in (0, 3) and sorted(set(asked)) == sorted(asked) and sorted(plain) == ["d/*.tmp", "d/a.tmp", "d/b.tmp"] and is_plain(out + told)
            within = all(path.startswith("d/") and path.endswith(".tmp") and path.count("/") == 1 and ".." not in path for path in asked)
            rows.row(f"rm of a pattern by {how}, {lanes} at once", holds and within and "d/dir.tmp" not in asked, (status, told, asked))
            if lanes == 1:
                rows.row(f"rm of a pattern by {how}: in order, over one control connection", asked == sorted(asked) and users == 1, (asked, users))
    names = [f"{letter}.tmp".encode() for letter in "ca"] + [b"b" * 880 + b".tmp"]
    server = FakeServer({**listing("MLSD", names), "DELE": "250 gone"})
    status, _, told = rows.tool("rm", f"127.0.0.1:{server.port}/" + "*" * 900)
    asked = removed(server)
    server.close()
    rows.row("rm of 900 stars: all files", (status, asked) == (0, ["a.tmp", "b" * 880 + ".tmp", "c.tmp"]), (status, told, asked))


def refused_rm(rows):
    """Removals that are refused do not stop the others; the status is the worst."""
    says = lambda session, path: session.reply("550 no" if path == "b" else "250 gone")
    for lanes in ("1", "4"):
        server = FakeServer({**listing("MLSD", [b"c", b"b", b"a"], ()), "DELE": says, "PWD": '257 "/" here'})
        status, _, told = rows.tool("rm", f"127.0.0.1:{server.port}/?", "--parallel", lanes)
        asked = removed(server)
        server.close()
        # (ahead of its turn a removal may be refused too early, so it is asked again then)
        holds = status == 1 and sorted(set(asked)) == ["a", "b", "c"] and asked.count("b") <= int(lanes) and told.startswith(b"error: b: ") and told.endswith(b"note: not done: b\n")
        rows.row(f"rm of a pattern, one is refused, {lanes} at once", holds and told.count(b"\n") == 2, (status, told, asked))
    for verb in ("530 no", "550 none"):
        server = FakeServer({"MLSD": verb, "DELE": "250 gone"})
        status, _, told = rows.tool("rm", f"127.0.0.1:{server.port}/d/*")
        asked = removed(server)
        server.close()
        rows.row(f"rm of a pattern, MLSD {verb[:3]}: nothing is removed", asked == [] and status in (1, 2) and told.startswith(b"error: "), (status, told, asked))


def lost_rm(rows):
    """A control connection that ends on a removal: that may be done and is asked once, all others are done; one that ends before the listing is made anew."""
    names = [letter.encode() for letter in "gfedcba"]
    for lanes in ("1", "4"):
        def dele(session, path):
            time.sleep(0.02)
            if path == "d/c":
                session.connection.shutdown(socket.SHUT_RDWR)
            else:
                session.reply("250 gone")

        server = FakeServer({**listing("MLSD", names, ()), "DELE": dele, "PWD": '257 "/" here'})
        status, _, told = rows.tool("rm", f"127.0.0.1:{server.port}/d/*", "--parallel", lanes, "--timeout", "4")
        asked, lists = removed(server), sum(line.startswith("MLSD") for line in server.commands)
        server.close()
        holds = status == 3 and sorted(asked) == [f"d/{letter}" for letter in "abcdefg"] and lists == 1
        holds = holds and told.count(b"may be done") == 1 and told.count(b"note: not done: ") == 1 and b"note: not done: d/c\n" in told
        rows.row(f"rm of a pattern, the control connection ends on one, {lanes} at once", holds, (status, told, asked, lists))
    for count in (1, 9):
        left = [count]

        def mlsd(session, _):
            left[0] -= 1
            if left[0] >= 0:
                session.connection.shutdown(socket.SHUT_RDWR)
            else:
                session.send(facts([b"b", b"a"]))

        server = FakeServer({"MLSD": mlsd, "DELE": "250 gone"})
        status, _, told = rows.tool("rm", f"127.0.0.1:{server.port}/d/*")
        asked = removed(server)
        server.close()
        wanted = (0, ["d/a", "d/b"]) if count == 1 else (3, [])
        rows.row(f"rm of a pattern, {count} control connections end on the listing", (status, asked) == wanted, (status, told, asked))
    server = FakeServer({**listing("MLSD", names, ()), "DELE": lambda session, _: session.connection.shutdown(socket.SHUT_RDWR)})
    status, _, told = rows.tool("rm", f"127.0.0.1:{server.port}/d/*")
    asked = removed(server)
    server.close()
    holds = status == 3 and asked == [f"d/{letter}" for letter in "abcdefg"] and told.count(b"may be done") == 7
    rows.row("rm of a pattern, each control connection ends on a removal: each is asked once", holds, (status, told, asked))


def main():
    rows = Rows()
    served = rows.folder / "served"
    served.mkdir()
    fill(served, FILES)
    server = OwnServer(served)
    at = f"127.0.0.1:{server.port}"
    own_ls(rows, at)
    own_rm(rows, served, at)
    server.close()
    odd_ls(rows)
    odd_rm(rows)
    refused_rm(rows)
    lost_rm(rows)
    rows.finish()


if __name__ == "__main__":
    main()
