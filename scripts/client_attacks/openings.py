#!/usr/bin/env python3
"""Data connections are asked for by EPSV or EPRT first, and by PASV or PORT where the server refuses EPSV, tells a dead port, or does not know EPRT: from then
on, over each control connection of the program. What goes up goes up whole all the same, and a 227 of another host is refused.
"""
import re
import socket

from hostile import Rows
from shelf import Shelf

OCTETS = bytes(range(256)) * 300
TREE = {"a": OCTETS, "d": None, "d/b": b"b", "d/c": b""}
UNKNOWN = ("500 what", "501 what", "502 no", "522 no, use (1)")
REFUSED = ("403 no", "425 no", "451 no", "503 no", "504 no", "530 no", "550 no", "599 no")
FOREIGN = "227 here (10,9,8,7,200,1)"


class Outward:
    """A data connection that the server opens, where a session would accept one, from this host."""

    def __init__(self, port, host="127.0.0.1"):
        self.port, self.host = port, host

    def accept(self):
        return socket.create_connection(("127.0.0.1", self.port), source_address=(self.host, 0)), None

    def close(self):
        pass


def port(session, argument):
    high, low = argument.split(",")[4:]
    session.data = Outward(int(high) * 256 + int(low))
    session.reply("200 ok")


def eprt(session, argument):
    session.data = Outward(int(argument.split("|")[3]))
    session.reply("200 ok")


def eprt_elsewhere(session, argument):
    """Another host of the loopback opens the data connection."""
    session.data = Outward(int(argument.split("|")[3]), "127.0.0.2")
    session.reply("200 ok")


def dead_port(session, argument):
    """A port where nobody listens."""
    session.reply("229 here (|||1|)")


def verbs(shelf):
    """How often each opening was asked for."""
    said = [command.split()[0] for command in shelf.server.commands]
    return {verb: said.count(verb) for verb in ("EPSV", "PASV", "EPRT", "PORT") if verb in said}


def run(rows, words, says=None, text=b""):
    """A run of the tool at a shelf, whose place is the word AT with a path behind it: status, standard output, standard error, the openings, the shelf."""
    shelf = Shelf(TREE, {"EPRT": eprt, "PORT": port, **(says or {})})
    words = [word.replace("AT/", shelf.place) for word in words]
    status, out, told = rows.tool_in(rows.folder, text, *words)
    shelf.server.close()
    return status, out, told, verbs(shelf), shelf


def clear(rows, name):
    for path in rows.folder.glob(name):
        path.unlink()


def unknown(rows):
    """Each code that refuses EPSV, a dead port, and each program: EPSV is asked for once."""
    (rows.folder / "up").write_bytes(OCTETS)
    local = rows.folder / "local"
    for reply in (*UNKNOWN, *REFUSED, dead_port):
        says, code = {"EPSV": reply}, reply[:3] if isinstance(reply, str) else "dead"
        clear(rows, "out")
        status, _, told, asked, _ = run(rows, ["get", "AT/a", "out"], says)
        holds = (status, told, asked) == (0, b"", {"EPSV": 1, "PASV": 1}) and (rows.folder / "out").read_bytes() == OCTETS
        rows.row(f"get, EPSV {code}: by PASV", holds, (status, told, asked))
        status, out, told, asked, _ = run(rows, ["ls", "AT/d"], says)
        rows.row(f"ls, EPSV {code}: by PASV", (status, out.count(b"\n"), asked) == (0, 2, {"EPSV": 1, "PASV": 1}), (status, out, told, asked))
        for words, text in ((["put", "up", "AT/new"], b""), (["put", "-", "AT/new"], OCTETS)):
            status, _, told, asked, shelf = run(rows, words, says, text)
            holds = (status, told, asked) == (0, b"", {"EPSV": 1, "PASV": 1}) and shelf.tree.get("new") == OCTETS
            rows.row(f"{words[0]} {words[1]}, EPSV {code}: by PASV, whole", holds, (status, told, asked))
        status, _, told, asked, _ = run(rows, ["mirror", "AT/", f"./down{code}"], says)
        holds = status == 0 and asked.get("EPSV") == 1 and (rows.folder / f"down{code}/a").read_bytes() == OCTETS
        rows.row(f"mirror down, EPSV {code}: by PASV, asked once", holds, (status, told, asked))
        local.mkdir(exist_ok=True)
        (local / "new").write_bytes(OCTETS)
        status, _, told, asked, shelf = run(rows, ["mirror", "./local", "AT/"], says)
        holds = status == 0 and asked.get("EPSV") == 1 and shelf.tree.get("new") == OCTETS
        rows.row(f"mirror up, EPSV {code}: by PASV, asked once", holds, (status, told, asked))
    (rows.folder / "into").mkdir()
    status, _, told, asked, _ = run(rows, ["get", "AT/a", "AT/d/b", "AT/d/c", "into/"], {"EPSV": "502 no"})
    rows.row("get of three files: EPSV is asked for once", (status, asked) == (0, {"EPSV": 1, "PASV": 3}), (status, told, asked))


def active(rows):
    """The same of EPRT and PORT."""
    for reply in UNKNOWN:
        clear(rows, "out")
        status, _, told, asked, _ = run(rows, ["get", "AT/a", "out", "--active"], {"EPRT": reply})
        holds = (status, asked) == (0, {"EPRT": 1, "PORT": 1}) and (rows.folder / "out").read_bytes() == OCTETS
        rows.row(f"get --active, EPRT {reply[:3]}: by PORT", holds, (status, told, asked))
        status, _, told, asked, shelf = run(rows, ["put", "up", "AT/new", "--active"], {"EPRT": reply})
        holds = (status, asked) == (0, {"EPRT": 1, "PORT": 1}) and shelf.tree.get("new") == OCTETS
        rows.row(f"put --active, EPRT {reply[:3]}: by PORT, whole", holds, (status, told, asked))
    status, _, told, asked, _ = run(rows, ["cat", "AT/a", "--active"])
    rows.row("EPRT is known: no PORT", (status, asked) == (0, {"EPRT": 1}), (status, told, asked))


def known(rows):
    """What is not asked for."""
    status, out, told, asked, _ = run(rows, ["cat", "AT/a"])
    rows.row("EPSV is known: no PASV", (status, out, asked) == (0, OCTETS, {"EPSV": 1}), (status, told, asked))
    status, out, told, asked, _ = run(rows, ["cat", "AT/a", "--no-extended"])
    rows.row("--no-extended: no EPSV", (status, out, asked) == (0, OCTETS, {"PASV": 1}), (status, told, asked))
    status, _, told, asked, _ = run(rows, ["cat", "AT/a", "--extended"], {"EPSV": "500 what"})
    rows.row("--extended, EPSV 500: refused, no PASV", (status, asked) == (1, {"EPSV": 1}) and b"500 what" in told, (status, told, asked))
    status, _, told, asked, _ = run(rows, ["cat", "AT/a"], {"EPSV": "421 leaving"})
    rows.row("EPSV 421: no PASV", status == 3 and set(asked) == {"EPSV"} and b"421 leaving" in told, (status, told, asked))
    status, _, told, asked, _ = run(rows, ["cat", "AT/none"])
    rows.row("EPSV is known, and RETR 550: refused, no PASV", (status, asked) == (1, {"EPSV": 1}), (status, told, asked))
    status, _, told, asked, _ = run(rows, ["cat", "AT/none", "--active"])
    rows.row("EPRT is known, and RETR 550: refused, no PORT", (status, asked) == (1, {"EPRT": 1}), (status, told, asked))
    status, _, told, asked, _ = run(rows, ["cat", "AT/a"], {"RETR": "502 no"})
    rows.row("EPSV is known, and RETR 502: refused, no PASV", (status, asked) == (1, {"EPSV": 1}) and b"502 no" in told, (status, told, asked))
    status, _, told, asked, _ = run(rows, ["cat", "AT/a"], {"EPSV": "500 what", "PASV": "502 no"})
    rows.row("neither is known: refused", (status, asked) == (1, {"EPSV": 1, "PASV": 1}) and b"502 no" in told, (status, told, asked))
    status, _, told, asked, _ = run(rows, ["rm", "AT/a"], {"DELE": "502 no"})
    rows.row("rm, DELE 502: asked once", (status, asked) == (1, {}), (status, told, asked))
    script = b"login a b\nget IFSpe a\nget IFSpn a\n"
    shelf = Shelf(TREE, {"EPSV": "500 what"})
    words = ["run", "--host", "127.0.0.1", "--port", str(shelf.server.port)]
    status, out, told = rows.tool_in(rows.folder, script, *words)
    shelf.server.close()
    holds = status == 1 and re.match(rb"refused 500\noctets ", out) and verbs(shelf) == {"EPSV": 1, "PASV": 1}
    rows.row("run: as the script says", holds, (status, out[:80], told, verbs(shelf)))


def foreign(rows):
    """A 227 of another host, as behind a network address translation, and one that comes: what is told names what helps, by how it was asked for."""
    cases = (
        (["cat", "AT/a", "--no-extended"], {}, "without --no-extended it names none"),
        (["mirror", "AT/", "./foreign", "--no-extended"], {}, "without --no-extended it names none"),
        (["cat", "AT/a"], {"EPSV": "502 no"}, "EPSV did not work"),
        (["put", "up", "AT/new"], {"EPSV": "500 what"}, "EPSV did not work"),
        (["ls", "AT/"], {"EPSV": "522 no"}, "EPSV did not work"),
        (["mirror", "AT/", "./foreign"], {"EPSV": "502 no"}, "EPSV did not work"),
    )
    for words, says, help in cases:
        status, out, told, asked, _ = run(rows, words, {"PASV": FOREIGN, **says})
        holds = (status, out, asked.get("PASV")) == (1, b"", 1) and help.encode() in told
        rows.row(f"{' '.join(words)}: a 227 of another host is refused: {help}", holds, (status, out, told, asked))
    status, out, told, asked, _ = run(rows, ["cat", "AT/a", "--active"], {"EPRT": eprt_elsewhere})
    rows.row("cat --active: another host opens it: refused", (status, out) == (1, b"") and b"without --active" in told, (status, out, told, asked))
    status, out, told, asked, _ = run(rows, ["cat", "AT/a"], {"PASV": FOREIGN})
    rows.row("EPSV is known: whoever a 227 would name", (status, out, asked) == (0, OCTETS, {"EPSV": 1}), (status, told, asked))


def main():
    rows = Rows()
    unknown(rows)
    active(rows)
    known(rows)
    foreign(rows)
    rows.finish()


main()
