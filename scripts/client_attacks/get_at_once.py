#!/usr/bin/env python3
"""Several files of one `get`, `put` or `rm` over several control connections leave the files, the lines and the status of one after another, whatever becomes
of those behind the first: where the server takes fewer, refuses a login, ends or cuts one, or says no more over one; one file is missing amid others. They
are under way at once, and none is held in memory. A removal is asked once.
"""
import os
import random
import shutil
import socket
import subprocess
import threading
import time

from hostile import TOOL, FakeServer, OwnServer, Relay, Rows
from mirror import fill, tree_at
from mirror_at_once import SILENT, Gate, Instead, lines_of

RANDOM = random.Random(23)
FILES = {f"f{number:02}.csv": RANDOM.randbytes(number * 3_217) for number in range(14)}
NAMES = sorted(FILES)
AMID = NAMES[:5] + ["none.csv"] + NAMES[5:]
FULL = b"421 There are too many connections\r\n"
LATE = b"530 Too many users\r\n"
LARGE = 48 * 1_048_576
MOST = 32 * 1024
PIECE = bytes(range(256)) * 256


def fresh(*folders):
    for folder in folders:
        shutil.rmtree(folder, ignore_errors=True)
        folder.mkdir()


def parts_in(folder):
    return [path.name for path in folder.rglob("*.ftp-part*")]


def got(rows, port, names, folder, *words):
    return rows.tool("get", *(f"127.0.0.1:{port}/{name}" for name in names), f"{folder}/", "--timeout", "4", *words)


def try_get(rows, name, rule, names=AMID, lanes=4, says=(b"",)):
    """One after another, and by several control connections behind a gate. `says`: what a note says, one of these."""
    served, one, many = (rows.folder / it for it in ("served", "one", "many"))
    fresh(served, one, many)
    fill(served, FILES)
    server = OwnServer(served)
    status, out, told = got(rows, server.port, names, "one")
    gate = Gate(server.port, rule)
    seen = got(rows, gate.port, names, "many", "--parallel", str(lanes))
    rows.row(f"get, {name}: the files", tree_at(many) == tree_at(one) and not parts_in(many), (seen, sorted(tree_at(many)), parts_in(many)))
    rows.row(f"get, {name}: what is told", seen[:2] == (status, out) and lines_of(seen[2]) == lines_of(told), (seen, told))
    undone = [line for line in seen[2].splitlines() if line.startswith(b"note: not copied")]
    rows.row(f"get, {name}: what is not copied", undone == [line for line in told.splitlines() if line.startswith(b"note: not copied")], (undone, told))
    rows.row(f"get, {name}: a note", any(it in seen[2] for it in says), seen[2])
    gate.close()
    server.close()


def try_pattern(rows, lanes):
    """The files of a pattern; where one is gone once it was listed, it is told, and the others come."""
    served, many = (rows.folder / it for it in ("served", "many"))
    fresh(served, many)
    fill(served, {**FILES, "other.txt": b"no"})
    server = OwnServer(served)
    seen = rows.tool("get", f"127.0.0.1:{server.port}/*.csv", "many/", "--parallel", str(lanes))
    rows.row(f"get of a pattern by {lanes}", seen == (0, b"", b"") and tree_at(many) == FILES, (seen, sorted(tree_at(many))))
    seen = rows.tool("get", f"127.0.0.1:{server.port}/*.none", "many/", "--parallel", str(lanes))
    rows.row(f"get of a pattern of none by {lanes}", seen[0] == 1 and b"no file there is of this pattern" in seen[2], seen)
    server.close()


def try_put(rows, lanes, rule=lambda number, place, line: None, name="by"):
    """Files up, with one amid that is not there."""
    served, local = (rows.folder / it for it in ("served", "local"))
    fresh(served, local)
    fill(local, FILES)
    (served / "in").mkdir()
    server = OwnServer(served)
    gate = Gate(server.port, rule)
    words = [f"local/{it}" for it in AMID]
    status, out, told = rows.tool("put", *words, f"127.0.0.1:{gate.port}/in/", "--parallel", str(lanes), "--timeout", "4")
    rows.row(f"put, {name} {lanes}: the files", tree_at(served / "in") == FILES, (status, told, sorted(tree_at(served / "in"))))
    errors = lines_of(told)
    rows.row(f"put, {name} {lanes}: what is told", (status, out, len(errors)) == (3, b"", 1) and b"note: not copied: local/none.csv\n" in told, (status, told))
    gate.close()
    server.close()


def try_rm(rows, lanes):
    served = rows.folder / "served"
    fresh(served)
    fill(served, {**FILES, "stays": b"1"})
    server = OwnServer(served)
    places = [f"127.0.0.1:{server.port}/{it}" for it in AMID]
    status, out, told = rows.tool("rm", *places, "--parallel", str(lanes))
    rows.row(f"rm by {lanes}: the files", tree_at(served) == {"stays": b"1"}, sorted(tree_at(served)))
    lines = [b"error: none.csv: the server refuses it: 550", b"note: not done: none.csv"]
    told_right = all(line.startswith(it) for line, it in zip(told.splitlines(), lines)) and len(told.splitlines()) == 2
    rows.row(f"rm by {lanes}: what is told", (status, out) == (1, b"") and told_right, (status, told))
    server.close()


def try_rm_lost(rows):
    """One control connection ends on one removal: that may be done, and is asked once; all others are done."""
    asked = []

    def dele(session, name):
        asked.append(name)
        time.sleep(0.05)
        if name == "c":
            session.connection.shutdown(socket.SHUT_RDWR)
        else:
            session.reply("250 gone")

    server = FakeServer({"DELE": dele, "PWD": '257 "/" here'})
    names = list("abcdefghij")
    status, _, told = rows.tool("rm", *(f"127.0.0.1:{server.port}/{it}" for it in names), "--parallel", "4", "--timeout", "4")
    rows.row("rm, the control connection ends: each is asked once", sorted(asked) == names, asked)
    rows.row("rm, the control connection ends: what is told",
             status == 3 and told.count(b"may be done") == 1 and b"note: not done: c\n" in told and told.count(b"not done") == 1, (status, told))
    server.close()


def try_at_once(rows):
    """So many transfers are under way at once: the server ends none before four are."""
    lock, under, most = threading.Lock(), [0], [0]

    def retr(session, _):
        session.reply("150 here")
        link = session.data.accept()[0]
        with lock:
            under[0] += 1
            most[0] = max(most[0], under[0])
        until = time.monotonic() + 5
        while most[0] < 4 and time.monotonic() < until:
            time.sleep(0.01)
        link.sendall(b"octets")
        link.close()
        with lock:
            under[0] -= 1
        session.reply("226 done")

    server = FakeServer({"RETR": retr, "SIZE": "213 6", "MDTM": "213 20200101000000"})
    many = rows.folder / "many"
    fresh(many)
    names = list("abcdefgh")
    seen = got(rows, server.port, names, "many", "--parallel", "4")
    rows.row("four are under way at once", most[0] == 4 and seen[0] == 0, (most, seen))
    rows.row("four are under way at once: the files", tree_at(many) == {it: b"octets" for it in names}, tree_at(many))
    server.close()


def try_refused(rows):
    """Refusals come in the order of the words, whatever is answered first."""

    def retr(session, name):
        time.sleep({"a": 0.5, "b": 0.2}.get(name, 0))
        session.reply(f"550 not {name}")

    server = FakeServer({"RETR": retr, "SIZE": "550 no size", "MDTM": "550 no moment"})
    status, _, told = got(rows, server.port, "abcd", ".", "--parallel", "4")
    lines = b"".join(b"error: %c: the server refuses it: 550 not %c\nnote: not copied: %c\n" % (it, it, it) for it in b"abcd")
    rows.row("refusals in their order", (status, told) == (1, lines), (status, told))
    server.close()


def try_pattern_refused(rows):
    """A file of a pattern that is refused is told as over one control connection, and the others come."""

    def retr(session, name):
        if name == "b.csv":
            session.reply("550 not this one")
        else:
            session.send(b"octets")

    listing = b"".join(b"type=file;size=6; %c.csv\r\n" % it for it in b"abcdef")
    server = FakeServer({"MLSD": lambda session, _: session.send(listing), "RETR": retr, "SIZE": "213 6", "MDTM": "213 20200101000000"})
    one, many = (rows.folder / it for it in ("one", "many"))
    fresh(one, many)
    alone = rows.tool("get", f"127.0.0.1:{server.port}/*.csv", "one/")
    seen = rows.tool("get", f"127.0.0.1:{server.port}/*.csv", "many/", "--parallel", "4")
    rows.row("a file of a pattern is refused: what is told", seen == alone and seen[0] == 1 and b"note: not copied: b.csv\n" in seen[2], (seen, alone))
    rows.row("a file of a pattern is refused: the files", tree_at(many) == tree_at(one) and not parts_in(many) and len(tree_at(many)) == 5, tree_at(many))
    server.close()


def try_changes(rows):
    """A file that is another one once it came is no success at once: it begins anew."""
    moments = {}

    def mdtm(session, name):
        moments[name] = moments.get(name, 0) + 1
        session.reply(f"213 2020010100000{1 if name == 'b' and moments[name] > 1 else 0}")

    server = FakeServer({"RETR": lambda session, _: session.send(b"octets"), "SIZE": "213 6", "MDTM": mdtm})
    many = rows.folder / "many"
    fresh(many)
    status, _, told = got(rows, server.port, "abcd", "many", "--parallel", "4")
    rows.row("a file changes: what is told", (status, told) == (0, b"note: the download begins anew\n"), (status, told))
    rows.row("a file changes: the files", tree_at(many) == {it: b"octets" for it in "abcd"} and not parts_in(many), tree_at(many))
    server.close()


def try_cuts(rows):
    """Data connections are cut cleanly amid files that come at once: each goes on behind what came, since none was changed just now."""
    served, many = (rows.folder / it for it in ("served", "many"))
    fresh(served, many)
    fill(served, FILES)
    for name in FILES:
        os.utime(served / name, (1_577_836_800, 1_577_836_800))
    server = OwnServer(served)
    relay = Relay(server.port, {2: 1_000, 5: 3_000, 6: 1})
    status, _, told = got(rows, relay.port, NAMES, "many", "--parallel", "4")
    rows.row("data connections are cut: the files", status == 0 and tree_at(many) == FILES and not parts_in(many), (status, told))
    rows.row("data connections are cut: what is told", told.count(b"octets came; going on") >= 1, told)
    relay.close()
    server.close()


def sent(session, _):
    session.reply("150 here")
    link = session.data.accept()[0]
    left = LARGE
    while left > 0:
        left -= link.send(PIECE[: min(left, len(PIECE))])
    link.close()
    session.reply("226 done")


def most_memory(rows, *words):
    process = subprocess.Popen([TOOL, *words], cwd=rows.folder, stderr=subprocess.PIPE)
    told = process.stderr.read()
    _, status, used = os.wait4(process.pid, 0)
    process.returncode = os.waitstatus_to_exitcode(status)
    return process.returncode, told, used.ru_maxrss


def try_memory(rows):
    """Four large files at once are held neither on their way down nor up."""
    many = rows.folder / "many"
    fresh(many)
    server = FakeServer({"RETR": sent, "SIZE": f"213 {LARGE}", "MDTM": "213 20200101000000", "STOR": lambda session, _: session.receive()})
    at = f"127.0.0.1:{server.port}"
    status, told, used = most_memory(rows, "get", *(f"{at}/{it}" for it in "abcd"), "many/", "--parallel", "4")
    sizes = [(many / it).stat().st_size for it in "abcd" if (many / it).exists()]
    rows.row("get of four large ones holds none", (status, sizes) == (0, [LARGE] * 4) and used < MOST, (status, told, sizes, used))
    status, told, used = most_memory(rows, "put", *(f"many/{it}" for it in "abcd"), f"{at}/in/", "--parallel", "4")
    rows.row("put of four large ones holds none", status == 0 and used < MOST, (status, told, used))
    server.close()


def try_words(rows):
    """A number outside is refused by the sentence of `mirror`."""
    for number in ("0", "9", "x", ""):
        sentences = set()
        for words in (("get", "127.0.0.1:1/a", "./"), ("put", "a", "127.0.0.1:1/"), ("rm", "127.0.0.1:1/a"), ("mirror", "127.0.0.1:1/", "./one")):
            status, _, told = rows.tool(*words, "--parallel", number)
            sentences.add((status, told))
        rows.row(f"--parallel {number!r}", len(sentences) == 1 and {it[0] for it in sentences} == {2}, sentences)


def main():
    rows = Rows()
    for lanes in (2, 4, 8):
        try_get(rows, f"by {lanes}", lambda number, place, line: None, lanes=lanes)
        try_pattern(rows, lanes)
        try_put(rows, lanes)
        try_rm(rows, lanes)
    try_get(rows, "one file", lambda number, place, line: None, names=NAMES[3:4])
    try_get(rows, "one file twice", lambda number, place, line: None, names=[NAMES[3], NAMES[4], NAMES[3]])
    try_get(rows, "the third is not taken", lambda number, place, line: FULL if number > 1 else None, says=(FULL.strip(),))
    try_get(rows, "the second login is refused", lambda number, place, line: LATE if number > 0 and place == 0 else None, says=(LATE.strip(),))
    barred = Instead(LATE)
    try_get(rows, "the second login is refused each time", lambda number, place, line: barred if number > 0 and place is not None else None, says=(LATE.strip(),))
    try_put(rows, 4, lambda number, place, line: barred if number > 0 and place is not None else None, "the second login is refused,")
    for number in (0, 1):
        named = ("the first", "the second")[number]
        told = (b"going on over 3", b"trying again in 1 s")
        try_get(rows, f"{named} ends", lambda its, place, line: FULL if its == number and place is not None and place > 9 else None, says=told)
        try_get(rows, f"{named} says no more", lambda its, place, line: SILENT if its == number and place is not None and place > 9 else None, says=told)
    try_get(rows, "all end", lambda number, place, line: FULL if number < 4 and place is not None and place > 9 else None, says=(b"trying again in 1 s",))
    try_rm_lost(rows)
    try_at_once(rows)
    try_refused(rows)
    try_pattern_refused(rows)
    try_changes(rows)
    try_cuts(rows)
    try_memory(rows)
    try_words(rows)
    rows.finish()


if __name__ == "__main__":
    main()
