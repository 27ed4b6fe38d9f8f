#!/usr/bin/env python3
"""A mirror over several control connections leaves the tree, the lines and the status of one over one, whatever becomes of those behind the first: where the
server takes fewer, refuses a login, ends or cuts one, or says no more over one. Where all end, what is left is done over others.
"""
import filecmp
import os
import random
import resource
import shutil
import signal
import socket
import subprocess
import threading
import time

from hostile import TOOL, OwnServer, Relay, Rows
from mirror import fill, tree_at
from shelf import Shelf

RANDOM = random.Random(17)
FILES = {f"{name}{number:02}": RANDOM.randbytes(number * 911) for name in ("a", "d/b", "d/e/c", "z/y") for number in range(12)}
# (up, what has at most 65,536 octets is held in memory)
FILES |= {f"d/m/{count}": RANDOM.randbytes(count) for count in (65_535, 65_536, 65_537, 300_000)}
SILENT = b""
LARGE = 48 * 1_048_576
MOST = 32 * 1024


class Instead(bytes):
    """What is said in place of what the server would say."""


class Gate:
    """Stands before a server. `rule` is asked of each control connection, by its number, for each command by its number, and once before the first, as of
    None: a text is said in its place, and the connection ends; SILENT says nothing more; an `Instead` is said, and the next command asked of; None passes."""

    def __init__(self, port, rule):
        self.behind, self.rule, self.count, self.kept = port, rule, 0, []
        self.door = socket.create_server(("127.0.0.1", 0))
        self.port = self.door.getsockname()[1]
        threading.Thread(target=self.serve, daemon=True).start()

    def serve(self):
        while True:
            try:
                client = self.door.accept()[0]
            except OSError:
                return
            threading.Thread(target=self.session, args=(client, self.count), daemon=True).start()
            self.count += 1

    def session(self, client, number):
        if self.stops(client, number, None, b""):
            return
        server = socket.create_connection(("127.0.0.1", self.behind))
        threading.Thread(target=passes, args=(server, client), daemon=True).start()
        try:
            for place, line in enumerate(client.makefile("rb")):
                said = self.rule(number, place, line)
                if isinstance(said, Instead):
                    client.sendall(said)
                elif self.stops(client, number, place, line):
                    break
                else:
                    server.sendall(line)
        except OSError:
            pass
        server.close()

    def stops(self, client, number, place, line):
        """Whether the connection goes no further; SILENT stays open."""
        said = self.rule(number, place, line)
        if said is None:
            return False
        if said == SILENT:
            self.kept.append(client)
        else:
            client.sendall(said)
            client.shutdown(socket.SHUT_RDWR)
            client.close()
        return True

    def close(self):
        self.door.close()


def passes(source, sink):
    """Passes octets on until they end."""
    try:
        while octets := source.recv(65536):
            sink.sendall(octets)
        sink.shutdown(socket.SHUT_WR)
    except OSError:
        pass


def lines_of(told):
    """What is told but for notes, which say how it went on."""
    return [line for line in told.splitlines() if not line.startswith(b"note: ")]


def try_one(rows, name, rule, *words, lanes=4, says=(b"",), again=False):
    """One mirror down by one control connection, and one by several behind a gate. `says`: what a note says, one of these; `again`: whether all are connected
    anew, and None where they may be."""
    served, one, many = (rows.folder / it for it in ("served", "one", "many"))
    for folder in (served, one, many):
        shutil.rmtree(folder, ignore_errors=True)
    served.mkdir()
    fill(served, FILES)
    server = OwnServer(served)
    status, out, told = rows.tool("mirror", f"127.0.0.1:{server.port}/", "./one", "--json", "--no-flush")
    gate = Gate(server.port, rule)
    words = ("--json", "--no-flush", "--parallel", str(lanes), "--timeout", "4", *words)
    seen = rows.tool("mirror", f"127.0.0.1:{gate.port}/", "./many", *words)
    rows.row(f"{name}: the tree", tree_at(many) == tree_at(one) == tree_at(served), seen)
    rows.row(f"{name}: what is told", seen[:2] == (status, out) and lines_of(seen[2]) == lines_of(told), (seen, told))
    rows.row(f"{name}: a note", any(it in seen[2] for it in says), seen[2])
    anew = gate.count > lanes
    rows.row(f"{name}: how many control connections", gate.count >= lanes and again in (None, anew), gate.count)
    gate.close()
    server.close()


def try_back(rows, lanes):
    """Up, again with nothing to do, by octets, and with what is gone removed, by several."""
    served, local = rows.folder / "served", rows.folder / "local"
    for folder in (served, local):
        shutil.rmtree(folder, ignore_errors=True)
        folder.mkdir()
    fill(local, FILES)
    server = OwnServer(served)
    there = f"127.0.0.1:{server.port}/"
    for name, words in (("up", ("./local", there)), ("again", ("./local", there)), ("by octets", (there, "./local", "--checksum"))):
        status, _, told = rows.tool("mirror", *words, "--parallel", str(lanes))
        copied = b"%d files copied" % (len(FILES) if name == "up" else 0)
        rows.row(f"{name} by {lanes}", status == 0 and copied in told and tree_at(served) == tree_at(local), (status, told))
    shutil.rmtree(served / "d")
    status, _, told = rows.tool("mirror", there, "./local", "--delete", "--parallel", str(lanes))
    rows.row(f"--delete by {lanes}", status == 1 and tree_at(local).keys() > tree_at(served).keys() and b"would be removed" in told, (status, told))
    status, _, told = rows.tool("mirror", there, "./local", "--delete-any", "--parallel", str(lanes))
    rows.row(f"--delete-any by {lanes}", status == 0 and tree_at(local) == tree_at(served), (status, told))
    server.close()


class Slow(Shelf):
    """A shelf whose server thinks before it tells a size or a moment. `told` has what each control connection asked of files."""

    SECONDS = 0.2

    def __init__(self, tree, **more):
        self.told = {}
        super().__init__(tree, {verb: self.slow(verb) for verb in ("SIZE", "MDTM", "RETR", "STOR")}, **more)

    def slow(self, verb):
        def reply(session, argument):
            self.told.setdefault(session, []).append((verb, argument.strip("/")))
            if verb in ("SIZE", "MDTM"):
                time.sleep(self.SECONDS)
            getattr(self, verb.lower())(session, argument)

        return reply

    def is_asked_beside(self, verb, *behind):
        """Whether behind each transfer of a file the same control connection asks so of it, directly."""
        for asked in self.told.values():
            for place, (said, name) in enumerate(asked):
                if said == verb and asked[place + 1 : place + 1 + len(behind)] != [(it, name) for it in behind]:
                    return False
        return True


def try_facts(rows, way, tree):
    """Size and moment of what is asked ahead are asked ahead too, over the control connection of the transfer: four at once take less than half the time."""
    verb, behind = ("RETR", ("SIZE", "MDTM")) if way == "down" else ("STOR", ("SIZE",))
    took = {}
    for lanes in (1, 4):
        local = rows.folder / f"facts{lanes}"
        shutil.rmtree(local, ignore_errors=True)
        local.mkdir()
        shelf = Slow(tree if way == "down" else {})
        if way == "up":
            fill(local, tree)
        words = (shelf.place, f"./{local.name}") if way == "down" else (f"./{local.name}", shelf.place)
        begun = time.monotonic()
        status, _, told = rows.tool("mirror", *words, "--no-flush", "--parallel", str(lanes))
        took[lanes] = time.monotonic() - begun
        same = dict(sorted(shelf.tree.items())) == tree_at(local) == dict(sorted(tree.items()))
        rows.row(f"facts {way} by {lanes}: the tree", status == 0 and same, (status, told))
        count = sum(its.count((verb, name)) for its in shelf.told.values() for name in tree)
        rows.row(f"facts {way} by {lanes}: each file goes once", count == len(tree), (count, told))
        rows.row(f"facts {way} by {lanes}: asked directly behind the transfer", shelf.is_asked_beside(verb, *behind), shelf.told)
        shelf.server.close()
    rows.row(f"facts {way}: four take less than half of the time of one", took[4] < took[1] / 2, took)


def try_cuts(rows):
    """Data connections of files are cut cleanly amid a mirror by four, either way: the tree comes whole, or the next run finishes it."""
    tree = {f"f{number:02}": RANDOM.randbytes(60_000 + number * 7_000) for number in range(14)}
    for way in ("down", "up"):
        served, local = rows.folder / "served", rows.folder / "local"
        for folder in (served, local):
            shutil.rmtree(folder, ignore_errors=True)
            folder.mkdir()
        fill(served if way == "down" else local, tree)
        server = OwnServer(served)
        # (number 0 is the listing)
        relay = Relay(server.port, {2: 1_000, 5: 30_000, 6: 1, 9: 0})
        there = f"127.0.0.1:{relay.port}/"
        words = (there, "./local") if way == "down" else ("./local", there)
        status, _, told = rows.tool("mirror", *words, "--parallel", "4", "--timeout", "4")
        same = tree_at(served) == tree_at(local) == tree
        rows.row(f"cut {way}: whole, or told", (status == 0 and same) or (way == "up" and status == 1 and b" failed" in told), (status, told))
        status, _, told = rows.tool("mirror", *words, "--parallel", "4", "--timeout", "4")
        same = tree_at(served) == tree_at(local) == tree
        rows.row(f"cut {way}: then whole, and no part is left", status == 0 and same and not parts_of(local), (status, told, parts_of(local)))
        relay.close()
        server.close()


def try_full(rows):
    """Onto a device that has no room for some of the files: told and left as by one, and what stood stands."""
    served = rows.folder / "served"
    shutil.rmtree(served, ignore_errors=True)
    tree = {f"f{number}": RANDOM.randbytes(1_000_000 if number % 2 else 1_000) for number in range(8)}
    fill(served, tree)
    server = OwnServer(served)

    def limit():
        signal.signal(signal.SIGXFSZ, signal.SIG_IGN)
        resource.setrlimit(resource.RLIMIT_FSIZE, (300_000, 300_000))

    seen = {}
    for lanes in ("1", "4"):
        local = rows.folder / f"full{lanes}"
        fill(local, {name: b"older" for name in tree})
        words = [TOOL, "mirror", f"127.0.0.1:{server.port}/", f"./{local.name}", "--parallel", lanes]
        done = subprocess.run(words, cwd=rows.folder, stderr=subprocess.PIPE, preexec_fn=limit)
        seen[lanes] = (done.returncode, lines_of(done.stderr), tree_at(local), parts_of(local))
    left = {name: octets if len(octets) < 300_000 else b"older" for name, octets in tree.items()}
    rows.row("no room for some files: those are told, and stay", seen["1"][0] == 1 and seen["1"][2:] == (left, []), seen["1"][:2])
    rows.row("by four as by one", seen["4"] == seen["1"], (seen["4"][:2], seen["4"][3]))
    server.close()


def most_memory(rows, *words):
    """The status, standard error, and the most memory in KiB."""
    process = subprocess.Popen([TOOL, *words], cwd=rows.folder, stderr=subprocess.PIPE)
    told = process.stderr.read()
    _, status, used = os.wait4(process.pid, 0)
    process.returncode = os.waitstatus_to_exitcode(status)
    return process.returncode, told, used.ru_maxrss


def same_octets(folder, other):
    """Whether two folders have the same files, of which not one is read as a whole."""
    names = sorted(it.name for it in folder.iterdir())
    return names == sorted(it.name for it in other.iterdir()) and filecmp.cmpfiles(folder, other, names, shallow=False)[0] == names


def try_memory(rows):
    """Files of 48 MiB, four at once, are held neither on their way down nor up."""
    served, local = rows.folder / "served", rows.folder / "local"
    for folder in (served, local):
        shutil.rmtree(folder, ignore_errors=True)
        folder.mkdir()
    for number, name in enumerate("abcdef"):
        with open(served / name, "wb") as file:
            for _ in range(LARGE // 1_048_576):
                file.write(bytes([number]) * 1_048_576)
    server = OwnServer(served, "--any")
    there = f"127.0.0.1:{server.port}/"
    status, told, used = most_memory(rows, "mirror", there, "./local", "--parallel", "4")
    rows.row("six large ones down, four at once: none is held", status == 0 and same_octets(served, local) and used < MOST, (status, told, used))
    server.close()
    shutil.rmtree(served)
    server = OwnServer(served, "--any")
    there = f"127.0.0.1:{server.port}/"
    status, told, used = most_memory(rows, "mirror", "./local", there, "--parallel", "4")
    rows.row("and up", status == 0 and same_octets(served, local) and used < MOST, (status, told, used))
    server.close()


class Stopped(Shelf):
    """A shelf that sends half of each file, and then nothing, until it is let go."""

    def __init__(self, tree):
        self.goes = False
        self.begun = 0
        super().__init__(tree, {"RETR": self.half})

    def half(self, session, argument):
        if self.goes:
            self.retr(session, argument)
            return
        octets = self.tree[argument.strip("/")]
        session.reply("150 here")
        link = session.data.accept()[0]
        link.sendall(octets[: len(octets) // 2])
        self.begun += 1
        while not self.goes:
            time.sleep(0.05)
        link.close()


def parts_of(folder):
    return sorted(it.name for it in folder.iterdir() if ".ftp-part" in it.name)


def try_killed(rows):
    """Killed amid four files it leaves those that it had as they were, and parts, which the next run with `--delete` removes."""
    local = rows.folder / "local"
    shutil.rmtree(local, ignore_errors=True)
    local.mkdir()
    tree = {f"f{number}": RANDOM.randbytes(200_000) for number in range(6)}
    older = {name: b"older" for name in tree}
    fill(local, older)
    shelf = Stopped(tree)
    process = subprocess.Popen([TOOL, "mirror", shelf.place, "./local", "--parallel", "4"], cwd=rows.folder, stderr=subprocess.PIPE)
    until = time.monotonic() + 10
    while shelf.begun < 4 and time.monotonic() < until:
        time.sleep(0.05)
    process.kill()
    process.communicate()
    rows.row("killed: four were under way", shelf.begun >= 4, shelf.begun)
    rows.row("killed: what stood stands", tree_at(local) == older, tree_at(local).keys())
    rows.row("killed: parts are left", len(parts_of(local)) >= 4, parts_of(local))
    shelf.goes = True
    status, _, told = rows.tool("mirror", shelf.place, "./local", "--parallel", "4", "--delete")
    rows.row("another run leaves the tree", status == 0 and tree_at(local) == dict(sorted(tree.items())), (status, told))
    rows.row("and with --delete no parts", not parts_of(local), parts_of(local))
    shelf.server.close()


def main():
    rows = Rows()
    try_memory(rows)
    try_killed(rows)
    try_cuts(rows)
    try_full(rows)
    flat = {f"f{number:02}": b"%d" % number for number in range(12)}
    for way in ("down", "up"):
        try_facts(rows, way, flat)
    for lanes in (2, 4, 8):
        try_one(rows, f"by {lanes}", lambda number, place, line: None, lanes=lanes)
        try_back(rows, lanes)
    full = b"421 There are too many connections\r\n"
    try_one(rows, "the third is not taken", lambda number, place, line: full if number > 1 else None, says=(full.strip(),))
    late = b"530 Too many users\r\n"
    try_one(rows, "the third login is refused", lambda number, place, line: late if number > 1 and place == 0 else None, says=(late.strip(),))
    barred = Instead(late)
    try_one(rows, "the third login is refused each time", lambda number, place, line: barred if number > 1 and place is not None else None, says=(late.strip(),))
    for number in (0, 1):
        named = ("the first", "the second")[number]
        # Where it ends amid what is asked in its turn, all are connected anew; amid what is asked ahead the others go on.
        told = (b"going on over 3", b"trying again in 1 s")
        try_one(rows, f"{named} ends", lambda its, place, line: full if its == number and place is not None and place > 9 else None, says=told, again=None)
        try_one(rows, f"{named} says no more", lambda its, place, line: SILENT if its == number and place is not None and place > 9 else None,
                says=told, again=None)
    try_one(rows, "all end", lambda number, place, line: full if number < 4 and place is not None and place > 9 else None,
            says=(b"trying again in 1 s",), again=True)
    rows.finish()


if __name__ == "__main__":
    main()
