#!/usr/bin/env python3
"""Over several control connections no file that stands is replaced by an empty one, and with status 0 each file is whole: where all control connections end at
once as files are asked for, where a server's sizes or moments are strange, and where the server is killed and started anew.
"""
import random
import shutil
import socket
import subprocess
import threading
import time

from hostile import TOOL, OwnServer, Rows
from mirror import fill, tree_at
from shelf import Shelf

RANDOM = random.Random(29)
FILES = {f"f{number}": bytes([65 + number]) * (1000 + 700 * number) for number in range(5)}
OLDER = {name: octets[:-1] for name, octets in FILES.items()}
STRANGE = {"a moment of the year 19120": {"MDTM": "213 191200101000000"}, "a size that is a text": {"SIZE": "213 ten"}}
RUNS = 8


class Ending(Shelf):
    """A shelf whose control connections all end once, as the first command of a verb comes; `said` goes before that."""

    def __init__(self, verb, said):
        self.sessions, self.waits, self.guard = [], True, threading.Lock()
        super().__init__(FILES)
        says = self.server.says
        before = says.get(verb)

        def user(session, _):
            self.sessions.append(session)
            session.reply("331 password")

        def end(session, argument):
            with self.guard:
                ends, self.waits = self.waits, False
            if not ends:
                before(session, argument) if before else session.passive(verb)
                return
            if said:
                session.reply(said)
            for other in self.sessions:
                try:
                    other.connection.shutdown(socket.SHUT_RDWR)
                except OSError:
                    pass
            raise OSError

        says |= {"USER": user, verb: end}


def held(rows, name, status, told, stand):
    """No file is other than it was or is to be, and with status 0 each is whole."""
    bad = {key: len(stand[key]) if key in stand else None for key in FILES if stand.get(key) != FILES[key]}
    wrong = {key: count for key, count in bad.items() if key in stand and stand[key] != OLDER[key]}
    rows.row(f"{name}: nothing is replaced by what it is not", not wrong, (status, wrong, told))
    rows.row(f"{name}: with status 0 each is whole", status != 0 or not bad, (status, bad, told))


def fetched(rows, shelf, way, lanes, seconds=60):
    """Fetches all files over older ones: the status, what is told, and what stands."""
    local = rows.folder / "local"
    shutil.rmtree(local, ignore_errors=True)
    fill(local, OLDER)
    words = ("mirror", shelf.place, "./local") if way == "mirror" else ("get", *[shelf.place + name for name in FILES], "local/")
    status, _, told = rows.tool(*words, "--parallel", str(lanes), "--timeout", "4", seconds=seconds)
    shelf.server.close()
    return status, told, tree_at(local)


def try_ends(rows):
    for verb, said in (("RETR", None), ("RETR", "421 bye"), ("EPSV", None), ("SIZE", None)):
        for way in ("mirror", "get"):
            for lanes in (1, 2, 4):
                status, told, stand = fetched(rows, Ending(verb, said), way, lanes)
                held(rows, f"{way} by {lanes}, all end at the first {verb} ({said})", status, told, stand)


def try_strange(rows):
    for what, says in STRANGE.items():
        for way, lanes in (("mirror", 2), ("mirror", 4), ("get", 2)):
            status, told, stand = fetched(rows, Shelf(FILES, says), way, lanes)
            held(rows, f"{way} by {lanes}, {what}", status, told, stand)


class Killed(OwnServer):
    """A server that is killed and started anew at its port, until it is closed."""

    def __init__(self, folder):
        super().__init__(folder)
        self.folder, self.goes_on = folder, True
        self.killing = threading.Thread(target=self.kill, daemon=True)
        self.killing.start()

    def kill(self):
        for _ in range(2):
            time.sleep(RANDOM.uniform(0.05, 0.8))
            if not self.goes_on:
                return
            self.process.kill()
            self.process.wait()
            for _ in range(50):
                words = [TOOL, "serve", "--port", str(self.port), "--dir", str(self.folder), "--sessions", "forever"]
                self.process = subprocess.Popen(words, stdout=subprocess.PIPE, stderr=subprocess.DEVNULL)
                if self.process.stdout.readline():
                    break
                self.process.wait()
                time.sleep(0.1)

    def close(self):
        self.goes_on = False
        self.killing.join()
        super().close()


def try_killed(rows):
    files = {name: octets * 60 for name, octets in FILES.items()}
    for run in range(RUNS):
        served, local = rows.folder / "served", rows.folder / "local"
        for folder in (served, local):
            shutil.rmtree(folder, ignore_errors=True)
        fill(served, files)
        fill(local, OLDER)
        server = Killed(served)
        words = ("mirror", f"127.0.0.1:{server.port}/", "./local", "--parallel", "2", "--limit-rate", "400K", "--timeout", "4")
        status, _, told = rows.tool(*words)
        server.close()
        stand = tree_at(local)
        bad = [key for key in files if stand.get(key) != files[key]]
        wrong = [key for key in bad if stand.get(key) != OLDER[key]]
        rows.row(f"killed and started anew, run {run}", not wrong and (status != 0 or not bad), (status, bad, wrong, told))


def main():
    rows = Rows()
    try_strange(rows)
    try_ends(rows)
    try_killed(rows)
    rows.finish()


main()
