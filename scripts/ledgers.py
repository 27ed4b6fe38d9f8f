"""What clients do to a server that keeps files on a disk, and what has to stand there then: each file with its octets, each directory with None."""
import contextlib
import importlib.machinery
import importlib.util
import os
import stat
from pathlib import Path

LOADER = importlib.machinery.SourceFileLoader("server_attacks", str(Path(__file__).with_name("server_attacks")))
BASE = importlib.util.module_from_spec(importlib.util.spec_from_loader(LOADER.name, LOADER))
LOADER.exec_module(BASE)
holds = BASE.holds


class Client(BASE.Client):
    """One that raises an error where its connection ends."""

    def line(self):
        line = super().line()
        if line is None:
            raise ConnectionError("the connection ended")
        return line

    def listed(self, verb, path=""):
        """The lines of a listing."""
        link = self.data()
        code = self.ask(f"{verb} {path}".strip())
        octets = BASE.drain(link)[0] if code == "150" else b""
        link.close()
        holds(code == "150" and self.reply() == "226", f"{verb} {path}: {code}")
        return octets.decode("utf-8", "surrogateescape").splitlines()


class Act:
    """Something that a client does, and what stands after it."""

    def __init__(self, verb, path, octets=b"", at=0, to=None):
        self.verb, self.path, self.octets, self.at, self.to = verb, path, octets, at, to

    def __str__(self):
        more = f" of {len(self.octets)} octets" if self.verb in ("STOR", "APPE") else f" to {self.to}" if self.to else ""
        return f"{self.verb} {self.path}{more}{f' at {self.at}' if self.at else ''}"

    def done_by(self, client):
        """Does it; the code of the last reply."""
        if self.verb == "RNFR":
            code = client.ask(f"RNFR {self.path}")
            return client.ask(f"RNTO {self.to}") if code == "350" else code
        if self.verb not in ("STOR", "APPE"):
            return client.ask(f"{self.verb} {self.path}")
        link = client.data()
        if self.at:
            client.ask(f"REST {self.at}")
        code = client.ask(f"{self.verb} {self.path}")
        if code == "150":
            with contextlib.suppress(OSError):
                link.sendall(self.octets)
            link.close()
            code = client.reply()
        link.close()
        return code

    def after(self, before):
        """What stands after it, as each file with its octets, and each directory with None."""
        stands = dict(before)
        if self.verb == "STOR":
            stands[self.path] = before.get(self.path, b"")[: self.at] + self.octets
        elif self.verb == "APPE":
            stands[self.path] = before.get(self.path, b"") + self.octets
        elif self.verb == "MKD":
            stands[self.path] = None
        elif self.verb == "RNFR":
            for name in list(before):
                if name == self.path or name.startswith(f"{self.path}/"):
                    stands[self.to + name[len(self.path) :]] = stands.pop(name)
        else:
            stands.pop(self.path)
        return stands


class Ledger:
    """What was answered, and what is under way."""

    def __init__(self, stands=()):
        self.stands, self.under_way = dict(stands), None

    def let(self, client, act):
        """Lets a client do something; its code."""
        self.under_way = act
        code = act.done_by(client)
        if code[0] == "2":
            self.stands = act.after(self.stands)
        self.under_way = None
        return code

    def settles(self, found):
        """What was found is what was answered, or that and what was under way."""
        may = [self.stands, *([self.under_way.after(self.stands)] if self.under_way else [])]
        agrees(found, may, f"under way: {self.under_way}")
        self.stands, self.under_way = found, None


def agrees(found, may, when):
    if found not in may:
        odd = [name for name in sorted({*found, *may[0]}) if found.get(name, 0) != may[0].get(name, 0)]
        told = ", ".join(f"{name}: {shown(found, name)}, not {' or '.join(shown(it, name) for it in may)}" for name in odd[:3])
        holds(False, f"{told} ({when})")


def shown(stands, name):
    if name not in stands:
        return "nothing"
    it = stands[name]
    return f"{len(it)} octets {it[:8]!r}" if isinstance(it, bytes) else it or "a directory"


def is_part(name):
    return name.startswith((".ftp-writing", "ftp-left-")) and name.endswith("\x7f")


def found_in(folder):
    """What stands in a folder, and the parts of files there; of a link, a device, a pipe and a socket `odd`."""
    stands, parts = {}, {}
    for above, dirs, files in os.walk(folder):
        for name in dirs + files:
            place = Path(above, name)
            mode = os.lstat(place).st_mode
            is_file = stat.S_ISREG(mode)
            into = parts if is_file and is_part(name) else stands
            into[str(place.relative_to(folder))] = place.read_bytes() if is_file else None if stat.S_ISDIR(mode) else "odd"
    return stands, parts


def filled(folder, stands):
    """Makes a folder of what is to stand there."""
    Path(folder).mkdir(parents=True, exist_ok=True)
    for name, octets in sorted(stands.items()):
        if octets is None:
            Path(folder, name).mkdir()
        else:
            Path(folder, name).write_bytes(octets)


def drawn(draw, stands, number):
    """Something that can be done to what stands."""
    files = sorted(it for it in stands if stands[it] is not None)
    dirs = sorted(it for it in stands if stands[it] is None)
    octets = (b"%06d." % number * 400_000)[: draw.choice([0, 1, 1000, 70_000, 300_000, 2_000_000])]
    place = draw.choice(["", "", *(f"{it}/" for it in dirs)]) + draw.choice("abcdef")
    verb = draw.choice(["STOR", "STOR", "over", "APPE", "REST", "DELE", "RNFR", "RNFR", "MKD", "RMD"])
    empty = [it for it in dirs if not any(name.startswith(f"{it}/") for name in stands)]
    if verb == "RMD" and empty:
        return Act("RMD", draw.choice(empty))
    if verb == "MKD" and place.count("/") < 3 and f"{place}.d" not in stands:
        return Act("MKD", f"{place}.d")
    if files and verb in ("DELE", "APPE", "over", "REST"):
        path = draw.choice(files)
        if verb == "REST" and stands[path]:
            return Act("STOR", path, octets, draw.randrange(1, len(stands[path]) + 1))
        return Act("STOR" if verb in ("REST", "over") else verb, path, b"" if verb == "DELE" else octets)
    if stands and verb == "RNFR":
        path = draw.choice(sorted(stands))
        if place not in stands and not place.startswith(f"{path}/"):
            return Act("RNFR", path, to=place)
    while stands.get(place, b"") is None:
        place += "/g"
    return Act("STOR", place, octets)


def serves(client, stands):
    """What is listed and given is what stands, and nothing else."""
    for path in ["", *(it for it in stands if stands[it] is None)]:
        for verb in ("NLST", "MLSD", "LIST"):
            names = sorted(os.path.basename(it) for it in stands if os.path.dirname(it) == path and (verb != "NLST" or stands[it] is not None))
            lines = client.listed(verb, path)
            told = sorted(line.rsplit(None if verb == "LIST" else " ", 1)[-1] if verb != "NLST" else line.rpartition("/")[2] for line in lines)
            holds(told == names, f"{verb} {path}: {told}, not {names}")
    for path, octets in stands.items():
        if octets is not None:
            code, given, _ = client.get(path)
            holds(code == "226" and given == octets, f"RETR {path}: {code}, {len(given)} octets of {len(octets)}")
