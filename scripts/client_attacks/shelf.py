"""A fake server over a tree in memory, for the scripts beside this one: a path to the octets of a file, or to none for a directory."""
from hostile import FakeServer

MOMENT = "20200101000000"


class Shelf:
    """It obeys what a mirror asks. `says` puts other replies in the place of its own; `lists` other listings, by the directory's path."""

    def __init__(self, tree, says=None, lists=None):
        self.tree, self.lists = dict(tree), lists or {}
        self.name = ""
        own = {"MLSD": self.mlsd, "MLST": self.mlst, "RETR": self.retr, "SIZE": self.size, "MDTM": self.mdtm, "STOR": self.stor}
        own |= {"MKD": self.make, "DELE": self.remove, "RMD": self.remove, "RNFR": self.rename_from, "RNTO": self.rename_to}
        self.server = FakeServer({**own, **(says or {})})
        self.place = f"127.0.0.1:{self.server.port}/"

    def facts(self, path, name):
        octets = self.tree[path]
        if octets is None:
            return f"type=dir;modify={MOMENT}; {name}"
        return f"type=file;size={len(octets)};modify={MOMENT}; {name}"

    def mlsd(self, session, argument):
        path = argument.strip("/")
        if path in self.lists:
            session.send(self.lists[path])
        elif path and self.tree.get(path, b"") is not None:
            session.reply("550 no directory")
        else:
            front = path + "/" if path else ""
            below = [(key, key[len(front):]) for key in self.tree if key.startswith(front)]
            lines = [self.facts(key, name) + "\r\n" for key, name in below if name and "/" not in name]
            session.send("".join(lines).encode("latin1"))

    def mlst(self, session, argument):
        path = argument.strip("/")
        if path in self.tree:
            session.reply(f"250-here\r\n {self.facts(path, argument)}\r\n250 end")
        else:
            session.reply("550 nothing")

    def octets(self, session, argument):
        octets = self.tree.get(argument.strip("/"))
        if octets is None:
            session.reply("550 no file")
        return octets

    def retr(self, session, argument):
        octets = self.octets(session, argument)
        offset, session.offset = session.offset, 0
        if octets is not None:
            session.send(octets[offset:])

    def size(self, session, argument):
        octets = self.octets(session, argument)
        if octets is not None:
            session.reply(f"213 {len(octets)}")

    def mdtm(self, session, argument):
        if self.octets(session, argument) is not None:
            session.reply(f"213 {MOMENT}")

    def stor(self, session, argument):
        session.reply("150 here")
        link = session.data.accept()[0]
        octets = b""
        while more := link.recv(65536):
            octets += more
        link.close()
        self.tree[argument.strip("/")] = octets
        session.reply("226 done")

    def make(self, session, argument):
        self.tree[argument.strip("/")] = None
        session.reply(f'257 "{argument}"')

    def remove(self, session, argument):
        path = argument.strip("/")
        is_full = any(key.startswith(path + "/") for key in self.tree)
        if path in self.tree and not is_full:
            del self.tree[path]
            session.reply("250 done")
        else:
            session.reply("550 no")

    def rename_from(self, session, argument):
        self.name = argument.strip("/")
        session.reply("350 to what" if self.name in self.tree else "550 nothing")

    def rename_to(self, session, argument):
        name = argument.strip("/")
        front = self.name + "/"
        for key in [key for key in self.tree if key == self.name or key.startswith(front)]:
            self.tree[name + key[len(self.name):]] = self.tree.pop(key)
        session.reply("250 done")
