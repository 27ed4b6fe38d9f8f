#!/usr/bin/env python3
"""An upload that the server says is done, and then that there is no such file, as where it takes each away at once: done, with a note."""
from hostile import FakeServer, Rows


def put(rows, size_reply):
    server = FakeServer({"SIZE": size_reply, "STOR": lambda session, _: session.receive()})
    status, _, told = rows.tool("put", "up", f"127.0.0.1:{server.port}/x")
    server.close()
    return status, told, server.commands


def main():
    rows = Rows()
    (rows.folder / "up").write_bytes(b"u" * 1000)
    status, told, commands = put(rows, "550 no such file")
    holds = status == 0 and commands.count("STOR x") == 1 and told.startswith(b"note: ") and b"550 no such file" in told
    rows.row("226 and then SIZE 550: status 0, one STOR, a note", holds, (status, told, commands))
    status, told, _ = put(rows, "213 999")
    rows.row("226 and then SIZE of an octet less, and the same each time: status 1", status == 1, (status, told))
    status, told, _ = put(rows, "502 no SIZE")
    rows.row("226, and SIZE is not known: status 0", status == 0, (status, told))
    status, told, _ = put(rows, "213 1000")
    rows.row("226, and SIZE has all octets: status 0", status == 0, (status, told))
    rows.finish()


main()
