#!/usr/bin/env python3
"""An upload that the client breaks off ends by a reset, so that no server takes the part that came for the file.

In stream mode the end of the data connection is the end of the file. Here the control connection ends while most of a file is still to go.
"""
import socket
import time

from hostile import FakeServer, Rows

SIZE = 16 * 1024 * 1024


def ended(session):
    session.connection.shutdown(socket.SHUT_RDWR)


def half_closed(session):
    session.connection.shutdown(socket.SHUT_WR)


def drained(link):
    """How many octets come, and whether an end or a reset is behind them."""
    count = 0
    try:
        while octets := link.recv(65536):
            count += len(octets)
        return count, "end"
    except ConnectionResetError:
        return count, "reset"


def broken_off(rows, breaks):
    """How the first data connection of an upload ends, behind whose first octets the control connection does."""
    ends = []

    def stor(session, _):
        if ends:
            session.receive()
            return
        session.data.setsockopt(socket.SOL_SOCKET, socket.SO_RCVBUF, 4096)
        session.reply("150 here")
        link = session.data.accept()[0]
        link.recv(4096)
        ends.append(None)
        breaks(session)
        time.sleep(0.5)
        ends[0] = drained(link)

    server = FakeServer({"SIZE": "502 no", "STOR": stor})
    rows.tool("put", "up", f"127.0.0.1:{server.port}/x")
    server.close()
    for _ in range(50):
        if ends and ends[0]:
            return ends[0]
        time.sleep(0.1)
    return None


def main():
    rows = Rows()
    (rows.folder / "up").write_bytes(bytes(SIZE))
    for what, breaks in (("ends", ended), ("is half closed", half_closed)):
        seen = broken_off(rows, breaks)
        rows.row(f"the control connection {what} in an upload: its data connection is reset", seen is not None and seen[1] == "reset", seen)
    rows.finish()


main()
