#!/usr/bin/env python3
"""A server that falls silent, at whatever step, holds no program of a client: with --timeout 1 each try ends, and nothing that stood is lost.

What the server said finally stands, though its data connection stays open. All rows run side by side, since a program that finds silence after octets
of a data connection asks anew over four more control connections, after 1, 2, 4 and 8 seconds. If none moved until then, it asks no more. If the server
never said a line, it asks over one more at most, and all of that within the seconds of --timeout.
"""
import socket
import tempfile
import threading
import time
from concurrent.futures import ThreadPoolExecutor
from pathlib import Path

from hostile import FakeServer, Rows

OLDER = b"older"
WHOLE = bytes(range(256)) * 4000
# five tries, the waits between them, and what a busy machine takes
LIMIT = 60

KEPT = []
# how many connections came to each port that never says a line
ACCEPTED = {}


def hang(session, _=None):
    """Says nothing more, and leaves all connections open."""
    KEPT.append(session.data)
    time.sleep(4 * LIMIT)


def hang_in_data(session, _):
    session.reply("150 here")
    link = session.data.accept()[0]
    KEPT.append(link)
    link.sendall(WHOLE[:1000])
    hang(session)


def open_behind(code):
    """The final reply comes, and the data connection stays open."""

    def retr(session, _):
        session.reply("150 here")
        link = session.data.accept()[0]
        KEPT.append(link)
        link.sendall(WHOLE[session.offset:])
        session.reply(code)

    return retr


def takes_nothing(session, _):
    session.reply("150 here")
    KEPT.append(session.data.accept()[0])
    hang(session)


def refused_open(session, _):
    """An upload is refused finally, and its data connection stays open and is not read."""
    session.reply("150 here")
    KEPT.append(session.data.accept()[0])
    session.reply("552 full")


def no_greeting(seconds=None):
    """Accepts connections, and says nothing on them; closes each behind so many seconds."""
    listener = socket.create_server(("127.0.0.1", 0))
    port = listener.getsockname()[1]
    ACCEPTED[port] = 0

    def accept():
        while True:
            connection = listener.accept()[0]
            KEPT.append(connection)
            ACCEPTED[port] += 1
            if seconds is not None:
                time.sleep(seconds)
                connection.close()

    threading.Thread(target=accept, daemon=True).start()
    return port


def no_answer():
    """A port of which no connection comes back: its queue is full."""
    listener = socket.socket()
    listener.bind(("127.0.0.1", 0))
    listener.listen(0)
    for _ in range(4):
        waiting = socket.socket()
        waiting.setblocking(False)
        waiting.connect_ex(listener.getsockname())
        KEPT.append(waiting)
    KEPT.append(listener)
    return listener.getsockname()[1]


def row(rows, what, port, words, wanted, told=b"", script=None):
    folder = Path(tempfile.mkdtemp(dir=rows.folder))
    (folder / "out").write_bytes(OLDER)
    (folder / "up").write_bytes(WHOLE * 20)
    begun = time.monotonic()
    words = [word.replace("PORT", str(port)) for word in words]
    try:
        status, _, error = rows.tool_in(folder, script, *words, "--timeout", "1", seconds=LIMIT)
    except Exception as error:
        return what, False, repr(error)[:200]
    took = time.monotonic() - begun
    octets = (folder / "out").read_bytes()
    holds = status == wanted and told in error and octets in ((OLDER,) if wanted else (OLDER, WHOLE))
    return what, holds, (status, round(took), len(octets), error[-300:])


def together(rows):
    """A server that never says a line: two tries at most, in the seconds of --timeout together, and the second between both."""
    cases = (
        ("no greeting", no_greeting(), 1, b"silent for 4 s; nothing is done"),
        ("closed behind a second without a greeting", no_greeting(1), 2, b"error: "),
        ("closed at once without a greeting", no_greeting(0), 2, b"error: "),
        ("no connection comes", no_answer(), 0, b"error: "),
    )
    for what, port, accepted, says in cases:
        begun = time.monotonic()
        status, _, told = rows.tool("ls", f"127.0.0.1:{port}/", "--timeout", "4", seconds=LIMIT)
        took = time.monotonic() - begun
        holds = (status, ACCEPTED.get(port, 0)) == (3, accepted) and took < 8 and says in told
        rows.row(f"ls, {what}: {accepted} accepted, within the seconds of --timeout", holds, (status, ACCEPTED.get(port), round(took, 1), told[-300:]))


def once(rows, size):
    """A server that falls silent before an octet of a data connection moved is tried once; one that sent some is tried again."""
    (rows.folder / "up").write_bytes(WHOLE)
    get = ("get", "127.0.0.1:PORT/f", "out")
    two = ("get", "127.0.0.1:PORT/f", "127.0.0.1:PORT/g", "./")
    cases = (
        ("get, silent after PASS", {"PASS": hang}, get, False),
        ("get, silent after SIZE", {"SIZE": hang}, get, False),
        ("get, silent after EPSV", {"SIZE": size, "EPSV": hang}, get, False),
        ("get, silent after RETR", {"SIZE": size, "RETR": hang}, get, False),
        ("get --parallel 4, silent after PASS", {"PASS": hang}, (*two, "--parallel", "4"), False),
        ("get --parallel 4, silent after RETR", {"SIZE": size, "RETR": hang}, (*two, "--parallel", "4"), False),
        ("put, silent after STOR", {"SIZE": "550 no", "STOR": hang}, ("put", "up", "127.0.0.1:PORT/f"), False),
        ("ls, silent after MLSD", {"MLSD": hang}, ("ls", "127.0.0.1:PORT/"), False),
        ("get, silent after 1,000 octets", {"SIZE": size, "RETR": hang_in_data}, get, True),
    )
    for what, answers, words, is_repeated in cases:
        port = FakeServer(answers).port
        begun = time.monotonic()
        status, _, told = rows.tool(*(word.replace("PORT", str(port)) for word in words), "--timeout", "1", seconds=LIMIT)
        took = time.monotonic() - begun
        holds = status == 3 and (b"trying again" in told) == is_repeated and (is_repeated or took < 12)
        rows.row(f"{what}: {'tried again' if is_repeated else 'tried once'}", holds, (status, round(took, 1), told[-300:]))


def main():
    rows = Rows()
    size = f"213 {len(WHOLE)}"
    get = ("get", "127.0.0.1:PORT/f", "out")
    put = ("put", "up", "127.0.0.1:PORT/f")
    run = ("run", "--host", "127.0.0.1", "--port", "PORT")
    script = b"login anonymous a\nget IFSpn f\nwhere\n"
    silent = b"silent for 1 s"
    unsaid = no_greeting()
    cases = [
        ("get, no connection comes", no_answer(), get, 3, b"error: "),
        ("get, no greeting", unsaid, get, 3, silent),
        ("get, silent behind USER", FakeServer({"USER": hang}).port, get, 3, silent),
        ("get, silent behind SIZE", FakeServer({"SIZE": hang}).port, get, 3, silent),
        ("get, silent behind EPSV", FakeServer({"SIZE": size, "EPSV": hang}).port, get, 3, silent),
        ("get, silent behind RETR", FakeServer({"SIZE": size, "RETR": hang}).port, get, 3, silent),
        ("get, silent behind 1,000 octets", FakeServer({"SIZE": size, "RETR": hang_in_data}).port, get, 3, silent),
        ("get, 226 and the data connection stays open: all came that SIZE tells", FakeServer({"SIZE": size, "RETR": open_behind("226 done")}).port, get, 0, b""),
        ("get, 226 and the data connection stays open: SIZE tells more", FakeServer({"SIZE": "213 9999999", "RETR": open_behind("226 done")}).port, get, 1, b"broke"),
        ("get, silent behind QUIT", FakeServer({"SIZE": size, "RETR": lambda s, _: s.send(WHOLE), "QUIT": hang}).port, get, 0, b""),
        ("put, silent behind STOR", FakeServer({"SIZE": "550 no", "STOR": hang}).port, put, 3, silent),
        ("put, nothing is taken", FakeServer({"SIZE": "550 no", "STOR": takes_nothing}).port, put, 3, silent),
        ("put, 552 and the data connection stays open", FakeServer({"SIZE": "550 no", "STOR": refused_open}).port, put, 1, b"552 full"),
        ("ls, silent behind MLSD", FakeServer({"MLSD": hang}).port, ("ls", "127.0.0.1:PORT/"), 3, silent),
        ("run, silent behind RETR", FakeServer({"RETR": hang}).port, run, 3, b""),
        ("run, no greeting", no_greeting(), run, 3, b""),
    ]
    with ThreadPoolExecutor(len(cases)) as pool:
        tried = [pool.submit(row, rows, what, port, words, wanted, told, script if words is run else None) for what, port, words, wanted, told in cases]
    for it in tried:
        rows.row(*it.result())
    rows.row("get, no greeting: tried once, since no second is left", ACCEPTED[unsaid] == 1, ACCEPTED[unsaid])
    together(rows)
    once(rows, size)
    rows.finish()


main()
