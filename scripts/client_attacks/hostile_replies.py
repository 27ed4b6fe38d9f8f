#!/usr/bin/env python3
"""What a server says reaches a terminal as text alone: no control character, no mark of direction, nothing without width, no tag."""
from hostile import FakeServer, Rows

HIDDEN = ["\x1b", "\x07", "\x08", "\x7f", "\x9b", "\u00ad", "\u034f", "\u061c", "\u180e", "\u200b", "\u200d", "\u200f", "\u202e", "\u2028", "\u2060", "\u2066", "\ufe0f", "\ufeff", "\ufffb", "\U000e0041", "\U000e0100"]
SHOWN = "Grüße, 日本, 🙂"


def raw(session, code, text):
    session.connection.sendall(code.encode() + b" " + text.encode() + b"\r\n")


def main():
    rows = Rows()
    (rows.folder / "in").write_bytes(b"1")
    evil = "x".join(HIDDEN) + "end"
    for verb, code in (("PASS", "530"), ("RETR", "550"), ("USER", "999"), ("EPSV", "229"), ("MLSD", "550"), ("SIZE", "213"), ("MKD", "550"), ("DELE", "550")):
        for program in ("get", "ls", "put", "rm", "mkdir"):
            server = FakeServer({"RETR": lambda session, _: session.send(b"1"), verb: lambda session, _: raw(session, code, evil)})
            place = f"127.0.0.1:{server.port}/f"
            words = {"get": ("get", place, "out"), "put": ("put", "in", place)}.get(program, (program, place))
            status, out, told = rows.tool(*words, "--timeout", "2")
            server.close()
            seen = [each for each in HIDDEN if each.encode() in out + told]
            rows.row(f"{program}, {verb} answered with hidden characters", not seen, (status, seen, told))
    server = FakeServer({"DELE": lambda session, _: raw(session, "550", SHOWN + "\\\u202e")})
    status, _, told = rows.tool("rm", f"127.0.0.1:{server.port}/f")
    rows.row("text of a reply is shown as it stands, and else as escapes", f"550 {SHOWN}\\\\\\xe2\\x80\\xae".encode() in told, told)
    rows.finish()


main()
