#!/usr/bin/env python3
"""What `ls` writes of a hostile server's names holds no octet that a terminal obeys, and no name of anything but a single file of the directory."""
from hostile import FakeServer, Rows

HIDDEN = [*range(0x20), 0x7F, *range(0x80, 0xA0), 0x61C, 0x200E, 0x200F, *range(0x202A, 0x202F), *range(0x2066, 0x206A)]


def ls(rows, lines, path="", knows_mlsd=True):
    """Lists a directory whose entries a server says so: status, standard output, standard error."""

    def send(session, _):
        session.send(b"".join(line + b"\r\n" for line in lines))

    server = FakeServer({"MLSD": send, "NLST": send} if knows_mlsd else {"MLSD": "500 what", "NLST": send})
    seen = rows.tool("ls", f"127.0.0.1:{server.port}/{path}")
    server.close()
    return seen


def obeyed(octets):
    """The octets of an output that a terminal might obey."""
    text = octets.decode("utf-8", "surrogateescape")
    return [hex(ord(each)) for each in text if each != "\n" and (ord(each) in HIDDEN or 0xDC80 <= ord(each) <= 0xDCFF)]


def is_refused(status, out):
    """Whether the client takes the listing for none, and shows nothing of it."""
    return (status, out) == (1, b"")


def main():
    rows = Rows()
    status, out, told = ls(rows, [b"type=file;size=3; a b.txt", "type=dir; é€😀".encode()])
    plain = "Type=file;Size=3; a b.txt\nType=dir; é€😀\n".encode()
    rows.row("plain names stand as they are", (status, out, told) == (0, plain, b""), (status, out, told))
    for each in HIDDEN:
        octets = chr(each).encode()
        if octets in (b"\0", b"\r", b"\n"):
            continue
        status, out, told = ls(rows, [b"type=file; a" + octets + b"z"])
        want = b" a" + b"".join(b"\\x%02x" % octet for octet in octets) + b"z\n"
        holds = (status == 0 and out.endswith(want) or is_refused(status, out)) and not obeyed(out + told)
        rows.row(f"U+{each:04X} is escaped, or the listing refused", holds, (status, out, told))
    for octets in (b"\x9b2J", b"\xc0\x9b", b"\xe2\x80", b"\xed\xa0\x80", b"\xff"):
        status, out, told = ls(rows, [b"type=file; a" + octets])
        holds = (status == 0 and b"\\x" in out or is_refused(status, out)) and not obeyed(out + told)
        rows.row(f"octets of no character are escaped, or the listing refused: {octets}", holds, (status, out, told))
    status, out, told = ls(rows, [b"type=a\x1b[2J;perm=\x1b[6n; a"])
    rows.row("facts are escaped too", status in (0, 1) and not obeyed(out + told), (status, out, told))
    status, out, told = ls(rows, [b"type=file; a\\x41"])
    rows.row("a backslash is doubled", out.endswith(b" a\\\\x41\n"), (status, out, told))
    for name in (b"..", b".", b"../a", b"/etc/passwd", b"a/b", b"a/"):
        status, out, told = ls(rows, [b"type=file; " + name, b"type=file; good"])
        holds = status == 0 and out == b"Type=file; good\n" and told.startswith(b"note: ")
        rows.row(f"{name.decode()} is left out, with a note", holds, (status, out, told))
    status, out, told = ls(rows, [b"type=file; ", b"type=file; good"])
    holds = status == 0 and out.startswith(b"Type=file; good\n") and told.startswith(b"note: ")
    rows.row("a line with an empty name is no entry: it is shown after the others, and that is told", holds, (status, out, told))
    status, out, told = ls(rows, [b"type=cdir; .", b"type=pdir; ..", b"type=file; good"])
    rows.row("the directory itself and the one above are left out without a note", (status, out, told) == (0, b"Type=file; good\n", b""), (status, out, told))
    status, out, told = ls(rows, ["a\u202ez".encode(), b"..", b"good"], knows_mlsd=False)
    rows.row("names of NLST", (status, out) == (0, b"a\\xe2\\x80\\xaez\ngood\n") and told.startswith(b"note: "), (status, out, told))
    status, out, told = ls(rows, [b"pub/a", b"pub/../b", b"pub", b"other/c"], path="pub", knows_mlsd=False)
    rows.row("names of NLST behind the path that was asked for", (status, out) == (0, b"pub/a\npub\n") and told.startswith(b"note: "), (status, out, told))
    rows.finish()


main()
