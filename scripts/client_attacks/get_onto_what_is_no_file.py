#!/usr/bin/env python3
"""`get` never puts a file in the place of a link, a device or a pipe: it writes where a link leads, and into what is no file, but into no named pipe."""
import os
import socket
import subprocess

from hostile import TOOL, FakeServer, Rows

WHOLE = bytes(range(256)) * 40


def get(rows, file, **how):
    server = FakeServer({"SIZE": f"213 {len(WHOLE)}", "RETR": lambda session, _: session.send(WHOLE)})
    words = [TOOL, "get", f"127.0.0.1:{server.port}/f", str(file)]
    done = subprocess.run(words, cwd=rows.folder, stdin=subprocess.DEVNULL, stderr=subprocess.PIPE, timeout=60, **{"stdout": subprocess.PIPE, **how})
    server.close()
    return done.returncode, done.stdout, done.stderr


def links(rows):
    there = rows.folder / "there"
    there.mkdir()
    (there / "file").write_bytes(b"older")
    (there / "file").chmod(0o640)
    (rows.folder / "link").symlink_to("there/file")
    (rows.folder / "second").symlink_to(rows.folder / "link")
    (rows.folder / "dangling").symlink_to("there/new")
    (rows.folder / "circle").symlink_to("circle")
    for name, leads in (("link", "file"), ("second", "file"), ("dangling", "new")):
        status, _, told = get(rows, name)
        link, file = rows.folder / name, there / leads
        holds = status == 0 and link.is_symlink() and not file.is_symlink() and file.read_bytes() == WHOLE
        rows.row(f"onto {name}: the link stays, and the file is written where it leads", holds, (status, told))
        (there / "file").write_bytes(b"older")
    rows.row("permissions of the file are kept", (there / "file").stat().st_mode & 0o777 == 0o640)
    status, _, told = get(rows, "circle")
    rows.row("onto a link to itself: refused, and it stays", status == 3 and (rows.folder / "circle").is_symlink(), (status, told))
    rows.row("no part is left", not [it for it in os.listdir(there) + os.listdir(rows.folder) if "ftp-part" in it])
    status, _, told = get(rows, "there")
    rows.row("onto a directory: it goes in there by its name", status == 0 and (there / "f").read_bytes() == WHOLE, (status, told))
    (there / "f").unlink()
    (there / "f").mkdir()
    status, _, told = get(rows, "there")
    rows.row("onto a directory, where one has its name: refused", status == 3 and (there / "f").is_dir(), (status, told))


def pipes(rows):
    """A named pipe is refused before anything is asked of the file, whether it is read or not: whoever reads it would be waited for."""
    (rows.folder / "further").mkdir()
    pipe = rows.folder / "further" / "pipe"
    os.mkfifo(pipe)
    (rows.folder / "to").symlink_to("further/pipe")
    (rows.folder / "third").symlink_to(rows.folder / "to")
    for name in ("further/pipe", "to", "third", str(pipe), "/proc/self/cwd/further/pipe"):
        for more in ((), ("--keep",), ("--continue",)):
            server = FakeServer({"SIZE": f"213 {len(WHOLE)}", "RETR": lambda session, _: session.send(WHOLE)})
            words = [TOOL, "get", f"127.0.0.1:{server.port}/f", name, *more]
            done = subprocess.run(words, cwd=rows.folder, stdin=subprocess.DEVNULL, capture_output=True, timeout=20)
            server.close()
            holds = done.returncode == 3 and b"named pipe" in done.stderr and not server.commands and pipe.is_fifo()
            rows.row(f"onto a named pipe, as {name} {more}: refused, and nothing is asked", holds, (done, server.commands))
    reader = os.open(pipe, os.O_RDONLY | os.O_NONBLOCK)
    status, _, told = get(rows, pipe)
    rows.row("onto a named pipe that is read: refused too", (status, os.read(reader, 1)) == (3, b"") and b"get URL - > FILE" in told, (status, told))
    os.close(reader)
    (rows.folder / "into").mkdir()
    os.mkfifo(rows.folder / "into" / "f")
    server = FakeServer({"SIZE": f"213 {len(WHOLE)}", "RETR": lambda session, _: session.send(WHOLE)})
    place = f"127.0.0.1:{server.port}/"
    status, _, told = rows.tool("get", place + "f", place + "g", "into/", "--parallel", "3", seconds=20)
    came = (rows.folder / "into" / "g").read_bytes()
    rows.row("one of two is a named pipe: the other is fetched", (status, came) == (3, WHOLE) and "RETR f" not in server.commands, (status, told, server.commands))
    server.close()


def open_pipes(rows):
    """A pipe that a process has open is written, by its number or as the shell names it."""
    server = FakeServer({"SIZE": f"213 {len(WHOLE)}", "RETR": lambda session, _: session.send(WHOLE)})
    place = f"127.0.0.1:{server.port}/f"
    for at in ("/dev/fd/", "/proc/self/fd/"):
        end, other = os.pipe()
        with subprocess.Popen([TOOL, "get", place, f"{at}{other}"], cwd=rows.folder, pass_fds=[other], stderr=subprocess.PIPE) as process:
            os.close(other)
            with open(end, "rb") as reading:
                came = reading.read()
            _, told = process.communicate(timeout=20)
        rows.row(f"onto {at}N, an open pipe", (process.returncode, came) == (0, WHOLE), (process.returncode, len(came), told))
    for what, words, file in (
        (">(cat)", f"{TOOL} get {place} >(cat > by_shell); wait $!", "by_shell"),
        ("- in a named pipe, as the refusal says", f"cat further/pipe > by_pipe & {TOOL} get {place} - > further/pipe && wait $!", "by_pipe"),
    ):
        done = subprocess.run(["bash", "-c", words], cwd=rows.folder, capture_output=True, timeout=20)
        rows.row(f"onto {what}", done.returncode == 0 and (rows.folder / file).read_bytes() == WHOLE, done)
    server.close()


def appearing(rows):
    """A named pipe that takes the name while the file is fetched is not waited for."""
    for name, before in (("late", None), ("null", "/dev/null")):
        place = rows.folder / name
        if before:
            place.symlink_to(before)

        def meddled(session, _):
            if place.is_symlink():
                place.unlink()
            os.mkfifo(place)
            session.send(WHOLE)

        server = FakeServer({"SIZE": f"213 {len(WHOLE)}", "RETR": meddled})
        done = subprocess.run([TOOL, "get", f"127.0.0.1:{server.port}/f", name], cwd=rows.folder, stdin=subprocess.DEVNULL, capture_output=True, timeout=20)
        server.close()
        holds = done.returncode == 3 and b"named pipe" in done.stderr and place.is_fifo()
        rows.row(f"a named pipe comes in the place of {before or 'nothing'}: refused", holds, done)


def others(rows):
    with socket.socket(socket.AF_UNIX) as listening:
        listening.bind(str(rows.folder / "socket"))
        status, _, told = get(rows, "socket")
    rows.row("onto a socket: refused, and it stays", status == 3 and (rows.folder / "socket").is_socket() and b"socket: " in told, (status, told))
    status, _, told = get(rows, "/dev/null")
    rows.row("onto /dev/null", status == 0 and not os.path.isfile("/dev/null"), (status, told))
    status, octets, told = get(rows, "/dev/stdout")
    rows.row("onto /dev/stdout, a pipe", (status, octets) == (0, WHOLE) and os.path.islink("/dev/stdout"), (status, len(octets), told))
    status, octets, told = get(rows, "-")
    rows.row("onto -", (status, octets) == (0, WHOLE) and not (rows.folder / "-").exists(), (status, len(octets), told))
    for name in ("/dev/stdout", "-"):
        log = rows.folder / "log"
        log.write_bytes(b"before\n")
        with open(log, "ab") as out:
            status, _, told = get(rows, name, stdout=out)
        rows.row(f"onto {name}, a file that is appended to", status == 0 and log.read_bytes() == b"before\n" + WHOLE, (status, told))


def main():
    rows = Rows()
    links(rows)
    pipes(rows)
    open_pipes(rows)
    appearing(rows)
    others(rows)
    rows.finish()


main()
