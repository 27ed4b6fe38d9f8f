#!/usr/bin/env python3
"""While files are fetched, another program replaces their parts, their names or their folders by links, folders, other files or nothing: nothing outside
is written, no file that stands has other octets than the server's, and the status is 0 only where all is there."""
import os
import shutil
import threading
import time

from hostile import Rows
from shelf import Shelf

FILES = {"a": b"a" * 400_000, "b": b"b" * 400_000, "d/e": b"e" * 400_000, "d/f": b"f" * 400_000, "d/g": b"g" * 100}
NAMES = ("link to a file", "link to a folder", "folder", "gone", "folder to link")
PARTS = ("part to link", "part gone", "part to another file", "part to a hard link")


def slow(session, argument):
    octets, session.offset = FILES[argument.strip("/")][session.offset:], 0
    session.reply("150 here")
    link = session.data.accept()[0]
    for begin in range(0, len(octets), 100_000):
        link.sendall(octets[begin:begin + 100_000])
        time.sleep(0.05)
    link.close()
    session.reply("226 done")


def replace_part(how, part, outside):
    """Puts something in the place of a part."""
    if not os.path.lexists(part) or part.is_symlink() or part.stat().st_ino == outside.stat().st_ino:
        return
    part.unlink()
    if how == "part to link":
        part.symlink_to(outside)
    elif how == "part to another file":
        part.write_bytes(b"OTHER")
    elif how == "part to a hard link":
        os.link(outside, part)


def replace_name(how, file, outside):
    """Puts something in the place of a file."""
    if how == "gone":
        file.unlink(missing_ok=True)
    elif os.path.lexists(file):
        return
    elif how == "link to a file":
        file.symlink_to(outside)
    elif how == "link to a folder":
        file.symlink_to(outside.parent)
    elif how == "folder":
        file.mkdir()


def replace_folder(folder, outside, count):
    if folder.is_dir() and not folder.is_symlink():
        folder.rename(folder.with_name(f"d.away{count}"))
        folder.symlink_to(outside.parent)


def meddle(how, into, outside, ended):
    count = 0
    while not ended.wait(0.03):
        count += 1
        for name in ("a", "b", "d/e", "d/f"):
            file = into / name
            try:
                if how == "folder to link":
                    replace_folder(into / "d", outside, count)
                elif how.startswith("part"):
                    replace_part(how, file.with_name(file.name + ".ftp-part"), outside)
                else:
                    replace_name(how, file, outside)
            except OSError:
                pass


def fetched(rows, program, parallel, how):
    shelf = Shelf({"d": None, **FILES}, says={"RETR": slow})
    top = rows.folder / "top"
    shutil.rmtree(top, ignore_errors=True)
    into, outside = top / "into", top / "outside" / "s"
    (into / "d").mkdir(parents=True)
    outside.parent.mkdir()
    outside.write_bytes(b"S")
    ended = threading.Event()
    meddling = threading.Thread(target=meddle, args=(how, into, outside, ended))
    meddling.start()
    words = ["mirror", shelf.place, "./top/into"] if program == "mirror" else ["get", f"{shelf.place}a", f"{shelf.place}b", "top/into/"]
    status, _, told = rows.tool(*words, "--parallel", parallel, seconds=60)
    ended.set()
    meddling.join()
    shelf.server.close()
    what = f"{program} --parallel {parallel}, {how}"
    there = {file.name: file.read_bytes() for file in outside.parent.iterdir() if file.is_file()}
    # a link that the user has at a file's name is followed by `get`
    own = [{"s": b"S"}] + ([{"s": FILES["a"]}, {"s": FILES["b"]}] if (program, how) == ("get", "link to a file") else [])
    rows.row(f"{what}: nothing outside is written", there in own, (status, {name: len(octets) for name, octets in there.items()}, told))
    wrong = [name for name in FILES if (into / name).is_file() and not (into / name).is_symlink() and (into / name).read_bytes() != FILES[name]]
    rows.row(f"{what}: no other octets", how == "folder to link" or not wrong, (status, wrong, told))
    if how.startswith("part"):
        rows.row(f"{what}: status 3, or 1 of a mirror", status == (1 if program == "mirror" else 3), (status, told))


def main():
    rows = Rows()
    for parallel in ("1", "3", "8"):
        for program in ("mirror", "get"):
            for how in (*NAMES, *PARTS):
                fetched(rows, program, parallel, how)
    rows.finish()


main()
