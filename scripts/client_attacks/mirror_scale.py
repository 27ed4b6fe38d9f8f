#!/usr/bin/env python3
"""The time of a mirror grows neither with the square of a directory nor with a power of the stars of a pattern."""
import os
import resource
import subprocess

from hostile import Rows
from shelf import Shelf

MOMENT = 1_577_836_800
ENTRIES = 100_000
SECONDS = 40


def spent():
    used = resource.getrusage(resource.RUSAGE_CHILDREN)
    return used.ru_utime + used.ru_stime


def listed(names):
    return b"".join(b"type=file;size=0;modify=20200101000000; " + name + b"\r\n" for name in names)


def run(rows, names, folder, *words):
    """A mirror of a listing of these names: its status, its processor time, and what it told."""
    shelf = Shelf({}, lists={"": listed(names)})
    before = spent()
    try:
        status, _, told = rows.tool("mirror", shelf.place, folder, *words, seconds=SECONDS)
    except subprocess.TimeoutExpired:
        status, told = None, b"it did not end"
    shelf.server.close()
    return status, spent() - before, told[-200:]


def patterns(rows):
    cases = [(f"{'*a' * stars}*b", b"a" * 255) for stars in (1, 2, 4, 11)] + [("*cache*.tmp*~", b"cache" + b".tmp" * 60)]
    for pattern, name in cases:
        status, seconds, told = run(rows, [name], "./none", "--dry-run", "--exclude", pattern)
        rows.row(f"a name of {len(name)} octets, --exclude {pattern}", status == 0 and seconds < 5, (status, seconds, told))
    for size in (10_000, 1_000_000):
        status, _, told = run(rows, [b"a" * size], "./none", "--dry-run", "--exclude", "*x")
        rows.row(f"a name of {size} octets: no crash", status in (0, 1), (status, told))


def directories(rows):
    names = [b"file-with-a-common-front-%08d" % number for number in range(ENTRIES)]
    folder = rows.folder / "both"
    folder.mkdir()
    times = {}
    for count in (0, 100, 800):
        for name in names[:count]:
            path = os.fsencode(folder) + b"/" + name
            open(path, "wb").close()
            os.utime(path, (MOMENT, MOMENT))
        status, times[count], told = run(rows, names[:count], "./both")
        rows.row(f"{count} entries at both ends: nothing is copied", status == 0 and told.startswith(b"0 files"), (status, told))
    grown = times[800] - times[0] < 24 * max(times[100] - times[0], 0.02)
    rows.row("eight times as many take less than 24 times as long", grown, times)
    status, seconds, told = run(rows, names, "./none", "--dry-run")
    rows.row(f"{ENTRIES:,} entries, --dry-run", status == 0, (status, seconds, told))


def main():
    rows = Rows()
    patterns(rows)
    directories(rows)
    rows.finish()


if __name__ == "__main__":
    main()
