"""Drawn command lines: `IsLineRead` has to hold of exactly one of the answers that come into question (names.readings)."""
import random
import time
import terms
from bounds import server_line
from defs import show


def draw(n, d, r):
    line = server_line(n, d, r).rstrip(b'\r\n')
    while line and r.random() < .35:
        i = r.randrange(len(line))
        c = bytes([r.choice(b' |,.0123456789:aAzZ-;\xff\t')])
        line = r.choice([line[:i] + c + line[i + 1:], line[:i] + c + line[i:], line[:i] + line[i + 1:], line.lower()])
    return tuple(line)


def run(d, n, seed):
    """(good lines, lines that are read in no way or in several)"""
    r, bad, kinds, t0 = random.Random(seed), 0, {}, time.time()
    for i in range(n):
        line = draw(d.names, d, r)
        try:
            h = d.read(line)
            k = d.names.reading_kind(h)
            kinds[k] = kinds.get(k, 0) + 1
        except terms.FAILURES as e:
            bad += 1
            if bad <= 10:
                print('COUNTEREXAMPLE', show(line), e)
    print(', '.join('%s %d' % kv for kv in sorted(kinds.items())))
    print('%d of %d lines bad, %.0f s' % (bad, n, time.time() - t0))
    return n - bad, bad
