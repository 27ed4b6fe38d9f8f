"""The claims of single items, for all marks of at most so many links: an upload over breaks that is done has put all its octets
(DoneIsWhole), tries seldom enough (TriesAreFew), and a Peek has the direct answer unless its link broke early (PeekIsDirect). The states are
any, also ones that no session comes to: a map that is no tree, a root that is no directory, a login that is not known."""
import itertools
import time
from defs import show
from natives import FinMap, NONE
from terms import con, rec, some, upd
from world import Bad

# mode, other numbers in the place of constants, limits of the map
SETTINGS = (('S', {}, {}), ('B', dict(marker=2, block=1), {}), ('B', dict(marker=2, block=4), {}), ('S', {}, dict(file=2, total=9, nodes=9)))
CUTOFFS = ((NONE, 0), (some(1), 0), (some(0), 0), (some(2), 0))


def states(n, limits):
    for entries in ({}, {b'f': (b'xyz', 5)}, {b'f': (b'ab', 5)}, {b'f': None}, {b'd': None, b'd/f': (b'', 1), b'f': (b'abcdef', 2)}):
        yield rec(table=n.some_tree(entries, **limits), root=(), cwd=(), known=True, rights=n.ALL_RIGHTS)
    below = n.some_tree({b'd': None, b'd/f': (b'q', 1), b'f': (b'abcdef', 2)}, **limits)
    yield rec(table=below, root=(tuple(b'd'),), cwd=(), known=True, rights=n.ALL_RIGHTS)
    yield rec(table=below, root=(), cwd=(tuple(b'd'),), known=True, rights=n.ALL_RIGHTS)
    yield rec(table=below, root=(tuple(b'no'),), cwd=(), known=True, rights=n.ALL_RIGHTS)
    yield rec(table=below, root=(), cwd=(), known=False, rights=n.ALL_RIGHTS)
    yield rec(table=upd(below, map=FinMap({(tuple(b'a'), tuple(b'f')): n.file(b'x', 1)})), root=(), cwd=(), known=True, rights=n.ALL_RIGHTS)      # no tree


def orders(n, mode):
    """Uploads over breaks and Peeks."""
    for octets in (b'', b'a', b'abcde'):
        for marks in (False, True):
            yield con('Tries', n.over_breaks(b'f', octets, n.how('I', 'F', mode, False, False, marks)), 7)
    yield con('Tries', n.over_breaks(b'f', b'abc', n.how('A', 'F', mode)), 7)
    for count in (0, 1, 2, 3, 9):
        for kind, structure in itertools.product('AI', 'FR'):
            yield con('Single', n.op('Peek', b'f', count, n.how(kind, structure, mode)), 7)


def rows_of_marks(d, order, links):
    """All marks of at most so many links of an order; a break after each count of octets."""
    most = max(len(d.upload_text(order.a[0].how, 0, order.a[0].octets)) if order.t == 'Tries' else 12, 1)
    kinds = [con('Refused')] + [con('Broken', k) for k in range(most + 1)]
    for count in range((links if order.t == 'Tries' else 1) + 1):
        yield from itertools.product(kinds, repeat=count)


def cases(d, order, links, limits):
    """(state, marks, cutoff, index, item) of each item that holds."""
    n = d.names
    for marks in rows_of_marks(d, order, links):
        for state, (cutoff, index) in itertools.product(states(n, limits), CUTOFFS[:1] if len(marks) > 1 else CUTOFFS):
            for item in n.items(d, order, state, marks, cutoff, index):
                if d.holds(d.item_holds(state, order, marks, cutoff, index, item)):
                    yield state, marks, cutoff, index, item


def claims(d, order, state, cutoff, index, item):
    """Whether the item's report is Done; Bad where a claim doesn't hold."""
    n, report = d.names, d.item_did(state, item)[0]
    n.item_claims(d, state, order, item, cutoff, index, Bad)
    if not d.holds(d.is_reported(state, order, item, report)):
        return False
    n.whole_claims(d, state, order, item, report, Bad)
    return report.t == 'Done'


def run(d, links):
    """(items of which all claims hold, items of which one does not)"""
    n, t0, items, bad, done = d.names, time.time(), 0, 0, 0
    for mode, numbers, limits in SETTINGS:
        d.scale(numbers)
        for order in orders(n, mode):
            for state, marks, cutoff, index, item in cases(d, order, links, limits):
                items += 1
                try:
                    done += claims(d, order, state, cutoff, index, item)
                except Bad as b:
                    bad += 1
                    if bad < 5:
                        print('COUNTEREXAMPLE', numbers, limits, show(state), show(order), show(marks), str(b)[:1500])
        print('...', mode, numbers, limits, items, 'items', '%.0f s' % (time.time() - t0), flush=True)
    d.scale({})
    n.tell_claims()
    print('%d items, %d of them done; %.0f s' % (items, done, time.time() - t0))
    return items - bad, bad
