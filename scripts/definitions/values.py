"""Values that worlds are drawn from: maps, accounts, operations, what a world begins with, and its events."""
from names import DATA_DOWN, DATA_UP, QUEUES, TO_CLIENT, TO_SERVER, marks
from natives import FinMap, NONE
from terms import con, rec, some, upd

# ---- values ------------------------------------------------------------------------------------------------------------------------

DIR = con('Dir')                                  # ftp_tree Tree.Node


def file(octets, moment):
    return con('File', tuple(octets), moment)


ALL_RIGHTS = rec(put=True, replace=True, delete=True, make_dir=True, remove_dir=True, rename=True, onto=False)


def account(user, password, root=()):
    """ftp_operation Account; None is no password; the root as a row of names."""
    return rec(user=tuple(user), pass_=NONE if password is None else some(con('Plain', rec(items=tuple(password)))), root=tuple(tuple(n) for n in root),
               rights=ALL_RIGHTS)


def v4(*octets):
    return con('V4', octets)


def v6(*octets):
    return con('V6', octets)


def beginning(user, password, accounts, table, near_host, far_host):
    """world.Claims.Beginning"""
    return rec(user=tuple(user), pass_=tuple(password), accounts=accounts, table=table, near_host=near_host, far_host=far_host)


def beginning_with(b, table):
    """The same with another map."""
    return upd(b, table=table)


def how(kind, structure, mode, active=False, extended=False, marks=False):
    """ftp_operation How: 'A' or 'I', 'F' or 'R', 'S' or 'B'."""
    return rec(representation=rec(kind=con({'A': 'Ascii', 'I': 'Image'}[kind]), structure=con({'F': 'File', 'R': 'Record'}[structure]),
               mode=con({'S': 'Stream', 'B': 'Block'}[mode])), marks=marks, active=active, extended=extended)


def over_breaks(path, octets, h):
    """ftp_client_model Tries.OverBreaks"""
    return rec(path=tuple(path), octets=tuple(octets), how=h)


def op(name, *args):
    """An operation; texts as bytes."""
    return con(name, *[tuple(a) if isinstance(a, bytes) else a for a in args])


def order(operation, moment):
    return (operation, moment)


LIMITS = dict(file=67108864, total=67108864, nodes=16384)


def some_tree(entries, **limits):
    """A map with some limits; each entry is a path as text, and None or (octets, moment)."""
    d = {(): DIR}
    for path, node in entries.items():
        d[tuple(tuple(n) for n in path.split(b'/'))] = DIR if node is None else file(*node)
    return rec(limits=rec(**dict(LIMITS, **limits)), map=FinMap(d))


HERE, ELSEWHERE = v4(127, 0, 0, 1), v4(10, 0, 0, 9)
HERE6, ELSEWHERE6 = v6(*[0] * 15, 1), v6(32, 1, *[0] * 13, 7)
HOSTS = [(HERE, HERE), (HERE, ELSEWHERE), (HERE6, HERE6), (HERE6, ELSEWHERE6)]          # client's and server's
ACCOUNTS = (account(b'guest', b'secret'), account(b'anonymous', None), account(b'x\xff y ', b' p\xff '), account(b'e', b''))
LOGINS = [(b'guest', b'secret'), (b'guest', b'secret'), (b'anonymous', b''), (b'anonymous', b'me@'), (b'x\xff y ', b' p\xff '), (b'e', b'')]
# the same with roots: some below a directory that mostly stands, two of them below one, one where nothing stands
ROOTED = (account(b'guest', b'secret', [b'd']), account(b'anonymous', None, [b'e']), account(b'x\xff y ', b' p\xff ', [b'd']), account(b'e', b'', [b'no']))
WRONG_LOGINS = [(b'guest', b'wrong'), (b'nobody', b'x'), (b'e', b'x')]

# ---- operations: each with its arguments, and how often it is drawn ------------------------------------------------------------------

OPERATIONS = {
    'Where': (1, ()), 'ChangeDir': (2, ('folder',)), 'Up': (1, ()), 'MakeDir': (1, ('folder',)), 'RemoveDir': (1, ('folder',)),
    'Delete': (1, ('path',)), 'Rename': (2, ('source', 'path')), 'Put': (4, ('path', 'octets', 'how')), 'Append': (3, ('path', 'octets', 'how')),
    'PutFrom': (3, ('path', 'offset', 'octets', 'how')), 'Get': (3, ('path', 'how')), 'GetFrom': (3, ('path', 'offset', 'how')),
    'Size': (1, ('path', 'how')), 'Modified': (1, ('path',)), 'Facts': (1, ('optional',)), 'List': (1, ('optional', 'how')),
    'Names': (1, ('optional', 'how')), 'Text': (2, ('verb', 'optional', 'how')),
    'Peek': (3, ('path', 'count', 'how')),
}

CLOSE = [b'/a', b'a', b'/b', b'/a', b'/d/a']               # where files mostly stand
PATHS = [b'a', b'/a', b'b', b'd', b'/d', b'd/a', b'/d/b', b'd/e', b'e', b'n', b'/n', b'd/n', b'e/n', b'..', b'.', b'/', b'd/..', b'../a', b'//d//a',
         b'no/a', b'a/x', b'\xc3\xa9', b'd/\xc3\xa9']
ODD_PATHS = [b' ', b' a', b'a ', b'"', b'a"b', b'd/ x', b'\xc3\xa9', b'd/"', b'd/-x', b'-a', b'', b'\x01', b'a' * 256, b'/' + b'b' * 255, b'd/' * 450,
             b'a' * 901]


def draw_octets(r, c):
    if c['blocks']:
        return bytes(r.choice(b'ab\n') for _ in range(r.choice([0, 7, 8, 9, 15, 16, 17, 24, 31, 32, 33, 40])))
    return bytes(r.choice(b'ab\r\n\r\n\xff\0') for _ in range(r.choice([0, 0, 1, 1, 2, 3, 4, 5, 8, 12])))


def draw_how(r, c):
    if c['blocks'] and r.random() < .8:
        return how('I', 'F', 'B', r.random() < .5, r.random() < .3, r.random() < .8)
    if c['plain'] and r.random() < .7:
        return how('I', 'F', r.choice('SB'), r.random() < .5, r.random() < .3, r.random() < .5)
    return how(r.choice('AI'), r.choice('FR'), r.choice('SB'), r.random() < .5, r.random() < .3, r.random() < .5)


# how each argument of an operation is drawn; c is what was drawn for the world (see draw_world)
ARGUMENTS = {
    'path': lambda r, c: r.choice(ODD_PATHS if r.random() < .04 else CLOSE if r.random() < c['close'] else PATHS),
    'folder': lambda r, c: r.choice(PATHS if r.random() < .3 else [b'd', b'/d', b'e', b'd/e', b'/n', b'..']),
    'source': lambda r, c: r.choice(PATHS if r.random() < .3 else [b'a', b'd', b'/d', b'd/a', b'e']),
    'optional': lambda r, c: r.choice([b'', b'/d', b'd', b'/', b'a', b'-a', b'e']),
    'verb': lambda r, c: con(r.choice(['List', 'Nlst', 'Mlsd'])),
    'octets': draw_octets,
    'offset': lambda r, c: r.choice([0, 0, 0, 1, 1, 2, 3, 4, 9, 10 ** 18]),
    'count': lambda r, c: r.choice([0, 1, 2, 3, 5, 9]),
    'how': draw_how,
}


def upload_how(r, c):
    """Of an upload over breaks: mostly type I and file structure, as another is not sent."""
    h = draw_how(r, c)
    return h if r.random() < .1 else how('I', 'F', r.choice('SB'), h.active, h.extended, h.marks)


def draw_op(r, c):
    name = r.choices(list(OPERATIONS), [x[0] for x in OPERATIONS.values()])[0]
    return op(name, *[ARGUMENTS[a](r, c) for a in OPERATIONS[name][1]])


# ---- a drawn world -------------------------------------------------------------------------------------------------------------------

def draw_tree(r, c):
    entries = {}
    for path in (b'd', b'e', b'a', b'b', b'd/a', b'd/b', b'd/e', b'd/ x', b'd/"', b' a', b'd/d', b'd/d/a'):
        up = path.rpartition(b'/')[0]
        if r.random() < (.9 if path in (b'a', b'b', b'd/a') else .75) and (not up or entries.get(up, 1) is None):
            entries[path] = None if r.random() < (.7 if path in (b'd', b'e') else .1) else (draw_octets(r, c), r.randrange(0, 2000000000))
    if c['blocks']:
        entries[b'a'] = (bytes(r.choice(b'ab\n') for _ in range(r.choice([16, 17, 20, 33, 40]))), 3)
    return entries


def draw_world(seed, faults, r):
    """What a world begins with, and how its events are drawn."""
    c = dict(seed=seed, blocks=r.random() < .2, plain=r.random() < .5, close=r.choice([.3, .6, .9]))
    c['tree'] = draw_tree(r, c)
    c['login'] = r.choice(WRONG_LOGINS) if r.random() < .04 else r.choice(LOGINS)
    c['hosts'] = r.choice(HOSTS)
    c['rooted'] = r.random() < .3
    c['operations'] = r.choice([1, 2, 3, 3, 5, 8])
    # how many octets a delivery asks for; 0 moves and offers none
    c['counts'] = r.choice([(7, 64), (3, 20), (1, 5, 40), (4096, 9)]) if c['blocks'] else \
        r.choice([(1,), (1, 2, 3), (0, 1, 5, 40), (4096,), (7, 64), (0, 1, 2, 3, 5, 10, 4096)])
    # data first, control first, or no preference
    c['queues'] = r.choice([(1, 1, 1, 1), (1, 1, 5, 5), (5, 5, 1, 1), (1, 5, 1, 1), (1, 1, 1, .1), (1, 1, .1, 1)])
    c['faults'] = r.choice([.01, .02, .05, .1, .2]) if faults else 0
    c['ends'] = r.random() < .35                   # the control connection may end
    c['most'] = r.random() < .4                    # an end always gives and takes the most that it may
    c['numbers'] = dict(marker=16, block=8) if c['blocks'] else {}
    c['limits'] = {}
    if not c['blocks'] and r.random() < .4:
        files = [len(n[0]) for n in c['tree'].values() if n]
        c['limits'] = dict(file=max(files + [r.choice([1, 2, 3, 5, 8])]), total=sum(files) + r.choice([1, 2, 3, 9, 20]),
                            nodes=max(len(c['tree']) + r.choice([0, 0, 1, 5]), 1))
    return c


def begin(c):
    return beginning(c['login'][0], c['login'][1], ROOTED if c['rooted'] else ACCOUNTS, some_tree(c['tree'], **c['limits']), c['hosts'][0], c['hosts'][1])


# ---- events --------------------------------------------------------------------------------------------------------------------------
#
# Each event of world.Events.Event:
#   does(d, w, args, choose)  the world after it; `choose(most)` is a number from 1 to most, where the definitions leave it open
#   draw(r, c, w)             its arguments in a drawn world, or None where it doesn't come into question
#   weight                    how often it is drawn; of a fault, times c['faults']
#   kind                      'settling', 'fault' (breaks, refusals, ends of the control connection) or 'begins' (an operation)
#   tries                     its arguments wherever all that settles is tried; `steps` the same in `exhaust`, where each is a branch

def deliver(d, w, args, choose):
    """As Moves and Delivers say; what was chosen is left in d.chosen, for `Happens` (see QUANTIFIERS)."""
    queue, count = args
    d.chosen = []
    if count == 0:
        gave = choose(min(4096, len(d.due(queue, w))))
        d.chosen = [(gave,)]
        return d.settled(d.pulled(queue, w, gave))
    counts = []
    while d.due(queue, w) and len(d.in_queue(queue, w)) < count:
        counts.append(choose(min(count - len(d.in_queue(queue, w)), len(d.due(queue, w)))))
        w = d.pulled(queue, w, counts[-1])
    # one octet after the other, each when its turn came
    taken, x = 0, w
    most = min(count, len(d.in_queue(queue, w)))
    while taken < most and d.may_take(queue, x):
        old, x = x, d.pushed(d.reading, queue, 1, x)
        d.bounds_of_octet(queue, old, x)
        taken += 1
    taken = choose(taken)
    d.chosen = [(tuple(counts), taken)]
    return d.settled(d.pushed(d.reading, queue, taken, d.taking(queue, taken, w)))


def moves_few(ev):
    """Whether `Happens` is checked quickly: a delivery asks at each octet whether it may be taken."""
    return ev.t != 'Deliver' or ev.a[1] <= 40


def coarser(ev):
    """The same event with whole calls, for a shorter counterexample."""
    return con(ev.t, ev.a[0], 4096) if ev.t == 'Deliver' and ev.a[1] else ev


def draw_queue(weights):
    return lambda r, c, w: (r.choices(QUEUES, weights or c['queues'])[0],)


EVENTS = {
    'Deliver': dict(weight=60, kind='settling', does=deliver, draw=lambda r, c, w: draw_queue(None)(r, c, w) + (r.choice(c['counts']),),
                    tries=[(q, n) for q in QUEUES for n in (4096, 0)],
                    steps=[(TO_SERVER, 4096), (TO_CLIENT, 4096), (TO_CLIENT, 0)] + [(q, n) for q in (DATA_UP, DATA_DOWN) for n in (0, 1, 4096)]),
    'Open': dict(weight=10, kind='settling', does=lambda d, w, args, choose: d.settled(d.opens(w)), draw=lambda r, c, w: (), tries=[()], steps=[()]),
    'End': dict(weight=15, kind='settling', does=lambda d, w, args, choose: d.settled(d.told(args[0], w)), draw=draw_queue((1, 1, 2, 2)),
                tries=[(q,) for q in QUEUES], steps=[(q,) for q in QUEUES]),
    'Refuse': dict(weight=60, kind='fault', does=lambda d, w, args, choose: d.settled(d.refuses(w)), draw=lambda r, c, w: (), steps=[()]),
    'Break': dict(weight=100, kind='fault', does=lambda d, w, args, choose: d.settled(d.breaks(w)), draw=lambda r, c, w: (), steps=[()]),
    'EndControl': dict(weight=8, kind='fault', does=lambda d, w, args, choose: d.settled(d.ends_control(w)),
                       draw=lambda r, c, w: () if c['ends'] else None, steps=[()]),
    'Next': dict(weight=10, kind='begins', does=lambda d, w, args, choose: d.settled(d.begins(args[0], args[1], w)),
                 draw=lambda r, c, w: (draw_op(r, c), 946684800 + len(marks(w)))),
    'Upload': dict(weight=3, kind='begins', does=lambda d, w, args, choose: d.settled(d.begins_upload(args[0], args[1], w)),
                   draw=lambda r, c, w: (over_breaks(ARGUMENTS['path'](r, c), draw_octets(r, c), upload_how(r, c)), 946684800 + len(marks(w)))),
}
