"""SettlingFalls of worlds that no session comes to: octets that neither end gave stand in a queue of a drawn world, and all that settles is
done. Telnet commands to the client are left out: a server gives none, and the client's answers to them are not counted by SettlingFalls."""
import random
import time
import terms
from terms import con, upd
from world import Bad, World

REPLIES = [b'200 Ok', b'150 Now', b'226 Done', b'426 Broken', b'425 No', b'550 No', b'110 MARK 5 = 5', b'227 (127,0,0,1,7,138)', b'229 (|||1930|)',
           b'257 "/d"', b'213 5', b'350 Go', b'220-a\r\n b\r\n220 c',
           b'332 x', b'421 Bye', b'x']
LINES = [b'USER anonymous', b'PASV', b'EPSV', b'EPSV ALL', b'PORT 127,0,0,1,7,138', b'LIST', b'RETR a', b'STOR n', b'MLSD', b'ABOR', b'NOOP', b'FEAT',
         b'REIN', b'QUIT', b'X', b'PWD', b'TYPE I', b'REST 1']
TELNET = [b'\xff\xfd\x01', b'\xff\xfb\x02', b'\xff\xfe\x01', b'\xff\xfa\x01x\xff\xf0', b'\xff\xf1']
KINDS = {
    'lines to the server': ('control_to_server', lambda r: b''.join(r.choice(LINES) + b'\r\n' for _ in range(r.randrange(1, 4)))),
    'Telnet octets to the server': ('control_to_server', lambda r: r.choice(TELNET) + b'NOOP\r\n'),
    'replies to the client': ('control_to_client', lambda r: b''.join(r.choice(REPLIES) + b'\r\n' for _ in range(r.randrange(1, 4)))),
    'data to the server': ('data_to_server', lambda r: bytes(r.choice(b'a\r\n\xff\x01\x40\x10\x20\0') for _ in range(r.randrange(1, 9)))),
    'data to the client': ('data_to_client', lambda r: bytes(r.choice(b'a\r\n\xff\x01\x40\x10\x20\0') for _ in range(r.randrange(1, 9)))),
}


def play(d, seed):
    """(kind, error or None)"""
    n, r = d.names, random.Random(seed)
    c = n.draw_world(seed, False, r)
    d.scale(c['numbers'])
    world = World(d, n.begin(c), r, r.random() < .5)
    kinds = [(k, e) for k, e in n.EVENTS.items() if e['kind'] != 'fault']
    left = r.choice([1, 2, 3])
    for _ in range(r.choice([10, 60, 150, 300])):
        k, e = r.choices(kinds, [0 if e['kind'] == 'begins' and not left else e['weight'] for k, e in kinds])[0]
        a = e['draw'](r, c, world.w)
        if a is not None and world.step(con(k, *a)):
            left -= e['kind'] == 'begins'
    kind = r.choice(list(KINDS))
    queue, draw = KINDS[kind]
    old = getattr(world.w, queue)
    # in front: in the middle of a line it would be another text
    world.w = upd(world.w, **{queue: tuple(draw(r)) + old if r.random() < .5 else old + tuple(draw(r))})
    evs = [con('Deliver', q, m) for q in n.QUEUES for m in (1, 3, 4096, 0)] + [con('Open')] + [con('End', q) for q in n.QUEUES]
    try:
        for _ in range(3000):
            r.shuffle(evs)
            if not any(world.step(ev) for ev in evs):
                return kind, None
        return kind, 'comes to no end'
    except Bad as b:
        return kind, str(b)


def run(d, n, seed):
    """(worlds in which it falls at each step, worlds in which it doesn't)"""
    t0, of = time.time(), {}
    for i in range(n):
        try:
            kind, err = play(d, seed * 1000003 + i)
        except terms.FAILURES as e:
            kind, err = 'no answer', '%s: %s' % (type(e).__name__, e)
        a = of.setdefault(kind, [0, 0, None])
        a[0] += 1
        if err:
            a[1] += 1
            if a[2] is None or len(err) < len(a[2]):
                a[2] = err
    d.scale({})
    for k, (m, bad, err) in sorted(of.items()):
        print('%s: %d of %d do not fall%s' % (k, bad, m, '' if not err else '\n    ' + err[:900]))
    print('%d worlds, %.0f s' % (n, time.time() - t0))
    bad = sum(a[1] for a in of.values())
    return n - bad, bad
