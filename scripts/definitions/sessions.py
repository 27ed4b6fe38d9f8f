"""Several sessions of one server over one map, by drawn turns, and the laws of `laws_server` at the values of each turn.

At each turn the session of a drawn slot is called with what its view asks for, or now and then with what it doesn't. After it:

- of the specs: `MapsFollow`, `AllStaySmall`, `OthersOvertake`, and of each upload under way `EndsAreDirect`; of each line that may be
  acted on `LinesAreDirect`, `OthersLeaveTheMap` and `LinesChangeTheMap`; of the whole history `EachIsServer`, of sessions below
  different roots `CompanyIsUnseen`; that the map is a tree;
- in words of this file: an upload that ends early leaves what others put at its path meanwhile (but for a file of equal length and
  moment, which can't be told from it); LIST and NLST without an argument are 550 where a file took the current directory's place; and
  a session alone is `played` by single calls."""
import copy
import random
import time
import terms
from terms import Fn, V, con, holds, rec, upd
from defs import reading, show
from natives import NONE
from world import Bad

PATHS = [b'a', b'd', b'd/a', b'/a', b'n', b'/d']
ENDPOINTS = [b'PASV', b'PASV', b'EPSV', b'PORT 127,0,0,1,7,138', b'EPRT |1|127.0.0.1|1930|']
SETTINGS = [b'TYPE I', b'TYPE I', b'TYPE A', b'MODE B', b'MODE S', b'STRU R', b'STRU F']
OTHERS = [b'CWD d', b'CWD /d', b'CDUP', b'PWD', b'MKD n', b'MKD d', b'RMD d', b'RMD n', b'DELE a', b'DELE d', b'DELE d/a', b'MLST', b'MLST a', b'SIZE a',
          b'MDTM a', b'NOOP', b'REIN', b'X', b'ABOR', b'STAT']
RENAMES = [(b'RNFR a', b'RNTO n'), (b'RNFR n', b'RNTO a'), (b'RNFR d', b'RNTO n'), (b'RNFR a', b'RNTO d'), (b'RNFR d/a', b'RNTO a')]
LISTINGS = [b'LIST', b'NLST', b'LIST d', b'NLST d', b'MLSD', b'MLSD d', b'LIST a']


COUNTS = {'alone': 0, 'overtaken': 0, 'not told apart': 0, 'listings of a file': 0}
LAWS = ('maps_follow', 'all_stay_small', 'ends_are_direct', 'others_overtake', 'lines_are_direct', 'others_leave_the_map', 'lines_change_the_map')


def lines_drawn(r):
    """Some command lines that belong together."""
    k = r.random()
    if k < .45:
        path = r.choice(PATHS)
        rest = [b'REST %d' % r.randrange(4)] if r.random() < .2 else []
        return [r.choice(ENDPOINTS)] + rest + [r.choice([b'STOR ', b'STOR ', b'APPE ', b'RETR ']) + path]
    if k < .6:
        return [r.choice(ENDPOINTS), r.choice(LISTINGS)]
    if k < .7:
        return [r.choice(SETTINGS)]
    if k < .8:
        return list(r.choice(RENAMES))
    return [r.choice(OTHERS)]


def octets_drawn(r):
    return bytes(r.choice(b'ab\n\r') for _ in range(r.choice([0, 1, 1, 2, 3])))


def table_drawn(n, r):
    entries = {b'd': None} if r.random() < .8 else {}
    for path in (b'a', b'n') + ((b'd/a',) if entries and r.random() < .4 else ()):
        if r.random() < .6:
            entries[path] = (octets_drawn(r), r.choice([5, 1000]))
    limits = dict(file=r.choice([2, 3, 5]), total=r.choice([3, 6, 9]), nodes=r.choice([3, 5, 9])) if r.random() < .2 else {}
    return n.some_tree(entries, **limits)


def accounts_of(n, roots):
    return tuple(n.account(b'u%d' % k, None, [bytes(name) for name in root]) for k, root in enumerate(roots))


class Watch:
    """An upload under way: its path, what stood there when it was begun and what stands there now, and whether others changed that."""

    def __init__(self, path, began, now, others=False):
        self.path, self.began, self.now, self.others = path, began, now, others


class Sessions:
    """A map and sessions in their slots, each with its root."""

    def __init__(self, d, table, roots):
        self.d, self.n = d, d.names
        self.roots, self.count = roots, len(roots)
        start = d.server_start(table, accounts_of(self.n, roots), self.n.HERE, self.n.HERE)
        self.first = self.s = rec(table=table, slots=tuple(d.in_slot_again(table, start) for _ in roots))
        self.turns, self.gifts, self.watched = (), (), (None,) * self.count
        self.moment = 1000

    def branch(self):
        """The same sessions once more, for another turn than the next."""
        return copy.copy(self)

    # -- one turn, and what has to hold of it

    def turn(self, slot, cue):
        """The session in a slot is called; Bad where a law doesn't hold of that."""
        d, old = self.d, self.s
        turn = rec(slot=slot, cue=cue)
        sits = old.slots[slot]
        v = d.lent_to(old.table, sits)
        self.at_hand(turn, sits, v)
        self.laws()
        gift, self.s = d.called(d.reading, turn, old)
        self.turns += (turn,)
        self.gifts += (gift,)
        self.of_uploads(slot, v)
        if not holds(d.is_tree(self.s.table)):
            raise Bad('IsTree: no longer, with %s' % show(self.s.table))

    def at_hand(self, turn, sits, v):
        """The values that the laws are asked for."""
        d, s, session = self.d, self.s, v.session
        link = session.connection
        hand = dict(turn=[(d.reading, turn, s, sits)], ends=[], commands=[], lines=[], mapped=[])
        hand['under way'], hand['opening'] = [], []
        upload = upload_of(session)
        if upload is not None:
            path, keep, decoder = upload.a
            hand['ends'] = [(self.moment, path, k, decoder, session) for k in (keep, con(keep.t.replace('Overtaken', ''), *keep.a))]
            if sits.stood.t == 'Some':
                own = (s.table, sits.stood.a[0], path, keep, decoder)
                hand['under way' if link.t == 'Transferring' else 'opening'] = [own + link.a[1:] + (sits.view,)]
        if turn.cue.t == 'Hear' and turn.cue.a[0][-2:] == (13, 10) and d.is_idle(v):
            heard = d.read(turn.cue.a[0][:-2])
            line = (v.context, heard, session.pending, upd(session, pending=con('Nothing')))
            hand['lines'] = [line]
            hand['mapped'] = [(con('Unchanged'),), (con('Changes', d.seen(d.decided(*line)[0])),)]
            if heard.t == 'Asks':
                hand['commands'] = [(v.context, heard.a[0], line[2], line[3], op, self.moment) for op in self.operations(heard.a[0], line)]
                self.of_listing(heard.a[0], line)
        d.at_hand = hand

    def operations(self, command, line):
        """The operations that a command may ask for (`Asks` decides)."""
        context, heard, pending, s = line
        text = command.a[0] if command.a else ()
        optional = text.a[0] if isinstance(text, V) and text.t == 'Some' else ()
        how = rec(representation=s.settings, marks=False, active=False, extended=False)
        hows = [upd(how, marks=m) for m in (False, True)]
        one = {'Pwd': 'Where', 'Cwd': 'ChangeDir', 'Cdup': 'Up', 'Mkd': 'MakeDir', 'Rmd': 'RemoveDir', 'Dele': 'Delete', 'Mdtm': 'Modified'}
        if command.t in one:
            return [con(one[command.t], *command.a)]
        if command.t == 'Rnto' and pending.t == 'Rename':
            return [con('Rename', self.n.put_operations(pending.a[0], rec(a=(0,)), ())[0][0], text)]
        if command.t == 'Mlst':
            return [con('Facts', optional)]
        of = {'Retr': lambda h: con('GetFrom', text, pending.a[0], h) if pending.t == 'Restart' else con('Get', text, h),
              'List': lambda h: con('Text', con('List'), optional, h), 'Nlst': lambda h: con('Names', optional, h),
              'Mlsd': lambda h: con('List', optional, h), 'Size': lambda h: con('Size', text, h)}
        return [of[command.t](h) for h in hows] if command.t in of else []

    def laws(self):
        for name in LAWS:
            p = getattr(self.d, name)()
            if not holds(p):
                raise Bad('%s: %s' % (name, terms.why_not(p)))

    # -- in words of this file

    def node(self, table, path):
        return table.map.d.get(path)

    def of_uploads(self, slot, v):
        """An upload that ends early leaves what others put at its path."""
        new, watched = self.s, list(self.watched)
        for k, watch in enumerate(watched):
            if watch and k != slot and self.node(new.table, watch.path) != watch.now:
                watched[k] = Watch(watch.path, watch.began, self.node(new.table, watch.path), True)
        session, watch = new.slots[slot].view.session, watched[slot]
        upload = upload_of(session)
        if watch and upload is None:
            broke = b'426 ' in bytes(new.slots[slot].view.owed[len(v.owed):])
            kind = 'alone' if not watch.others else 'not told apart' if alike(watch.began, watch.now) else 'overtaken'
            COUNTS[kind] += broke
            if broke and kind == 'overtaken' and self.node(new.table, watch.path) != watch.now:
                raise Bad('Overtaken: what others put at %s is gone: %s, now %s' % (show(watch.path), show(watch.now), self.node(new.table, watch.path)))
            watched[slot] = None
        elif upload is not None and not watch:
            path = session.root + upload.a[0]
            watched[slot] = Watch(path, self.node(new.table, path), self.node(new.table, path))
        self.watched = tuple(watched)

    def of_listing(self, command, line):
        """LIST and NLST without an argument where a file took the place of the current directory."""
        s = line[3]
        if command.t in ('List', 'Nlst') and command.a[0] == NONE and s.access.t == 'Known':
            node = self.node(self.s.table, s.root + s.cwd)
            if node is not None and node.t == 'File':
                COUNTS['listings of a file'] += 1
                session, reply = self.d.decided(*line)
                if reply.t != 'Fixed' or reply.a[0].t != 'Refused':
                    raise Bad('Listing: %s of a file is answered by %s' % (command.t, show(reply)))

    # -- the whole history

    def at_end(self):
        d, turns = self.d, self.turns
        d.at_hand = dict(histories=[(d.reading, turns, self.first, k, self.first.slots[k]) for k in range(self.count)])
        if not holds(d.each_is_server()):
            raise Bad('EachIsServer')
        if self.count == 1:
            cues, v = tuple(t.cue for t in turns), self.first.slots[0].view
            if d.played(d.reading, cues, v) != self.gifts or d.left_by(d.reading, cues, v).session.table != self.s.table:
                raise Bad('Alone: a session alone is not the server of single calls')
        if len(set(self.roots)) > 1:
            roots = Fn(1, lambda k: self.roots[k] if k < self.count else ((120,),))
            ours = Fn(1, lambda k: k == 0)
            d.at_hand = dict(company=[(d.reading, self.roots[0], ours, roots, turns, self.first)])
            if not holds(d.company_is_unseen()):
                raise Bad('CompanyIsUnseen')


def alike(a, b):
    """Whether two nodes can't be told apart by kind, length and moment."""
    if a is None or b is None or a.t == 'Dir' or b.t == 'Dir':
        return a == b
    return len(a.a[0]) == len(b.a[0]) and a.a[1] == b.a[1]


def upload_of(session):
    """The upload that a session has, its data connection open or still to come, or None."""
    link = session.connection
    return link.a[0] if link.t in ('Opening', 'Transferring') and link.a[0].t == 'Upload' else None


class Drawn:
    """What sessions begin with, and their calls, by a seed."""

    def __init__(self, d, seed):
        self.d, self.n, self.r = d, d.names, random.Random(seed)
        n, r = self.n, self.r
        count = r.choice([1, 2, 2, 2, 3])
        # each session below its own root, or all at the root of the map
        self.apart = count > 1 and r.random() < .2
        self.roots = (((100,),), ((101,),), ((101,),))[:count] if self.apart else ((),) * count
        both = {b'd': None, b'e': None, b'd/a': (b'ab', 5), b'e/a': (b'b', 5), b'd/d': None, b'e/d': None}
        self.table = n.some_tree(both) if self.apart else table_drawn(n, r)
        self.lines = [[b'USER u%d' % k] for k in range(count)]
        if count > 1 and r.random() < .3:
            # the current directory of one may become a file of another
            self.lines[0] += [b'CWD d'] + [r.choice([b'PASV', b'LIST', b'NLST', b'MLSD']) for _ in range(9)]
            self.lines[1] += [b'TYPE I', b'DELE d/a', b'RMD d', b'PASV', b'STOR d']

    def cue(self, x, slot):
        """A call of the session in a slot: mostly what it wants."""
        d, r = self.d, self.r
        v = d.lent_to(x.s.table, x.s.slots[slot])
        want = d.server_wants(v)
        k = r.random()
        if k < .04:
            x.moment += r.choice([0, 1])
            return con('Clock', x.moment)
        if k < .1 or len(v.owed) > 4000:
            return con('ControlOut', r.choice([1, 4096]))
        if k < .11:
            return con('ControlEnd')
        if k < .14:
            return r.choice([con('DataFault'), con('DataEnd'), con('DataClosed'), con('DataRefused'), con('ListenRefused'), con('AsksWants'),
                             con('DataOpened', self.n.HERE)])
        if k < .18:
            return con('Hear', tuple(b'ABOR\r\n'))
        if want.t == 'Listen':
            return con('Listening', 1930)
        if want.t == 'Connect' or want.t == 'Accept' and k < .6:
            return con('DataOpened', self.n.HERE)
        if want.t == 'Receive':
            return con('DataHear', tuple(octets_drawn(r))) if k < .6 else r.choice([con('DataEnd'), con('DataFault')])
        if want.t == 'Send':
            return con('DataOut', r.choice([1, 4096]))
        if want.t == 'CloseData':
            return con('DataClosed')
        if not self.lines[slot]:
            self.lines[slot] = lines_drawn(r)
        line = tuple(self.lines[slot][0] + b'\r\n')
        if d.server_may_hear(v):
            self.lines[slot].pop(0)
        return con('Hear', line)


def happens(x, slot, cue):
    """Why a law doesn't hold at a turn, or None."""
    try:
        x.turn(slot, cue)
    except (Bad, *terms.FAILURES) as b:
        return '%s: %s' % (type(b).__name__, b) if type(b) is not Bad else str(b)
    return None


def play(d, seed, turns=None, most=160):
    """The sessions, and why a law doesn't hold, or None. Given turns are played in the place of drawn ones."""
    drawn = Drawn(d, seed)
    x = Sessions(d, drawn.table, drawn.roots)
    for k in range(most if turns is None else len(turns)):
        slot = drawn.r.randrange(x.count) if turns is None else turns[k].slot
        err = happens(x, slot, drawn.cue(x, slot) if turns is None else turns[k].cue)
        if err:
            return x, err
    try:
        x.at_end()
    except (Bad, *terms.FAILURES) as b:
        return x, '%s: %s' % (type(b).__name__, b) if type(b) is not Bad else str(b)
    return x, None


def fewer(d, seed, turns, err):
    """Turns without which the same law still fails are left out."""
    kind, k = err.split(':')[0], 0
    while k < len(turns):
        tried = turns[:k] + turns[k + 1:]
        again = play(d, seed, tried)[1]
        if again and again.split(':')[0] == kind:
            turns = tried
        else:
            k += 1
    return turns


# -- two sessions, all interleavings of their calls

def hear(*lines):
    return [con('Hear', tuple(line + b'\r\n')) for line in lines]


def upload(lines, octets, *ending):
    """The calls of an upload of type I over an active data connection, whose last lines are given."""
    return hear(b'TYPE I', b'PORT 127,0,0,1,7,138', *lines) + [con('DataOpened', con('V4', (127, 0, 0, 1))), con('DataHear', tuple(octets)), *ending,
                                                               con('DataClosed')]


BREAK, END, ABOR = con('DataFault'), con('DataEnd'), con('Hear', tuple(b'ABOR\r\n'))
ONE = {
    'STOR, broken': upload([b'STOR a'], b'xyz', BREAK),
    'STOR, whole': upload([b'STOR a'], b'xyz', END),
    'STOR, aborted': upload([b'STOR a'], b'x', ABOR),
    'APPE, broken': upload([b'APPE a'], b'x', BREAK),
    'REST and STOR, broken': upload([b'REST 1', b'STOR a'], b'x', BREAK),
    'STOR in blocks, not whole': upload([b'MODE B', b'STOR a'], b'\0\0\1x', END),
    'STOR, the control connection ends': upload([b'STOR a'], b'x', con('ControlEnd')),
    'STOR into a directory, broken': upload([b'STOR d/n'], b'x', BREAK),
    'CWD and listings': hear(b'CWD d', b'LIST', b'NLST', b'PORT 127,0,0,1,7,138', b'LIST'),
}
OTHER = {
    'DELE': hear(b'DELE a'), 'DELE and MKD': hear(b'DELE a', b'MKD a'), 'renamed away and back': hear(b'RNFR a', b'RNTO b', b'RNFR b', b'RNTO a'),
    'another in its place': hear(b'RNFR n', b'RNTO a', b'DELE a', b'RNFR n', b'RNTO a'), 'STOR, whole': upload([b'STOR a'], b'pq', END),
    'STOR, broken': upload([b'STOR a'], b'pq', BREAK), 'APPE, broken': upload([b'APPE a'], b'p', BREAK),
    'its directory is renamed': hear(b'RNFR d', b'RNTO e', b'MKD d'), 'its directory becomes a file': hear(b'RMD d') + upload([b'STOR d'], b'p', END),
}


def interleavings(d, first, second, table):
    """(states, why a law doesn't hold or None, turns): all orders in which two sessions make their calls."""
    start = Sessions(d, table, ((), ()))
    for slot in (0, 1):
        start.turn(slot, con('Hear', tuple(b'USER u%d\r\n' % slot)))
    seen, todo = set(), [(start, 0, 0)]
    while todo:
        x, i, j = todo.pop()
        for slot, cues, k in ((0, first, i), (1, second, j)):
            if k == len(cues):
                continue
            y = x.branch()
            y.moment += 1
            err = happens(y, slot, cues[k])
            if err:
                return len(seen), err, y.turns
            state = (y.s, i + (slot == 0), j + (slot == 1))
            if state not in seen:
                seen.add(state)
                todo.append((y,) + state[1:])
    return len(seen), None, ()


def exhaust(d, quiet=False):
    """(pairs in whose every interleaving all held, pairs in which something did not)"""
    d.scale({})
    d.reading = reading(d)
    good = bad = states = 0
    t0 = time.time()
    table = d.names.some_tree({b'a': (b'ab', 5), b'n': (b'q', 7), b'd': None})
    for name, first in ONE.items():
        for other, second in OTHER.items():
            count, err, turns = interleavings(d, first, second, table)
            states += count
            good += not err
            bad += bool(err)
            if err and quiet:
                return good, bad
            if err:
                print('COUNTEREXAMPLE %s; %s' % (name, other))
                for t in turns:
                    print('     ', t.slot, show(t.cue))
                print('   =>', err[:2000], flush=True)
    if not quiet:
        print('%d pairs, %d states; uploads that broke: %s; %.0f s' % (good + bad, states, counted(), time.time() - t0))
    return good, bad


def counted():
    return ', '.join('%s %d' % kv for kv in COUNTS.items())


def run(d, count, seed, only=None, quiet=False):
    """(worlds in which all held, worlds in which something did not)"""
    d.scale({})
    d.reading = reading(d)
    bad, turns, t0 = 0, 0, time.time()
    for i in [only] if only is not None else range(seed * 1000003, seed * 1000003 + count):
        x, err = play(d, i)
        turns += len(x.turns)
        if err:
            bad += 1
            if bad < 4 and not quiet:
                few = fewer(d, i, x.turns, err)
                print('COUNTEREXAMPLE (again: --world %d) of %d sessions over %s' % (i, x.count, show(x.first.table)))
                for t in few:
                    print('     ', t.slot, show(t.cue))
                print('   =>', err[:2000], flush=True)
    if not quiet:
        print('%d turns; uploads that broke: %s; %.0f s' % (turns, counted(), time.time() - t0))
    return (1 if only is not None else count) - bad, bad
