"""Two drivers: drawn actions of a server's driver and of a client's, in an order in which each action can be done, with breaks found by either
end at any time. After each action the claims of a world: reports and map agree with what was begun, with some marks, now and where the control
connection ends then."""
import itertools
import random
import time
import defs
import terms
import world
from terms import con, rec, some, upd
from world import Agreement, Bad

# how a driver finds its data connection: it stands; it failed, and the end is not told; the end was told of a break, or of the end
SOUND, FAILED, BROKEN, OVER = 'Sound', 'Failed', 'Broken', 'Over'


class DataConnection:
    """What a driver has of its data connection: octets that its end gave and it has not written, and that it read and has not told its end."""

    def __init__(self, stands=False):
        self.stands, self.state, self.rest, self.unwritten, self.untold = stands, SOUND, False, (), ()


class Driver:
    """A driver of an end: the end's view, control octets that it read and its end has not heard, and its data connection.

    `link` is how the network sees its side of a data connection: none, awaits, called, has, ended or lost."""

    def __init__(self, pair, who, view):
        self.pair, self.who, self.v, self.unheard, self.data = pair, who, view, (), DataConnection()
        self.link, self.port = 'none', None
        self.control_to_read, self.data_to_read = (), ()

    def call(self, name, *a):
        """A definition of this end."""
        return getattr(self.pair.d, '%s_%s' % (self.who, name))(*a)

    def wants(self):
        return self.call('wants', self.v)

    def is_flushed(self):
        return not self.v.owed

    def is_sound(self):
        return self.data.stands and self.data.state == SOUND

    @property
    def peer(self):
        return self.pair.server if self is self.pair.client else self.pair.client


class Pair:
    """A server's driver and a client's, with the operations that are still to be begun; `c` is what was drawn for them."""

    def __init__(self, d, c, r):
        self.d, self.n, self.r, self.c = d, d.names, r, c
        n = self.n
        beginning = n.beginning(b'anonymous', b'', (n.account(b'anonymous', None),), c['table'], n.HERE, n.HERE)
        w = d.world_of(beginning)
        self.state = d.state_of(beginning)
        self.client, self.server = Driver(self, 'client', n.client(w)), Driver(self, 'server', n.server(w))
        d.reading = defs.reading(d)
        d.bounds_of_octet = lambda *a: None
        d.search = world.search(d)
        self.begun, self.reports, self.broke, self.refused = (), (), [], []
        self.ports, self.log, self.todo = 0, [], list(c['operations'])
        self.agreed, self.good_marks = {}, {}

    def moment(self):
        return 1000 + max(len(self.begun) - 1, 0)

    # -- the actions that a driver can do next: how often, name, what it does

    def actions(self, e):
        out = self.control_actions(e) + self.opening_actions(e) + self.data_actions(e) + self.closing_actions(e)
        return out + (self.operation_actions(e) if e is self.client else [])

    def control_actions(self, e):
        may_hear = e is self.client or e.wants().t in ('Nothing', 'Accept', 'Receive', 'Send')
        out = []
        if e.control_to_read and e.is_flushed() and may_hear:
            out.append((6, 'Read', self.read))
        if e.unheard and e.call('may_hear', e.v) and may_hear:
            out.append((6, 'Heard', self.hear))
        if e.v.owed:
            out.append((8, 'Said', self.say))
        return out

    def opening_actions(self, e):
        want, out = e.wants(), []
        if not e.is_flushed() or e.data.stands:
            return out
        if want.t == 'Listen' and e.link != 'has':
            out.append((6, 'Listening', self.listen))
        if want.t == 'Accept' and e.link == 'called':
            out.append((3, 'Opened', self.opened))
        if want.t == 'Connect' and e.link != 'has':
            if e.peer.link == 'awaits' and e.peer.port == want.a[0].port:
                out.append((4, 'Dialled', self.dial))
            if self.c['refuse'] > (e is self.server):
                out.append((1, 'NotConnected', self.not_connected))
        return out

    def data_actions(self, e):
        want, data, out = e.wants().t, e.data, []
        if data.untold and want != 'Receive':
            out.append((2, 'LetGo', self.let_go))
        if not e.is_sound():
            return out
        if want == 'Receive' and data.untold:
            out.append((5, 'Received', self.receive))
        if want == 'Send':
            out.append((5, 'Gave', self.give))
        if want == 'Receive' and not data.untold and e.data_to_read and e.link == 'has':
            out.append((5, 'Got', self.get))
        if data.unwritten and e.link == 'has':
            out.append((5, 'Wrote', self.write))
        if want == 'Receive' and not data.untold and not e.data_to_read and e.peer.link == 'ended':
            out.append((5, 'End', self.end))
        if self.c['fail'] and self.c['only'] in (None, e.who) and self.r.random() < self.c['fail']:
            out.append((4, 'Failed', self.fail))
        return out

    def closing_actions(self, e):
        want, data, out = e.wants().t, e.data, []
        if not data.stands:
            return [(5, 'Closed', self.closed)] if want == 'CloseData' else out
        if data.state == FAILED and e.link == 'has':
            out.append((4, 'Break', self.tell_break))
        left = data.unwritten or data.rest
        if (data.state == SOUND and want in ('CloseData', 'Accept', 'Connect')) or data.state in (BROKEN, OVER):
            if not left and data.state != BROKEN and e.is_flushed() and e.link == 'has':
                out.append((5, 'Left ended', lambda e: self.leave(e, 'ended')))
            if (data.state == BROKEN or (self.c['resets'] and left)) and e.link in ('has', 'lost'):
                out.append((3, 'Left reset', lambda e: self.leave(e, 'lost')))
        return out

    def operation_actions(self, e):
        out = []
        if self.d.client_report_of(e.v).t == 'Some':
            out.append((5, 'Reporting', self.report))
        if self.todo and not self.d.client_is_busy(e.v) and not e.v.closing:
            out.append((5, 'Starting', self.start))
        return out

    # -- what each action does

    def count(self, octets):
        """How many of some octets are moved: all, or a drawn count of at least one."""
        return self.r.randint(1, len(octets)) if self.r.random() < .5 else len(octets)

    def read(self, e):
        k = self.count(e.control_to_read)
        e.unheard, e.control_to_read = e.unheard + e.control_to_read[:k], e.control_to_read[k:]

    def hear(self, e):
        """Control octets, mostly to the end of a line; a server is told the time before each line."""
        self.sees_want(e)
        left = 1 if self.r.random() < .2 else len(e.unheard)
        while left and e.call('may_hear', e.v):
            octet, e.unheard, left = e.unheard[0], e.unheard[1:], left - 1
            if e is self.client:
                e.v = self.d.client_hears_octet(e.v, octet)
            elif e.wants().t in ('Nothing', 'Accept', 'Receive', 'Send'):
                self.sees_want(e)
                if octet == 10:
                    e.v = self.d.server_clocked(self.moment(), e.v)
                e.v = self.d.server_hears_octet(self.d.reading, e.v, octet)
            else:
                e.unheard = (octet,) + e.unheard
                return
            if octet == 10 and (e is self.server or self.r.random() < .7):
                return

    def sees_want(self, e):
        if e.wants().t == 'Send':
            e.data.rest = True

    def say(self, e):
        k = self.count(e.v.owed)
        e.peer.control_to_read += e.v.owed[:k]
        e.v = e.call('gives_control', k, e.v)

    def listen(self, e):
        e.link, e.port = 'awaits', 49152 + self.ports
        self.ports += 1
        e.v = e.call('listening', e.port, e.v)

    def opened(self, e):
        e.data, e.link = DataConnection(True), 'has'
        e.v = e.call('data_opened', self.n.HERE, e.v)
        e.data.rest = e.wants().t == 'Send'

    def dial(self, e):
        e.peer.link = 'called'
        e.data_to_read = e.peer.data_to_read = ()
        self.opened(e)

    def not_connected(self, e):
        e.v = e.call('data_refused', e.v)
        self.refused.append(len(self.begun) - 1)

    def let_go(self, e):
        e.data.untold = ()

    def receive(self, e):
        for octet in e.data.untold[:self.count(e.data.untold)]:
            if not e.call('may_receive', e.v):
                return
            e.v = e.call('receives_octet', e.v, octet)
            e.data.untold = e.data.untold[1:]

    def give(self, e):
        due = tuple(e.call('to_give', e.v))
        k = self.count(due) if due else 0
        e.data.unwritten += due[:k]
        e.v = e.call('gives_data', k, e.v)
        e.data.rest = e.wants().t == 'Send' if e is self.client else k < len(due)

    def get(self, e):
        k = self.count(e.data_to_read)
        e.data.untold, e.data_to_read = e.data_to_read[:k], e.data_to_read[k:]

    def write(self, e):
        k = self.count(e.data.unwritten)
        e.peer.data_to_read += e.data.unwritten[:k]
        e.data.unwritten = e.data.unwritten[k:]

    def tell_time(self, e):
        if e is self.server:
            e.v = self.d.server_clocked(self.moment(), e.v)

    def end(self, e):
        self.tell_time(e)
        e.data.state = OVER
        e.v = e.call('data_end', e.v)

    def fail(self, e):
        e.data.state = FAILED

    def tell_break(self, e):
        self.tell_time(e)
        e.data.state, e.link = BROKEN, 'lost'
        e.v = e.call('data_fault', e.v)
        self.broke.append(len(self.begun) - 1)

    def leave(self, e, link):
        e.link, e.data = link, DataConnection()
        if link == 'lost':
            self.broke.append(len(self.begun) - 1)

    def closed(self, e):
        e.v = e.call('data_closed', e.v)

    def report(self, e):
        self.reports += (self.d.client_report_of(e.v).a[0],)
        e.v = self.d.client_reports(e.v)

    def start(self, e):
        operation = self.todo.pop(0)
        self.begun += (con('Single', operation, self.moment() + (1 if self.begun else 0)),)
        e.v = self.d.client_starts(operation, e.v)

    # -- the claims

    def marks(self):
        """Each row of marks that comes into question, those that held before first."""
        rows = []
        for k in range(len(self.begun)):
            row = [()]
            if k in self.refused:
                row = [(con('Refused'),)]
            elif k in self.broke:
                row = [()] + [(con('Broken', count),) for count in range(self.c['most'] + 1)]
            good = self.good_marks.get(k)
            rows.append([good] + [x for x in row if x != good] if good in row else row)
        return itertools.product(*rows)

    def agrees(self, cutoff, reports, when):
        """`Agrees` with some marks; Bad where there are none."""
        table = self.server.v.session.table
        key = (len(self.begun), tuple(self.broke), tuple(self.refused), cutoff, reports, table)
        if self.agreed.get(when) == key:
            return
        self.agreed[when] = key
        first = None
        for marks in self.marks():
            try:
                Agreement(self.d, self.state).check(self.begun, marks, cutoff, reports, table)
            except Bad as b:
                first = first or b
                continue
            if when == 'now':
                self.good_marks = dict(enumerate(marks))
            return
        raise Bad('%s: %s' % (when, first))

    def check(self):
        now = self.d.client_report_of(self.client.v)
        self.agrees(con('None'), self.reports + tuple(now.a), 'now')
        if self.r.random() < .2:
            then = self.d.client_report_of(self.d.client_control_end(self.client.v))
            self.agrees(some(len(self.begun)), self.reports + tuple(then.a), 'where the control connection ends')

    def run(self, most=6000):
        for _ in range(most):
            found = [(e, *x) for e in (self.client, self.server) for x in self.actions(e)]
            if not found:
                break
            e, weight, name, does = self.r.choices(found, [x[1] * self.c['pace'][x[0].who] for x in found])[0]
            self.log.append('%s.%s' % (e.who, name))
            does(e)
            self.check()


# -- what is drawn

def draw_how(n, r, active):
    return n.how(r.choice('IIIA'), 'F', r.choice('SSSB'), active and r.random() < .5, r.random() < .3)


def draw_upload(n, r, active):
    octets, k = bytes(r.choice(b'ab\n') for _ in range(r.choice([0, 1, 2, 3, 4]))), r.random()
    if k < .5:
        return n.op('Put', r.choice([b'n', b'f', b'd', b'no/n', b'd/y']), octets, draw_how(n, r, active))
    if k < .75:
        return n.op('Append', r.choice([b'n', b'f', b'd']), octets, draw_how(n, r, active))
    return n.op('PutFrom', r.choice([b'n', b'f']), r.choice([0, 1, 2, 9]), octets, n.how('I', 'F', 'S'))


def draw_download(n, r, active):
    k = r.random()
    if k < .4:
        return n.op('Get', r.choice([b'f', b'g', b'g', b'no', b'd']), draw_how(n, r, active))
    if k < .6:
        return n.op('GetFrom', r.choice([b'f', b'g', b'no']), r.choice([0, 1, 2, 9]), n.how('I', 'F', 'S'))
    if k < .75:
        return n.op('Peek', r.choice([b'f', b'g', b'no']), r.choice([1, 2, 3]), draw_how(n, r, active))
    if k < .85:
        return n.op('Text', con(r.choice(['List', 'Nlst'])), r.choice([b'', b'd', b'f']), draw_how(n, r, active))
    return n.op('Names', r.choice([b'', b'd', b'no']), draw_how(n, r, active))


def draw_other(n, r, active):
    return r.choice([n.op('Where'), n.op('ChangeDir', b'd'), n.op('MakeDir', b'k'), n.op('Delete', b'f'), n.op('Delete', b'n'),
                     n.op('Size', b'f', n.how('I', 'F', 'S'))])


def draw(d, seed, a):
    """What a pair of drivers begins with, and how its actions are drawn."""
    r, n = random.Random(seed), d.names
    kinds = (draw_upload, draw_download, draw_other)
    operations = [r.choice(kinds)(n, r, a.active) for _ in range(r.choice([1, 1, 2, 2, 3]))]
    tree = {b'd': None, b'd/x': (b'q', 7), b'f': (bytes(r.choice(b'ab\n') for _ in range(r.randrange(5))), 5), b'g': (b'xyz', 6)}
    table = n.some_tree(tree)
    if r.random() < .3:
        table = upd(table, limits=rec(file=r.choice([4, 5]), total=r.choice([9, 10, 12, 20]), nodes=9))
    pace = r.choice([dict(client=1, server=1), dict(client=5, server=1), dict(client=1, server=5)])
    return dict(operations=operations, table=table, refuse=a.refuse, fail=0 if a.honest else r.choice([.05, .2, .5]), only=a.only,
                resets=not a.honest and r.random() < .4, most=24, pace=pace)


def arguments(p):
    """The options of `run drives`."""
    p.add_argument('--honest', action='store_true', help='no breaks')
    p.add_argument('--refuse', action='count', default=0, help='dials of the client may fail; said twice, those of the server too')
    p.add_argument('--only', choices=['client', 'server'], help='breaks are found by this end alone')
    p.add_argument('--active', action='store_true', help='half of the data connections are dialled by the server')
    p.add_argument('--one', type=int, help='the drivers of this number alone')


def run(d, a):
    """(pairs of drivers in which all held, pairs in which something did not)"""
    d.scale({})
    bad = actions = whole = 0
    t0 = time.time()
    numbers = [a.one] if a.one is not None else range(a.seed * 100003, a.seed * 100003 + a.n)
    for seed in numbers:
        c = draw(d, seed, a)
        pair = Pair(d, c, random.Random(seed * 7 + 1))
        try:
            pair.run()
        except (Bad, *terms.FAILURES) as b:
            bad += 1
            if bad < 4:
                print('COUNTEREXAMPLE (again: --one %d): %s: %s' % (seed, type(b).__name__, str(b)[:1500]))
                print('   ', [defs.show(x).replace('\n', ' ') for x in c['operations']])
                print('   ', ' '.join(pair.log)[-3000:], flush=True)
        actions += len(pair.log)
        whole += len(pair.reports) == len(c['operations'])
    print('%d actions; %d pairs came to all reports; %.0f s' % (actions, whole, time.time() - t0))
    return len(numbers) - bad, bad
