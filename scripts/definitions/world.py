"""The translated world, event by event, and the translated claims of it."""
import random
import time
import terms
from terms import con, holds
from defs import reading, show


class Bad(Exception):
    """A claim doesn't hold."""


# ---- bounds

class Bounds:
    """What the ends may owe; the most that was seen."""

    def __init__(self, names):
        self.n = names
        self.most = {'server': 0, 'client': 0}
        self.by_one = {'server': 0, 'client': 0}
        self.limits = {'server': (names.SERVER_MOST, names.SERVER_BY_ONE), 'client': (names.CLIENT_MOST, names.CLIENT_BY_ONE)}

    def owes(self, end, v):
        k = len(self.n.owed(v))
        if k > self.most[end]:
            self.most[end] = k
            if k > self.limits[end][0]:
                raise Bad('Bounds: the %s owes %d control octets' % (end, k))

    def by(self, end, old, new, what):
        k = len(self.n.owed(new)) - len(self.n.owed(old))
        if k > self.by_one[end]:
            self.by_one[end] = k
            if k > self.limits[end][1]:
                raise Bad('Bounds: by %s the %s owes %d control octets more' % (what, end, k))
        self.owes(end, new)


# ---- agreement

class Agreement:
    """`Agrees`, kept along the events: the states that items with the reports so far lead to, and one list of items for each.

    The items that come into question are those of names.items; `ItemHolds`, `IsReported`, `item_did` and `state_before` are the translated
    ones. Of every item that holds the claims of single items are checked: `TriesAreFew`, `DoneIsWhole`, `PeekIsDirect`."""

    def __init__(self, d, state):
        self.d, self.n, self.start, self.last = d, d.names, state, None
        self.restart()

    def restart(self):
        self.states = {self.n.state_key(self.start): (self.start, ())}
        self.done = 0

    def one_more(self, index, begun, marks, cutoff, wanted):
        """What one more item leads to, which reports what is wanted (None: it has no report): (key of the state before, state after, state
        before its last attempt, items), each pair of states once."""
        d, out, order = self.d, {}, begun[index]
        for key, (state, items) in self.states.items():
            for item in self.n.items(d, order, state, marks[index], cutoff, index):
                if not holds(d.item_holds(state, order, marks[index], cutoff, index, item)):
                    continue
                self.of_item(state, order, item, cutoff, index)
                if wanted is None or holds(d.is_reported(state, order, item, wanted)):
                    after = d.item_did(state, item)[1]
                    before = after if wanted is not None else d.state_before(state, (item,))
                    if wanted is not None:
                        self.n.whole_claims(d, state, order, item, wanted, Bad)
                    out.setdefault((self.n.state_key(after), self.n.state_key(before)), (key, after, before, items + (item,)))
        return list(out.values())

    def of_item(self, state, order, item, cutoff, index):
        self.n.item_claims(self.d, state, order, item, cutoff, index, Bad)

    def check(self, begun, marks, cutoff, reports, table):
        """The items by which it holds; Bad where there are none."""
        d = self.d
        if len(begun) > len(reports) + 1:
            raise Bad('Agrees: two operations without a report')
        if len(marks) != len(begun):
            raise Bad('Agrees: marks of %d operations, %d were begun' % (len(marks), len(begun)))
        while self.done < len(reports):
            k = self.done
            if k >= len(begun):
                raise Bad('Agrees: a report without an operation')
            new = self.one_more(k, begun, marks, cutoff, reports[k])
            if not new:
                raise Bad('Agrees: no outcome gives report %d, %s, of %s\n    marks %r, cutoff %r; run directly: %s' % (
                    k, show(reports[k]), show(begun[k]), marks[k], cutoff,
                    ' or '.join({show(d.answers(s, d.operations((begun[k],)))[0]) for s, i in self.states.values()})))
            self.states = {self.n.state_key(after): (after, items) for key, after, before, items in new}
            self.done += 1
        if len(begun) == len(reports):
            for state, items in self.states.values():
                if self.n.state_table(state) == table:
                    return items
            wanted = [s for s, i in self.states.values()]
        else:
            last = self.one_more(len(reports), begun, marks, cutoff, None)
            if not last:
                raise Bad('Agrees: no outcome for the operation under way, %s, with marks %r' % (show(begun[-1]), marks[-1]))
            for key, after, before, items in last:
                if self.n.state_table(after) == table or self.n.state_table(before) == table:
                    return items
            wanted = [s for key, after, before, items in last for s in (after, before)]
        raise Bad('Agrees: the map is %s\n    and not %s' % (show(table), ' or '.join({show(self.n.state_table(s)) for s in wanted})))

    def after(self, *args):
        if args == self.last:
            return
        self.last = args
        try:
            self.check(*args)
        except Bad:
            # a mark may have come after a report, or the control connection may have ended: from the beginning
            self.restart()
            self.check(*args)


def search(d):
    """The items for `Agrees`, as names.QUANTIFIERS asks for them."""
    def f(state, begun, marks, cutoff, reports, table):
        try:
            return [(Agreement(d, state).check(begun, marks, cutoff, reports, table),)]
        except Bad:
            return []
    return f


# ---- the world

class World:
    """A world `w` from a beginning, the orders begun in it, and its events as they are possible.

    Where the definitions leave a count open (how much an end gives and takes), r draws it, or it is the most."""

    def __init__(self, d, beginning, r=None, most=True):
        self.d, self.n, self.r, self.most = d, d.names, r, most
        self.beginning = beginning
        self.w = d.settled(d.world_of(beginning))
        self.state = d.state_of(beginning)
        self.begun = ()
        self.honest = True
        self.checked = 0
        d.reading = reading(d)
        d.bounds_of_octet = self.of_octet
        d.search = search(d)
        self.bounds = d.bounds

    def of_octet(self, queue, old, new):
        if queue == self.n.TO_SERVER:
            self.bounds.by('server', self.n.server(old), self.n.server(new), 'one octet')
        elif queue == self.n.TO_CLIENT:
            self.bounds.by('client', self.n.client(old), self.n.client(new), 'one octet')

    def choose(self, most):
        if self.most or most < 2:
            return most
        return self.r.choice([most, self.r.randint(1, most), 1])

    def can(self, ev):
        return self.d.can_happen(ev, self.w)

    def step(self, ev, check=False):
        """Whether it was possible; if it was, it has happened."""
        d, old = self.d, self.w
        if not d.can_happen(ev, old):
            return False
        new = self.n.EVENTS[ev.t]['does'](d, d.lends_none(old), ev.a, self.choose)
        if check:
            self.checked += 1
            p = d.happens(d.reading, ev, old, True, new)
            if not holds(p):
                raise Bad('Happens: what was done at %s is not what the definition says (%s)' % (show(ev), terms.why_not(p)))
        if self.n.EVENTS[ev.t]['kind'] == 'settling':
            before, after = d.left_in(old), d.left_in(new)
            self.n.count_falls(before, after)
            if not holds(d.falls(after, before)):
                raise Bad('SettlingFalls: at %s from %s to %s' % (show(ev), show(before), show(after)))
        self.w = new
        self.begun += d.begun_by(ev, True)
        self.honest = self.honest and holds(d.is_honest(ev))
        self.bounds.owes('server', self.n.server(new))
        self.bounds.owes('client', self.n.client(new))
        if self.n.table(new) != self.n.table(old):
            # the map is still one that a world may begin with: a tree of names and moments, within its limits
            p = d.is_fair(self.n.beginning_with(self.beginning, self.n.table(new)))
            if not holds(p):
                raise Bad('IsFair: no longer, with the map %s (%s)' % (show(self.n.table(new)), terms.why_not(p)))
        return True

    def settling(self):
        return [con(name, *a) for name, e in self.n.EVENTS.items() if e['kind'] == 'settling' for a in e['tries']]

    def settle(self, limit=100000):
        """All that moves by itself, until nothing does."""
        evs, n, again = self.settling(), 0, True
        while again:
            again = False
            for ev in evs:
                while self.step(ev):
                    again = True
                    n += 1
                    if n > limit:
                        raise Bad('SettlesAlways: settling comes to no end')
        return n

    def agreement(self):
        """The arguments of `Agrees` in the present state."""
        w, n = self.w, self.n
        return self.begun, n.marks(w), n.cutoff(w), n.reports(w), n.table(w)

    def at_rest(self):
        """The claims of a world in which nothing is in flight."""
        d, w = self.d, self.w
        if not holds(d.is_quiet(w)):
            raise Bad('SettlesAlways: settled, and not quiet (%s)' % terms.why_not(d.is_quiet(w)))
        if not holds(d.is_answered(self.begun, w)):
            raise Bad('QuietIsAnswered: %s\n    reports %d of %d; last order %s\n    %s' % (
                terms.why_not(d.is_answered(self.begun, w)), len(self.n.reports(w)), len(self.begun), show(self.begun[-1:]),
                ', '.join('%s %r' % kv for kv in self.n.at_rest(w).items())))
        if (self.honest or (self.n.cutoff(w).t == 'None' and holds(d.are_unmarked(self.n.marks(w))))) and holds(d.are_single(self.begun)):
            p = d.is_direct(self.state, self.begun, w)
            if not holds(p):
                got = d.answers(self.state, d.operations(self.begun))
                raise Bad('Headline: %s\n    reports %s\n    directly %s' % (terms.why_not(p)[:200], show(self.n.reports(w)), show(got[0])))
            return True
        return False


# ---- drawn worlds

def draw(d, seed, faults):
    r = random.Random(seed)
    return d.names.draw_world(seed, faults, r)


def play(d, c, events=None):
    """Draws and plays a world, or plays given events. (events, error or None, statistics)"""
    n = d.names
    d.scale(c['numbers'])
    r = random.Random(c['seed'] * 3 + 1)
    begin = n.begin(c)
    stat = dict(fair=holds(d.is_fair(begin)), honest=False, kinds=[])
    if not stat['fair']:
        return [], None, stat
    world = World(d, begin, random.Random(c['seed'] + 5), c['most'])
    agreement = Agreement(d, world.state)
    evs = []

    def one(ev):
        # what was done is checked by `Happens` now and then, and where few octets moved
        ok = world.step(ev, check=len(evs) % 7 == 0 and n.moves_few(ev))
        if ok:
            evs.append(ev)
            agreement.after(*world.agreement())
        return ok
    try:
        agreement.after(*world.agreement())
        if events is not None:
            for ev in events:
                one(ev)
        else:
            left, idle = c['operations'], 0
            kinds = list(n.EVENTS.items())
            while len(evs) < 1500 and idle < 400:
                weights = [e['weight'] * (c['faults'] * (1 if holds(d.is_gone(n.link(world.w))) else 3) if e['kind'] == 'fault' else
                                          0 if e['kind'] == 'begins' and not left else 1) for name, e in kinds]
                name, e = r.choices(kinds, weights)[0]
                a = e['draw'](r, c, world.w)
                idle += 1
                if a is None:
                    continue
                ev = con(name, *a)
                if e['kind'] == 'begins' and not holds(d.is_timed(ev)):
                    continue
                if one(ev):
                    idle = 0
                    left -= e['kind'] == 'begins'
                elif not left and idle > 60:
                    break
        world.settle()
        agreement.after(*world.agreement())
        stat['honest'] = world.at_rest()
        if c['seed'] % 4 == 0 and not holds(d.agrees(world.state, *world.agreement())):
            raise Bad('Agrees: the search found items, and the definition says no')
        stat['kinds'] = [(n.order_op(o).t, a.t) for o, a in zip(world.begun, n.reports(world.w))]
        stat['checked'] = world.checked
        return evs, None, stat
    except (Bad, *terms.FAILURES) as b:
        return evs, str(b) if type(b) is Bad else '%s: %s' % (type(b).__name__, b), stat


def minimise(d, c, evs, err):
    """Fewer events with the same kind of error, of whole calls where that will do."""
    kind, t0 = err.split(':')[0], time.time()

    def fails(e, **other):
        """The events of these that were possible, and the error; None where it is none of the kind."""
        happened, x, st = play(d, dict(c, **other), e)
        return (happened, x) if x and x.split(':')[0] == kind else None
    best = fails([d.names.coarser(e) for e in evs], most=True)
    if best:
        c['most'] = True
    best = best or fails(evs)
    if not best:
        return evs, err
    n = max(1, len(best[0]) // 2)
    while n >= 1 and time.time() - t0 < 60:
        i = 0
        while i < len(best[0]):
            x = fails(best[0][:i] + best[0][i + n:])
            if x and len(x[0]) < len(best[0]):
                best = x
            else:
                i += n
        n //= 2
    return best


def show_events(evs):
    k = 0
    while k < len(evs):
        n = 1
        while k + n < len(evs) and evs[k + n] == evs[k]:
            n += 1
        print('     ', show(evs[k]).replace('\n', ' ')[:400], '' if n == 1 else '%d times' % n)
        k += n


def run(d, numbers, faults, most_shown=3):
    """Draws the worlds of these numbers, of three two with faults; how many were good, and how many bad."""
    bad = events = honest = unfair = checked = n = 0
    kinds, t0 = {}, time.time()
    for number in numbers:
        n += 1
        c = draw(d, number, faults and number % 3 > 0)
        evs, err, st = play(d, c)
        events += len(evs)
        honest += st['honest']
        unfair += not st['fair']
        checked += st.get('checked', 0)
        for k in st['kinds']:
            kinds[k] = kinds.get(k, 0) + 1
        if err:
            bad += 1
            if bad <= most_shown:
                evs, err = minimise(d, c, evs, err)
                print('COUNTEREXAMPLE (again: --world %d)' % number)
                print('   ', ', '.join('%s=%r' % (k, c[k]) for k in ('login', 'tree', 'hosts', 'numbers', 'most')))
                show_events(evs)
                print('   =>', str(err)[:3000], flush=True)
        if n % 500 == 0:
            print('...', n, 'worlds,', bad, 'bad, %.0f s' % (time.time() - t0), flush=True)
    d.scale({})
    by = {}
    for (o, a), k in sorted(kinds.items()):
        by.setdefault(o, []).append('%s %d' % (a, k))
    for o, x in by.items():
        print('  %-10s %s' % (o, ', '.join(x)))
    d.names.tell_claims()
    print('most control octets owed: server %(server)d, client %(client)d;' % d.bounds.most,
          'by one octet: server %(server)d, client %(client)d' % d.bounds.by_one)
    print('%d of %d worlds bad; %d run as directly, %d unfair beginnings; %d events, %d of them checked by Happens; %d operations, %.0f s' % (
        bad, n, honest, unfair, events, checked, sum(kinds.values()), time.time() - t0))
    return n - bad, bad
