"""Each end alone, under drawn calls and drawn control octets: every call has an answer, and what is owed keeps its bounds.

An end is given no octet that it may not take (`may_hear`), and is asked for no more than it has to give; else any call comes at
any moment."""
import random
import time
import terms
from defs import reading
from world import Bad


def server_line(n, d, r):
    x = r.random()
    if x < .05:
        return r.choice(n.TELNET)
    line = r.choice(n.SERVER_LINES) if x < .7 else bytes(d.letters(r.choice(n.verbs(d)))) + b' ' + r.choice(n.SERVER_ARGUMENTS)
    return line + r.choice([b'\r\n', b'\r\n', b'\r\n', b'\n', b' \r\n'])


def play_server(d, r, b):
    n = d.names
    c = dict(blocks=False)
    v = d.server_start(n.some_tree(n.draw_tree(r, c)), n.ACCOUNTS, n.HERE, n.HERE)
    calls = list(n.SERVER_CALLS.items())
    for _ in range(r.choice([40, 120])):
        x = r.random()
        if x < .6:
            line = server_line(n, d, r) if x > .02 else (r.choice(n.SERVER_FLOODS) + b'\r\n') * 300
            for octet in line:
                if not d.server_may_hear(v):
                    break
                new = d.server_hears_octet(d.reading, v, octet)
                b.by('server', v, new, 'one octet')
                v = new
        elif x < .7:
            for octet in n.draw_octets(r, c):
                if not d.server_may_receive(v):
                    break
                new = d.server_receives_octet(v, octet)
                b.by('server', v, new, 'one octet of data')
                v = new
        else:
            name, (w, f) = r.choices(calls, [x[1][0] for x in calls])[0]
            new = f(d, v, r)
            b.by('server', v, new, name)
            v = new
        d.server_wants(v)


def play_client(d, r, b):
    n = d.names
    c = dict(blocks=False)
    login = r.choice(n.LOGINS)
    v = d.client_start(tuple(login[0]), tuple(login[1]), n.HERE, n.HERE)
    calls = list(n.CLIENT_CALLS.items())
    replies = [n.CLIENT_GREETING]         # those that are to come, to what was sent
    for _ in range(r.choice([40, 120])):
        old = n.owed(v)
        x = r.random()
        if x < .5:
            line = r.choice(n.TELNET) * (200 if x < .01 else 1) if x < .05 or not replies else \
                (r.choice(n.OTHER_REPLIES) if x < .08 else replies.pop(0)) + b'\r\n'
            for octet in line:
                if not d.client_may_hear(v):
                    break
                new = d.client_hears_octet(v, octet)
                b.by('client', v, new, 'one octet')
                v = new
        elif x < .6:
            for octet in n.draw_octets(r, c):
                if not d.client_may_receive(v):
                    break
                v = d.client_receives_octet(v, octet)
        else:
            name, (w, f) = r.choices(calls, [x[1][0] for x in calls])[0]
            new = f(d, v, r)
            b.by('client', v, new, name)
            v = new
        if len(n.owed(v)) > len(old):
            for line in bytes(n.owed(v)[len(old):]).split(b'\r\n')[:-1]:
                replies += n.CLIENT_REPLIES.get(line.split(b' ')[0], [b'200 Ok'])
        d.client_wants(v)


def run(d, n, seed, quiet=False):
    """(good runs, runs in which a bound was passed or a call had no answer)"""
    d.scale({})
    d.reading = reading(d)
    b, bad, t0 = d.bounds, 0, time.time()
    for i in range(n):
        for end, f in (('server', play_server), ('client', play_client)):
            try:
                f(d, random.Random(seed * 1000003 + i), b)
            except (Bad, *terms.FAILURES) as e:
                bad += 1
                if bad <= 5 and not quiet:
                    print('COUNTEREXAMPLE %s, run %d: %s: %s' % (end, i, type(e).__name__, e))
    if not quiet:
        for end in ('server', 'client'):
            print('%s: at most %d control octets owed (bound %d), %d more by one octet or call (bound %d)' % (
                end, b.most[end], b.limits[end][0], b.by_one[end], b.limits[end][1]))
        print('%d of %d runs bad, %.0f s' % (bad, 2 * n, time.time() - t0))
    return 2 * n - bad, bad
