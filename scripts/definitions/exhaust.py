"""All interleavings of an operation and another after it: in every state each event that is possible, with at most so many faults.

Control octets move in whole calls, octets of the data link one at a time or in whole calls, given and taken apart (names.EVENTS,
`steps`).  In every state that is reached `Agrees`, in every quiet one `QuietIsAnswered` and, where nothing was disturbed, the headline."""
import re
import time
import terms
from terms import con
from world import Agreement, Bad, World, show_events


def explore(d, begins, numbers, limits, faults, most):
    """({counts}, error, path of events)"""
    n = d.names
    d.scale(numbers)
    world = World(d, n.beginning(*n.EXHAUST_LOGIN, n.ACCOUNTS, n.some_tree(n.EXHAUST_TREE, **limits), n.HERE, n.HERE))
    world.settle()
    evs = [(con(name, *a), e['kind']) for name, e in n.EVENTS.items() if e['kind'] != 'begins' for a in e['steps']]
    counts = dict(states=0, quiet=0, events=0, cut=0)
    # a state: the world, the orders begun, how many faults may still come, how many operations were begun, whether all was honest
    start = (world.w, (), faults, 0, True)
    seen, todo, agreed = {start}, [(start, None)], {}
    while todo:
        (w, begun, f, k, honest), path = todo.pop()
        counts['states'] += 1
        if counts['states'] > most:
            counts['cut'] = 1
            break
        moved = False
        for ev, kind in evs + ([(begins[k], 'begins')] if k < len(begins) else []):
            if kind == 'fault' and not f:
                continue
            world.w, world.begun, world.honest = w, begun, honest
            here = (ev, path)
            try:
                if not world.step(ev):
                    continue
                moved = moved or kind == 'settling'
                counts['events'] += 1
                state = (world.w, world.begun, f - (kind == 'fault'), k + (kind == 'begins'), world.honest)
                if state in seen:
                    continue
                seen.add(state)
                args = world.agreement()
                if args not in agreed:
                    agreed[args] = Agreement(d, world.state).check(*args)
            except (Bad, *terms.FAILURES) as b:
                return counts, str(b) if type(b) is Bad else '%s: %s' % (type(b).__name__, b), here
            todo.append((state, here))
        if not moved:
            counts['quiet'] += 1
            world.w, world.begun, world.honest = w, begun, honest
            try:
                world.at_rest()
            except Bad as b:
                return counts, str(b), path
    return counts, None, None


def run(d, faults, most, pattern=None, quiet=False, part=(0, 1)):
    """(good scenarios, bad scenarios)"""
    t0 = time.time()
    total, num, bad = dict(states=0, quiet=0, events=0, cut=0), 0, 0
    for i, (name, begins, numbers, limits) in enumerate(d.names.scenarios()):
        if pattern and not re.search(pattern, name) or i % part[1] != part[0]:
            continue
        counts, err, path = explore(d, begins, numbers, limits, faults, most)
        num += 1
        for x in counts:
            total[x] += counts[x]
        if err:
            bad += 1
            if quiet:
                break
            print('COUNTEREXAMPLE', name, numbers or '', limits or '')
            evs = []
            while path:
                evs.append(path[0])
                path = path[1]
            show_events(evs[::-1])
            print('   =>', err[:3000], flush=True)
        if not quiet and (pattern or num % 20 == 0):
            print('...', num, name, counts, '%.0f s' % (time.time() - t0), flush=True)
    d.scale({})
    if not quiet:
        d.names.tell_claims()
        print('%d scenarios, %d bad; %d states, %d of them quiet, %d events, %d scenarios cut at %d states; %.0f s' % (
            num, bad, total['states'], total['quiet'], total['events'], total['cut'], most, time.time() - t0))
    return num - bad, bad + (num == 0)
