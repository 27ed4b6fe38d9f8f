"""Agreement: which items come into question for an order, and the claims of single items."""
from names import broken_at, order_moment, state_key
from terms import con, rec

def outcomes(d, state, operation, marks):
    """The outcomes of an operation that `CanBe` and `Allows` can let it have, whatever they say."""
    yield con('Whole')
    yield con('Unopened')
    yield con('Lost', con('Nothing'))
    yield con('Lost', con('All'))
    lengths = {broken_at(m) for m in marks} - {None}
    if lengths:
        u, l = d.upload_of(state, operation), d.download_of(state, operation)
        text = None
        if u.t == 'Some':
            text = d.upload_text(u.a[0].how, u.a[0].start, u.a[0].octets)
        elif l.t == 'Some':
            text = d.download_text(l.a[0])
        if text is not None:
            for n in lengths:
                if n <= len(text):
                    yield con('Cut', text[:n])
                    yield con('Lost', con('Front', text[:n]))


def attempts(d, operation, moment, state, marks, cutoff, index):
    """How one operation may have fared, with a beginning of the marks: `AttemptHolds` decides. (attempt, answer and state, marks that are left)"""
    for n in range(min(len(marks), d.links_of(operation)) + 1):
        for outcome in outcomes(d, state, operation, marks[:n]):
            attempt = rec(op=operation, outcome=outcome, marks=marks[:n])
            if d.holds(d.attempt_holds(state, cutoff, index, attempt)):
                yield attempt, d.attempt_did(moment, state, attempt), marks[n:]


def items(d, order, state, marks, cutoff, index):
    """The items of an order, by `outcomes`; `ItemHolds` decides. Of an upload over breaks all beginnings of its run with these marks."""
    moment = order_moment(order)
    if order.t == 'Single':
        for outcome in outcomes(d, state, order.a[0], marks):
            yield rec(moment=moment, first=rec(op=order.a[0], outcome=outcome, marks=marks), more=())
        return

    # step by step; of the beginnings that lead to the same operation, state and marks one is kept, as what follows is the same
    row, seen = [(d.run_of(order.a[0]), d.first_try(order.a[0]), state, marks, ())], set()
    while row:
        following_row = []
        for run, operation, before, marks_left, done in row:
            for attempt, did, left in attempts(d, operation, moment, before, marks_left, cutoff, index):
                if not left:
                    yield rec(moment=moment, first=(done + (attempt,))[0], more=(done + (attempt,))[1:])
                following = d.next_in(run, operation, did[0])
                if following.t == 'Some':
                    run2 = d.run_at(following.a[0], run)
                    key = (run2.left, following.a[0], state_key(did[1]), len(left))
                    if key not in seen:
                        seen.add(key)
                        following_row.append((run2, following.a[0], did[1], left, done + (attempt,)))
        row = following_row


def download_front(d, state, operation, length):
    """The first octets of a download's wire, or None where it has no so many."""
    l = d.download_of(state, operation)
    text = d.download_text(l.a[0]) if l.t == 'Some' else ()
    return text[:length] if length <= len(text) else None


def peek_wires(d, state, text, how, marks):
    """The fronts of the file's own wire at which a link broke (any wire of this length would do for the definition)."""
    fronts = [download_front(d, state, con('Get', text, how), broken_at(m)) for m in marks if broken_at(m) is not None]
    return [f for f in fronts if f is not None]


CLAIMS = {'TriesAreFew': 0, 'DoneIsWhole': 0, 'PeekIsDirect': 0, 'BrokeEarly': 0, 'most tries': 0}      # how often each was asked, for the record
FALLS = {}      # which of the five numbers fell first


def tell_claims():
    print('  asked: %s' % ', '.join('%s %d' % kv for kv in CLAIMS.items()))
    print('  SettlingFalls, by the number that fell first: %s' % ', '.join('%s %d' % kv for kv in FALLS.items()))


def count_falls(before, after):
    for k in ('at_client', 'to_server', 'at_server', 'to_client', 'unqueued'):
        if getattr(before, k) != getattr(after, k):
            FALLS[k] = FALLS.get(k, 0) + 1
            return


def item_claims(d, state, order, item, cutoff, index, Bad):
    """The claims of every item that can be: TriesAreFew, PeekIsDirect."""
    attempts_ = (item.first,) + item.more
    if order.t == 'Tries':
        CLAIMS['TriesAreFew'] += 1
        n = d.tries_in(attempts_)
        CLAIMS['most tries'] = max(CLAIMS['most tries'], n)
        if n > d.most_tries():
            raise Bad('TriesAreFew: %d in %r' % (n, item))
        return
    op_, attempt = item.first.op, item.first
    if op_.t == 'Peek':
        CLAIMS['PeekIsDirect'] += 1
        done = d.attempt_did(item.moment, state, attempt)
        if done[0].t in ('Unopened', 'Lost') or d.holds(d.is_direct_answer(state, op_, item.moment, done)):
            return
        CLAIMS['BrokeEarly'] += 1
        if not d.holds(d.broke_early(state, op_.a[0], op_.a[1], op_.a[2], attempt.marks)):
            raise Bad('PeekIsDirect: %r answers %r' % (attempt, done[0]))


def whole_claims(d, state, order, item, report, Bad):
    """DoneIsWhole, of an item that has its report."""
    if order.t == 'Tries' and report.t == 'Done':
        CLAIMS['DoneIsWhole'] += 1
        if not d.holds(d.has_put_all(state, order.a[0], order.a[1], item)):
            raise Bad('DoneIsWhole: %r' % (item,))
