"""Values and propositions of the definitions, as Python has them.

Values: a number is an int, a Bool a bool, a list or a tuple a tuple, a constructor with its arguments a V (which knows the
constructor's name alone, not its type), a record an R, a function value an Fn.

Propositions (definitions into `Type 0`): an equation is a bool, a product And, a sum Or, an implication Imp, a quantifier Forall or
Exists, a record of propositions Rec.  `holds` decides them; of a quantifier, and of a record with fields that are values, it asks
DOMAINS which values come into question (see quantifiers.py)."""
import sys

sys.setrecursionlimit(1000000)


# ---- run-time values

class V:
    """A constructor `t` with its arguments `a`."""
    __slots__ = ('t', 'a')

    def __init__(self, t, a=()):
        self.t = t
        self.a = a

    def __eq__(self, o):
        return self is o or (isinstance(o, V) and self.t == o.t and self.a == o.a)

    def __ne__(self, o):
        return not self == o

    def __hash__(self):
        return hash((self.t, self.a))

    def __repr__(self):
        return self.t if not self.a else '(' + self.t + ' ' + ' '.join(map(repr, self.a)) + ')'


class R:
    """A record; its fields are attributes."""

    def __init__(self, **k):
        self.__dict__.update(k)

    def __eq__(self, o):
        return self is o or (isinstance(o, R) and self.__dict__ == o.__dict__)

    def __ne__(self, o):
        return not self == o

    def __hash__(self):
        return hash(tuple(sorted(self.__dict__.items())))

    def __repr__(self):
        return '{' + '; '.join('%s=%r' % kv for kv in self.__dict__.items()) + '}'


def upd(r, **k):
    """`record r { .. }`"""
    n = R.__new__(R)
    d = n.__dict__
    d.update(r.__dict__)
    for x in k:
        if x not in d:
            raise AttributeError('record has no field ' + x)
    d.update(k)
    return n


class Fn:
    """A function value of `n` arguments, perhaps already given some others."""
    __slots__ = ('n', 'f')

    def __init__(self, n, f):
        self.n = n
        self.f = f


def ap(f, *a):
    """A function value of any number of arguments."""
    while a:
        n = f.n
        if len(a) == n:
            return f.f(*a)
        if len(a) < n:
            g, b = f.f, a
            return Fn(n - len(a), lambda *c: g(*b, *c))
        f, a = f.f(*a[:n]), a[n:]
    return f


# ---- propositions

class And:
    """The right side is looked at only where the left holds."""
    __slots__ = ('a', 'b')

    def __init__(self, a, b):
        self.a, self.b = a, b


class Or(And):
    __slots__ = ()


class Imp(And):
    __slots__ = ()


class Not:
    __slots__ = ('a',)

    def __init__(self, a):
        self.a = a


class Forall:
    """`f` of the values of the variables `names`; `where` is the definition in which it stands, `args` are that one's arguments."""

    def __init__(self, names, f, where, args):
        self.names, self.f, self.where, self.args = names, f, where, args


class Exists(Forall):
    pass


class Rec:
    """A record of propositions, of these parameters: `f` takes them and the fields that are values, `names`."""

    def __init__(self, where, names, f, args):
        self.where, self.names, self.f, self.args = where, names, f, args


class Undecided(Exception):
    pass


# 'crate.specs.Module.Definition' or 'crate.specs.Module.Definition:variable' -> a function of the definition's arguments, which gives
# the values (tuples) that come into question
DOMAINS = {}


def domain(q, names):
    f = DOMAINS.get('%s:%s' % (q.where, ','.join(names))) or DOMAINS.get(q.where)
    if f is None:
        raise Undecided('no domain for (%s) in %s' % (' '.join(names), q.where))
    return f(*q.args)


def holds(p):
    """Whether a proposition holds."""
    if p is True or p is False:
        return p
    k = type(p)
    if k is And:
        return holds(p.a) and holds(p.b())
    if k is Or:
        return holds(p.a) or holds(p.b())
    if k is Imp:
        return not holds(p.a) or holds(p.b())
    if k is Not:
        return not holds(p.a)
    if k is Forall:
        return all(holds(p.f(*x)) for x in domain(p, p.names))
    if k is Exists:
        return any(holds(p.f(*x)) for x in domain(p, p.names))
    if k is Rec:
        if not p.names:
            return holds(p.f(*p.args))
        return any(holds(p.f(*p.args, *x)) for x in domain(p, p.names))
    raise Undecided(p)


def why_not(p, path=''):
    """The first part of a proposition that doesn't hold, for a message."""
    k = type(p)
    if k is And:
        return why_not(p.a) if not holds(p.a) else why_not(p.b())
    if k is Rec and not p.names:
        return '%s: %s' % (p.where.rsplit('.', 1)[1], why_not(p.f(*p.args)))
    if k is Rec:
        return '%s: no %s' % (p.where.rsplit('.', 1)[1], ', '.join(p.names))
    if k in (Forall, Exists):
        return '%s: %s' % (p.where.rsplit('.', 1)[1], ' '.join(p.names))
    return repr(p)


class MatchFailed(Exception):
    """No clause of a definition fits its arguments."""


class NotTranslated(Exception):
    pass


# what can be wrong with a definition that is called
FAILURES = (MatchFailed, NotTranslated, Undecided, RecursionError)


def missing(name, why):
    """What stands in the place of a definition that can't be translated."""
    def f(*a):
        raise NotTranslated('%s: %s' % (name, why))
    return f


def con(name, *args):
    """A constructor with its arguments."""
    return V(name, args)


def rec(**fields):
    """A record. (A field whose name Python keeps for itself has an underscore after it: pass_.)"""
    return R(**fields)


def some(x):
    return V('Some', (x,))
