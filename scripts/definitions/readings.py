"""How lines are read: which answers come into question; `IsLineRead` decides."""
import re
from names import COMMAND, COMMAND_FAULT, TYPES, VERB
from natives import NONE
from terms import con, rec, some
from values import v4

def numbers_in(text):
    n, out = '', set()
    for c in tuple(text) + (0,):
        if 48 <= c <= 57:
            n += chr(c)
        elif n:
            out.add(int(n))
            n = ''
    return sorted(out)


def values_of(d, type_, a, argument):
    """The values of a type of a command's argument that an argument's octets can say."""
    if type_ == 'P':
        return [a, d.trimmed(a)] if d.trimmed(a) != a else [a]
    if type_ == 'Option<P>':
        return [NONE] + [some(x) for x in argument]
    if type_ == 'u64':
        return numbers_in(a)
    if type_ == 'Option<u64>':
        return [NONE] + [some(n) for n in numbers_in(a)]
    if type_ == 'Endpoint':
        n = six_numbers(a)
        out = [rec(host=v4(*n[:4]), port=256 * n[4] + n[5])] if len(n) == 6 else []
        for proto, address, port in shapes(d.trimmed(a)):
            for host in hosts_in(address):
                out.append(rec(host=host, port=port))
        return out
    return [con(c) for c in d.variants(TYPES.get(type_, COMMAND.rsplit('.', 1)[0] + '.' + type_))]


def six_numbers(text):
    """The six numbers joined by commas that a text begins with."""
    m = re.match(rb'(\d+),(\d+),(\d+),(\d+),(\d+),(\d+)', bytes(text))
    return [int(x) for x in m.groups()] if m else []


def shapes(text):
    """Everything that can be <d>proto<d>address<d>port<d>."""
    t = bytes(text)
    d = t[:1]
    parts = t.split(d) if d else []
    if len(parts) >= 5 and parts[0] == b'' and parts[-1] == b'' and parts[1].isdigit() and parts[-2].isdigit():
        yield int(parts[1]), tuple(d.join(parts[2:-2])), int(parts[-2])


def hosts_in(address):
    t = bytes(address)
    v4_parts = t.split(b'.')
    if len(v4_parts) == 4 and all(x.isdigit() for x in v4_parts):
        yield con('V4', tuple(int(x) for x in v4_parts))
    for groups in groups_in(t):
        yield con('V6', tuple(o for g in groups for o in (g // 256, g % 256)))


def hex_row(t):
    out = []
    for g in t.split(b':') if t else []:
        if not g or any(c not in b'0123456789abcdefABCDEF' for c in g) or len(g) > 4:
            return None
        out.append(int(g, 16))
    return out


def groups_in(t):
    """The rows of eight groups that a text can say: written out, or with a '::' at each place where one stands."""
    if b'::' not in t:
        g = hex_row(t)
        if g and len(g) == 8:
            yield g
        return
    for i in range(len(t) - 1):
        if t[i:i + 2] == b'::':
            front, back = hex_row(t[:i]), hex_row(t[i + 2:])
            if front is not None and back is not None and len(front) + len(back) < 8:
                yield front + [0] * (8 - len(front) - len(back)) + back


def commands(d, a, verbs):
    """All commands of these verbs that an argument can say."""
    argument = list({a, d.trimmed(a), d.without_options(a)})
    for name, types in d.variants(COMMAND).items():
        if d.verb_of(con(name, *[None] * len(types))) in verbs:
            rows = [()]
            for t in types:
                rows = [row + (x,) for row in rows for x in values_of(d, t, a, argument)]
            for row in rows:
                yield con(name, *row)


def verbs(d):
    return [con(v) for v in d.variants(VERB)]


def verbs_named(d, text):
    word = d.word(text)
    return [v for v in verbs(d) if d.holds(d.names_verb(word, v))]


def readings(d, text):
    """How a line can be heard: as one of the commands, or with one of the faults."""
    for c in commands(d, d.argument(text), verbs_named(d, text)):
        yield con('Asks', c)
    for f in d.variants(COMMAND_FAULT):
        yield con('Bad', con(f))


def reading_kind(h):
    """For the count of `run lines`."""
    return h.a[0].t if h.t == 'Bad' else 'a command'
