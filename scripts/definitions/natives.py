"""The words of std that the specs use, by hand, each as core/specs says it."""
from terms import V, ap, holds, some

NONE = V('None')


class FinMap:
    """A finite map from paths (tuples of tuples of octets), in the order of the keys."""
    __slots__ = ('d', '_k')

    def __init__(self, d):
        self.d = d
        self._k = None

    def keys(self):
        if self._k is None:
            self._k = tuple(sorted(self.d))
        return self._k

    def __eq__(self, o):
        return self is o or (isinstance(o, FinMap) and self.d == o.d)

    def __ne__(self, o):
        return not self == o

    def __hash__(self):
        return hash(tuple(sorted(self.d)))

    def __repr__(self):
        return 'Table' + repr({b'/'.join(bytes(n) for n in k).decode('latin-1'): v for k, v in sorted(self.d.items())})


EMPTY = FinMap({})


def fm_insert(m, k, v):
    d = dict(m.d)
    d[k] = v
    return FinMap(d)


def fm_remove(m, k):
    d = dict(m.d)
    d.pop(k, None)
    return FinMap(d)


def fm_get(m, k):
    return some(m.d[k]) if k in m.d else NONE


def fm_from_entries(es):
    d = {}
    for k, v in es:
        d.setdefault(k, v)
    return FinMap(d)


def flat_map(f, xs):
    out = []
    for x in xs:
        out.extend(ap(f, x))
    return tuple(out)


def filter_map(f, xs):
    out = []
    for x in xs:
        y = ap(f, x)
        if y.t == 'Some':
            out.append(y.a[0])
    return tuple(out)


def find(p, xs):
    for x in xs:
        if ap(p, x):
            return some(x)
    return NONE


def fold(f, a, xs):
    for x in xs:
        a = ap(f, a, x)
    return a


def prefix_len(p, xs):
    n = 0
    for x in xs:
        if not ap(p, x):
            break
        n += 1
    return n


def first_place(p, xs):
    n = 0
    for x in xs:
        if ap(p, x):
            break
        n += 1
    return n


def before_first(p, xs):
    return xs[:first_place(p, xs)]


def after_first(p, xs):
    return xs[first_place(p, xs) + 1:]


def slice_split(p, xs):
    out, cur = [], []
    for x in xs:
        if ap(p, x):
            out.append(tuple(cur))
            cur = []
        else:
            cur.append(x)
    out.append(tuple(cur))
    return tuple(out)


def pointwise(e, xs, ys):
    return len(xs) == len(ys) and all(ap(e, x, y) for x, y in zip(xs, ys))


def starts_with(e, xs, needle):
    return pointwise(e, needle, xs[:len(needle)])


def ends_with(e, xs, needle):
    return pointwise(e, needle, xs[max(len(xs) - len(needle), 0):])


def slice_cmp(r, xs, ys):
    for x, y in zip(xs, ys):
        o = ap(r, x, y)
        if o.t != 'Equal':
            return o
    return nat_cmp(len(xs), len(ys))


def nat_cmp(a, b):
    return V('Less') if a < b else V('Equal') if a == b else V('Greater')


def digit_value(c):
    return 36 if c < 48 else c - 48 if c < 58 else 36 if c < 65 else c - 55 if c < 91 else 36 if c < 97 else c - 87 if c < 123 else 36


def digits_value(radix, ds):
    n = 0
    for c in ds:
        n = n * radix + digit_value(c)
    return n


def lower(c):
    return c + 32 if 65 <= c < 91 else c


def option_map(f, o):
    return some(ap(f, o.a[0])) if o.t == 'Some' else NONE


def slice_set(xs, i, x):
    return xs[:i] + (x,) + xs[i + 1:] if i < len(xs) else xs


def join_with_byte(c, xs):
    out = ()
    for i, x in enumerate(xs):
        out += ((c,) if i else ()) + x
    return out


def all_hold(p, xs):
    return all(holds(ap(p, x)) for x in xs)


def is_utf8(xs):
    try:
        bytes(xs).decode('utf-8')
        return True
    except UnicodeDecodeError:
        return False


# each with its number of arguments; of a word used by its module's name, as `fin.insert`, MODULE_word
N = {
    'IsNumeral': (2, lambda radix, ds: len(ds) > 0 and all(digit_value(c) < radix for c in ds)),
    'FinMap_insert': (3, fm_insert), 'FinMap_remove': (2, fm_remove), 'FinMap_get': (2, fm_get), 'FinMap_empty': (0, lambda: EMPTY),
    'FinMap_keys': (1, lambda m: m.keys()), 'FinMap_entries': (1, lambda m: tuple((k, m.d[k]) for k in m.keys())),
    'FinMap_len': (1, lambda m: len(m.d)), 'FinMap_from_entries': (1, fm_from_entries),
    'digit_char': (1, lambda d: 48 + d if d < 10 else 87 + d), 'digit_value': (1, digit_value),
    'is_ascii_alphabetic': (1, lambda c: 65 <= c <= 90 or 97 <= c <= 122), 'is_ascii_digit': (1, lambda c: 48 <= c <= 57),
    'to_ascii_lowercase': (1, lower), 'pointwise': (3, pointwise), 'slice_cmp': (3, slice_cmp), 'nat_cmp': (2, nat_cmp),
    'IsInRange': (3, lambda a, b, x: a <= x <= b),
    'after_first': (2, after_first), 'before_first': (2, before_first), 'ends_with': (3, ends_with), 'starts_with': (3, starts_with),
    'filter': (2, lambda p, xs: tuple(x for x in xs if ap(p, x))), 'filter_map': (2, filter_map), 'flat_map': (2, flat_map),
    'join_with_byte': (2, join_with_byte), 'list_all': (2, lambda p, xs: all(ap(p, x) for x in xs)),
    'list_any': (2, lambda p, xs: any(ap(p, x) for x in xs)), 'prefix_len': (2, prefix_len), 'slice_split': (2, slice_split),
    'sum_by': (2, lambda f, xs: sum(ap(f, x) for x in xs)), 'AllByRecursion': (2, all_hold), 'All': (2, all_hold),
    'Contains': (2, lambda xs, x: x in xs),
    'option_map': (2, option_map), 'option_or': (2, lambda a, b: a if a.t == 'Some' else b),
    'unwrap_or': (2, lambda o, d: o.a[0] if o.t == 'Some' else d), 'is_some': (1, lambda o: o.t == 'Some'),
    'is_none': (1, lambda o: o.t == 'None'), 'IsSome': (1, lambda o: o.t == 'Some'),
    'bit_and': (2, lambda a, b: a & b), 'count_by': (2, lambda p, xs: sum(1 for x in xs if ap(p, x))),
    'decimal': (1, lambda n: tuple(b'%d' % n)), 'drop': (2, lambda n, xs: xs[n:]), 'take': (2, lambda n, xs: xs[:n]),
    'find': (2, find), 'fold': (3, fold), 'length': (1, len), 'map': (2, lambda f, xs: tuple(ap(f, x) for x in xs)),
    'min': (2, min), 'nat_eq': (2, lambda a, b: a == b), 'nat_le': (2, lambda a, b: a <= b), 'nat_lt': (2, lambda a, b: a < b),
    'not': (1, lambda b: not b), 'replicate': (2, lambda n, x: (x,) * n),
    'slice_get': (2, lambda xs, i: some(xs[i]) if i < len(xs) else NONE), 'slice_set': (3, slice_set), 'eqb': (2, lambda a, b: a == b), 'max': (2, max),
    'slice_index': (2, lambda xs, i: xs[i] if i < len(xs) else 0),
    'str_eq_ignore_ascii_case': (2, lambda a, b: tuple(map(lower, a)) == tuple(map(lower, b))),
    'all_ascii_digits': (1, lambda xs: all(48 <= c <= 57 for c in xs)), 'digits_value': (2, digits_value),
    'div': (2, lambda a, b: a // b if b else 0), 'mod': (2, lambda a, b: a % b if b else a),
    'and_then': (2, lambda o, f: ap(f, o.a[0]) if o.t == 'Some' else NONE), 'then_some': (2, lambda b, x: some(x) if b else NONE),
    'range_with_len': (2, lambda a, n: tuple(range(a, a + n))), 'option_copied': (1, lambda o: o), 'is_utf8': (1, is_utf8),
    'get_or': (3, lambda xs, i, d: xs[i] if i < len(xs) else d),
    'codes': (1, lambda s: s), 'bytes_eq': (2, lambda a, b: a == b), 'position': (2, lambda p,
                                                                                  xs: next((some(i) for i, x in enumerate(xs) if ap(p, x)), NONE)),
                                                                                  'slice_range': (3, lambda xs, a, b: xs[a:b]),
}
