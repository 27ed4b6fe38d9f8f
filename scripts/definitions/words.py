"""The words of std in natives.py are by hand; here those that core/specs of the library defines by clauses are compared with the
translated ones, at drawn values."""
import os
import random
import shutil
import tempfile
import antt
import terms
import natives
from terms import Fn, V, con, some

# words that core builds on
BELOW = {'cond': (3, lambda c, a, b: a if c else b), 'ltb': (2, lambda a, b: a < b), 'leb': (2, lambda a, b: a <= b),
         'eqb': (2, lambda a, b: a == b), 'get_or': (3, lambda xs, i, d: xs[i] if i < len(xs) else d)}

# the module in which a word stands, and its arguments by a letter each (see `draw`)
CHECKS = {
    'Str.Parse.IsNumeral': 'zd', 'Str.Parse.digits_value': 'zv', 'Char.digit_char': 'h', 'Char.digit_value': 'c', 'Char.is_ascii_alphabetic': 'c',
    'Char.is_ascii_digit': 'c', 'Char.to_ascii_lowercase': 'c', 'Ordering.nat_cmp': 'nn', 'Int.IsInRange': 'nnn', 'List.after_first': 'px',
    'List.before_first': 'px', 'List.ends_with': 'exx', 'List.starts_with': 'exx', 'List.filter': 'px', 'List.filter_map': 'gx', 'List.flat_map': 'lx',
    'List.join_with_byte': 'cX', 'List.list_all': 'px', 'List.list_any': 'px', 'List.prefix_len': 'px', 'List.slice_split': 'px', 'List.sum_by': 'fx',
    'Option.option_map': 'fo', 'Option.option_or': 'oo', 'Option.unwrap_or': 'on', 'Option.is_some': 'o', 'Option.is_none': 'o', 'Option.IsSome': 'o',
    'List.count_by': 'px', 'Fmt.decimal': 'n', 'List.find': 'px', 'List.fold': 'Fnx', 'List.slice_index': 'xn', 'Str.str_eq_ignore_ascii_case': 'xx',
    'Str.all_ascii_digits': 'x',
}


def draw(letter, r):
    octet = lambda: r.choice((0, 10, 13, 32, 45, 47, 48, 49, 57, 58, 64, 65, 70, 90, 91, 97, 98, 122, 123, 255))
    octets = lambda: tuple(octet() for _ in range(r.randrange(6)))
    k = octet()
    if letter in 'nh':
        return r.randrange(16 if letter == 'h' else 300)
    return {'c': octet, 'x': octets, 'X': lambda: tuple(octets() for _ in range(r.randrange(4))), 'z': lambda: r.choice((10, 16)),
            'd': lambda: tuple(r.choice(b'0129aAfFgG-') for _ in range(r.randrange(4))), 'v': lambda: tuple(r.choice(b'0129') for _ in range(r.randrange(5))),
            'p': lambda: Fn(1, lambda c: c > k), 'g': lambda: Fn(1, lambda c: some(c + 1) if c % 2 else con('None')),
            'l': lambda: Fn(1, lambda c: (c,) * (c % 3)),
            'f': lambda: Fn(1, lambda c: c + 1), 'F': lambda: Fn(2, lambda a, c: a * 3 + c), 'e': lambda: Fn(2, lambda a, b: a == b),
            'o': lambda: some(octet()) if r.random() < .6 else V('None')}[letter]()


def run(std, n=400):
    if not os.path.isdir(os.path.join(std, 'core', 'specs')):
        print('no core/specs in', std)
        return 0, 1
    d = tempfile.mkdtemp(prefix='core')
    try:
        shutil.copytree(os.path.join(std, 'core', 'specs'), os.path.join(d, 'core', 'specs'))
        p = antt.Program(d, dict(natives.N, **BELOW))
        p.translate()
    finally:
        shutil.rmtree(d)
    r, bad, compared, none = random.Random(1), 0, 0, []
    for path, letters in CHECKS.items():
        word = path.rsplit('.', 1)[1]
        try:
            arity, f = p.function('core.' + path)
            for _ in range(n):
                a = [draw(x, r) for x in letters]
                got, want = natives.N[word][1](*a), f(*a)
                if not isinstance(want, (int, tuple, V)):
                    want = terms.holds(want)
                if got != want:
                    bad += 1
                    print('DIFFERS %s %r: native %r, library %r' % (word, a, got, want))
                    break
            compared += 1
        except (LookupError, terms.NotTranslated, terms.Undecided, terms.MatchFailed, TypeError, AttributeError) as e:
            none.append('%s (%s)' % (word, str(e)[:60]))
    if none:
        print('not compared:', ', '.join(none))
    print('by hand alone:', ', '.join(sorted(set(natives.N) - {c.rsplit('.', 1)[1] for c in CHECKS})))
    print('%d of %d words of std compared, %d differ' % (compared, len(natives.N), bad))
    return compared - bad, bad
