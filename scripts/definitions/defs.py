"""The definitions as names.py names them: `d.server_wants(v)`, `d.holds(d.is_quiet(w))`."""
import os
import random
import sys
import antt
import terms
import natives
import vocabulary
from terms import V

HERE = os.path.dirname(os.path.abspath(__file__))


def crates_folder():
    """The folder crates/ of the repository in which this file stands."""
    return os.path.join(os.path.dirname(os.path.dirname(HERE)), 'crates')


class Definitions:
    """Each definition that `names.DEFINITIONS` names, as a function; `names` is the vocabulary."""

    def __init__(self, crates):
        self.names = names = vocabulary
        self.crates = crates
        self.absent = []              # what names.py names and isn't there
        self.heard = {}               # lines that were read
        self.p = antt.Program(crates, natives.N)
        values = {}
        for path, (fields, f) in names.QUANTIFIERS.items():
            try:
                values[self.p.qualified(path.split(':')[0])] = fields
            except LookupError as e:
                self.absent.append('QUANTIFIERS: %s' % e)
        self.p.translate(values)
        terms.DOMAINS.clear()
        for path, (fields, f) in names.QUANTIFIERS.items():
            base, _, variables = path.partition(':')
            try:
                q = self.p.qualified(base)
            except LookupError:
                continue
            terms.DOMAINS[q + (':' + variables if variables else '')] = self.domain(f)
        self.scaled = {}
        self.by_hand()
        self.bind()
        for n, parts in names.NUMBERS.items():
            for path, old in parts:
                try:
                    self.p.with_number(path, old, None)
                except LookupError as e:
                    self.absent.append('NUMBERS: %s' % e)

    def by_hand(self):
        """Slow definitions as names.FAST has them, where they are the same at drawn values."""
        r = random.Random(7)
        found = []
        for path, (f, draw) in self.names.FAST.items():
            try:
                arity, g = self.p.function(path)
            except LookupError as e:
                self.absent.append('FAST: %s' % e)
                continue
            for _ in range(200):
                a = draw(r)
                if f(*a) != g(*a):
                    break
            else:
                found.append((path, f))
        for path, f in found:
            k = self.p.find(path)
            self.p.env[k[1].defs[k[2]].py] = f

    def domain(self, f):
        return lambda *args: f(self, *args)

    def bind(self):
        for key, path in self.names.DEFINITIONS.items():
            try:
                arity, f = self.p.function(path)
            except LookupError as e:
                if 'DEFINITIONS: %s' % e not in self.absent:
                    self.absent.append('DEFINITIONS: %s' % e)      # once, not for each of a module
                f = terms.missing(path, 'names.py names what is not there')
            else:
                why = self.p.why_missing(path)
                if why and 'DEFINITIONS: %s is not translated: %s' % (path, why) not in self.absent:
                    self.absent.append('DEFINITIONS: %s is not translated: %s' % (path, why))
            setattr(self, key, f)

    def check(self):
        """Ends the program where names.py names what isn't there."""
        if self.absent:
            sys.exit('what these files name is not there:\n  ' + '\n  '.join(self.absent))

    def scale(self, numbers):
        """Other numbers in the place of those of NUMBERS: {name: number}; those that aren't given are as they are written."""
        if numbers == self.scaled:
            return
        for n, parts in self.names.NUMBERS.items():
            if numbers.get(n) != self.scaled.get(n):
                for path, old in parts:
                    self.p.with_number(path, old, numbers.get(n))
        self.scaled = dict(numbers)
        self.p.forget()
        self.bind()

    def number(self, name):
        """The number in force of NUMBERS."""
        path, old = self.names.NUMBERS[name][0]
        return self.scaled.get(name) or self.p.written(path, old)

    def holds(self, p):
        return terms.holds(p)

    def variants(self, path):
        return self.p.variants(path)

    # -- how lines are read: by the relations, which are decided for every answer that comes into question

    def read(self, text):
        r = self.heard.get(text)
        if r is None:
            found = [h for h in self.names.readings(self, text) if terms.holds(self.is_read(text, h))]
            if len(found) != 1:
                raise terms.MatchFailed('a line is read in %d ways: %r %r' % (len(found), bytes(text), found))
            r = found[0]
            if len(self.heard) < 50000:
                self.heard[text] = r
        return r


def reading(d):
    """The function that lines are read by, as a value of the definitions."""
    return terms.Fn(1, d.read)


# ---- how values are shown

def show(x, raw=False, ind=''):
    """A value in the notation of the specs, with texts for lists of printable octets."""
    if isinstance(x, terms.R):
        return '{\n' + ''.join('%s  %s = %s\n' % (ind, k, show(v, raw, ind + '  ')) for k, v in x.__dict__.items()) + ind + '}'
    if isinstance(x, V):
        return x.t if not x.a else '(' + x.t + ''.join(' ' + show(a, raw, ind) for a in x.a) + ')'
    if isinstance(x, natives.FinMap):
        return 'table {\n' + ''.join('%s  /%s ↦ %s\n' % (ind, '/'.join(bytes(n).decode('latin-1') for n in k), show(v, raw, ind + '  '))
                                     for k, v in sorted(x.d.items())) + ind + '}'
    if isinstance(x, tuple):
        if x and not raw and all(type(c) is int and (32 <= c < 127 or c in (10, 13)) for c in x):
            return '"' + bytes(x).decode().replace('\\', '\\\\').replace('"', '\\"').replace('\r', '\\r').replace('\n', '\\n') + '"'
        if len(x) > 60 and all(type(c) is int for c in x):
            return '[%s, ... %d in all]' % (', '.join(map(str, x[:60])), len(x))
        return '[' + ', '.join(show(c, raw, ind) for c in x) + ']'
    if x is True or x is False:
        return str(x).lower()
    if isinstance(x, terms.Fn):
        return 'a function of %d' % x.n
    return repr(x)
