"""A mechanical translator of the subset of antt that the specs use, to Python.

`Program(root, natives)` parses every .antt file of every crate's specs, and of the .rt files the types that they declare, and turns
each definition into a Python function.  Nothing is "fixed": clauses are tried in their order, as written."""
import os
import re
from declared import Declared
from emit import Gen
from parsing import Parser, strip
from terms import And, Exists, Fn, Forall, Imp, MatchFailed, Not, Or, R, Rec, V, ap, missing, upd


# ---- modules

class Def:
    """A definition: name, type and clauses as text; parsed clauses, arity, whether it is a proposition, its Python name, why it isn't translated."""


class Module:
    def __init__(self, name, path):
        self.name, self.path = name, path
        self.scope = {}          # local name -> what
        self.defs = {}
        self.data = {}           # data type -> constructors with their numbers of arguments
        self.alias = {}
        self.resolved = False


def items_of(text):
    """Top-level items: a line at column 0 and what follows it."""
    items = []
    for line in text.split('\n'):
        if not line.strip() or line.startswith('--'):
            continue
        if line[0] in ' })]':
            items[-1] += '\n' + line
        else:
            items.append(line)
    return items


class Program:
    """All specs below `root` (the folder crates/), as Python functions in `env` once `translate` was called.

    defs are called by `self.env[d.py]`; those that can't be translated are in `self.not_translated`, with why."""

    def __init__(self, root, natives):
        self.root = root
        self.declared = Declared(root)
        self.natives = natives                       # of std: name -> (arity, function)
        self.record_fields = {}                      # records of propositions: which of their fields are values
        self.modules = {}
        self.not_translated = {}                     # 'module.name' -> why
        self.records = {}                            # 'module.name' -> the Python name of a record of propositions
        self.memos = []
        self.paths = {}
        self.env = {'V': V, 'R': R, 'upd': upd, 'Fn': Fn, 'ap': ap, 'And': And, 'Or': Or, 'Imp': Imp, 'Not': Not, 'Forall': Forall,
                    'Exists': Exists, 'Rec': Rec, 'MatchFailed': MatchFailed}
        for n, (k, f) in natives.items():
            self.env['n_' + n] = f
        for crate in sorted(os.listdir(root)):
            for r, d, f in sorted(os.walk(os.path.join(root, crate, 'specs'))):
                for x in sorted(f):
                    if x.endswith('.antt'):
                        self.load('.'.join(os.path.relpath(os.path.join(r, x), root)[:-5].split(os.sep)))
        for m in list(self.modules.values()):
            self.resolve_uses(m)
        for m in self.modules.values():
            for d in m.defs.values():
                self.parse(m, d)

    # -- files

    def load(self, name):
        m = self.modules[name] = Module(name, os.path.join(self.root, *name.split('.')) + '.antt')
        m.uses = []
        for it in items_of(open(m.path, encoding='utf-8').read()):
            try:
                self.item(m, it)
            except Exception as e:
                self.not_translated['%s: %s' % (name, it.split('\n')[0][:60])] = '%s: %s' % (type(e).__name__, str(e)[:200])
        return m

    def item(self, m, it):
        it = re.sub(r'^(abbrev |unfoldable )+(pub use )', r'\2', it)
        if it.startswith(('use ', 'pub use ')):
            mm = re.match(r'(pub )?use (\S+?)(?:\.\{(.*)\})?(?: as (\S+))?$', it.replace('\n', ' '))
            names = mm.group(3)
            m.uses.append((mm.group(2), [x.strip() for x in names.split(',')] if names else None, mm.group(4)))
            return
        if it.startswith(('pub mod', 'mod ')):
            return
        mm = re.match(r'(?:abbrev |unfoldable )?(?:pub )?(record|data)\b', it)
        if mm:
            self.typedef(m, it, mm.group(1))
            return
        if '-' in re.match(r"(?:abbrev |unfoldable )*(?:pub )?([\w'-]*)", it).group(1):
            return      # a lemma
        mm = re.match(r'(?:abbrev |unfoldable )*(?:pub )?(\w+)\s*:(?!=)', it)
        if mm:
            d = Def()
            d.name, d.type, d.clauses = mm.group(1), it[mm.end():].strip(), []
            m.defs[d.name] = d
            return
        mm = re.match(r'(\w+)', it)
        if mm.group(1) not in m.defs:
            raise SyntaxError('clause without a declaration')
        m.defs[mm.group(1)].clauses.append(it)

    def typedef(self, m, it, kind):
        lines = it.split('\n')
        head = re.sub(r'^(abbrev |unfoldable )?(pub )?(record|data) ', '', lines[0])
        name = re.match(r'\w+', head).group(0)
        if kind == 'data':
            m.scope[name] = ('type', name)
            m.data[name] = {}
            for l in lines[1:]:
                l = re.sub(r'--.*', '', l).strip()
                if not l:
                    continue
                left, right = l.split(':', 1) if ':' in l.split('(')[0] else (None, None)
                n = 0
                if left is None:
                    # Name (x y : T) : T
                    names = [re.match(r'\w+', l).group(0)]
                    p = Parser(l[len(names[0]):])
                    b = p.binder()
                    while b:
                        n += len(b[0])
                        b = p.binder()
                else:
                    names = left.split()
                    t = strip(Parser(right).expr())
                    while True:
                        if t[0] == 'pi':
                            n += sum(len(b[0]) for b in t[1])
                            t = strip(t[2])
                        elif t[0] == 'bin' and t[1] == '→':
                            n += 1
                            t = strip(t[3])
                        else:
                            break
                for c in names:
                    m.scope[c] = ('con', c, n)
                    m.data[name][c] = n
            return
        groups = re.findall(r'\((\w[\w ]*?) :', head.split('where')[0].rsplit(': Type', 1)[0])
        fields = []
        for l in lines[1:]:
            mm = re.match(r'(\w+)\s*:\s*(.*)', re.sub(r'^\s*(pub )?', '', l))
            if l.startswith('  ') and not l.startswith('    ') and mm:
                fields.append([mm.group(1), mm.group(2)])
            elif fields:
                fields[-1][1] += ' ' + l.strip()
        m.scope[name] = ('rec', name, [x for g in groups for x in g.split()], fields, m)

    # -- names

    def target(self, path):
        """What a used path is: a module, constructors, constants, a type, or of std."""
        if path.startswith('Rattle.std') or not path.startswith('Rattle.'):
            return ('std', path)
        p = path.split('.')[1:]
        if len(p) > 2 and p[1] == 'specs' and p[2] == 'declared':
            if p[-1] == 'TheConstants':
                return ('consts', self.declared.file(p[0], p[3:-1])[1])
            if p[-1] == 'TheVariants':
                return ('cons', self.declared.file(p[0], p[3:-2])[0][p[-2]])
            return ('types', p[-1])
        return ('mod', self.modules['.'.join(p)])

    def resolve_uses(self, m):
        if m.resolved:
            return
        m.resolved = True
        for path, names, alias in m.uses:
            try:
                kind, t = self.target(path)
            except Exception as e:
                self.not_translated['%s: use %s' % (m.name, path)] = '%s: %s' % (type(e).__name__, e)
                continue
            if kind == 'mod':
                self.resolve_uses(t)
            if names is None:
                m.alias[alias or path.split('.')[-1]] = (kind, t)
                continue
            for n in names:
                n, _, a = n.partition(' as ')
                if '◌' not in n and n != '[]':
                    m.scope[a or n] = self.member(kind, t, n)

    def member(self, kind, t, n):
        if kind == 'std':
            return ('std', n)
        if kind == 'cons':
            return ('con', n, len(t[n])) if n in t else ('gone', n)
        if kind == 'consts':
            return ('const', t[n]) if n in t else ('gone', n)
        if kind == 'types':
            return ('type', n)
        if n in t.defs:
            return ('def', t, n)
        return t.scope.get(n, ('type', n))

    def lookup(self, m, name):
        if name in m.defs:
            return ('def', m, name)
        return m.scope.get(name)

    # -- definitions by a path, as names.py and `eval` write it

    def modules_of(self, path):
        """The modules that a path means: `server.Calls` of any crate, `CRATE.server.Calls`, or the whole name."""
        if not self.paths:
            for n, m in self.modules.items():
                crate, _, rest = n.partition('.specs.')
                self.paths.setdefault(rest, []).append(m)
                self.paths.setdefault(crate + '.' + rest, []).append(m)
        return self.paths.get(path.replace('.specs.', '.'), [])

    def find(self, path):
        """What stands at a path: the same that `lookup` gives. LookupError says why there is none."""
        mods, _, name = path.rpartition('.')
        ms = self.modules_of(mods)
        found = [x for x in (self.lookup(m, name) for m in ms) if x and x[0] in ('def', 'rec', 'con')]
        if len(found) == 1:
            return found[0]
        if not ms:
            raise LookupError('no module %s' % mods)
        if not found:
            raise LookupError('no %s in %s' % (name, ', '.join(m.name for m in ms)))
        raise LookupError('%s stands in %s' % (name, ', '.join(m.name for m in ms)))

    def qualified(self, path):
        r = self.find(path)
        return '%s.%s' % (r[1].name, r[2]) if r[0] == 'def' else '%s.%s' % (r[4].name, r[1])

    def function(self, path):
        """(number of arguments, Python function) of a definition, a constructor or a record of propositions."""
        r = self.find(path)
        if r[0] == 'def':
            d = r[1].defs[r[2]]
            return d.arity, self.env[d.py]
        if r[0] == 'con':
            return r[2], lambda *a: V(r[1], a)
        return len(r[2]), self.env['r_' + self.mangle(r[4], r[1])]

    def why_missing(self, path):
        """Why a definition that stands there is not translated, or None."""
        return self.not_translated.get(self.qualified(path)) if self.find(path)[0] != 'con' else None

    def variants(self, path):
        """The constructors of a type with their arguments: of an enum `CRATE.file.Enum` of some src, or a data type of a module."""
        p = path.split('.')
        for crate in sorted(os.listdir(self.root)):
            mods = p[1:-1] if p[0] == crate else p[:-1]
            if mods and (os.path.exists(os.path.join(self.root, crate, 'src', *mods) + '.rt')):
                enums = self.declared.file(crate, mods)[0]
                if p[-1] in enums and (p[0] == crate or p[0] not in os.listdir(self.root)):
                    return enums[p[-1]]
        for m in self.modules_of('.'.join(p[:-1])):
            if p[-1] in m.data:
                return {c: ['?'] * n for c, n in m.data[p[-1]].items()}
        raise LookupError('no type ' + path)

    # -- code

    def mangle(self, m, name):
        return 'd_' + re.sub(r'\W', '_', m.name.replace('.specs.', '_')) + '__' + name

    def parse(self, m, d):
        d.mod, d.py, d.arity, d.parsed, d.prop, d.error = m, self.mangle(m, d.name), 0, [], False, None
        try:
            r = strip(Parser(d.type).expr())
            while True:
                if r[0] == 'pi':
                    r = strip(r[2])
                elif r[0] == 'bin' and r[1] == '→':
                    r = strip(r[3])
                else:
                    break
            d.prop = r == ('app', ('id', 'Type'), [('num', 0)])
            for c in d.clauses:
                p = Parser(c)
                p.next()
                pats = []
                while not p.at('='):
                    if p.at('{'):
                        while not p.at('}'):
                            p.next()
                        p.next()
                        continue
                    pats.append(p.atom())
                p.eat('=')
                e = p.expr()
                if p.peek()[0] != 'end':
                    raise SyntaxError('rest %r' % (p.t[p.i:p.i + 5],))
                d.parsed.append((pats, e))
            if not d.parsed:
                raise SyntaxError('no clause')
            d.arity = len(d.parsed[0][0])
            if any(len(p) != d.arity for p, _ in d.parsed):
                raise SyntaxError('clauses with different numbers of arguments')
        except Exception as e:
            d.error = '%s: %s' % (type(e).__name__, str(e)[:200])

    def translate(self, record_fields={}):
        """Writes the Python of all definitions, and runs it; told which fields of records of propositions are values."""
        self.record_fields = record_fields
        out = []
        for m in self.modules.values():
            for d in m.defs.values():
                try:
                    if d.error:
                        raise SyntaxError(d.error)
                    out.append(self.source(m, d))
                except Exception as e:
                    name = '%s.%s' % (m.name, d.name)
                    d.error = d.error or str(e)
                    self.not_translated[name] = d.error
                    self.env[d.py] = missing(name, d.error)
            for r in list(m.scope.values()):
                if r[0] == 'rec' and r[4] is m:
                    self.record(m, r, out)
        for source in out:
            try:
                exec(compile(source, 'definitions', 'exec'), self.env)
            except SyntaxError as e:
                name = re.match(r'def (\w+)', source).group(1)
                self.not_translated[name] = str(e)
                self.env[name] = missing(name, str(e))
        for m in self.modules.values():
            for d in m.defs.values():
                self.memo(d)

    def memo(self, d):
        """A definition without arguments is computed once, until `forget`."""
        if d.arity or d.error:
            return
        f, box = self.env[d.py], []

        def g():
            if not box:
                box.append(f())
            return box[0]
        self.memos.append(box)
        self.env[d.py] = g

    def record(self, m, r, out):
        """A record of propositions as a Rec. One whose fields are all values is a type, and gives nothing that can be decided."""
        name, params, fields = r[1], r[2], r[3]
        values = self.record_fields.get('%s.%s' % (m.name, name), ())
        py = 'r_' + self.mangle(m, name)
        g = Gen(self, m, None)
        g.where, g.args = '%s.%s' % (m.name, name), ['v_' + x.replace("'", '_q') for x in params]
        for x in params + [f for f, t in fields if f in values]:
            g.locals[x] = 'v_' + x.replace("'", '_q')
        try:
            parts = [g.ex(Parser(t).expr()) for f, t in fields if f not in values]
        except Exception as e:
            why = str(e)
            if why.startswith('unknown name') and why.split()[-1] in [f for f, t in fields]:
                why = 'quantifiers.py does not say which values of its fields come into question'
            if params:
                self.not_translated[g.where] = why
            self.env[py] = missing(g.where, why)
            return
        body = parts[-1] if parts else 'True'
        for x in reversed(parts[:-1]):
            body = 'And(%s, lambda: %s)' % (x, body)
        args = ', '.join(g.args)
        both = ', '.join(g.args + ['v_' + x for x in values])
        out.append('def %s(%s):\n    return Rec(%r, %r, lambda %s: %s, (%s))\n' % (
            py, args, g.where, list(values), both, body, args + ',' if args else ''))
        self.records[g.where] = py

    def source(self, m, d):
        args = ['a%d' % i for i in range(d.arity)]
        g = Gen(self, m, d)
        g.where, g.args = '%s.%s' % (m.name, d.name), args
        # a call of itself at the end is a loop, but where a λ may have caught an argument
        g.loops = not d.prop and 'λ' not in '\n'.join(d.clauses)
        body = []
        for pats, e in d.parsed:
            g.locals = {}
            conds, binds = [], []
            for a, p in zip(args, pats):
                g.pattern(p, a, conds, binds)
            ind = '    '
            if conds:
                body.append(ind + 'if ' + ' and '.join(conds) + ':')
                ind += '    '
            body += [ind + b for b in binds]
            g.ret(e, ind, body)
            if not conds:
                break
        else:
            body.append('    raise MatchFailed(%r)' % g.where)
        head = ['def %s(%s):' % (d.py, ', '.join(args))] + (['  while True:'] if g.looped else [])
        return '\n'.join(head + body) + '\n'

    # -- numbers of definitions, replaced for a run

    def with_number(self, path, old, new):
        """A definition in which a number that is written in it, or a constant's name, is replaced by another number; new None is as it is written."""
        r = self.find(path)
        d = r[1].defs[r[2]]
        text = '\n'.join(d.clauses)
        pat = re.compile(r'(?<![\w.])%s(?!\w)' % old)
        if not pat.search(text.replace('_', '') if isinstance(old, int) else text):
            raise LookupError('%s has no number %s' % (path, old))
        saved = d.clauses
        if new is not None:
            d.clauses = [pat.sub(str(new), c) for c in d.clauses]
        self.parse(r[1], d)
        exec(compile(self.source(r[1], d), 'definitions', 'exec'), self.env)
        d.clauses = saved
        self.memo(d)

    def written(self, path, old):
        """The number that `with_number` replaces: itself, or the value of the constant."""
        if isinstance(old, int):
            return old
        r = self.lookup(self.find(path)[1], old)
        if not r or r[0] != 'const':
            raise LookupError('%s knows no constant %s' % (path, old))
        return r[1]

    def forget(self):
        for box in self.memos:
            box.clear()
