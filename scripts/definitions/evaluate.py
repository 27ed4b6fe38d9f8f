"""An expression of antt, evaluated: definitions by their paths, constructors by their names."""
import re
import antt
import terms
from antt import Gen, Parser


class Parser2(Parser):
    """With rows in brackets, [1, 2, 3]."""

    def atom(self):
        if self.peek() == ('p', '[') and self.peek(1) != ('p', ']'):
            self.next()
            items = [self.expr()]
            while self.at(','):
                self.next()
                items.append(self.expr())
            self.eat(']')
            e = ('nil',)
            for x in reversed(items):
                e = ('bin', '∷', x, e)
            return ('paren', e)
        return super().atom()


def path_of(e):
    """A row of names joined by points, or None."""
    if e[0] == 'id':
        return e[1]
    if e[0] == 'field' and isinstance(e[2], str):
        p = path_of(e[1])
        return p and p + '.' + e[2]
    return None


class EvalGen(Gen):
    """Names that the module doesn't have are looked for in all modules."""

    def constructor(self, type_, name, nargs):
        """A constructor of any type, or of the types of a name; by its number of arguments where there are several."""
        counts = set()
        for m in self.p.modules.values():
            counts |= {cons[name] for t, cons in m.data.items() if name in cons and type_ in (None, t)}
        for enums, consts in self.p.declared.cache.values():
            counts |= {len(cons[name]) for t, cons in enums.items() if name in cons and type_ in (None, t)}
        if len(counts) > 1 and nargs in counts:
            counts = {nargs}
        if len(counts) > 1:
            raise LookupError('there are constructors %s with %s arguments; write its type before it' % (name, sorted(counts)))
        return ('con', name, counts.pop()) if counts else None

    def resolve(self, e, nargs=0):
        path = path_of(e)
        if path is None or path.split('.')[0] in self.locals:
            return None
        before, _, name = path.rpartition('.')
        if before == 'fin' and 'FinMap_' + name in self.p.natives:
            return ('std', 'FinMap_' + name)
        if before:
            if before in self.m.alias:
                return None
            try:
                return self.p.find(path)
            except LookupError:
                r = self.constructor(before.rsplit('.', 1)[-1], name, nargs)
                if r is None and self.p.modules_of(before):
                    raise
                return r
        if self.p.lookup(self.m, name) or name in self.p.natives:
            return None
        found = {'%s.%s' % (m.name, name): ('def', m, name) for m in self.p.modules.values() if name in m.defs}
        if len(found) > 1:
            raise LookupError('%s stands in %s; write the module before it' % (name, ', '.join(found)))
        return next(iter(found.values())) if found else self.constructor(None, name, nargs)

    def head(self, e, args):
        e = antt.strip(e)
        r = self.resolve(e, len(args))
        return self.global_ref(r, args) if r else super().head(e, args)

    def ex(self, e):
        if e[0] == 'field' and self.resolve(e):
            return self.head(e, [])
        return super().ex(e)


def run(d, text, module=None):
    """The value of an expression in the scope of a module."""
    p = d.p
    m = antt.Module('eval', '')
    if module:
        found = p.modules_of(module)
        if len(found) != 1:
            raise LookupError('no one module %s' % module)
        m = found[0]
    # outside of texts -> is →, :: is ∷ and a backslash is λ
    parts = re.split(r'("(?:[^"\\]|\\.)*")', text)
    for a, b in (('->', '→'), ('::', '∷'), ('\\', 'λ ')):
        parts[::2] = [x.replace(a, b) for x in parts[::2]]
    parser = Parser2(''.join(parts))
    e = parser.expr()
    if parser.peek()[0] != 'end':
        raise SyntaxError('rest %r' % (parser.t[parser.i:parser.i + 5],))
    g = EvalGen(p, m, None)
    g.where = 'eval'
    code = g.ex(e)
    env = dict(p.env)
    x = eval(code, env)
    if type(x) in (terms.And, terms.Or, terms.Imp, terms.Not, terms.Rec, terms.Forall, terms.Exists):
        return terms.holds(x)
    return x
