"""Python of one definition."""
import keyword
from parsing import STD_CONS, STD_TYPES, strip
from terms import V


def fld(n):
    return n + '_' if keyword.iskeyword(n) else n


class Gen:
    """Python of one definition `d` of a module `m`."""

    def __init__(self, prog, m, d):
        self.p, self.m, self.d = prog, m, d
        self.locals = {}                  # a variable -> its Python name
        self.fresh = 0
        self.where, self.args = '', []    # the definition's name and arguments, for its quantifiers
        self.loops = self.looped = False

    def name(self, n):
        self.fresh += 1
        return 'v_' + n.replace("'", '_q') + ('' if n not in self.locals else '_%d' % self.fresh)

    # -- patterns

    def con_of(self, e):
        """The constructor that a pattern's head names, or None."""
        if e[0] == 'id':
            n = e[1]
            if n in ('true', 'false', 'zero', 'suc'):
                return ('con', n, 1 if n == 'suc' else 0)
            r = self.p.lookup(self.m, n)
            if r and r[0] == 'con':
                return r
            if (not r or r[0] == 'std') and n in STD_CONS:
                return ('con', n, STD_CONS[n])
        if e[0] == 'field' and e[1][0] == 'id' and e[1][1] in self.m.alias:
            k, t = self.m.alias[e[1][1]]
            r = self.p.member(k, t, e[2])
            if r[0] == 'con':
                return r
        return None

    def pattern(self, p, x, conds, binds, in_cond=False):
        p = strip(p)
        if p[0] == 'num':
            conds.append('%s == %d' % (x, p[1]))
            return
        if p[0] == 'nil':
            conds.append('not ' + x)
            return
        if p[0] == 'bin' and p[1] == '∷':
            conds.append(x)
            self.pattern(p[2], x + '[0]', conds, binds)
            rest = strip(p[3])
            if rest == ('nil',):
                conds.append('len(%s) == 1' % x)
            elif rest[0] == 'bin':
                # flatten, without making slices in conditions
                n, r = 1, rest
                items = []
                while r[0] == 'bin':
                    items.append(r[2])
                    r = strip(r[3])
                conds.append('len(%s) %s %d' % (x, '==' if r == ('nil',) else '>=', 1 + len(items)))
                for i, it in enumerate(items):
                    self.pattern(it, '%s[%d]' % (x, i + 1), conds, binds)
                if r[0] != 'nil':
                    self.pattern(r, '%s[%d:]' % (x, 1 + len(items)), conds, binds)
            else:
                self.pattern(rest, x + '[1:]', conds, binds)
            return
        if p[0] == 'tuple':
            for i, q in enumerate(p[1]):
                self.pattern(q, '%s[%d]' % (x, i), conds, binds)
            return
        head, args = (p[1], p[2]) if p[0] == 'app' else (p, [])
        c = self.con_of(head)
        if c and c[2] == len(args):
            n = c[1]
            if n == 'true':
                conds.append(x)
            elif n == 'false':
                conds.append('not ' + x)
            elif n == 'zero':
                conds.append('%s == 0' % x)
            elif n == 'suc':
                conds.append('%s > 0' % x)
                self.pattern(args[0], '(%s - 1)' % x, conds, binds)
            else:
                conds.append('%s.t == %r' % (x, n))
                for i, q in enumerate(args):
                    self.pattern(q, '%s.a[%d]' % (x, i), conds, binds)
            return
        if p[0] == 'id':
            if p[1] == '_':
                return
            v = self.name(p[1])
            self.locals[p[1]] = v
            binds.append('%s = %s' % (v, x))
            return
        raise SyntaxError('pattern %r' % (p,))

    # -- statements

    def ret(self, e, ind, out):
        e = strip(e)
        if e[0] == 'if':
            out.append(ind + 'if %s:' % self.ex(e[1]))
            self.ret(e[2], ind + '    ', out)
            out.append(ind + 'else:')
            self.ret(e[3], ind + '    ', out)
            return
        if e[0] == 'let':
            v = self.name(e[1])
            out.append(ind + '%s = %s' % (v, self.ex(e[2])))
            old = dict(self.locals)
            self.locals[e[1]] = v
            self.ret(e[3], ind, out)
            self.locals = old
            return
        if self.loops and e[0] == 'app' and e[1] == ('id', self.d.name) and self.d.name not in self.locals and len(e[2]) == self.d.arity:
            self.looped = True
            out.append(ind + '%s = %s' % (', '.join('a%d' % i for i in range(self.d.arity)) + ',',
                                          ', '.join(self.ex(a) for a in e[2]) + ','))
            out.append(ind + 'continue')
            return
        out.append(ind + 'return ' + self.ex(e))

    # -- expressions

    def global_ref(self, r, args):
        """A call of a global with translated arguments."""
        k = r[0]
        if k == 'con':
            n, ar = r[1], r[2]
            if n == 'true':
                return 'True'
            if n == 'false':
                return 'False'
            if len(args) == ar:
                return 'V(%r, (%s))' % (n, ''.join(a + ', ' for a in args)) if ar else 'K_' + self.const_con(n)
            return self.apply('Fn(%d, lambda *x: V(%r, x))' % (ar, n), args)
        if k == 'const':
            if not isinstance(r[1], int):
                n = 'C_%d' % len(self.p.env)
                self.p.env[n] = r[1]
                return n
            return str(r[1])
        if k == 'std':
            if r[1] in STD_TYPES:
                return repr('type ' + r[1])
            if r[1] in STD_CONS or r[1] in ('true', 'false', 'zero', 'suc'):
                n = r[1]
                if n in ('true', 'false'):
                    return {'true': 'True', 'false': 'False'}[n]
                if n == 'zero':
                    return '0'
                if n == 'suc':
                    return '(%s + 1)' % args[0] if args else 'Fn(1, lambda x: x + 1)'
                return self.global_ref(('con', n, STD_CONS[n]), args)
            if r[1] not in self.p.natives:
                raise SyntaxError('no native ' + r[1])
            ar = self.p.natives[r[1]][0]
            return self.call('n_' + r[1], ar, args)
        if k == 'def':
            d = r[1].defs[r[2]]
            return self.call(d.py, d.arity, args)
        if k == 'rec':
            if len(args) >= len(r[2]) > 0:
                return 'r_%s(%s)' % (self.p.mangle(r[4], r[1]), ', '.join(args[-len(r[2]):]))
            return repr('type ' + r[1])
        if k == 'gone':
            raise SyntaxError('no %s is declared' % r[1])
        if k == 'type':
            return repr('type ' + str(r[1]))
        raise SyntaxError('global %r' % (r,))

    def const_con(self, n):
        self.p.env.setdefault('K_' + n, V(n))
        return n

    def call(self, f, ar, args):
        if ar == 0:
            return self.apply(f + '()', args)
        if len(args) == ar:
            return '%s(%s)' % (f, ', '.join(args))
        return self.apply('Fn(%d, %s)' % (ar, f), args) if len(args) < ar else self.apply('%s(%s)' % (f, ', '.join(args[:ar])), args[ar:])

    def apply(self, f, args):
        return 'ap(%s, %s)' % (f, ', '.join(args)) if args else f

    def head(self, e, args):
        e = strip(e)
        if e[0] == 'id':
            n = e[1]
            if n in self.locals:
                return self.apply(self.locals[n], args)
            if n == 'Unit':
                return 'True'
            if n in ('⊥',):
                return 'False'
            if n in ('⊤',):
                return 'True'
            if n == 'codes' and len(args) == 1:
                return args[0]
            if n == 'IsTrue':
                return args[0]
            r = self.p.lookup(self.m, n)
            if r is None:
                if n in ('true', 'false', 'zero', 'suc') or n in STD_CONS or n in STD_TYPES or n in self.p.natives:
                    r = ('std', n)
                else:
                    raise SyntaxError('unknown name ' + n)
            return self.global_ref(r, args)
        if e[0] == 'field' and e[1][0] == 'id' and e[1][1] not in self.locals and e[1][1] in self.m.alias:
            k, t = self.m.alias[e[1][1]]
            if k == 'std':
                return self.global_ref(('std', t.split('.')[-1] + '_' + e[2]), args)
            return self.global_ref(self.p.member(k, t, e[2]), args)
        return self.apply(self.ex(e), args)

    def ex(self, e):
        k = e[0]
        if k == 'paren':
            return self.ex(e[1])
        if k == 'num':
            return str(e[1])
        if k == 'str':
            return repr(tuple(e[1]))
        if k == 'nil':
            return '()'
        if k == 'id':
            return self.head(e, [])
        if k == 'app':
            return self.head(e[1], [self.ex(a) for a in e[2]])
        if k == 'field':
            if e[1][0] == 'id' and e[1][1] not in self.locals and e[1][1] in self.m.alias:
                return self.head(e, [])
            x = self.ex(e[1])
            return '%s[%d]' % (x, e[2]) if isinstance(e[2], int) else '%s.%s' % (x, fld(e[2]))
        if k == 'tuple':
            return '(' + ''.join(self.ex(a) + ', ' for a in e[1]) + ')'
        if k == 'if':
            return '(%s if %s else %s)' % (self.ex(e[2]), self.ex(e[1]), self.ex(e[3]))
        if k == 'let':
            v = self.name(e[1])
            x = self.ex(e[2])
            old = dict(self.locals)
            self.locals[e[1]] = v
            b = self.ex(e[3])
            self.locals = old
            return '(lambda %s: %s)(%s)' % (v, b, x)
        if k == 'lam':
            old = dict(self.locals)
            vs = []
            for n in e[1]:
                v = self.name(n)
                self.locals[n] = v
                vs.append(v)
            b = self.ex(e[2])
            self.locals = old
            return 'Fn(%d, lambda %s: %s)' % (len(vs), ', '.join(vs), b)
        if k == 'record':
            fs = ', '.join('%s=%s' % (fld(n), self.ex(x)) for n, x in e[2])
            return 'R(%s)' % fs if e[1] is None else 'upd(%s, %s)' % (self.ex(e[1]), fs)
        if k == 'elim':
            x = self.ex(e[1])
            self.fresh += 1
            v = 'e_%d' % self.fresh
            out = ''
            closing = ''
            for pat, body in e[2]:
                conds, binds = [], []
                old = dict(self.locals)
                self.pattern(pat, v, conds, binds)
                if binds:
                    raise SyntaxError('elim that binds')
                out += '(%s if %s else ' % (self.ex(body), ' and '.join(conds) or 'True')
                closing += ')'
                self.locals = old
            return '(lambda %s: %sNone%s)(%s)' % (v, out, closing, x)
        if k == 'not':
            return 'Not(%s)' % self.ex(e[1])
        if k == 'bin':
            op = e[1]
            if op == '∷':
                # a whole row at once
                heads, rest = [], e
                while rest[0] == 'bin' and rest[1] == '∷':
                    heads.append(self.ex(rest[2]))
                    rest = strip(rest[3])
                row = '(%s,)' % ', '.join(heads)
                return row if rest == ('nil',) else '(%s + %s)' % (row, self.ex(rest))
            if op == '→':
                return 'Imp(%s, lambda: %s)' % (self.ex(e[2]), self.ex(e[3]))
            a, b = self.ex(e[2]), self.ex(e[3])
            if op == '++':
                return '(%s + %s)' % (a, b)
            if op == '&&':
                return '(%s and %s)' % (a, b)
            if op == '||':
                return '(%s or %s)' % (a, b)
            if op in ('==', '≡'):
                return '(%s == %s)' % (a, b)
            if op == '≢':
                return '(%s != %s)' % (a, b)
            if op == '≤':
                return '(%s <= %s)' % (a, b)
            if op == '<':
                return '(%s < %s)' % (a, b)
            if op == '-':
                return 'max(%s - %s, 0)' % (a, b)
            if op == '/':
                return 'n_div(%s, %s)' % (a, b)
            if op == '%':
                return 'n_mod(%s, %s)' % (a, b)
            if op == '^':
                return '(%s ** %s)' % (a, b)
            if op in '+*':
                return '(%s %s %s)' % (a, op, b)
            if op == '×':
                return 'And(%s, lambda: %s)' % (a, b)
            if op == '⊎':
                return 'Or(%s, lambda: %s)' % (a, b)
            if op == '↔':
                return 'And(Imp(%s, lambda: %s), lambda: Imp(%s, lambda: %s))' % (a, b, b, a)
            raise SyntaxError('operator ' + op)
        if k in ('pi', 'sigma'):
            old = dict(self.locals)
            vs = []
            for names, ty, imp in e[1]:
                for n in names:
                    v = self.name(n)
                    self.locals[n] = v
                    vs.append(v)
            b = self.ex(e[2])
            self.locals = old
            return '%s(%r, lambda %s: %s, %r, (%s))' % ('Forall' if k == 'pi' else 'Exists', [n for x in e[1] for n in x[0]],
                                                         ', '.join(vs), b, self.where, ''.join(a + ', ' for a in self.args))
        raise SyntaxError('expression %r' % (e,))
