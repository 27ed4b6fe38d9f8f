"""Tokens and expressions of antt: expressions, types and patterns are one grammar."""
import re

# ---- tokens

TOK = re.compile(r'''\s+|--[^\n]*|(?P<str>"(?:[^"\\]|\\.)*")|(?P<num>0x[0-9A-Fa-f_]+|\d[\d_]*)|(?P<id>[A-Za-zℕ_◌⊥⊤][\w'ℕ◌]*)'''
                 r'''|(?P<op>\+\+|&&|\|\||==|[→×⊎≡≢≤<↔∷+\-*/%^λ↦¬])|(?P<p>[(){}\[\];,.=:|])''')
# constructors and types of std
STD_CONS = {'Some': 1, 'None': 0, 'Ok': 1, 'Err': 1, 'Less': 0, 'Equal': 0, 'Greater': 0}
STD_TYPES = {'ℕ', 'List', 'Option', 'Bool', 'FinMap', 'Result', 'Ordering', 'Type'}
KEY = {'if', 'then', 'else', 'let', 'in', 'record', 'elim', 'where'}
BIN = {'→': (1, 'r'), '⊎': (2, 'r'), '×': (3, 'r'), '↔': (4, 'r'), '≡': (10, 'r'), '≢': (10, 'r'), '≤': (10, 'r'), '<': (10, 'r'),
       '||': (12, 'r'), '&&': (13, 'r'), '==': (15, 'r'), '∷': (20, 'r'), '++': (20, 'r'), '+': (30, 'l'), '-': (30, 'l'),
       '*': (40, 'l'), '/': (40, 'l'), '%': (40, 'l'), '^': (50, 'r')}


def tokens(s):
    out, i = [], 0
    while i < len(s):
        m = TOK.match(s, i)
        if not m:
            raise SyntaxError('token at ' + s[i:i + 40])
        i = m.end()
        k = m.lastgroup
        if k:
            v = m.group(k)
            if k == 'id' and v in KEY:
                k = 'key'
            # a field: no space before the dot
            if k == 'p' and v == '.' and m.start() > 0 and not s[m.start() - 1].isspace() and i < len(s) and re.match(r'[\w(]', s[i]) \
                    and not s[i].isspace():
                k, v = 'dot', '.'
            out.append((k, v))
    out.append(('end', ''))
    return out


# ---- parser: expressions, types and patterns are one grammar

class Parser:
    def __init__(self, text):
        self.t = tokens(text)
        self.i = 0
        self.text = text

    def peek(self, k=0):
        return self.t[self.i + k]

    def next(self):
        x = self.t[self.i]
        self.i += 1
        return x

    def eat(self, v):
        if self.peek()[1] != v or self.peek()[0] == 'str':
            raise SyntaxError('wanted %s, found %r in %s' % (v, self.t[self.i:self.i + 6], self.text[:300]))
        self.i += 1

    def at(self, v):
        return self.peek()[1] == v and self.peek()[0] != 'str'

    def expr(self, level=0):
        left = self.prefix()
        while True:
            k, v = self.peek()
            if k != 'op' or v not in BIN or BIN[v][0] < level:
                return left
            p, side = BIN[v]
            self.next()
            right = self.expr(p if side == 'r' else p + 1)
            left = ('bin', v, left, right)

    def binder(self):
        """(x y : T) in front of → or ×, or {X : T} →; None where it is none."""
        i = self.i
        close = {'(': ')', '{': '}'}.get(self.peek()[1])
        if not close or self.peek()[0] != 'p':
            return None
        opener = self.next()[1]
        names = []
        while self.peek()[0] == 'id':
            names.append(self.next()[1])
        if names and self.at(':'):
            self.next()
            ty = self.expr()
            if self.at(close):
                self.next()
                return (names, ty, opener == '{')
        self.i = i
        return None

    def prefix(self):
        k, v = self.peek()
        if v == 'λ' and k == 'op':
            self.next()
            names = []
            while not self.at('.'):
                if self.peek()[0] == 'id':
                    names.append(self.next()[1])
                else:
                    b = self.binder()
                    names += b[0]
            # the dot may be read as a field dot
            self.next()
            return ('lam', names, self.expr())
        if v == '¬' and k == 'op':
            self.next()
            return ('not', self.expr(11))
        if k == 'key' and v == 'if':
            self.next()
            c = self.expr()
            self.eat('then')
            a = self.expr()
            self.eat('else')
            return ('if', c, a, self.expr())
        if k == 'key' and v == 'let':
            self.next()
            name = self.next()[1]
            if self.at(':'):
                self.next()
                self.expr()
            self.eat('=')
            e = self.expr()
            self.eat('in')
            return ('let', name, e, self.expr())
        if k == 'p' and v in '({':
            b = self.binder()
            if b:
                more = [b]
                while self.peek()[1] in ('(', '{') and self.peek()[0] == 'p':
                    b = self.binder()
                    if not b:
                        raise SyntaxError('binder in ' + self.text[:200])
                    more.append(b)
                kind = self.next()[1]
                body = self.expr()
                if kind == '→':
                    return ('pi', more, body)
                if kind == '×':
                    return ('sigma', more, body)
                raise SyntaxError('binder before %r in %s' % (kind, self.text[:300]))
        return self.app()

    def app(self):
        f = self.atom()
        args = []
        while True:
            k, v = self.peek()
            if k in ('id', 'num', 'str') or (k == 'p' and v in '([') or (k == 'key' and v in ('record', 'elim')):
                args.append(self.atom())
            elif k == 'p' and v == '{' and self.peek(1)[0] == 'id' and (self.peek(2)[1] in ('}', '=')):
                # an implicit argument
                self.next()
                self.next()
                if self.at('='):
                    self.next()
                    self.expr()
                self.eat('}')
                args.append(('implicit',))
            elif k == 'p' and v == '{' and self.peek(1)[0] == 'num':
                self.next()
                self.next()
                self.eat('}')
                args.append(('implicit',))
            else:
                break
        args = [a for a in args if a != ('implicit',)]
        return ('app', f, args) if args else f

    def atom(self):
        k, v = self.next()
        if k == 'id':
            e = ('id', v)
        elif k == 'num':
            e = ('num', int(v.replace('_', ''), 0))
        elif k == 'str':
            e = ('str', code_points(v[1:-1]))
        elif v == '(' and k == 'p':
            items = []
            trail = False
            while not self.at(')'):
                items.append(self.expr())
                trail = False
                if self.at(','):
                    self.next()
                    trail = True
                else:
                    break
            self.eat(')')
            e = items[0] if len(items) == 1 and not trail else ('tuple', items)
            if len(items) == 1:
                e = ('paren', e)
        elif v == '[' and k == 'p':
            self.eat(']')
            e = ('nil',)
        elif k == 'key' and v == 'record':
            base = None
            if not self.at('{'):
                base = self.atom()
            self.eat('{')
            fields = []
            while not self.at('}'):
                name = self.next()[1]
                self.eat('=')
                fields.append((name, self.expr()))
                if self.at(';'):
                    self.next()
            self.eat('}')
            e = ('record', base, fields)
        elif k == 'key' and v == 'elim':
            x = self.atom()
            self.eat('[')
            alts = []
            while not self.at(']'):
                if self.at('|'):
                    self.next()
                pat = self.expr()
                self.eat('↦')
                alts.append((pat, self.expr()))
            self.eat(']')
            e = ('elim', x, alts)
        else:
            raise SyntaxError('%r in %s' % (v, self.text[:400]))
        while self.peek()[0] == 'dot':
            self.next()
            f = self.next()
            e = ('field', e, f[1] if f[0] != 'num' else int(f[1]))
        return e


def code_points(text):
    """The characters of a text as it is written, as numbers."""
    short = {'n': 10, 'r': 13, 't': 9, '0': 0}
    return tuple(int(x[3:-1], 16) if x[1:2] == 'u' else short.get(x[1], ord(x[1])) if x[0] == '\\' else ord(x)
                 for x in re.findall(r'\\u\{[0-9a-fA-F]+\}|\\.|[^\\]', text, re.S))


def strip(e):
    while e[0] == 'paren':
        e = e[1]
    return e
