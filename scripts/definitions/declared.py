"""The types and constants that a crate's .rt files declare."""
import os
import re
from terms import V


def split_commas(body):
    """What stands between the commas that are in no brackets."""
    parts, depth, cur = [], 0, ''
    for c in body:
        depth += (c in '({<[') - (c in ')}>]')
        if c == ',' and depth == 0:
            parts.append(cur)
            cur = ''
        else:
            cur += c
    return [p.strip() for p in parts + [cur] if p.strip()]


class Declared:
    """The types of a crate's src: of each enum its constructors with the types of their arguments, and the constants."""

    def __init__(self, root):
        self.root = root
        self.cache = {}

    def file(self, crate, mods):
        key = (crate, tuple(mods))
        if key not in self.cache:
            base = os.path.join(self.root, crate, 'src', *mods)
            path = base + '.rt' if os.path.exists(base + '.rt') else os.path.join(base, 'mod.rt')
            self.cache[key] = self.parse(re.sub(r'//[^\n]*', '', open(path, encoding='utf-8').read()))
        return self.cache[key]

    def value(self, text):
        """A constructor of an enum with its arguments, as Verb::Alone(Alone::Where)."""
        m = re.match(r'\s*(?:\w+::)?(\w+)\s*(?:\((.*)\))?\s*$', text, re.S)
        return V(m.group(1), tuple(self.value(x) for x in split_commas(m.group(2))) if m.group(2) else ())

    def parse(self, text):
        enums, consts = {}, {}
        for m in re.finditer(r'(?:pub(?:\([^)]*\))? )?const (\w+): \w+ = ([\d_]+|0x[\da-fA-F_]+);', text):
            consts[m.group(1)] = int(m.group(2).replace('_', ''), 0)
        for m in re.finditer(r'(?:pub(?:\([^)]*\))? )?const (\w+): \[\w+; \d+\] = \[([\w:(),\s]*)\];', text):
            consts[m.group(1)] = tuple(self.value(x) for x in split_commas(m.group(2)) if x.strip())
        for m in re.finditer(r'(?:pub(?:\([^)]*\))? )?enum (\w+)(?:<[^{]*>)? \{', text):
            depth, i = 1, m.end()
            while depth:
                depth += {'{': 1, '}': -1}.get(text[i], 0)
                i += 1
            cons = {}
            for p in split_commas(re.sub(r'#\[[^\]]*\]', '', text[m.end():i - 1])):
                mm = re.match(r'(\w+)\s*([({].*?[)}])?(?:\s*=.*)?$', p, re.S)
                if not mm:
                    continue
                inner = (mm.group(2) or '').strip()
                cons[mm.group(1)] = [x.rsplit(': ', 1)[-1] for x in split_commas(inner[1:-1])] if inner else []
            enums[m.group(1)] = cons
        return enums, consts
