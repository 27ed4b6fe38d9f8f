"""The worked rows of the specs, evaluated at some maps and moments."""
import terms
from terms import Forall, Imp, holds, why_not


def evaluate(names, prop):
    """(met, why): how many choices of the variables meet the premises, and why one of them doesn't hold."""
    met, why, todo = 0, None, [prop]
    while todo:
        q = todo.pop()
        if isinstance(q, Forall):
            rows = [()]
            for v in q.names:
                if v not in names.ROW_VALUES:
                    raise terms.Undecided('ROW_VALUES has no values for the variable %s' % v)
                rows = [row + (x,) for row in rows for x in names.ROW_VALUES[v]]
            todo += [q.f(*row) for row in rows]
        elif isinstance(q, Imp):
            if holds(q.a):
                todo.append(q.b())
        else:
            met += 1
            if not holds(q):
                why = why or why_not(q)[:300]
    return met, why


def row_modules(d):
    """The modules of worked rows: those whose names end in `Rows`."""
    return [m for name, m in sorted(d.p.modules.items()) if name.endswith('Rows')]


def is_row(definition):
    """A proposition without parameters."""
    return definition.prop and not definition.arity


def is_type(value):
    """Whether a definition without parameters gives a name to a type of values, so that it says nothing."""
    return isinstance(value, str) and value.startswith('type ')


def run(d, quiet=False):
    """(rows that hold, rows that fail)"""
    d.scale({})
    total = failed = 0
    for m in row_modules(d):
        for x in filter(is_row, m.defs.values()):
            name = '%s.%s' % (m.name.replace('.specs.', '.'), x.name)
            if name in d.names.ROWS_LEFT_OUT:
                continue
            met, why = 0, None
            try:
                value = d.p.env[x.py]()
                if is_type(value):
                    continue
                met, why = evaluate(d.names, value)
            except Exception as e:
                why = '%s: %s' % (type(e).__name__, e)
            total += 1
            if why or not met:
                failed += 1
                if not quiet:
                    print('FAILS %s: %s' % (name, why or 'no choice of its variables meets its premises'))
    return total - failed, failed
