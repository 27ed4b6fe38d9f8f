"""Slow definitions, by hand: each is compared with the translated one at drawn values whenever they are loaded."""
from natives import FinMap
from terms import con
from values import file


def fast_under(table, path):
    if not path:
        return table
    n = len(path)
    return FinMap({k[n:]: v for k, v in table.d.items() if k[:n] == path})


def fast_with_part(table, path, part):
    if not path:
        return part
    n = len(path)
    d = {k: v for k, v in table.d.items() if k[:n] != path}
    d.update({path + k: v for k, v in part.d.items()})
    return FinMap(d)


def drawn_path(r):
    return tuple(tuple(r.choice((b'a', b'b', b'ab'))) for _ in range(r.randrange(3)))


def drawn_table(r):
    return FinMap({drawn_path(r): con('Dir') if r.random() < .5 else file(b'x', r.randrange(3)) for _ in range(r.randrange(6))})


FAST = {
    'ftp_path.Path.is_within': (lambda above, path: path[:len(above)] == above, lambda r: (drawn_path(r), drawn_path(r))),
    'ftp_tree.Map.under': (fast_under, lambda r: (drawn_table(r), drawn_path(r))),
    'ftp_tree.Map.with_part': (fast_with_part, lambda r: (drawn_table(r), drawn_path(r), drawn_table(r))),
}
