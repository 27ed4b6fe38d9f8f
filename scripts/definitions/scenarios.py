"""What the ends are called with alone, the values at which rows are looked at, and the operations of `exhaust`."""
from names import owed, settings
from terms import con, rec
from values import ALL_RIGHTS, ELSEWHERE, HERE, LIMITS, draw_op, how, op, over_breaks, some_tree

# ---- bounds of the ends (see `run bounds`) --------------------------------------------------------------------------------------------

SERVER_MOST = 8192            # control octets that a server owes
SERVER_BY_ONE = 4096          # how many more by one octet, or by another call
CLIENT_MOST = 2048            # of a client: it takes none while it owes more than 1,024, and then gives one line at most
CLIENT_BY_ONE = 1024

# lines and arguments that a server is sent; besides them, each verb with each argument
SERVER_LINES = [b'USER anonymous', b'USER guest', b'PASS secret', b'PASV', b'EPSV', b'EPSV ALL', b'EPSV 3', b'RETR a', b'STOR n', b'LIST', b'NLST d',
                b'MLSD d', b'ABOR', b'PWD',
                b'HELP', b'STAT', b'FEAT', b'NOOP', b'QUIT', b'REIN', b'TYPE A N', b'TYPE L 8', b'TYPE L 9', b'TYPE E N', b'ALLO 5 R 6',
                b'PORT 127,0,0,1,7,138', b'PORT 1,2,3,4,5,256',
                b'EPRT |1|127.0.0.1|1930|', b'EPRT |2|::1|1930|', b'EPRT |2|1:2::3:4|1|', b'EPRT |3|x|1|', b'REST 3', b'OPTS MLST size;type;',
                b'MKD ' + b'"' * 255,
                b'CWD ' + b'"' * 255, b'CDUP', b'STRU R', b'STRU P', b'MODE B', b'MODE C', b'SIZE a', b'MLST a']
SERVER_ARGUMENTS = [b'a', b'd/a', b'/' + b'"' * 250, b'd' * 255 + b'/' + b'e' * 255, b'', b' ', b'5', b'A', b'I', b'L 8', b'F', b'S', b'-a d',
                    b'127,0,0,1,7,138', b'guest', b'x' * 1010]
SERVER_FLOODS = [b'STAT', b'FEAT', b'HELP', b'PWD', b'PASS x']      # sent until the server takes no more
TELNET = [b'\xff\xfd\x01', b'\xff\xfb\x02', b'\xff\xff', b'\xff\xfa\x01x\xff\xf0', b'\xff\xf1']

# what a client hears: first the greeting, then by the command that it sent, else 200 Ok
CLIENT_GREETING = b'220 Ready'
TRANSFER_REPLIES = [b'150 Now', b'226 Done']
CLIENT_REPLIES = {b'USER': [b'331 Password'], b'PASS': [b'230 In'], b'PASV': [b'227 Passive (127,0,0,1,7,138)'], b'EPSV': [b'229 Extended (|||1930|)'],
                  b'RETR': TRANSFER_REPLIES, b'STOR': TRANSFER_REPLIES, b'APPE': TRANSFER_REPLIES, b'LIST': TRANSFER_REPLIES, b'NLST': TRANSFER_REPLIES,
                  b'MLSD': TRANSFER_REPLIES, b'PWD': [b'257 "/d" here'], b'MKD': [b'257 "/n" made'], b'SIZE': [b'213 5'], b'MDTM': [b'213 20000101000000'],
                  b'REST': [b'350 Go on'], b'RNFR': [b'350 Go on'], b'CWD': [b'250 Ok'], b'CDUP': [b'250 Ok'], b'DELE': [b'250 Ok'], b'RMD': [b'250 Ok'],
                  b'RNTO': [b'250 Ok'], b'ABOR': [b'426 Broken', b'226 Done']}
OTHER_REPLIES = [b'200 Ok', b'226 Done', b'426 Broken', b'110 MARK 5 = 5', b'250 Ok', b'550 No', b'425 No', b'502-Several\r\n lines\r\n502 No']

SERVER_CALLS = {              # each call of the server but hearing: how often, and what it does
    'gives_control': (8, lambda d, v, r: d.server_gives_control(r.randint(0, len(owed(v))), v)),
    'listening': (6, lambda d, v, r: d.server_listening(r.randrange(65536), v)),
    'listen_refused': (1, lambda d, v, r: d.server_listen_refused(v)),
    'data_opened': (6, lambda d, v, r: d.server_data_opened(r.choice((HERE, HERE, HERE, ELSEWHERE)), v)),
    'data_refused': (1, lambda d, v, r: d.server_data_refused(v)),
    'data_end': (3, lambda d, v, r: d.server_data_end(v)),
    'data_fault': (1, lambda d, v, r: d.server_data_fault(v)),
    'data_closed': (4, lambda d, v, r: d.server_data_closed(v)),
    'gives_data': (4, lambda d, v, r: d.server_gives_data(r.randint(0, len(d.server_to_give(v))), v)),
    'clocked': (1, lambda d, v, r: d.server_clocked(r.randrange(2000000000), v)),
}
CLIENT_CALLS = {
    'starts': (8, lambda d, v, r: v if d.client_is_busy(v) else d.client_starts(draw_op(r, dict(blocks=False, plain=False, close=.5)), v)),
    'reports': (6, lambda d, v, r: d.client_reports(v)),
    'gives_control': (3, lambda d, v, r: d.client_gives_control(r.randint(0, len(owed(v))), v)),
    'listening': (6, lambda d, v, r: d.client_listening(r.randrange(65536), v)),
    'listen_refused': (1, lambda d, v, r: d.client_listen_refused(v)),
    'data_opened': (6, lambda d, v, r: d.client_data_opened(r.choice((HERE, HERE, HERE, ELSEWHERE)), v)),
    'data_refused': (1, lambda d, v, r: d.client_data_refused(v)),
    'data_end': (3, lambda d, v, r: d.client_data_end(v)),
    'data_fault': (1, lambda d, v, r: d.client_data_fault(v)),
    'data_closed': (4, lambda d, v, r: d.client_data_closed(v)),
    'gives_data': (4, lambda d, v, r: d.client_gives_data(r.randint(0, len(d.client_to_give(v))), v)),
}

# ---- rows -----------------------------------------------------------------------------------------------------------------------------

def row_tables():
    """Maps at which rows are looked at; some with room for so many octets at `f` as premises of rows ask for."""
    for t in ({}, {b'd': None}, {b'f': (b'abc', 5)}, {b'f': (b'0123456789', 9)}, {b'f': (b'a\nb\rc', 0)}, {b'f': (b'a\nb\n', 5)}, {b'd': None, b'd/x': None},
              {b'd': None, b'd/x': (b'abc', 946684800)}, {b'd': (b'q', 5)}, {b'd': (b'q', 5), b'e': (b'', 9)}):
        yield some_tree(t)
    for t in ({b'f': (b'', 0)}, {b'f': (b'abc', 0)}):
        for most in (LIMITS['file'], 1000, 2):
            yield some_tree(t, file=max(most, 3) if most > 2 or t[b'f'][0] else 2)


ROW_TABLES = list(row_tables())
# no rows, or rows that are not evaluated: of words of other crates, of every view, and a type
ROWS_LEFT_OUT = {'tool_location.Rows.UrlsSaid', 'tool_location.Rows.UrlsRefused', 'ftp_server_model.Rows.DownloadCut', 'ftp_tree.Rows.Rows'}
# the values that a row's variables take, by their names; rows hold for any
ROW_VALUES = {
    'table': ROW_TABLES,
    'moment': [0, 5, 9],
    'later': [0, 9],
    'octets': [(), (113,)],
    'other': [(), (113,)],
    'root': [(), ((100,),), ((114,), (115,))],
    'state': [rec(table=t, root=(), cwd=(), known=True, rights=ALL_RIGHTS) for t in ROW_TABLES],
}

# ---- scenarios of `exhaust`: an operation, and another after it ----------------------------------------------------------------------

EXHAUST_TREE = {b'd': None, b'd/x': (b'q', 7), b'f': (b'a\n', 5), b'g': (b'\r\n', 6), b'm': (b'', 1), b'L': (b'abcd\nefg' * 5, 8)}
EXHAUST_LOGIN = (b'anonymous', b'')
# begun after each of them
SMALL = dict(file=6, total=60, nodes=9)
SECOND = op('Append', b'f', b'y', how('I', 'F', 'S', True))


def scenarios():
    """(name, events that begin, numbers, limits of the map)"""
    def one(operation, limits={}, **numbers):
        h = next((a for a in operation.a if hasattr(a, 'representation')), None)
        text = ' '.join(repr(bytes(a).decode('latin-1')) if isinstance(a, tuple) else str(a) for a in operation.a if a is not h)
        name = '%s %s%s' % (operation.t, text, '' if h is None else ' %s%s%s%s%s' % (
            settings(h).kind.t[0], settings(h).structure.t[0], settings(h).mode.t[0], ' active' if h.active else '', ' marks' if h.marks else ''))
        return (name, [con('Next', operation, 1000), con('Next', SECOND, 1001)], numbers, limits)
    def tries(path, octets, h, limits={}, **numbers):
        name = 'Upload %r %r %s%s%s%s' % (path.decode(), octets.decode(), 'IF', settings(h).mode.t[0], ' active' if h.active else '',
                                          ' marks' if h.marks else '')
        return (name, [con('Upload', over_breaks(path, octets, h), 1000), con('Next', SECOND, 1001)], numbers, limits)
    for kind in 'AI':
        for structure in 'FR':
            for mode in 'SB':
                for active in (False, True):
                    h = how(kind, structure, mode, active)
                    for name, path, octets in (('Put', b'n', b'\n'), ('Put', b'f', b'x\r'), ('Append', b'f', b'\r\n'), ('Put', b'd', b'x'), ('Put', b'n', b'')):
                        yield one(op(name, path, octets, h))
                    yield one(op('Put', b'f', b'12345678', h), limits=SMALL)
                    for path in (b'f', b'g', b'm', b'no'):
                        yield one(op('Get', path, h))
                    for path, count in ((b'f', 0), (b'f', 1), (b'f', 2), (b'f', 3), (b'm', 0), (b'm', 1), (b'no', 1)):
                        yield one(op('Peek', path, count, h))
                    if structure == 'F':
                        for offset in (1, 9):
                            yield one(op('GetFrom', b'f', offset, h))
                        for path in (b'f', b'n'):
                            yield one(op('PutFrom', path, 1, b'z', h))
                        yield one(op('PutFrom', b'f', 3, b'z', h))
                        if kind == 'I':
                            for path, octets in ((b'n', b'xy'), (b'f', b'xyz'), (b'f', b''), (b'd', b'x')):
                                yield tries(path, octets, h)
                            yield tries(b'f', b'12345678', h, limits=SMALL)
                        if kind == 'A':
                            yield one(op('List', b'd', h))
                            yield one(op('Names', b'', h))
                            yield one(op('List', b'f', h))
                            yield one(op('Text', con('List'), b'd', h))
                            yield one(op('Text', con('Nlst'), b'f', h))
    for operation in (op('Where'), op('ChangeDir', b'd'), op('MakeDir', b'k'), op('Rename', b'f', b'k'), op('Rename', b'f', b'd'),
                      op('Rename', b'd', b'k'),
                      op('Size', b'f', how('A', 'F', 'S')),
                      op('Delete', b'f'), op('RemoveDir', b'd'), op('Facts', b''), op('Modified', b'f'), op('Up')):
        yield one(operation)
    # markers and blocks of few octets
    text = b'abcdefgh' * 5
    for active in (False, True):
        h = how('I', 'F', 'B', active, False, True)
        for operation in (op('Put', b'n', text[:17], h), op('PutFrom', b'f', 1, text[:20], h), op('GetFrom', b'L', 3, h)):
            yield one(operation, marker=16, block=8)
        yield one(op('Append', b'L', text[:33], h), marker=16, block=8)
        yield one(op('Peek', b'L', 17, h), marker=16, block=8)
        yield tries(b'n', text[:33], h, marker=16, block=8)
