"""Quantifiers: the values that come into question.

A definition says `for some`, `for each`, or is a record whose fields are values and propositions. Which values have to be looked at
is said here, by hand; whether they hold is decided by the definitions. For `some` and a record too few values can only miss one that
there is (under a negation that says yes wrongly); for `each` the values have to be all that matter.
  definition (or definition:variables): (fields of a record that are values, function of the definition's arguments -> rows of values)"""
from names import QUEUES
from outcomes import peek_wires
from readings import commands, numbers_in, shapes, six_numbers, verbs
from terms import con
from values import how


def cuts(text):
    return [(text[:i], text[i:]) for i in range(len(text) + 1)]


KEEP = 'ftp_server_model.session.Keep'
COMPANY_PATHS = [(), ((100,),), ((100,), (97,)), ((101,),), ((101,), (97,)), ((97,),)]


def slots_of(several):
    return list(enumerate(several.slots))


def put_operations(path, keep, octets):
    """Texts of a path, each with the operations that an upload to it can be."""
    text = (47,) + tuple(c for i, name in enumerate(path) for c in (((47,) if i else ()) + name))
    image = how('I', 'F', 'S')
    return [(text, con('Put', text, octets, image)), (text, con('PutFrom', text, keep.a[0], octets, image)), (text, con('Append', text, octets, image))]


BIG = 10 ** 9

QUANTIFIERS = {
    # -- lines
    'ftp_command.Command.Refuses': ((), lambda d, line, fault: [(v,) for v in verbs(d)]),                 # each verb, or some
    'ftp_command.Command.Declined': ((), lambda d, a, verb, fault: [(c,) for c in commands(d, a, [verb])]),     # each command of the verb that can fit
    'ftp_command.Argument.IsOtherFamily': ((), lambda d, text: [(n,) for n in numbers_in(text)]),
    'ftp_command.Argument.IsOtherKind': ((), lambda d, text: [(n,) for n in numbers_in(text)]),
    'ftp_command.Argument.SaysLocal': (('letter', 'digits'), lambda d, text, bits: [(text[0], text[2:])] if len(text) > 2 else []),
    'ftp_command.Argument.SaysEbcdic': (('letter', 'format'), lambda d, text: [(text[0], text[2])] if len(text) == 3 else []),
    'ftp_command.Argument.SaysLongest': (('letter', 'digits'), lambda d, text, longest: [(text[1], text[3:])] if len(text) > 3 else []),
    # -- endpoints
    'ftp_endpoint.Endpoint.BeginsWith': ((), lambda d, separator, text, numbers, rest: [(d.behind_digits(text)[1:],)]),
    'ftp_endpoint.Endpoint.BeginsWithSix': (('h1', 'h2', 'h3', 'h4', 'p1', 'p2'), lambda d, text, endpoint, rest:
                                            [tuple(six_numbers(text))] if len(six_numbers(text)) == 6 else []),
    'ftp_endpoint.Endpoint.EndsWithPort': (('digits',), lambda d, at, text, address, port: [(x[1][:-1],) for x in cuts(text)]),
    'ftp_endpoint.Endpoint.HasShape': (('d', 'rest', 'more'), lambda d, text, proto, address, port:
                                       [(text[0], text[1:], d.behind_digits(text[1:])[1:])] if text else []),
    'ftp_endpoint.Host.BeginsWithGroups': ((), lambda d, text, groups, rest: [(d.behind_hex(text)[1:],)]),
    'ftp_endpoint.Host.SaysV4': (('a', 'b', 'c', 'd'), lambda d, text, octets: [octets] if len(octets) == 4 else []),
    'ftp_endpoint.Host.SaysV6': (('groups',), lambda d, text, octets: [(tuple(octets[i] * 256 + octets[i + 1] for i in range(0, len(octets) - 1, 2)),)]),
    'ftp_endpoint.Host.IsShortened': (('front', 'behind'), lambda d, text, groups: [
        (groups[:k], text[i + 2:]) for i in range(len(text) - 1) if text[i:i + 2] == (58, 58) for k in range(len(groups) + 1)]),
    'ftp_endpoint.Host.IsFilled': (('zeros', 'back'), lambda d, front, behind, groups: [
        (z, groups[len(front) + z + 1:]) for z in range(len(groups) - len(front))]),
    'ftp_endpoint.Host.SaysExtended': (('proto', 'address'), lambda d, text, endpoint: [(p, a) for p, a, port in shapes(text)]),
    'ftp_endpoint.Host.IsOtherProtocol': (('proto', 'address', 'port'), lambda d, text: list(shapes(text))),
    # -- the tree: each path that has something standing at it
    'ftp_tree.Tree.IsTree': ((), lambda d, table: [(k,) for k in table.map.keys()]),
    'ftp_server_model.Held.HasShortFiles': ((), lambda d, table: [(k,) for k in table.map.keys()]),
    # -- wires
    'ftp_pieces.Machine.IsFront': ((), lambda d, w, v: [(v[len(w):],)]),
    # -- events: what `deliver` chose; the places before the last octet that was taken
    'laws_world.Events.MayTakeFrom': ((), lambda d, read, queue, w, count: [(k,) for k in range(count)]),
    'laws_world.Claims.BrokeEarly': (('wire',), lambda d, state, text, count, how, marks: [(x,) for x in peek_wires(d, state, text, how, marks)]),
    'laws_world.Events.Delivers': (('counts', 'taken'), lambda d, read, queue, count, old, new: d.chosen),
    'laws_world.Events.Moves': (('gave',), lambda d, queue, old, new: d.chosen),
    # each queue, and the counts that `can_happen` tells apart: none, one, more than is there
    'laws_world.Events.IsQuiet:queue,count': ((), lambda d, w: [(q, n) for q in QUEUES for n in (0, 1, BIG)]),
    'laws_world.Events.IsQuiet:queue': ((), lambda d, w: [(q,) for q in QUEUES]),
    # -- several sessions: the values at hand at a turn (sessions.py)
    'ftp_server_model.Machine.IsReading': ((), lambda d, read: []),             # of `Definitions.read` it is decided line by line
    'laws_server.several.Several.MapsFollow': ((), lambda d: d.at_hand['turn']),
    'laws_server.several.Several.EachIsServer': ((), lambda d: d.at_hand['histories']),
    'laws_server.several.Small.AllStaySmall': ((), lambda d: [(read, turn, s) for read, turn, s, sits in d.at_hand['turn']]),
    'laws_server.several.Small.AreSmallSessions': ((), lambda d, s: slots_of(s)),
    'laws_server.several.Actions.EndsAreDirect': ((), lambda d: d.at_hand['ends']),
    'laws_server.several.Actions.IsPutDirectly': ((), lambda d, moment, path, keep, octets, reply, s, ending: put_operations(path, keep, octets)),
    'laws_server.several.Actions.EndsAs': ((), lambda d, keep, text, octets, op: [(op.a[-1],)]),
    'laws_server.several.Actions.OthersOvertake:table,stood,path,keep,d,v': ((), lambda d: d.at_hand['under way']),
    'laws_server.several.Actions.OthersOvertake:table,stood,path,keep,d,way,v': ((), lambda d: d.at_hand['opening']),
    'laws_server.several.Actions.OthersOvertake:keep': ((), lambda d: [(con(name, count),) for name in d.variants(KEEP) for count in (0, 1, 5)]),
    'laws_server.several.Actions.OthersOvertake:table,sits': ((), lambda d: [(s.table, sits) for read, turn, s, sits in d.at_hand['turn']]),
    'laws_server.several.Actions.OthersOvertake:own,v': ((), lambda d: [(sits.view.session.table, sits.view) for read, turn, s, sits in d.at_hand['turn']]),
    'laws_server.several.Asked.LinesAreDirect': ((), lambda d: d.at_hand['commands']),
    'laws_server.several.Asked.AsksRename': ((), lambda d, pending, new, s, op: [(op.a[0],)] if op.t == 'Rename' else []),
    'laws_server.several.Asked.TellsCode': ((), lambda d, code, reply: [reply.a] if reply.t == 'Fixed' else []),
    'laws_server.several.Asked.Answers': ((), lambda d, c, op, s, answered, turn: [turn[1].a] if turn[1].t == 'Entry' else []),
    'laws_server.several.Asked.OthersLeaveTheMap': ((), lambda d: d.at_hand['lines']),
    'laws_server.one.Maps.LinesChangeTheMap:context,heard,pending,s': ((), lambda d: d.at_hand['lines']),
    'laws_server.one.Maps.LinesChangeTheMap:mapped': ((), lambda d: d.at_hand['mapped']),
    'laws_server.several.Company.CompanyIsUnseen': ((), lambda d: d.at_hand['company']),
    'laws_server.several.Company.IsCompany:slot': ((), lambda d, root, ours, roots: [(k,) for k in range(3)]),
    'laws_server.several.Company.IsCompany:slot,path': ((), lambda d, root, ours, roots: [(k, p) for k in range(3) for p in COMPANY_PATHS]),
    'laws_server.several.Company.AreInSlot': ((), lambda d, roots, slots: list(enumerate(slots))),
    'laws_server.several.Company.TurnIsAt': ((), lambda d, read, roots, turn, s: [(s.slots[turn.slot],)]),
    # -- agreement: the items that the search finds (world.py)
    'laws_world.Agreement.Agrees': (('items',), lambda d, state, begun, marks, cutoff, reports, table: d.search(state, begun, marks, cutoff, reports, table)),
}
