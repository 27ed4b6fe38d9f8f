"""The definitions of the specs that the other files call, by their paths, with fields of their records; and what the other files say of them.

A definition is named by its module's path and its name: `ftp_server_model.Calls.start` is `start` of specs/Calls.antt of that crate.
`run list` says what of this file isn't there.  Where a definition is renamed, this is the file to change.

In all functions `d` are the definitions (`d.KEY` of DEFINITIONS), `r` is a random.Random, `w` a world."""
from terms import con

# ---- definitions that are called --------------------------------------------------------------------------------------------

DEFINITIONS = {
    # the server alone
    'server_start': 'ftp_server_model.Calls.start',                     # table, accounts, here, peer -> view
    'server_may_hear': 'ftp_server_model.Machine.may_hear',             # view -> whether a control octet may be taken
    'server_hears_octet': 'ftp_server_model.Machine.hears_octet',       # reading, view, octet -> view
    'server_gives_control': 'ftp_server_model.Calls.gives_control',     # count, view -> view
    'server_clocked': 'ftp_server_model.Calls.clocked',                 # moment, view -> view
    'server_listening': 'ftp_server_model.Calls.listening',             # port, view -> view
    'server_listen_refused': 'ftp_server_model.Calls.listen_refused',   # view -> view, as the six below
    'server_data_opened': 'ftp_server_model.Calls.data_opened',         # host, view -> view
    'server_data_refused': 'ftp_server_model.Calls.data_refused',
    'server_may_receive': 'ftp_server_model.Calls.may_receive',         # view -> whether an octet of the data link may be taken
    'server_receives_octet': 'ftp_server_model.Calls.receives_octet',   # view, octet -> view
    'server_to_give': 'ftp_server_model.Calls.to_give',                 # view -> octets for the data link
    'server_gives_data': 'ftp_server_model.Calls.gives_data',           # count, view -> view
    'server_data_end': 'ftp_server_model.Calls.data_end',
    'server_data_fault': 'ftp_server_model.Calls.data_fault',
    'server_data_closed': 'ftp_server_model.Calls.data_closed',
    'server_wants': 'ftp_server_model.Calls.wants',                     # view -> what it wants
    # the client alone
    'client_start': 'ftp_client_model.View.client',                     # user, pass, here, peer -> view
    'client_is_busy': 'ftp_client_model.Calls.is_busy',                 # view -> whether an operation is open
    'client_starts': 'ftp_client_model.Calls.starts',                   # operation, view -> view
    'client_report_of': 'ftp_client_model.Calls.report_of',             # view -> the answer that stands, or None
    'client_reports': 'ftp_client_model.Calls.reports',                 # view -> view without it
    'client_may_hear': 'ftp_client_model.Calls.may_hear',
    'client_hears_octet': 'ftp_client_model.Calls.hears_octet',         # view, octet -> view
    'client_gives_control': 'ftp_client_model.Calls.gives_control',
    'client_listening': 'ftp_client_model.Calls.listening',
    'client_listen_refused': 'ftp_client_model.Calls.listen_refused',
    'client_data_opened': 'ftp_client_model.Calls.data_opened',
    'client_data_refused': 'ftp_client_model.Calls.data_refused',
    'client_may_receive': 'ftp_client_model.Calls.may_receive',
    'client_receives_octet': 'ftp_client_model.Calls.receives_octet',
    'client_to_give': 'ftp_client_model.Calls.to_give',
    'client_gives_data': 'ftp_client_model.Calls.gives_data',
    'client_data_end': 'ftp_client_model.Calls.data_end',
    'client_data_fault': 'ftp_client_model.Calls.data_fault',
    'client_data_closed': 'ftp_client_model.Calls.data_closed',
    'client_control_end': 'ftp_client_model.Calls.control_end',
    'client_wants': 'ftp_client_model.Calls.wants',
    # the world
    'world_of': 'laws_world.Claims.world_of',                      # beginning -> world
    'state_of': 'laws_world.Claims.state_of',                      # beginning -> state of the direct run
    'is_fair': 'laws_world.Claims.IsFair',                         # of a beginning
    'settled': 'laws_world.Serving.after_event',                   # world -> world, after each event
    'lends_none': 'laws_world.Events.lends_none',                  # world -> world, before each event
    'can_happen': 'laws_world.Events.can_happen',                  # event, world -> whether it is possible
    'happens': 'laws_world.Events.Happens',                        # reading, event, old, possible, new
    'in_queue': 'laws_world.Events.in_queue',                      # queue, world -> octets under way
    'due': 'laws_world.Events.due',                                # queue, world -> octets that the sender owes
    'pulled': 'laws_world.Events.pulled',                          # queue, world, count -> world
    'pushed': 'laws_world.Events.pushed',                          # reading, queue, count, world -> world
    'taking': 'laws_world.Events.taking',                          # queue, count, world -> world
    'may_take': 'laws_world.Events.may_take',                      # queue, world -> whether the receiver may take an octet
    'opens': 'laws_world.Events.link_opens',                       # world -> world, as the three below
    'refuses': 'laws_world.Events.link_refused',
    'breaks': 'laws_world.Events.link_breaks',
    'ends_control': 'laws_world.Events.ends_control',
    'told': 'laws_world.Events.told',                              # queue, world -> world
    'begins': 'laws_world.Events.operation_begins',                # operation, moment, world -> world
    'begins_upload': 'laws_world.Events.upload_begins',            # upload over breaks, moment, world -> world
    'is_gone': 'laws_world.Events.is_gone',                        # of a link
    'is_quiet': 'laws_world.Events.IsQuiet',                       # of a world
    'begun_by': 'laws_world.Agreement.begun_by_event',                   # event, possible -> the orders that it began
    'is_honest': 'laws_world.Agreement.IsHonest',                  # of an event
    'is_timed': 'laws_world.Claims.IsTimed',                       # of an event
    # the claims
    'agrees': 'laws_world.Agreement.Agrees',                       # state, orders, marks, cutoff, reports, table
    'item_holds': 'laws_world.Agreement.ItemHolds',                # state, order, marks, cutoff, index, item
    'item_did': 'laws_world.Agreement.item_did',                   # state, item -> its report, and the state after it
    'is_reported': 'laws_world.Agreement.IsReported',              # state, order, item, report
    'state_before': 'laws_world.Agreement.state_before',           # state, items -> the state before the last attempt of the last
    'attempt_did': 'laws_world.Agreement.attempt_did',             # moment, state, attempt -> its answer, and the state after it
    'attempt_holds': 'laws_world.Agreement.AttemptHolds',          # state, cutoff, index, attempt
    'links_of': 'laws_world.Agreement.links_of',                   # operation -> how many links it asks for
    'are_single': 'laws_world.Agreement.AreSingle',                # orders
    'operations': 'laws_world.Agreement.operations',               # orders -> operations with their moments
    # uploads over breaks
    'run_of': 'ftp_client_model.Tries.run_of',                          # upload -> run
    'first_try': 'ftp_client_model.Tries.first_try',                    # upload -> operation
    'next_in': 'ftp_client_model.Tries.next_in',                        # run, operation, answer -> Option operation
    'run_at': 'ftp_client_model.Tries.run_at',                          # operation, run -> run
    'tries_in': 'laws_world.Agreement.tries_in',                   # attempts -> how many are a Put or a PutFrom
    'most_tries': 'ftp_client_model.Tries.most_tries',
    'has_put_all': 'laws_world.Claims.HasPutAll',                  # state, upload, moment, item
    # a Peek
    'is_direct_answer': 'laws_world.Claims.IsDirectAnswer',        # state, operation, moment, done
    'broke_early': 'laws_world.Claims.BrokeEarly',                 # state, text, count, how, marks
    # settling
    'left_in': 'laws_world.Settling.left_in',                      # world -> the five numbers
    'falls': 'laws_world.Settling.Falls',                          # the numbers after an event, those before it
    'is_tree': 'ftp_tree.Tree.IsTree',                        # of a table
    'is_answered': 'laws_world.Claims.IsAnswered',                 # orders, world
    'are_unmarked': 'laws_world.Claims.AreUnmarked',               # marks
    'is_direct': 'laws_world.Agreement.IsDirect',                  # state, orders, world
    'answers': 'ftp_direct.Direct.answers',                   # state, orders -> reports and state of the direct run (for messages)
    # the text of a transfer, from which a cut wire is a front
    'upload_of': 'laws_world.Outcome.upload_of',                   # state, operation -> Option Upload
    'download_of': 'laws_world.Outcome.download_of',               # state, operation -> Option Download
    'upload_text': 'ftp_client_model.Octets.upload_text',               # how, start, octets -> wire
    'download_text': 'laws_world.Outcome.download_text',           # download -> wire
    # several sessions
    'played': 'ftp_server_model.Play.played',                 # reading, cues, view -> what they give
    'left_by': 'ftp_server_model.Play.left_by',               # reading, cues, view -> the view after them
    'decided': 'ftp_server_model.Act.decided',                # context, line, what is pending, session -> session and reply
    'is_idle': 'ftp_server_model.Machine.is_idle',            # view -> whether a line may be acted on
    'called': 'laws_server.several.Several.called',           # reading, turn, several -> what it gives, and the several after it
    'lent_to': 'laws_server.several.Several.lent_to',         # map, slot -> view
    'in_slot_again': 'laws_server.several.Several.in_slot_again',       # own map, view -> slot
    'maps_follow': 'laws_server.several.Several.MapsFollow',
    'each_is_server': 'laws_server.several.Several.EachIsServer',
    'all_stay_small': 'laws_server.several.Small.AllStaySmall',
    'ends_are_direct': 'laws_server.several.Actions.EndsAreDirect',
    'others_overtake': 'laws_server.several.Actions.OthersOvertake',
    'lines_are_direct': 'laws_server.several.Asked.LinesAreDirect',
    'others_leave_the_map': 'laws_server.several.Asked.OthersLeaveTheMap',
    'lines_change_the_map': 'laws_server.one.Maps.LinesChangeTheMap',
    'company_is_unseen': 'laws_server.several.Company.CompanyIsUnseen',
    'seen': 'ftp_server_model.View.seen',                     # session -> the part of the map at and below its root
    # lines
    'is_read': 'ftp_server_model.Machine.IsLineRead',         # line, how it is heard
    'word': 'ftp_command.Argument.word',                      # line -> the word that it begins with
    'argument': 'ftp_command.Argument.argument',              # line -> its argument
    'trimmed': 'ftp_command.Argument.trimmed',                # argument -> without the spaces at its end
    'without_options': 'ftp_command.Argument.without_options',
    'verb_of': 'ftp_command.Command.verb_of',                 # command -> verb
    'names_verb': 'ftp_command.Verb.Names',                   # word, verb
    'letters': 'ftp_command.Verb.letters',                    # verb -> its letters
    'behind_digits': 'ftp_endpoint.Number.behind_digits',
    'behind_hex': 'ftp_endpoint.Host.behind_hex',
    # the tree
}

# types of which all constructors are asked for: an enum of a crate's src as CRATE.file.Enum, or a data type of a module
COMMAND = 'ftp_command.command.Command'
VERB = 'ftp_command.verb.Verb'
COMMAND_FAULT = 'ftp_command.fault.CommandFault'
# types of a command's values that stand elsewhere than COMMAND
TYPES = {t: 'ftp_settings.representation.' + t for t in ('Kind', 'Structure', 'Mode')}
QUEUES = (con('ControlToServer'), con('ControlToClient'), con('DataToServer'), con('DataToClient'))     # world.Events.Queue
TO_SERVER, TO_CLIENT, DATA_UP, DATA_DOWN = QUEUES

# numbers that are replaced in some drawn worlds, so that small files reach them: the definitions in which they are written
NUMBERS = {
    # octets between own markers
    'marker': [('ftp_mode.Marker.to_place', 'MARKED'), ('ftp_mode.Marker.places', 'MARKED'), ('ftp_mode.Writing.is_due', 'MARKED')],
    'block': [('ftp_mode.Block.blocks_text', 'BLOCK_LIMIT'), ('ftp_mode.Block.data_text', 'BLOCK_LIMIT')],     # octets of a written block
}

# ---- fields ------------------------------------------------------------------------------------------------------------------------

def server(w): return w.far                       # the server's view in a world
def client(w): return w.near                      # the client's
def owed(v): return v.owed                        # control octets that an end owes (server's and client's view)
def reports(w): return w.reports                  # answers that the client has reported
def marks(w): return w.marks                      # of each operation begun
def cutoff(w): return w.cutoff                    # how many were begun when the control connection ended, or None
def link(w): return w.link                        # the data link
def came(w): return w.came                        # octets taken from the present link
def table(w): return w.far.session.table          # the server's map
def order_op(order): return order.a[0] if order.t == 'Single' else con('Upload', order.a[0].path, order.a[0].octets, order.a[0].how)
def order_moment(order): return order.a[1]        # Agreement.Order: Single or Tries, with a moment
def settings(how): return how.representation      # of a How
def broken_at(mark): return mark.a[0] if mark.t == 'Broken' else None      # of a mark: the octets that had come, where the link broke
def state_table(state): return state.table        # of a state of the direct run


def state_key(state):
    """What two states have to have in common to be one."""
    return (state.root, state.cwd, state.known, tuple(sorted(state.table.map.d.items(), key=lambda kv: kv[0])))


def at_rest(w):
    """What is shown of a world that came to rest and lacks a report."""
    return dict(reports=w.reports, job=w.near.job, near_connection=w.near.connection, near_standing=w.near.standing, far_connection=w.far.session.connection,
                waiting=w.far.waiting, life=w.far.session.life, link=w.link, control=w.control)
