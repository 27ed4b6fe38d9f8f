"""Planted wrong definitions: each is an edit of the specs' text in a temporary copy of the crates, and has to be noticed by the rows,
the ends alone, drawn worlds or `exhaust`.  A pattern that stands nowhere any more, or in several places, is `not planted`: write it anew."""
import os
import re
import shutil
import tempfile
import time
import bounds
import defs
import exhaust
import rows
import sessions
import world

# name: (pattern, what takes its place, more edits ..)
PLANTED = {
    # the server says 226 when some octets of a download are given, not all
    'complete_too_early': (r'(takes_given \(Data\.Transferring \(Transfers\.Download rest\)\) count v = with_connection \(Data\.Transferring \(Transfers\.Download)'
                           r' \(drop count rest\)\)\)', r'\1 []))'),
    # a line that has to wait is thrown away
    'line_swallowed': (r'then obeyed heard \(record v \{ waiting = None \}\) else v', r'then record v { waiting = None } else v'),
    # what stands for the next line only stays
    'rest_kept': (r'\(record v\.session \{ pending = Pendings\.Nothing \}\)\) v\)', r'v.session) v)'),
    # a file is installed with another moment
    'moment_0': (r'put_together path keep octets s\) moment\)', r'put_together path keep octets s) 0)'),
    # a break keeps an unpaired CR
    'cr_at_break': (r'installs moment path keep \(broken d\) Texts\.Broken', r'installs moment path keep (ended d) Texts.Broken'),
    # an ABOR waits for the end of the transfer
    'abor_waits': (r'is_abort heard v = is_abor heard && is_transferring', r'is_abort heard v = false && is_transferring'),
    # a listing goes as octets, not as ASCII
    'listing_as_octets': (r'(listing_form = record \{ kind = Kinds\.)Ascii', r'\1Image'),
    # the client takes a final reply for the end of a download
    'done_at_226': (r'\nanswers_by replied abort connection op flow v = v',
                    '\nanswers_by (Replies.Final code) Aborts.Unsent Data.Open op flow v = finishes_read (judged Endings.Clean Aborts.Unsent code op flow) v'
                    '\nanswers_by replied abort connection op flow v = v'),
    # the client takes a link from any host
    'any_opener': (r'accepted false v = carries_on \(record v \{ connection = Data\.Over Endings\.Foreign; closing = true \}\)',
                   r'accepted false v = carries_on (record v { connection = Data.Open })'),
    # the client gives octets before the 1yz
    'octets_before_150': (r'given_of \(Some transfer\) = if has_begun transfer\.replied then left_of transfer\.flow else \[\]',
                          r'given_of (Some transfer) = left_of transfer.flow'),
    # of a directory that is renamed the entries stay
    'entries_left': (r'moved_path from to path = if is_within from path then', r'moved_path from to path = if is_within from path && is_within path from then'),
    # a break is marked with one octet more
    'mark_counts_one_more': (r'with_mark \(Broken w\.came\) \(gone', r'with_mark (Broken (w.came + 1)) (gone'),
    # what a cut upload leaves lacks what was kept
    'kept_octets_lost': (r'installed \(part state\) u\.path \(u\.kept \+\+ front', r'installed (part state) u.path (front'),
    # an operation may be lost that was begun long before the end of the control connection
    'cutoff_by_one': (r'IsLastBefore \(Some cutoff\) index = suc index ≡ cutoff', r'IsLastBefore (Some cutoff) index = index ≡ cutoff'),
    # the world loses octets of a download on their way
    'octets_lost_on_their_way': (r'(pulled DataToClient w count = record w \{ data_to_client = w\.data_to_client \+\+ take) count', r'\1 (count - 1)'),
    # octets are taken by a server that has no room for what comes of them
    'no_room': (r'has_room v = nat_le \(length v\.owed\) \(OUTPUT_ROOM - FREE_ROOM\)', r'has_room v = nat_le (length v.owed) OUTPUT_ROOM'),
    # the number of a 110 leaves out what is kept
    'mmmm_alone': (r'marker_answered text \(kept_count keep \+ length d\.content\)', r'marker_answered text (length d.content)'),
    # where the client has closed, the server's close leaves the link
    'never_gone': (r'link_closed_by_far ClosedByNear w = gone w', r'link_closed_by_far ClosedByNear w = w'),
    # an upload over breaks goes on at what it has given, not at the server's size: where more than that is there, too
    'goes_on_past_the_end': (r'try_behind u count = if nat_le count \(length u\.octets\)', r'try_behind u count = if nat_le 0 count'),
    # it begins at its size, with all of its octets
    'all_again_behind': (r'rest_put u count = Ops\.PutFrom u\.path count \(drop count u\.octets\) u\.how',
                         r'rest_put u count = Ops.PutFrom u.path count u.octets u.how'),
    # it tries once more than it may
    'a_try_too_many': (r'run_of u = record \{ upload = u; left = most_tries - 1 \}', r'run_of u = record { upload = u; left = most_tries }'),
    # a Peek is whole however many octets came
    'peek_is_short': (r'cut_answer op flow = if has_enough op flow then', r'cut_answer op flow = if true then'),
    # a path of one account leads out of its root
    'root_left': (r'seen s = part \(direct_of s\)', r'seen s = s.table'),
    # the ABOR of a Peek is not counted in what the client has still to begin
    'abort_not_counted': (r'abort_left Aborts\.Unsent \(Some count\) = 1', r'abort_left Aborts.Unsent (Some count) = 0'),
    # the tries that follow are not counted
    'tries_not_counted': (r'run_left \(Some run\) op = operation_left \* operations_behind run op', r'run_left (Some run) op = 0'),
}

# the same of several sessions, noticed by `sessions`
OF_SESSIONS = {
    # a broken upload is put over what others put there
    'overtaken_installed': (r'breaks_off true moment path keep d s = \(s, Texts\.Broken\)',
                            r'breaks_off true moment path keep d s = installs moment path keep (broken d) Texts.Broken s'),
    # what others did is not noticed
    'never_overtaken': (r'overtaken_unless false connection = overtaken_in connection', r'overtaken_unless false connection = connection'),
    # it is not, before the data connection is open
    'opening_not_overtaken': (r'overtaken_in \(Data\.Opening transfer way\) = Data\.Opening \(overtaken transfer\) way',
                              r'overtaken_in (Data.Opening transfer way) = Data.Opening transfer way'),
    # nor once a call was made since
    'forgets_what_stood': (r'stood = standing_of v\.session \}', r'stood = None }'),
    # a whole upload is not put where others changed what stood there
    'whole_not_put': (r'if is_whole d then installs', r'if is_whole d && not (is_overtaken keep) then installs'),
    # a session keeps the map that stood at its last call
    'old_map': (r'exchanged table v = record v \{ session = record v\.session \{ table = table \} \}', r'exchanged table v = v'),
    # the directory that LIST and NLST without an argument tell may be a file
    'listing_of_a_file': (r'unlisted_refusal true node = directory_refusal node', r'unlisted_refusal true node = absent_refusal node'),
}


def copied(crates):
    d = tempfile.mkdtemp(prefix='planted')
    for c in os.listdir(crates):
        for s in ('specs', 'src'):
            if os.path.isdir(os.path.join(crates, c, s)):
                shutil.copytree(os.path.join(crates, c, s), os.path.join(d, c, s))
    return d


def spec_files(crates):
    return [os.path.join(folder, x) for c in sorted(os.listdir(crates)) for folder, below, files in os.walk(os.path.join(crates, c, 'specs'))
            for x in sorted(files) if x.endswith('.antt')]


def noticed_by(crates, of_sessions):
    """By what a copy is noticed, or None."""
    d = defs.Definitions(crates)
    if d.absent:
        return 'its names: ' + d.absent[0]
    d.bounds = world.Bounds(d.names)
    failed = rows.run(d, quiet=True)[1]
    if failed:
        return '%d rows' % failed
    if of_sessions:
        return 'two sessions' if sessions.exhaust(d, quiet=True)[1] else None
    for i in range(150):
        c = world.draw(d, 88000000 + i, i % 3 > 0)
        err = world.play(d, c)[1]
        if err:
            return 'world %d (%s)' % (i + 1, err.split(':')[0][:30])
    d.bounds = world.Bounds(d.names)
    if bounds.run(d, 20, 5, quiet=True)[1]:
        return 'the ends alone'
    if exhaust.run(d, 1, 3000, r"(Put 'f'|Get 'f'|Peek 'f' 1|Upload 'f' 'xyz') .*(IFS|AFS)|IFB.* marks|Rename 'd'", quiet=True)[1]:
        return 'exhaust'
    return None


def plant(crates, pattern, new):
    """Edits the one place of the specs in which a pattern stands; the number of places."""
    hits = [(f, t) for f, t in ((f, open(f, encoding='utf-8').read()) for f in spec_files(crates)) if re.search(pattern, t)]
    places = sum(len(re.findall(pattern, t)) for f, t in hits)
    if places == 1:
        with open(hits[0][0], 'w', encoding='utf-8') as f:
            f.write(re.sub(pattern, new, hits[0][1]))
    return places


def run(crates, which):
    """(planted definitions that were noticed, those that were not or could not be planted)"""
    noticed = missed = 0
    for name in which or list(PLANTED) + list(OF_SESSIONS):
        t0 = time.time()
        copy = copied(crates)
        try:
            places = plant(copy, *(PLANTED.get(name) or OF_SESSIONS[name]))
            by = noticed_by(copy, name in OF_SESSIONS) if places == 1 else None
        except Exception as e:
            by = '%s: %s' % (type(e).__name__, str(e)[:100])
        finally:
            shutil.rmtree(copy)
        noticed += bool(by)
        missed += not by
        told = 'noticed by ' + by if by else 'NOT NOTICED' if places == 1 else 'NOT PLANTED: its pattern stands in %d places' % places
        print('%-26s %s (%.0f s)' % (name, told, time.time() - t0), flush=True)
    return noticed, missed
