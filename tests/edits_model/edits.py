"""Documents that two ends edit, and edits of them, for who reads ../edits_model.py or proves the same.

These are the definitions and nothing else: documents and edits, what becomes of an edit behind
another that was made in the same document (crossed), and the grid of two lists of edits.

    a document  each user's row, each member's row, and each channel's row, which is blank where
                nobody is in the channel; a row has a value in each place
    an update   what becomes of each user and each member, and what is written to each channel
    a rename    a user's, with what is written to that user by it
    writes      a value, or none, for each place
"""
from collections import namedtuple
from itertools import product

NAMES, NICKS, CHANNELS, PLACES = "abcd", "abcdo", "12", (0, 1)  # "o" is in no document
MEMBERS = [*product(CHANNELS, NICKS)]
VALUES, BLANK, NONE = (b"", b"a", b"b"), (b"", b""), (None, None)

Document = namedtuple("Document", "user member channel")
Update = namedtuple("Update", "user member set")
Rename = namedtuple("Rename", "old new writes")
Fate = namedtuple("Fate", "kind writes")
GOES, LEFT = Fate("goes", NONE), Fate("stays", NONE)
EMPTY = Document(dict.fromkeys(NICKS), dict.fromkeys(MEMBERS), dict.fromkeys(CHANNELS, BLANK))


# ---- documents and edits


def written(w, r):
    return tuple(r[f] if w[f] is None else w[f] for f in PLACES)


def less(w, v):
    """What is left of the writes w behind v."""
    return tuple(None if w[f] is None or None is not v[f] >= w[f] else w[f] for f in PLACES)


def all_of(row):
    return row


def lives(member, c):
    return any(member[c, k] is not None for k in NAMES)


def rest_of(member, channel):
    """A channel without members has a blank row."""
    return {c: channel[c] if lives(member, c) else BLANK for c in CHANNELS}


def after_fate(fate, row):
    is_there = fate.kind == "comes" or (fate.kind == "stays" and row is not None)
    return written(fate.writes, row or BLANK) if is_there else None


def members_after(S, update):
    return {at: after_fate(update.member[at], S.member[at]) for at in MEMBERS}


def done(S, edit):
    if isinstance(edit, Update):
        user = {k: after_fate(edit.user[k], S.user[k]) for k in NICKS}
        member, channel = members_after(S, edit), {c: written(edit.set[c], S.channel[c]) for c in CHANNELS}
    else:
        swap = {k: k for k in NICKS} | {edit.new: edit.old, edit.old: edit.new}
        user = {k: S.user[swap[k]] for k in NICKS}
        user[edit.new] = user[edit.new] and written(edit.writes, user[edit.new])
        member, channel = {(c, k): S.member[c, swap[k]] for c, k in MEMBERS}, S.channel
    return Document(user, member, rest_of(member, channel))


def sound(S):
    there = {k for k in NICKS if S.user[k] is not None}
    members = {k for c, k in MEMBERS if S.member[c, k] is not None}
    return members <= there <= {*NAMES} and S.channel == {
        c: S.channel[c] if lives(S.member, c) else BLANK for c in CHANNELS
    }


def may(S, edit):
    if isinstance(edit, Rename):
        is_free = S.user[edit.new] is None and edit.new in NAMES
        return sound(S) and S.user[edit.old] is not None and is_free
    comes, goes = ([k for k in NICKS if edit.user[k].kind == kind] for kind in ("comes", "goes"))
    joins = [k for c, k in MEMBERS if edit.member[c, k].kind == "comes"]
    return (
        sound(S)
        and all(S.user[k] is None and k in NAMES for k in comes)
        and all(S.user[k] is not None and k not in goes for k in joins)
        and all(edit.member[c, k].kind == "goes" for c in CHANNELS for k in goes)
    )


# ---- what becomes of an edit behind another


def users_meet(w, v):
    return GOES


def members_meet(w, v):
    return Fate("comes", less(w, v))


def fate_behind(meeting, there, theirs, ours):
    w, v = theirs.writes, ours.writes
    cases = {
        ("stays", "stays"): Fate("stays", less(w, v)),
        ("stays", "comes"): Fate("stays", less(w, v)) if there else LEFT,
        ("goes", "comes"): GOES if there else LEFT,
        ("comes", "stays"): Fate("comes", less(w, v)) if there else theirs,
        ("comes", "goes"): LEFT if there else theirs,
        ("comes", "comes"): meeting(w, v),
    }
    return cases.get((theirs.kind, ours.kind), theirs)


def member_behind(there, user, our_user, theirs, ours):
    """User is what became of the fate of the user."""
    if user.kind == "goes":
        return GOES
    return LEFT if our_user.kind == "goes" else fate_behind(members_meet, there, theirs, ours)


def set_behind(S, b, a, c):
    if not lives(members_after(S, b), c):
        return NONE
    if lives(members_after(S, a), c):
        return less(b.set[c], a.set[c])
    return all_of(written(b.set[c], S.channel[c])) if lives(S.member, c) else b.set[c]


def update_behind_update(S, b, a):
    user = {k: fate_behind(users_meet, S.user[k] is not None, b.user[k], a.user[k]) for k in NICKS}
    there = {at: row is not None for at, row in S.member.items()}
    fates = {at: (user[at[1]], a.user[at[1]], b.member[at], a.member[at]) for at in MEMBERS}
    member = {at: member_behind(there[at], *fates[at]) for at in MEMBERS}
    return Update(user, member, {c: set_behind(S, b, a, c) for c in CHANNELS})


def update_behind_rename(S, b, a):
    met = b.user[a.new].kind == "comes"
    moved = fate_behind(users_meet, True, b.user[a.old], Fate("stays", a.writes))
    user = {a.old: LEFT, a.new: GOES if met else moved}
    member = {(c, a.old): LEFT for c in CHANNELS}
    member |= {(c, a.new): GOES if met else b.member[c, a.old] for c in CHANNELS}
    return Update(b.user | user, b.member | member, b.set)


def going(*nicks):
    """They go, and nothing else."""
    user = {k: GOES if k in nicks else LEFT for k in NICKS}
    return Update(user, {(c, k): user[k] for c, k in MEMBERS}, dict.fromkeys(CHANNELS, NONE))


def rename_behind_update(S, b, a):
    if a.user[b.new].kind == "comes":
        return going(b.old, b.new)
    if a.user[b.old].kind == "goes":
        return going()
    return b._replace(writes=less(b.writes, a.user[b.old].writes)) if a.user[b.old].kind == "stays" else b


def rename_behind_rename(S, b, a):
    if b.old == a.old:
        return going(a.new)
    return going(b.new, b.old) if b.new == a.new else b


def crossed(S, theirs, ours):
    if isinstance(theirs, Update):
        is_behind = update_behind_update if isinstance(ours, Update) else update_behind_rename
    else:
        is_behind = rename_behind_update if isinstance(ours, Update) else rename_behind_rename
    return is_behind(S, theirs, ours)


def makes(S):
    """The two updates that make a document out of the blank one."""
    user = {k: LEFT if row is None else Fate("comes", all_of(row)) for k, row in S.user.items()}
    member = {at: LEFT if row is None else Fate("comes", all_of(row)) for at, row in S.member.items()}
    rows = {c: all_of(row) for c, row in S.channel.items()}
    return [going()._replace(user=user), going()._replace(member=member, set=rows)]


# ---- lists


def all_done(S, edits):
    for edit in edits:
        S = done(S, edit)
    return S


def all_may(S, edits):
    return all(may(all_done(S, edits[:at]), edit) for at, edit in enumerate(edits))


def through(S, b, log):
    for a in log:
        S, b = done(S, a), crossed(S, b, a)
    return b


def behind(S, log, b):
    if not log:
        return []
    return [crossed(S, log[0], b), *behind(done(S, log[0]), log[1:], crossed(S, b, log[0]))]


def all_through(S, more, log):
    if not more:
        return []
    S_more, log_more = done(S, more[0]), behind(S, log, more[0])
    return [through(S, more[0], log), *all_through(S_more, more[1:], log_more)]


def behind_all(S, log, more):
    for b in more:
        S, log = done(S, b), behind(S, log, b)
    return log
