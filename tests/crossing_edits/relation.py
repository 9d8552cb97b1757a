"""When an edit is what an entry of a log stands for, so that this holds behind any step of the grid:
the relation for an induction over a log, for who proves that the rules of rules.py are edits.

    in a document S, an entry stands for an edit where
        it can be:    who comes is free, who is renamed is there, who joins is a user and no member,
                      and the channel begins by it only if nobody is in it; who is taken out, or given
                      a flag, is a member, or no user at all; what is set is in a channel with members,
                      and is no p where s is, nor the other way around;
        and the edit is edit_of(S, entry) in each row that is there or comes: but that it may write
        a blank value in a place of a channel that is blank.
    An entry of which nothing is left, or the loss of a server, stands for users who go, or nothing.

    Two entries may cross in S where no channel is left without a member by either or both; no user is
    renamed, lost or joined to one channel by both; and none is taken away by one whose Join of a
    channel that both begin is the greater spelling.
"""
from collections import namedtuple

import edits as model
import rules
from edits import Fate, Update, lives, may
from rules import Come, Go, Join, Mode, Out, Rename, Set, fold
from standing import HIDDEN, LEFT, NAMES, NONE, SPELLING, edit_of, followed
from standing import mode_write

# two entries and the edits for which they stand, before they cross
Step = namedtuple("Step", "S ours theirs our_edit their_edit")


def is_as_said(S, channel, change):
    """Of a channel that has p, s is no other one to be taken away, and the other way around."""
    if change.letter not in "ps":
        return True
    said = HIDDEN, change.letter if change.plus else ""
    return mode_write(S.channel[channel], change) == said


def can_be(S, entry):
    change, is_member = entry.change, lambda c, k: S.member[c, k] is not None or S.user[k] is None
    if isinstance(change, Join):
        c, who = fold(change.channel), entry.who and fold(entry.who)
        is_new = who is None or S.user[who] is not None and S.member[c, who] is None
        return is_new and not (change.begins and lives(S.member, c))
    if isinstance(change, Out):
        return is_member(fold(change.channel), fold(change.nick))
    if not isinstance(change, Set):
        return may(S, edit_of(S, entry))
    c = fold(change.setting.channel)
    if not lives(S.member, c) or not isinstance(change.setting, Mode):
        return lives(S.member, c)
    mode = change.setting.change
    is_of_member = rules.names_member(mode.letter)
    return is_member(c, fold(mode.word)) if is_of_member else is_as_said(S, c, mode)


def fate_there(row, fate):
    return fate if row is not None or fate.kind == "comes" else LEFT


def set_there(row, w, is_alive):
    """Blank in a blank place is nothing."""
    return tuple(None if v == "" == r else v for v, r in zip(w, row)) if is_alive else NONE


def there(S, edit):
    """The edit, in the rows that are there, or come."""
    if not isinstance(edit, Update):
        return edit
    user = {k: fate_there(S.user[k], fate) for k, fate in edit.user.items()}
    member = {at: fate_there(S.member[at], fate) for at, fate in edit.member.items()}
    after = model.members_after(S, edit)
    return Update(user, member, {c: set_there(S.channel[c], w, lives(after, c)) for c, w in edit.set.items()})


def stands_for(S, entry, edit):
    return can_be(S, entry) and there(S, edit) == there(S, edit_of(S, entry))


# ---- which may cross


def owned(entry):
    """Whom an entry renames, loses, or joins to a channel, each for one end alone."""
    if isinstance(entry.change, Rename):
        return {fold(entry.change.nick)}
    who = {entry.who} if isinstance(entry.change, Join) and entry.who else set()
    return {*map(fold, who | entry.lost)}


def is_spelled_by_who_goes(S, entry, other):
    row = edit_of(S, entry)
    is_spelled = isinstance(entry.change, Join) and row.set[fold(entry.change.channel)][SPELLING]
    return is_spelled and followed(entry.who, other) is None


def may_cross(S, one, other):
    is_kept = not is_spelled_by_who_goes(S, one, other) and not is_spelled_by_who_goes(S, other, one)
    return is_kept and not owned(one) & owned(other)
