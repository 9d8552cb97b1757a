"""The edit that each change of rules.py stands for in a document, for who reads ../crossing_edits.py
or states the same of crates/irc_crossing and crates/irc_edited_rooms.

A change leaves out what a line has beside it, which stands in an entry: who joins and with which
flags, what the row of a user who comes is, and who is lost with a server, of which a log has None.
What the line names is followed as the line is.
"""
from collections import namedtuple

import edits
import rules
from edits import Fate, Update, done, going, lives, may
from rules import Come, Go, Join, Mode, Out, Rename, Set, Spelling, fold

# each row has all places, of which a user has the first two; m and n are as i is
PLACES = SPELLING, TEXT, INVITE, LOCKED, HIDDEN, KEY, LIMIT, BAN, OTHER_BAN, OPERATOR, VOICE = range(11)
FLAGS = {"i": INVITE, "t": LOCKED, "o": OPERATOR, "v": VOICE}
MASKS = {"m!*@*": BAN, "n!*@*": OTHER_BAN}
NAMES, CHANNELS = ("a", "b", "c", "d", "{"), ("#xy", "#z")
NONE = (None,) * len(PLACES)
LEFT = Fate("stays", NONE)

# edits.py has the definitions over any names and places, and these are those of this comparison
vars(edits).update(NAMES=NAMES, NICKS=NAMES, CHANNELS=CHANNELS, PLACES=PLACES, NONE=NONE, LEFT=LEFT)
vars(edits).update(BLANK=("",) * len(PLACES), GOES=Fate("goes", NONE))
edits.MEMBERS = [(c, k) for c in CHANNELS for k in NAMES]

# who joins, as long as that one is there; a row; whether the channel began; who is lost
Entry = namedtuple("Entry", "change who row begun lost", defaults=(None, NONE, False, frozenset()))
# a document, who in it is of the one end, and what each end does
Case = namedtuple("Case", "S own ours theirs")


def writes(place, value):
    return tuple(value if at == place else None for at in PLACES)


def of_user(nick, fate):
    it = going()
    return it._replace(user=it.user | {fold(nick): fate})


def of_member(channel, nick, fate, row=NONE):
    it, c = going(), fold(channel)
    return Update(it.user, it.member | {(c, fold(nick)): fate}, it.set | {c: row})


def of_channel(channel, row):
    it = going()
    return it._replace(set=it.set | {fold(channel): row})


def mode_write(row, change):
    """The place of a letter and its value behind the change; what does nothing writes what is there,
    as it is done in crates/irc_modes/specs/Modes.antt."""
    plus, letter, word = change
    if letter in "ps":
        held = row[HIDDEN]
        if plus:
            return HIDDEN, letter if letter == "s" or not held else held
        return HIDDEN, "" if held == letter else held
    if letter == "k":
        return KEY, f"1{word}" if plus else ""
    if letter == "l":
        is_kept = plus and not rules.is_limit(word)
        return LIMIT, row[LIMIT] if is_kept else f"{int(word):05}" if plus else ""
    if letter == "b":
        return MASKS[fold(word)], f"1{word}" if plus else ""
    return FLAGS[letter], "1" if plus else ""


def mode_edit(S, channel, change):
    c = fold(channel)
    if not rules.names_member(change.letter):
        return of_channel(channel, writes(*mode_write(S.channel[c], change)))
    return of_member(channel, change.word, Fate("stays", writes(*mode_write(edits.BLANK, change))))


def spelled(S, channel):
    """A spelling is written where it is the greater."""
    is_greater = channel > S.channel[fold(channel)][SPELLING]
    return writes(SPELLING, channel) if is_greater else NONE


def setting_edit(S, setting):
    if not lives(S.member, fold(setting.channel)):
        return going()
    if isinstance(setting, Mode):
        return mode_edit(S, *setting)
    is_spelling = isinstance(setting, Spelling)
    row = spelled(S, setting.channel) if is_spelling else writes(TEXT, setting.text)
    return of_channel(setting.channel, row)


def joining(S, channel, entry):
    """A member comes; a channel that begins is spelled, and one that both begin by the greater."""
    who = entry.who and fold(entry.who)
    if who is None or S.user[who] is None or S.member[fold(channel), who] is not None:
        return going()
    is_spelled = entry.begun or not lives(S.member, fold(channel))
    return of_member(channel, who, Fate("comes", entry.row), spelled(S, channel) if is_spelled else NONE)


def gone(S, nicks):
    return going(*(fold(nick) for nick in nicks if nick and S.user[fold(nick)] is not None))


def edit_of(S, entry):
    """What it does where it stands."""
    change = entry.change
    if change is None:
        return gone(S, entry.lost)
    if isinstance(change, Come):
        return of_user(change.nick, Fate("comes", entry.row))
    if isinstance(change, Rename):
        old, new, row = fold(change.nick), fold(change.new), writes(SPELLING, change.new)
        return of_user(old, Fate("stays", row)) if old == new else edits.Rename(old, new, row)
    if isinstance(change, Go):
        return gone(S, change)
    if isinstance(change, Out):
        return of_member(change.channel, change.nick, edits.GOES)
    return joining(S, change.channel, entry) if isinstance(change, Join) else setting_edit(S, change.setting)


def followed(nick, ours):
    return nick if nick is None or ours.change is None else rules.nick_now(ours.change, nick)


def crossed_entry(theirs, ours):
    """What becomes of an entry behind another, by the rules."""
    lost = frozenset(filter(None, (followed(nick, ours) for nick in theirs.lost)))
    change = rules.crossed_if(theirs.change, ours.change)
    return theirs._replace(change=change, who=followed(theirs.who, ours), lost=lost)


# ---- what an end may do


def is_own(S, own, entry):
    """Whether it is for this end to do, and what it leaves out is as the document has it."""
    change = entry.change
    if change is None:
        return entry.lost and {*map(fold, entry.lost)} <= own
    if isinstance(change, Rename):
        return fold(change.nick) in own
    if isinstance(change, Join):
        begins, who = not lives(S.member, fold(change.channel)), fold(entry.who)
        is_new = S.member[fold(change.channel), who] is None
        return who in own and is_new and change.begins == entry.begun == begins
    return True


def does_something(S, own, entry):
    edit = edit_of(S, entry)
    return is_own(S, own, entry) and may(S, edit) and done(S, edit) != S


def own_after(own, entry):
    change = entry.change
    if isinstance(change, Come):
        return own | {fold(change.nick)}
    if change is None:
        return own - {*map(fold, entry.lost)}
    return {fold(now) for now in (rules.nick_now(change, nick) for nick in own) if now}


def all_do_something(S, own, entries):
    for entry in entries:
        if not does_something(S, own, entry):
            return False
        S, own = done(S, edit_of(S, entry)), own_after(own, entry)
    return True


def has_ended(S, after):
    return any(lives(S.member, c) and not lives(after.member, c) for c in CHANNELS)
