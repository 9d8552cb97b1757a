"""Documents, and what two ends do in them, by chance, for who reads ../crossing_edits.py."""
from collections import namedtuple

import edits as model
import rules
import standing
from edits import done, lives
from rules import Come, Go, Join, Mode, ModeChange, Out, Rename, Set, Spelling, Topic
from edits import Fate, Update
from relation import Step
from standing import CHANNELS, LEFT, NAMES, NONE, Case, Entry, does_something, edit_of, has_ended
from standing import own_after

Focus = namedtuple("Focus", "nicks channels letters others kinds")


def cased(chance, name):
    return "".join(chance.choice((x, x.upper() if x != "{" else "[")) for x in name)


def any_document(chance):
    dense = chance.choice((0.5, 0.8, 1))
    user = {k: any_user(chance, k) if chance.random() < dense else None for k in NAMES}
    inside = chance.choice((0.3, 0.6, 0.9))
    joined = {at for at in model.MEMBERS if user[at[1]] and chance.random() < inside}
    member = {at: any_member(chance) if at in joined else None for at in model.MEMBERS}
    row = {c: any_row(chance, c) if lives(member, c) else model.BLANK for c in CHANNELS}
    own = {k for k in NAMES if user[k] and chance.random() < 0.5}
    return model.Document(user, member, row), own


def placed(values):
    return tuple(values.get(place, "") for place in standing.PLACES)


def any_user(chance, k):
    return placed({standing.SPELLING: cased(chance, k), standing.TEXT: chance.choice("uw")})


def any_member(chance):
    return placed({place: chance.choice(("", "1")) for place in (standing.OPERATOR, standing.VOICE)})


def any_row(chance, c):
    row = {standing.SPELLING: cased(chance, c), standing.TEXT: chance.choice(("", "s", "t"))}
    for mode in [ModeChange(True, x, any_word(chance, x)) for x in "itpklbb"]:
        if chance.random() < 0.5:
            row |= [standing.mode_write(placed(row), mode)]
    if chance.random() < 0.3:
        row[standing.HIDDEN] = "s"
    return placed(row)


def any_word(chance, letter):
    words = {"k": ("x", "y", "X"), "l": ("5", "05", "40", "6"), "b": ("m!*@*", "M!*@*", "n!*@*")}
    return chance.choice(words.get(letter, (None,)))


def any_setting(chance, of, channel):
    letter = chance.choice(of.letters)
    word = cased(chance, chance.choice(of.nicks)) if letter in "ov" else any_word(chance, letter)
    others = Topic(channel, chance.choice(("", "s", "t", "T"))), Spelling(channel)
    mode = Mode(channel, ModeChange(chance.random() < 0.6, letter, word))
    return chance.choice(others) if chance.random() < of.others else mode


def any_focus(chance):
    """Few things, so that more of them meet."""
    nicks = chance.sample(NAMES, chance.choice((2, 3, 5)))
    letters = chance.sample(("i", "t", "ps", "k", "l", "b", "o", "v", "ov"), chance.choice((1, 2, 9)))
    kinds = chance.sample(KINDS, chance.choice((2, 4, len(KINDS))))
    channels = chance.choice((CHANNELS[:1], CHANNELS))
    return Focus(nicks, channels, "".join(letters), chance.choice((0, 0.4, 1)), [*kinds, "set"])


def any_entry(chance, S, own, of):
    kind, nick = chance.choice(of.kinds), cased(chance, chance.choice(of.nicks))
    channel = cased(chance, chance.choice(of.channels))
    if kind == "come":
        return Entry(Come(nick), row=placed({standing.SPELLING: nick, standing.TEXT: chance.choice("uw")}))
    if kind == "rename":
        return Entry(Rename(nick, cased(chance, chance.choice(of.nicks))))
    if kind == "go":
        other = cased(chance, chance.choice(of.nicks)) if chance.random() < 0.1 else None
        return Entry(Go(nick, other))
    if kind == "lost":
        return Entry(None, lost=frozenset(k for k in sorted(own) if chance.random() < 0.6))
    if kind == "out":
        return Entry(Out(nick, channel))
    begins = not lives(S.member, rules.fold(channel))
    if kind == "join":
        return Entry(Join(channel, begins), who=nick, row=any_member(chance), begun=begins)
    return Entry(Set(any_setting(chance, of, channel)))


KINDS = ("come", "rename", "go", "lost", "out", "join", "set")


def entries_by_chance(chance, S, own, of, most):
    """Up to so many, each of which does something, and leaves no channel without a member."""
    made = []
    for _ in range(8 * most):
        entry = any_entry(chance, S, own, of)
        if len(made) < most and does_something(S, own, entry):
            after = done(S, edit_of(S, entry))
            if not has_ended(S, after):
                S, own, made = after, own_after(own, entry), [*made, entry]
    return made


def any_case(chance, most):
    (S, own), of = any_document(chance), any_focus(chance)
    others = {k for k in NAMES if S.user[k]} - own
    sides = [entries_by_chance(chance, S, side, of, chance.randint(1, most)) for side in (own, others)]
    return Case(S, frozenset(own), *map(tuple, sides))


# ---- an edit that an entry stands for, by chance


def any_fate(chance):
    w = tuple(chance.choice((None, None, "", "1")) for _ in NONE)
    return chance.choice((LEFT, model.GOES, Fate("stays", w)))


def any_standing(chance, S, entry):
    """Something is done in rows that are not there, and a blank value written where one is."""
    edit = edit_of(S, entry)
    if not isinstance(edit, Update) or chance.random() < 0.3:
        return edit
    user, member = dict(edit.user), dict(edit.member)
    for k in NAMES:
        if S.user[k] is None and user[k].kind != "comes":
            user[k] = any_fate(chance)
    for c, k in member:
        if S.member[c, k] is None and member[c, k].kind != "comes":
            member[c, k] = model.GOES if user[k].kind == "goes" else any_fate(chance)
    row = {c: set_blank(chance, S.channel[c], w) for c, w in edit.set.items()}
    return Update(user, member, row)


def set_blank(chance, row, w):
    return tuple("" if v is None and r == "" and chance.random() < 0.3 else v for v, r in zip(w, row))


def any_step(chance):
    """Entries as they may stand anywhere in a grid, also such as do nothing any more."""
    (S, own), of = any_document(chance), any_focus(chance)
    others, made = {k for k in NAMES if S.user[k]} - own, []
    for side in (own, others):
        entry = any_entry(chance, S, side, of)
        if isinstance(entry.change, Join) and not entry.change.begins:
            entry = entry._replace(begun=chance.random() < 0.5)
        if isinstance(entry.change, Join) and chance.random() < 0.05:
            entry = entry._replace(who=None)
        made.append(Entry(None) if chance.random() < 0.03 else entry)
    return Step(S, *made, *(any_standing(chance, S, entry) for entry in made))
