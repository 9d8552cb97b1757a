"""Wrong bodies: a rule each is taken out, which the tries are to find."""

import contextlib

import crossing
import ends
import layer
import lines
from effects import NOTHING, Go, Out, rank


def followed_but_by_kill(theirs, ours):
    """A KILL hits whoever has the nickname now."""
    return theirs if isinstance(theirs, Go) else RIGHT["name_followed"](theirs, ours)


def as_line(writer, reader, tale, join):
    """What a server raises is given as a line alone, which is taken where the channel has a member behind the link."""
    return RIGHT["raise_asked"](writer, reader, tale, join) if reader.has_far(join.channel) else []


def lagging(end, count):
    """A count is taken for one less."""
    return RIGHT["counted"](end, count - 1)._replace(heard=count)


WRONG = {
    "names followed": (crossing, "name_followed", lambda theirs, ours: theirs),
    "names followed by KILL": (crossing, "name_followed", followed_but_by_kill),
    "two to one name": (crossing, "two_to_one_name", lambda theirs, ours: False),
    "both go": (crossing, "both_go", lambda theirs: Go(frozenset({theirs.nick}))),
    "gone dropped": (crossing, "is_out", lambda ours, nick, channel: isinstance(ours, Out) and RIGHT["is_out"](ours, nick, channel)),
    "taken out once": (crossing, "is_out", lambda ours, nick, channel: isinstance(ours, Go) and RIGHT["is_out"](ours, nick, channel)),
    "greater of two": (crossing, "is_greater", lambda value, other: True),
    "greater, not lesser": (crossing, "is_greater", lambda value, other: rank(value) < rank(other)),
    "asked": (layer, "meant", lambda end, side, line, is_set: (*RIGHT["meant"](end, side, line, is_set)[:2], None)),
    "asked where made anew": (ends, "was_made", lambda log, name: False),
    "asked where somebody is gone": (ends, "is_somebody_gone", lambda log: False),
    "asked where the log tells of it": (ends, "is_told_of", lambda log, name: False),
    "begins where passed on": (layer.Layer, "begins", lambda self, link, item: False),
    "begins by the mark": (ends, "is_marked", lambda told: False),
    "two lives": (crossing, "is_of_old_life", lambda theirs, ours: False),
    "one life": (crossing, "is_one_life", lambda theirs, ours: False),
    "one life from then on": (crossing, "one_life", lambda theirs: NOTHING),
    "set where it is told": (layer, "BY_TELLING", layer.ITSELF),
    "raised where nobody is": (lines, "raise_asked", as_line),
    "begins at the other end": (ends, "is_new", lambda room, told: False),
    "spelling told": (lines, "spells_alone", lambda reader, join: False),
    "echo": (layer, "is_echo", lambda link, arrival, command: False),
    "count": (layer, "counted", lagging),
    "lost together": (ends, "goes_on", lambda before, line: False),
}
RIGHT = {name: getattr(module, name) for module, name, _ in WRONG.values()}


@contextlib.contextmanager
def without(rule):
    """With a rule taken out."""
    module, name, body = WRONG[rule]
    setattr(module, name, body)
    try:
        yield
    finally:
        setattr(module, name, RIGHT[name])
