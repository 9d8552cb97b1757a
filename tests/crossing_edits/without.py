"""The rules of rules.py that can be taken out, for who adds one: the function that has it, and what
that is without it, which is given the right one as well."""
import rules
from rules import Go, Join

RULES = {
    "the smaller yields": ("yields", lambda right, one, other: False),
    "names are followed": ("renamed_now", lambda right, old, new, nick: nick),
    "who takes a nickname is another": (
        "renamed_now",
        lambda right, old, new, nick: nick if rules.same(new, nick) else right(old, new, nick),
    ),
    "who is gone is left out": ("is_gone", lambda right, *words: False),
    "both are gone": ("is_gone", lambda right, gone, other, nick: right(gone, None, nick)),
    "out of a channel once": (
        "member_now",
        lambda right, ours, channel, nick: rules.nick_now(ours, nick),
    ),
    "two to one nickname": ("are_met", lambda right, theirs, ours: False),
    "both go": ("both_go", lambda right, theirs: Go(rules.taken_by(theirs), None)),
    "a channel that both begin is one": (
        "join_behind",
        lambda right, channel, begins, ours: Join(channel, begins),
    ),
    "p and s are one": ("place_of", lambda right, letter: letter),
    "bans and members are each one": ("is_by_word", lambda right, letter: False),
    "set over taken away": (
        "is_greater_change",
        lambda right, one, other: other.plus and right(one, other),
    ),
    "s over p": (
        "is_greater_set",
        lambda right, letter, one, other: letter != "s" and right(letter, one, other),
    ),
    "keys and bans by bytes": ("are_greater_bytes", lambda right, one, other: True),
    "limits by number": ("limit_of", lambda right, word: word),
    "letters of a member are followed": ("mode_now", lambda right, ours, channel, change, word: change),
}
