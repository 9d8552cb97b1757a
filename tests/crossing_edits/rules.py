"""The rules by which a change that crossed others is changed, for who reads ../crossing_edits.py or
changes them: crates/irc_crossing/specs/Changes.antt, Settings.antt and Logs.antt in Python, function
by function and under the same names. Nothing is read here but two changes.

Names and words are text. A change is one of the six tuples below, and where nothing is left None.
"""
from collections import namedtuple

Come = namedtuple("Come", "nick")
Rename = namedtuple("Rename", "nick new")
Go = namedtuple("Go", "nick other")
Out = namedtuple("Out", "nick channel")
Join = namedtuple("Join", "channel begins")
Set = namedtuple("Set", "setting")

Mode = namedtuple("Mode", "channel change")
Topic = namedtuple("Topic", "channel text")
Spelling = namedtuple("Spelling", "channel")
ModeChange = namedtuple("ModeChange", "plus letter word")

FOLDS = str.maketrans("ABCDEFGHIJKLMNOPQRSTUVWXYZ[]\\~", "abcdefghijklmnopqrstuvwxyz{}|^")


def fold(name):
    return name.translate(FOLDS)


def same(one, other):
    return fold(one) == fold(other)


# ---- Settings.antt


def is_in(channel, setting):
    return same(channel, setting.channel)


def names_member(letter):
    return letter in "ov"


def place_of(letter):
    return "p" if letter == "s" else letter


def is_by_word(letter):
    return letter == "b" or names_member(letter)


def are_same_words(one, other):
    return one is not None and other is not None and same(one, other)


def is_one_place(one, other):
    is_one_word = not is_by_word(one.letter) or are_same_words(one.word, other.word)
    return place_of(one.letter) == place_of(other.letter) and is_one_word


def are_greater_bytes(one, other):
    return one is not None and other is not None and one > other


def is_limit(word):
    return word.isascii() and word.isdigit() and len(word) <= 5 and 1 <= int(word) <= 65535


def limit_of(word):
    return int(word) if is_limit(word) else None


def is_above(one, other):
    return one is not None and (other is None or one > other)


def is_greater_limit(one, other):
    return one is not None and other is not None and is_above(limit_of(one), limit_of(other))


def is_greater_set(letter, one, other):
    if letter == "s":
        return other.letter != "s"
    if letter in "kb":
        return are_greater_bytes(one.word, other.word)
    return letter == "l" and is_greater_limit(one.word, other.word)


def is_greater_change(one, other):
    return one.plus and (not other.plus or is_greater_set(one.letter, one, other))


def yields(one, other):
    if type(one) is not type(other) or not same(one.channel, other.channel):
        return False
    if isinstance(one, Mode):
        return is_one_place(one.change, other.change) and not is_greater_change(one.change, other.change)
    return not one > other if isinstance(one, Spelling) else not one.text > other.text


# ---- Changes.antt


def taken_by(change):
    if isinstance(change, Come):
        return change.nick
    return change.new if isinstance(change, Rename) and not same(change.nick, change.new) else None


def renamed_now(old, new, nick):
    if same(old, new):
        return nick
    if same(old, nick):
        return new
    return None if same(new, nick) else nick


def is_gone(gone, other, nick):
    return same(gone, nick) or other is not None and same(other, nick)


def nick_now(change, nick):
    if isinstance(change, Come):
        return None if same(change.nick, nick) else nick
    if isinstance(change, Rename):
        return renamed_now(change.nick, change.new, nick)
    if isinstance(change, Go):
        return None if is_gone(change.nick, change.other, nick) else nick
    return nick


def member_now(change, channel, nick):
    if isinstance(change, Out):
        return None if same(change.nick, nick) and same(change.channel, channel) else nick
    return nick_now(change, nick) if isinstance(change, (Come, Rename, Go)) else nick


def mode_now(ours, channel, change, word):
    if word is None:
        return change
    now = member_now(ours, channel, word)
    return None if now is None else change._replace(word=now)


def setting_now(ours, setting):
    if isinstance(setting, Mode) and names_member(setting.change.letter):
        now = mode_now(ours, setting.channel, setting.change, setting.change.word)
        return None if now is None else Mode(setting.channel, now)
    return setting


def setting_behind(ours, theirs):
    if isinstance(ours, Set):
        return None if yields(theirs, ours.setting) else theirs
    if isinstance(ours, Join) and ours.begins and is_in(ours.channel, theirs):
        return None
    return setting_now(ours, theirs)


def are_met(theirs, ours):
    return theirs is not None and ours is not None and same(theirs, ours)


def both_go(change):
    if isinstance(change, Come):
        return Go(change.nick, None)
    return Go(change.new, change.nick) if isinstance(change, Rename) else change


def gone_of(one, other):
    if one is not None:
        return Go(one, other)
    return None if other is None else Go(other, None)


def join_behind(channel, begins, ours):
    return Join(channel, begins and not (isinstance(ours, Join) and same(channel, ours.channel)))


def behind(theirs, ours):
    if isinstance(theirs, Come):
        return theirs
    if isinstance(theirs, Rename):
        now = nick_now(ours, theirs.nick)
        return None if now is None else Rename(now, theirs.new)
    if isinstance(theirs, Go):
        other = None if theirs.other is None else nick_now(ours, theirs.other)
        return gone_of(nick_now(ours, theirs.nick), other)
    if isinstance(theirs, Out):
        now = member_now(ours, theirs.channel, theirs.nick)
        return None if now is None else Out(now, theirs.channel)
    if isinstance(theirs, Join):
        return join_behind(theirs.channel, theirs.begins, ours)
    setting = setting_behind(ours, theirs.setting)
    return None if setting is None else Set(setting)


def crossed(theirs, ours):
    return both_go(theirs) if are_met(taken_by(theirs), taken_by(ours)) else behind(theirs, ours)


# ---- Logs.antt, where a log is a list of changes or None


def crossed_if(theirs, ours):
    return theirs if theirs is None or ours is None else crossed(theirs, ours)


def through(theirs, log):
    for ours in log:
        theirs = crossed_if(theirs, ours)
    return theirs


def log_behind(theirs, log):
    if not log:
        return []
    return [crossed_if(log[0], theirs), *log_behind(crossed_if(theirs, log[0]), log[1:])]
