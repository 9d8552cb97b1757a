"""The diamond: two ends did something each in one room; behind what both did they have one room again, but for the rows of channels of which one
asks the other: those are the same once they are told (ends.py). Tried of pairs of effects and of lists."""

from crossing import related, through
from effects import (EMPTY, HIDDEN, KEY, LIMIT, NO_CHANNEL, OPERATOR, SPELLING, TOPIC, VOICE, Come, Go, Join, Joined, Made, Named, Out,
                     Own, Person, Rename, Set, Spoken, all_done, ban, done, flag, in_order, raised, rank, value_at, with_channel)
from ends import may_lack
from lost import lost, taken_back

SIDES = [b"a.net", b"b.net"]
NICKS = [b"al", b"ann", b"bo", b"bea", b"zed", b"yo", b"x"]
CHANNELS = [b"#c", b"#d"]
VALUES = {HIDDEN: [None, b"p", b"s"], KEY: [None, b"x", b"y", b"z"], LIMIT: [None, 3, 9], ("n",): [None, b"+"],
          ban(b"zz"): [None, b"ZZ", b"zz"], TOPIC: [None, b"one", b"two"]}
BOTH = [{OPERATOR: True, VOICE: True}, {OPERATOR: False}]


def could_do(room, side):
    """What may come about at a side in a room: by its own people, and a KILL or a KICK of anybody."""
    own = [nick for nick, person in sorted(room.people.items()) if person.home == side]
    free = [nick for nick in NICKS if nick not in room.people]
    effects = [Come(nick, Person(nick, side, False)) for nick in free]
    effects += [Rename(nick, new, new) for nick in own for new in free]
    effects += [Rename(nick, nick, nick.upper()) for nick in own if room.people[nick].spelled != nick.upper()]
    effects += [Own(nick, not room.people[nick].invisible) for nick in own] + [Named(nick) for nick in sorted(room.people)]
    effects += [Go(frozenset({nick})) for nick in sorted(room.people)] + ([Go(frozenset(own))] if len(own) > 1 else [])
    effects += [join for name in CHANNELS for join in joins(room, own, name)]
    return effects + [effect for name in sorted(room.channels) for effect in of_channel(room, name)]


def joins(room, own, name):
    """Who may come to a channel, one or two, with a spelling; and values that come alone, where it is there, and raise something: what raises
    nothing can stay over what was set lower beside it, since what a place had before is not kept."""
    comers = [nick for nick in own if nick not in members(room, name)]
    groups = [[(nick, frozenset(flags))] for nick in comers for flags in ([], [OPERATOR])]
    groups += [[(nick, frozenset({VOICE})) for nick in comers[:2]]] * (len(comers) > 1)
    effects = [Join(name, tuple(group), ((SPELLING, spelled),)) for group in groups for spelled in (name, name.upper())]
    if name in room.channels:
        alone = [{place: value} for place, values in VALUES.items() for value in values if value is not None] + [{KEY: b"y", LIMIT: 5, HIDDEN: b"p"}]
        effects += [Join(name, (), in_order(values)) for values in alone if all(raises(room, name, *each) for each in values.items())]
    return effects


def raises(room, name, place, value):
    return rank(value) > rank(value_at(room, name, place))


def of_channel(room, name):
    there = members(room, name)
    effects = [Spoken(name)] + [Out(nick, name) for nick in sorted(there)]
    effects += [Set(name, ((flag(letter, nick), letter not in there[nick]),)) for nick in sorted(there) for letter in (OPERATOR, VOICE)]
    effects += [Set(name, in_order({KEY: b"y", LIMIT: None} | {flag(OPERATOR, nick): OPERATOR not in there[nick] for nick in there}))]
    return effects + [Set(name, ((place, value),)) for place, values in VALUES.items() for value in values]


def members(room, name):
    return room.channels[name].members if name in room.channels else {}


def is_possible(room, effect):
    """Whether an effect finds whom and what it names, so that a server can do it. What is set in a channel that is not there is nothing."""
    match effect:
        case Come(nick, _):
            return nick not in room.people
        case Rename(nick, new, _):
            return nick in room.people and (new == nick or new not in room.people)
        case Go(nicks):
            return all(nick in room.people for nick in nicks)
        case Own(nick, _) | Named(nick):
            return nick in room.people
        case Join(channel, comers, _):
            return all(nick in room.people and nick not in members(room, channel) for nick, _ in comers)
        case Out(nick, channel):
            return nick in members(room, channel)
        case Set(channel, values):
            return channel not in room.channels or all(place[1] in members(room, channel) for place, _ in values if place[0] in "ov")
        case _:
            return True


def all_possible(room, effects):
    for effect in effects:
        if not is_possible(room, effect):
            return False
        room = done(room, effect)
    return True


def logged(room, effects):
    """What stands in a log of effects: beside who comes to a channel, whether it begins."""
    log = []
    for effect in effects:
        log.append(effect)
        if comes(effect):
            log.append(Joined(effect.channel) if effect.channel in room.channels else Made(effect.channel))
        room = done(room, effect)
    return tuple(enumerate(log))


def comes(effect):
    return isinstance(effect, Join) and bool(effect.members)


def read(room, effects):
    """What the other end reads of that: of who comes to a channel as no operator, it does not see that the channel begins."""
    entries = [effect for _, effect in logged(room, effects)]
    return [Joined(effect.channel) if isinstance(effect, Made) and not is_by_operator(before) else effect
            for before, effect in zip([None, *entries], entries, strict=False)]


def is_by_operator(join):
    return any(OPERATOR in flags for _, flags in join.members)


def met(room, theirs, ours):
    """What becomes of theirs behind ours, and of which channels the end asks by it."""
    here, log, became, asked = all_done(room, ours), logged(room, ours), [], set()
    for effect in read(room, theirs):
        if comes(effect) and may_lack(here, log, effect.channel, False):
            asked.add(effect.channel)
        left, log = through(effect, log)
        here = done(here, left)
        became.append(left)
    return became, asked


def needs_what_is_related(room, theirs, ours):
    """Whether the same becomes of each effect behind the part of the log that is related to it."""
    log = logged(room, ours)
    for effect in read(room, theirs):
        left, behind = through(effect, log)
        if through(effect, related(effect, log))[0] != left:
            return False
        log = behind
    return True


def meet(room, theirs, ours):
    """Whether both ways come to one room, behind what is told of the channels that are asked for, by effects that are possible there."""
    (theirs_behind, asked), (ours_behind, asked_there) = met(room, theirs, ours), met(room, ours, theirs)
    one, other = all_done(room, ours), all_done(room, theirs)
    if not all_possible(one, theirs_behind) or not all_possible(other, ours_behind):
        return False
    one, other = all_done(one, theirs_behind), all_done(other, ours_behind)
    return told_of(one, other, asked) == told_of(other, one, asked_there)


def told_of(room, other, names):
    """A room behind what another one tells of channels."""
    for name in names & set(room.channels):
        there = room.channels[name]
        row = raised(there.row, other.channels.get(name, NO_CHANNEL).row.items())
        room = with_channel(room, name, there._replace(row=row))
    return room


def some_room(chance):
    room = EMPTY
    for nick in chance.sample(NICKS, chance.randrange(2, 6)):
        room = done(room, Come(nick, Person(nick, chance.choice(SIDES), False)))
    return all_done(room, some_doing(chance, room, chance.choice(SIDES), chance.randrange(12), 0.1))


def some_doing(chance, room, side, count, going):
    """A list of so many effects of a side; somebody goes seldom."""
    effects = []
    for _ in range(count):
        could = [effect for effect in could_do(room, side) if not isinstance(effect, Go) or chance.random() < going]
        could = [effect for effect in could if comes_or_leaves(effect) or chance.random() < 0.3] or could
        if could:
            effects.append(chance.choice(could))
            room = done(room, effects[-1])
    return effects


def comes_or_leaves(effect):
    return isinstance(effect, Out) or isinstance(effect, Join) and bool(effect.members)


def tried(chance, rooms, lists):
    """All pairs of so many rooms, and so many pairs of lists of each: how many there were, and those that do not meet."""
    pairs = pairs_of_lists = 0
    faults = []
    for _ in range(rooms):
        room = some_room(chance)
        theirs, ours = could_do(room, SIDES[1]), could_do(room, SIDES[0])
        faults += [(room.key(), one) for one in theirs if taken_back(done(room, one), one, lost(room, one)) != room]
        for one in theirs:
            for other in ours:
                pairs += 1
                if not meet(room, [one], [other]):
                    faults.append((room.key(), one, other))
        for _ in range(lists):
            pairs_of_lists += 1
            one, other = (some_doing(chance, room, side, chance.randrange(1, 8), 0.3) for side in reversed(SIDES))
            if not meet(room, one, other) or not needs_what_is_related(room, one, other):
                faults.append((room.key(), one, other))
    return pairs, pairs_of_lists, faults
