"""The rules of edits.py that can be taken out, for who adds one: the function that has it, and what
that is without it, which is given the right one as well."""
import edits as model
from edits import LEFT, NONE, Rename


def ended(S, edit, c):
    return not model.lives(model.members_after(S, edit), c)


RULES = {
    "the smaller is dropped": ("less", lambda right, w, v: w),
    "the smaller of a rename is dropped": (
        "rename_behind_update",
        lambda right, S, b, a: b if isinstance(right(S, b, a), Rename) else right(S, b, a),
    ),
    "names are followed": ("update_behind_rename", lambda right, S, b, a: b),
    "who is gone is left out": (
        "member_behind",
        lambda right, there, user, our_user, *fates: right(there, user, LEFT, *fates),
    ),
    "who goes goes out of each channel": (
        "member_behind",
        lambda right, there, user, *fates: right(there, LEFT, *fates),
    ),
    "two who come to one nickname go": ("users_meet", lambda right, w, v: model.members_meet(w, v)),
    "who comes to a nickname that is taken goes": (
        "update_behind_rename",
        lambda right, S, b, a: right(S, b._replace(user=b.user | {a.new: LEFT}), a),
    ),
    "who takes the nickname of one who comes goes": (
        "rename_behind_update",
        lambda right, S, b, a: b if a.user[b.new].kind == "comes" else right(S, b, a),
    ),
    "who is gone is not renamed": (
        "rename_behind_update",
        lambda right, S, b, a: b if a.user[b.old].kind == "goes" else right(S, b, a),
    ),
    "who is renamed twice goes": (
        "rename_behind_rename",
        lambda right, S, b, a: b._replace(old=a.new) if b.old == a.old else right(S, b, a),
    ),
    "two to one nickname go": (
        "rename_behind_rename",
        lambda right, S, b, a: right(S, b, a) if b.old == a.old else b,
    ),
    "who came anew is not who went": (
        "fate_behind",
        lambda right, meeting, there, *fates: right(meeting, there or fates[0].kind == "goes", *fates),
    ),
    "who came anew is not written to": (
        "fate_behind",
        lambda right, meeting, there, *fates: right(meeting, there or fates[0].kind == "stays", *fates),
    ),
    "who was there and is gone does not come again": (
        "fate_behind",
        lambda right, meeting, there, *fates: right(meeting, there and fates[1].kind != "goes", *fates),
    ),
    "a channel that ended comes back with its row": (
        "set_behind",
        lambda right, S, b, a, c: NONE if ended(S, b, c) else model.less(b.set[c], a.set[c]),
    ),
    "nothing is set in the next channel of a name": (
        "set_behind",
        lambda right, S, b, a, c: model.less(b.set[c], a.set[c]) if ended(S, b, c) else right(S, b, a, c),
    ),
    "a channel without members has a blank row": ("rest_of", lambda right, member, channel: channel),
    "the log goes behind what is read": ("behind", lambda right, S, log, b: log),
    "a link begins with what makes each document": ("makes", lambda right, S: []),
}
