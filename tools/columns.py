#!/usr/bin/env python3
"""columns.py CRATE..: breaks what is longer than 100 columns in a crate's folder, before `rt fmt`.

In specs/ and proofs/ (*.antt): signatures before an arrow, terms before an operator or an
argument, comments between words, and lists of names that are brought in as several `use` lines. In
src/ (*.rt): `ghost use`, clauses and comments. Code is `rt fmt`'s. No break falls into an `old:`
text of a wrong body of the crate. Beside `use` lines and comments only white space changes. A
comment that is indented behind its mark is a row of columns, and stays as it is: who is told of
one breaks it by hand. `columns.py --tell CRATE..` only lists what is too long.
"""
import glob
import os
import re
import sys

WIDTH = 100
OPEN, CLOSE = "([{⟨", ")]}⟩"
# what it costs to end a line before such a word, and behind such a sign
BEFORE = {
    "→": 0.0, "then": 0.3, "|": 0.4, "∙": 0.5, "else": 0.5, "in": 0.8, "×": 1.2, "⊎": 1.5,
    "↔": 1.5, "||": 1.8, "&&": 2.0, ">>=": 2.0, "++": 2.2, "∘": 2.5, "≡": 3.0, "≢": 3.0, "≤": 3.2,
    "<": 3.4, "==": 3.4, "∷": 3.5, "+": 3.6, "-": 4.0, "*": 4.2, "where": 4.0, "←": 5.0,
}
BEHIND = {"in": 0.4, "=": 0.6, ";": 0.6, ",": 1.4, ":": 3.2}
BINDER, ARGUMENT_IN_BRACKETS, ARGUMENT, BODY_OF_LAMBDA, INSIDE_LAMBDA = 0.8, 3.5, 8.0, 2.6, 40.0
NEVER_BEFORE = {"=", ":", ",", ";", "where", "as", "."}
NEVER_BEHIND = {
    "λ", "|", "use", "pub", "abbrev", "unfoldable", "let", "record", "data", "module", "ghost",
    "not",
}
OPERATOR = re.compile(r"[→∙⊎×≡≢≤<+*∷∘↔-]|\+\+|&&|\|\||==|←|>>=")
SIGNATURE = re.compile(r"^( *)((?:pattern |unfoldable |abbrev |axiom |pub )*)(\S+)( \{[^{}]*\})? : ")


def past_string(text, at):
    """Where the quoted text that begins at `at` has ended."""
    at += 1
    while at < len(text) and text[at] != '"':
        at += 2 if text[at] == "\\" else 1
    return at + 1


def cost_at(text, at, depth):
    """What it costs to end a line at this space, or None where no line may."""
    after, before = re.match(r" +(\S+)", text[at:])[1], re.search(r"(\S*)$", text[:at])[1]
    word = re.match(r"[^\s()\[\]{},;]+|.", after)[0]
    sign = before[-1:] if before[-1:] in (",", ";") else before
    if before in NEVER_BEHIND or before[-1:] in OPEN or OPERATOR.fullmatch(before):
        return None
    if word in NEVER_BEFORE or after[0] in CLOSE:
        return None
    if word in BEFORE:
        return BEFORE[word]
    if sign in BEHIND:
        return BEHIND[sign] + (5 if sign in "=:" and depth > 0 else 0)
    if before.endswith(".") and re.search(r"λ[^.()]*(\([^()]*\)[^.()]*)*\.$", text[:at]):
        return BODY_OF_LAMBDA
    if re.search(r"λ[^.]*$", text[:at]):
        return INSIDE_LAMBDA
    if re.match(r"[({][\w' ]+ : ", text[at + 1 :]):
        return BINDER
    return ARGUMENT_IN_BRACKETS if after[0] == "(" else ARGUMENT


def places_of(text):
    """The spaces at which a line may end: where, at what cost, and how deep in brackets."""
    depth, at, found = -1 if re.match(r"(pub |ghost )*(use|mod|open) ", text) else 0, 0, []
    while at < len(text):
        if text[at] == '"':
            at = past_string(text, at)
            continue
        depth += (text[at] in OPEN) - (text[at] in CLOSE)
        if text[at] == " " and 0 < at and text[at - 1] != " " and text[at + 1 :].strip():
            cost = cost_at(text, at, depth)
            if cost is not None:
                found.append((at, cost, depth))
        at += 1
    return found


def laid(text, indent, kept_whole):
    """The text as lines of least cost, the first at this indentation, the others further in."""
    if indent + len(text) <= WIDTH:
        return [" " * indent + text]
    places = [it for it in places_of(text) if not any(a < it[0] < b for a, b in kept_whole)]
    starts = [(0, 0.0, indent)] + [
        (at + 1, cost + 4.0 * max(0, depth), indent + 4 + 2 * min(4, max(0, depth)))
        for at, cost, depth in places
    ]
    count = len(starts)
    best, cost = [count] * count, [float("inf")] * count + [0.0]
    for one in reversed(range(count)):
        for other in range(one + 1, count + 1):
            is_last = other == count
            end = len(text) if is_last else starts[other][0] - 1
            width = starts[one][2] + len(text[starts[one][0] : end].rstrip())
            over, left = max(0, width - WIDTH), 0 if is_last else max(0, WIDTH - width) / WIDTH
            if not is_last and text[end - 1] == "=" and starts[other][1] < 1:
                left = 0
            stub = 2.5 if is_last and one and width - starts[one][2] < 8 else 0
            found = over * 50 + left * left * 6 + stub + cost[other]
            found += 0 if is_last else starts[other][1] + 4
            if found < cost[one]:
                cost[one], best[one] = found, other
            if over > 200:
                break
    lines, one = [], 0
    while one < count:
        end = len(text) if best[one] == count else starts[best[one]][0] - 1
        lines.append(" " * starts[one][2] + text[starts[one][0] : end].rstrip())
        one = best[one]
    return lines


def wrapped(indent, mark, words):
    """A comment of these words; one that begins with `-` is an item of a list."""
    lines, now, further = [], indent + mark, "  " if words[0] == "-" else ""
    for word in words:
        if len(now) + 1 + len(word) > WIDTH and now != indent + mark:
            lines.append(now)
            now = indent + mark + further
        now += " " + word
    return [*lines, now]


def is_row(comment):
    """Whether a comment is indented behind its mark: a row of columns, or more of a list's item."""
    return re.match(r"(--|///|//!|//)  +\S", comment) is not None


def parts_of(line):
    """A line of antt without its comment, and that comment."""
    at = 0
    while at < len(line):
        if line[at] == '"':
            at = past_string(line, at)
            continue
        if re.match(r"--( |-|$)", line[at:]) and (at == 0 or line[at - 1] == " "):
            return line[:at].rstrip(), line[at:]
        at += 1
    return line, ""


def in_several_uses(line):
    """A long list of names that are brought in, as several of the same path, or None."""
    found = re.match(r"( *)((?:pub |ghost )*use [^\s:]*?)\.?\{(.*)\}(;?)$", line)
    if not found or "{" in found[3]:
        return None
    indent, head, names, end = found.groups()
    written = lambda some: f"{indent}{head}.{{{', '.join(some)}}}{end}"
    lines, now = [], []
    for name in [it.strip() for it in names.split(",") if it.strip()]:
        if now and len(written([*now, name])) > WIDTH:
            lines.append(written(now))
            now = []
        now.append(name)
    return [*lines, written(now)]


def spans(text, kept_whole):
    """Where these texts stand in the text."""
    return [
        (it.start(), it.start() + len(one.strip()))
        for one in kept_whole
        for it in re.finditer(f"(?={re.escape(one.strip())})", text)
    ]


def broken_antt(text, kept_whole):
    lines, out, at = text.split("\n"), [], 0
    while at < len(lines):
        line = lines[at]
        indent, group = len(line) - len(line.lstrip(" ")), [line]
        if SIGNATURE.match(line) and not parts_of(line)[1]:
            # (a signature is broken anew with its later lines, each of which begins with an arrow)
            for later in lines[at + 1 :]:
                if not re.match(f" {{{indent + 1},}}→ ", later) or parts_of(later)[1]:
                    break
                group.append(later)
        whole = " ".join(it.strip() for it in group)
        if any(one in it and one not in whole for one in kept_whole for it in group):
            whole, group = line.strip(), [line]
        if all(len(it) <= WIDTH for it in group):
            out.append(line)
            at += 1
            continue
        code, comment = parts_of(line)
        if is_row(comment) and not code.strip():
            out.append(line)
        elif in_several_uses(line):
            out += in_several_uses(line)
        elif comment and not code.strip():
            words, mark = comment.lstrip("-").split(), re.match("-+", comment)[0]
            if words:
                while (
                    at + 1 < len(lines)
                    and re.match(" " * indent + "-- [^ -]", lines[at + 1])
                    and not words[-1].endswith((".", ":"))
                ):
                    at += 1
                    words += lines[at].strip()[2:].split()
            out += wrapped(" " * indent, mark, words) if words else [line]
        else:
            out += wrapped(" " * indent, "--", comment.lstrip("-").split()) if comment else []
            whole = code.strip() if comment else whole
            out += laid(whole, indent, spans(whole, kept_whole))
        at += len(group)
    return "\n".join(out)


def broken_rt(text, kept_whole):
    lines, out, at = text.split("\n"), [], 0
    while at < len(lines):
        line = lines[at]
        indent, body = len(line) - len(line.lstrip(" ")), line.strip()
        comment = re.match(r"(///|//!|//) (.*)$", body)
        is_clause = re.match(r"(ghost |requires |ensures |decreases )", body)
        is_more_of_one = re.match(r"[(≡{]", body) and re.search(r"[≡∷λ→]|\.(old|now|new|entry)", body)
        if len(line) <= WIDTH:
            out.append(line)
        elif in_several_uses(line):
            out += in_several_uses(line)
        elif comment and is_row(body):
            out.append(line)
        elif comment:
            mark, words = comment[1], comment[2].split()
            more = r"   \S" if words[0] == "-" else r" [\w`(\[]"
            while (
                at + 1 < len(lines)
                and re.match(" " * indent + re.escape(mark) + more, lines[at + 1])
                and not words[-1].endswith((".", ":"))
            ):
                at += 1
                words += lines[at].strip()[len(mark) :].split()
            out += wrapped(" " * indent, mark, words)
        elif is_clause or (is_more_of_one and 'b"' not in body):
            out += laid(body, indent, spans(body, kept_whole))
        else:
            out.append(line)
        at += 1
    return "\n".join(out)


def texts_of_wrong_bodies(crate):
    """The `old:` texts of a crate's wrong bodies, by file."""
    by_file = {}
    for file in glob.glob(f"{crate}/must-fail/*.edit") + glob.glob(f"{crate}/wrong/**/*.edit", recursive=True):
        path = None
        with open(file, encoding="utf-8") as it:
            for line in it.read().split("\n"):
                if line.startswith("file: "):
                    path = line[len("file: ") :].strip()
                elif line.startswith("old: "):
                    by_file.setdefault(path, []).append(line[len("old: ") :])
    return by_file


def files_of(crate):
    for part in ("src", "specs", "proofs"):
        for at, _, names in os.walk(f"{crate}/{part}"):
            yield from (f"{at}/{it}" for it in sorted(names) if it.endswith((".antt", ".rt")))


def main():
    only_tell = "--tell" in sys.argv
    too_long = 0
    for crate in [it.rstrip("/") for it in sys.argv[1:] if it != "--tell"]:
        texts = texts_of_wrong_bodies(crate)
        for path in files_of(crate):
            with open(path, encoding="utf-8") as it:
                text = it.read()
            if all(len(it) <= WIDTH for it in text.split("\n")):
                continue
            if not only_tell:
                broken = broken_antt if path.endswith(".antt") else broken_rt
                new = broken(text, texts.get(os.path.relpath(path, crate), []))
                if new != text:
                    with open(path, "w", encoding="utf-8") as it:
                        it.write(new)
                text = new
            for number, line in enumerate(text.split("\n"), 1):
                if len(line) > WIDTH:
                    too_long += 1
                    print(f"{path}:{number}: {len(line)} columns")
    return 1 if only_tell and too_long else 0


if __name__ == "__main__":
    sys.exit(main())
