#!/usr/bin/env python3
"""Spells the definitions and lemmas of the crates as Rattle's library does: words in snake case, types and modules as they are.

usage: tools/respell.py            at the top of the repository, once, after Rattle's port.py

'firstFrom' and 'first-from' become 'first_from'. Where a definition and a lemma of its name would fall together, the lemma gets '_lem'. A name that a file
imports from a library stays there, and so does a label that Rattle makes: the answers of a Proof.antt, and what stands behind a dot there and is no field.
It goes by text and proves nothing. It prints the old and the new names.
"""

import os
import re
import sys

NAME = r'[^\s(){}.;,@"«»\x60]+'
TOKEN = re.compile(NAME)

# Two names of one file that would fall together: the second stands for a lemma or a field. A crate in front says that the row is of that crate alone.
APART = {
    "date-of": "its_date",
    "no-day": "no_day_of",
    "no-date": "no_date_of",
    "no-features": "featureless",
    "no-licensee": "unlicensed",
    "start-form": "start_form_in",
    "lengths-of": "lengths_of_lem",
    "orElse": "or_else",
    "andThen": "and_then",
    "andAlso": "and_also",
}
APART_IN = {
    ("model", "same_first"): "same_first_lem",
    ("derivable", "left_over"): "left_over_lem",
    ("minimalist", "moved_by"): "moved_by_lem",
    ("minimalist", "same_bool"): "same_bool_lem",
    ("minimalist", "left_out"): "is_left_out",
    ("ranks", "of_two"): "of_two_lem",
    ("forms", "head_byte"): "head_byte_lem",
}

# Two constructors that stand beside others in a line, and names that are bound in definitions and proofs.
BOUND = """
grammarAuthor analysisAuthor recordAt sentenceFile grammarFile toPrint leapYear categoriesIn wordsRefusal oldLive oldStep oldSteps oldSentence oldRun oldTrace
oldPlaced oldPairs oldListing oldTreeRefusal oldTraceRefusal oldScan oldRead oldComplete oldTreeOf oldTraceOf oldProgram oldApply
"""


def in_snake_case(name):
    words = name if name[0].isupper() else re.sub(r"(?<=[a-z0-9₀-₉'])[A-Z]", lambda m: "_" + m[0].lower(), name)
    return words.replace("-", "_")


def texts(ends):
    for folder, dirs, files in os.walk("crates"):
        dirs[:] = sorted(d for d in dirs if d not in ("out", ".git"))
        for f in sorted(files):
            if f.endswith(ends):
                yield os.path.join(folder, f)


def read(path):
    with open(path, encoding="utf-8") as f:
        return f.read()


def without_comments(t):
    t = re.sub(r"\{-.*?-\}", lambda m: re.sub(r"[^\n]", " ", m[0]), t, flags=re.S)
    return re.sub(r'(?<![^\s(){}.;,@"«»])--[^\n]*', lambda m: " " * len(m[0]), t)


MODULE = r"^( *)((?:pub |abbrev |unfoldable |private )*)"


def declared(path, text):
    """The names that a file declares: (name, whether a field or a constructor)."""
    inside = None
    for line in without_comments(text).split("\n"):
        indent = len(line) - len(line.lstrip())
        if line.strip() and inside is not None and indent <= inside:
            inside = None
        m = re.match(MODULE + rf"(?:record|data) ({NAME})", line)
        if m:
            inside = len(m[1])
            yield m[3], False
            continue
        m = re.match(MODULE + rf"({NAME})((?: \{{[^{{}}\n]*\}})*) :(?: |$)", line)
        if m and not m[3].startswith(("invariant-", "decreases-")) and " : tie." not in line:
            yield m[3], inside is not None


def imported(text, ours):
    """The names that a file takes from a library."""
    for m in re.finditer(r"^ *(?:pub )?use ([^\s;{]+)\{([^}]*)\}", text, re.M):
        steps = m[1].split(".")
        if steps[0] == "Rattle" and len(steps) > 1 and steps[1] in ours or steps[0] == "tie":
            continue
        for item in m[2].split(","):
            for word in item.split():
                yield word


def main():
    ours = set(os.listdir("crates"))
    names, fields, parts = set(), set(), {}
    for path in texts((".antt",)):
        for name, is_field in declared(path, read(path)):
            names.add(name)
            if is_field:
                fields.add(name)
    new = {}
    for name in names:
        if "◌" in name:
            for part in name.split("◌"):
                if part and in_snake_case(part) != part:
                    new[part] = in_snake_case(part)
        if in_snake_case(name) != name:
            new[name] = in_snake_case(name)
    new.update({name: in_snake_case(name) for name in BOUND.split()})
    # the definition keeps the plain name, the lemma of the same words gets '_lem'
    met = clashes(names, new)
    for name in met:
        new[name] = new[name] + "_lem"
    new.update({k: v for k, v in APART.items() if k in new})
    taken = {}
    for old, to in sorted(new.items()):
        taken.setdefault(to, []).append(old)
    for to, olds in sorted(taken.items()):
        if len(olds) > 1:
            print(f"look: {' '.join(olds)} -> {to}")

    for path in texts((".antt", ".rt", ".edit")):
        text = read(path)
        crate = path.split(os.sep)[1]
        by_hand = path.endswith("/Proof.antt")
        code = "" if path.endswith(".edit") else without_comments(text)
        library = set(imported(text, ours))
        local = {old: to for (c, old), to in APART_IN.items() if c == crate}
        out, at = [], 0
        plain = text
        comment = [False] * (len(text) + 1)
        if path.endswith(".antt"):
            for i, (a, b) in enumerate(zip(text, code)):
                comment[i] = a != b
        in_code = set(TOKEN.findall(code))
        for m in TOKEN.finditer(text):
            word = m[0]
            to = local.get(word) or new.get(word)
            if not to or word in library:
                continue
            before = text[m.start() - 1 : m.start()]
            if path.endswith(".rt") and word in local:
                continue
            if "-" in word and (comment[m.start()] or path.endswith((".rt", ".edit"))) and word not in in_code and before != "`":
                continue
            if path.endswith(".rt") and "-" in word:
                line = text[text.rfind("\n", 0, m.start()) + 1 : m.start()]
                if "//" in line and before != "`":
                    continue
            if by_hand and before == "." and word not in fields:
                head = re.search(rf"({NAME})\.$", text[max(0, m.start() - 80) : m.start()])
                if not head or not head[1][:1].isupper() or head[1] == "tie":
                    continue
            out.append(text[at : m.start()])
            out.append(to)
            at = m.end()
        out.append(text[at:])
        made = "".join(out)
        if made != text:
            with open(path, "w", encoding="utf-8") as f:
                f.write(made)
    for old, to in sorted(new.items()):
        print(f"{old}\t{to}")
    for (crate, old), to in sorted(APART_IN.items()):
        print(f"{crate}: {old}\t{to}")


def clashes(names, new):
    """The hyphenated names that stand in a file, in code, with another name of the same new spelling."""
    both = set()
    for path in texts((".antt", ".rt")):
        text = read(path)
        if path.endswith(".rt"):
            text = "\n".join(line for line in text.split("\n") if re.match(r"\s*(ghost|requires|ensures)", line))
        seen = {}
        for word in set(TOKEN.findall(without_comments(text))):
            if word in names or word in new:
                seen.setdefault(new.get(word, word), set()).add(word)
        for words in seen.values():
            if len(words) > 1:
                both |= {w for w in words if "-" in w}
                if not any("-" in w for w in words):
                    print(f"look: {path}: {' '.join(sorted(words))}")
    return both


if __name__ == "__main__":
    main()
