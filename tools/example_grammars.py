#!/usr/bin/env python3
"""Writes the files of crates/worked_examples/data. The grammars: the copy grammar, without weights and with,
the pair grammar, one with categories that have no tree, one with rules that differ although their daughters
are the same in some order, and one damaged file for each refusal 1 to 10, of 9 two, of 10 four. The lexicons:
that of example 2 of W11-0605, and the same with its last entry once more.

Usage: tools/example_grammars.py (at the repository's root)
"""
import os


def record(category, daughters=(), word=0, components=(), weight=0):
    """The 24 bytes of a rule. A variable is (daughter position, component)."""
    lengths = [len(c) for c in components]
    variables = [4 * j + k for c in components for j, k in c]
    e = [category, len(daughters)] + list(daughters) + [0] * (3 - len(daughters))
    e += [word % 256, word // 256]
    e += lengths + [0] * (4 - len(lengths))
    e += variables + [0] * (12 - len(variables))
    return e + [weight]


def check(block):
    """The block with its check over bytes 0 to 507."""
    total = sum((i + 1) * x for i, x in enumerate(block[:508]))
    return block[:508] + [total >> 8 * i & 255 for i in range(4)]


def blocks(dimensions, start, words, records):
    """The blocks of the file."""
    heading = [0, 0, 1, len(dimensions), start, words % 256, words // 256, len(records) % 256, len(records) // 256]
    heading += [0] * 7 + list(dimensions)
    result = [heading]
    for k in range(0, len(records), 21):
        held = records[k:k + 21]
        number = 1 + k // 21
        result.append([number % 256, number // 256, 2, len(held)] + sum(held, []))
    return [check(b + [0] * (512 - len(b))) for b in result]


S, P, A, B = 0, 1, 2, 3
COPY = [
    record(S, [P], components=[[(0, 0), (0, 1)]]),
    record(P, [A, P, A], components=[[(0, 0), (1, 0)], [(2, 0), (1, 1)]]),
    record(P, [B, P, B], components=[[(0, 0), (1, 0)], [(2, 0), (1, 1)]]),
    record(P, [A, A], components=[[(0, 0)], [(1, 0)]]),
    record(P, [B, B], components=[[(0, 0)], [(1, 0)]]),
    record(A, word=0),
    record(B, word=1),
]
PAIR = [
    record(S, [S, S], components=[[(0, 0), (1, 0)]]),
    record(S, word=0),
]
# categories 1 and 2 have no tree
BARREN = [
    record(0, word=0),
    record(1, [1], components=[[(0, 0)]]),
    record(2, [0, 1], components=[[(0, 0), (1, 0)]]),
    record(3, [0], components=[[(0, 0)]]),
]
# no two of these are one rule in two orders of its daughters: S has the strings of A and B in two orders,
# P has its components exchanged, or other daughters
OTHER_ORDERS = [
    record(S, [A, B], components=[[(0, 0), (1, 0)]]),
    record(S, [B, A], components=[[(0, 0), (1, 0)]]),
    record(P, [A, B], components=[[(0, 0)], [(1, 0)]]),
    record(P, [A, B], components=[[(1, 0)], [(0, 0)]]),
    record(P, [A, A], components=[[(0, 0)], [(1, 0)]]),
]
# rule 1 of the copy grammar with its daughters in the order second, third, first
SHUFFLED = record(P, [P, A, A], components=[[(2, 0), (0, 0)], [(1, 0), (0, 1)]], weight=9)


def copy(records=COPY):
    return blocks([1, 2, 1, 1], S, 2, records)


def weighted(records, weights):
    """The records with these weights."""
    return [e[:23] + [w] for e, w in zip(records, weights)]


def changed(rule, byte, value):
    """The copy grammar with one byte of one record changed, and the check right again."""
    records = [list(e) for e in COPY]
    records[rule][byte] = value
    return copy(records)


def set_byte(block, byte, value):
    """The copy grammar with one byte of one block changed, and the check right again."""
    file = copy()
    file[block][byte] = value
    file[block] = check(file[block])
    return file


def wrong_check():
    file = copy()
    file[1][20] += 1
    return file


FILES = {
    "copy": copy(),
    # powers of two: no two sets of rules have the same sum
    "weighted": copy(weighted(COPY, [1, 2, 4, 8, 16, 32, 64])),
    "pair": blocks([1], S, 1, PAIR),
    "barren": blocks([1, 1, 1, 1], 0, 1, BARREN),
    "other_orders": blocks([1, 2, 1, 1], S, 1, OTHER_ORDERS),
    "wrong_length": copy()[:1] + [copy()[1][:511]],
    "wrong_check": wrong_check(),
    "wrong_kind": set_byte(1, 2, 1),
    "wrong_start": set_byte(0, 4, P),
    "wrong_blocks": copy()[:1],
    "wrong_count": set_byte(1, 3, 8),
    "wrong_daughter": changed(1, 3, 4),
    "wrong_word": changed(6, 5, 2),
    "variable_twice": changed(3, 12, 0),
    "unused_byte": changed(4, 22, 1),
    "rest_of_block": set_byte(1, 507, 1),
    "repeated_rule": copy(COPY + [COPY[5]]),
    "repeated_but_for_weight": copy(COPY + weighted([COPY[5]], [255])),
    "shuffled_rule": copy(COPY + [SHUFFLED]),
    "exchanged_daughters": blocks([1], S, 1, [PAIR[0], record(S, [S, S], components=[[(1, 0), (0, 0)]]), PAIR[1]]),
}


def entry(word, *features):
    """The 8 bytes of an entry of a lexicon."""
    return [word % 256, word // 256] + list(features) + [0] * (6 - len(features))


# Categories: D 1, V 2, C 3, so that =D, =V, =C are 17, 18, 19; +wh 33, -wh 49. Words: likes 0, knows 1, Mary 2, John 3, who 4.
EMPTY = 65535
EXAMPLE_2 = [
    entry(0, 17, 17, 2),
    entry(1, 19, 17, 2),
    entry(EMPTY, 18, 3),
    entry(EMPTY, 18, 33, 3),
    entry(2, 1),
    entry(3, 1),
    entry(4, 1, 49),
]

FILES["example_2"] = EXAMPLE_2
FILES["repeated_entry"] = EXAMPLE_2 + EXAMPLE_2[6:]

folder = "crates/worked_examples/data"
os.makedirs(folder, exist_ok=True)
for name, file in FILES.items():
    with open(os.path.join(folder, name), "wb") as f:
        f.write(bytes(sum(file, [])))
