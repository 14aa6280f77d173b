#!/usr/bin/env python3
"""Writes the cases that the program `cases` runs (crates/cases/stdin) and the lines that it must print (crates/cases/stdout).

Each case states its expected line by hand, from the rules; nothing here computes an answer. Run it at the repository's root
after a change of a case, and look at the difference."""
import os

K = bytes(int(x) for x in """2 3 2 0 16 0 3 0 28 0 4 0 44 0 1 0 0 2 65 32 1 2 0 66 2 2 1 33 0 0 0 1 0 0 1 0 0 1 1 1 1 0 1 1 1""".split())

cases = []  # (letter, bytes, expected line)
READ = 65536  # the bytes that the program reads


def half(n):
    return bytes((n % 256, n // 256))


def file(names=2, nonterminals=3, states=2, templates=(), schema=(), endings=()):
    """A file laid out by section 4 of the rules, of these entries, whatever they hold."""
    t, s, e = len(templates), len(schema), len(endings)
    head = bytes((names, nonterminals, states, 0))
    head += half(16) + half(t) + half(16 + 4 * t) + half(s) + half(16 + 4 * t + 4 * s) + half(e)
    return head + b"".join(map(bytes, templates)) + b"".join(map(bytes, schema)) + bytes(endings)


def anything(*rules, nonterminals=1):
    """These template rules under one name and one state, which ends: it derives every balanced string, and every relation is 1."""
    return file(1, nonterminals, 1, sorted(rules), [(0, 0, 0, 0)], [0])


def put(f, place, *values):
    """The file with other bytes from a place on."""
    return f[:place] + bytes(values) + f[place + len(values):]


def case(letter, data, line):
    cases.append((letter, bytes(data), line))


def sound(f, *numbers):
    case("F", f, "0 0 " + " ".join(map(str, numbers)))


def bad(f, place):
    case("F", f, f"7 {place}")


def files():
    # sound files: K; no entries at all; one entry each; the largest numbers; the longest file of 1,560 bytes
    sound(K, 2, 3, 2, 3, 4, 1)
    sound(file(), 2, 3, 2, 0, 0, 0)
    sound(file(1, 1, 1, [(0, 0, 255, 255)], [(0, 0, 0, 0)], [0]), 1, 1, 1, 1, 1, 1)
    sound(file(32, 64, 8), 32, 64, 8, 0, 0, 0)
    longest = file(32, 64, 8, [(i // 64, 2, 64 + i % 64, 127) for i in range(256)],
                   [(i // 64, i // 8 % 8, i % 8, 7) for i in range(128)], range(8))
    assert len(longest) == 1560
    sound(longest, 32, 64, 8, 256, 128, 8)
    # place 0 has three causes: under 16 bytes, A, and the total length
    bad(b"", 0)
    bad(K[:15], 0)
    bad(put(K, 0, 0), 0)
    bad(put(K, 0, 33), 0)
    bad(K[:44], 0)
    bad(K + b"\0", 0)
    bad(longest + b"\0", 0)
    # bytes 1 to 3
    bad(put(K, 1, 0), 1)
    bad(put(K, 1, 65), 1)
    bad(put(K, 2, 0), 2)
    bad(put(K, 2, 9), 2)
    bad(put(K, 3, 1), 3)
    # contents, entry by entry: offset, then count; the limit of the third count is Q
    bad(put(K, 4, 17), 4)
    bad(put(K, 4, 16, 1), 4)
    bad(put(K, 6, 1, 1), 6)
    bad(put(K, 8, 32), 8)
    bad(put(K, 10, 129), 10)
    bad(put(K, 12, 48), 12)
    bad(put(K, 14, 3), 14)
    bad(put(K, 14, 8), 14)
    # a first count that is allowed but wrong shows at the next offset, a second one at the third
    bad(put(K, 6, 4), 8)
    bad(put(K, 10, 3), 12)
    # offsets are exact also where a count is 0
    bad(put(file(), 8, 0), 8)
    bad(put(file(), 12, 0), 12)
    # the third count before the total length; the total length before the bodies
    bad(put(K, 14, 3) + b"\0", 14)
    bad(put(K, 16, 200) + b"\0", 0)
    # an earlier count before a later offset
    bad(put(put(K, 6, 1, 1), 8, 0), 6)
    # a template rule's fields: left side, length, symbols
    bad(put(K, 16, 3), 16)
    bad(put(K, 17, 3), 17)
    bad(put(K, 18, 2), 18)
    bad(put(K, 18, 31), 18)
    bad(put(K, 18, 34), 18)
    bad(put(K, 18, 63), 18)
    bad(put(K, 18, 67), 18)
    bad(put(K, 18, 255), 18)
    bad(put(K, 19, 34), 19)
    bad(put(K, 17, 1), 19)
    bad(put(K, 17, 0), 18)
    bad(put(K, 17, 0, 255, 0), 19)
    sound(put(K, 17, 1, 65, 255), 2, 3, 2, 3, 4, 1)
    # ascent: equal, and descending; at the later entry's first byte, after its fields
    bad(file(templates=[(0, 0, 255, 255), (0, 0, 255, 255)]), 20)
    bad(file(templates=[(1, 0, 255, 255), (0, 0, 255, 255)]), 20)
    bad(file(templates=[(0, 2, 64, 65), (0, 2, 64, 64)]), 20)
    bad(file(templates=[(0, 1, 1, 255), (0, 0, 255, 255)]), 20)
    bad(file(templates=[(1, 0, 255, 255), (0, 3, 255, 255)]), 21)
    # the first fault in the order of reading, not the lowest place: the second entry's ascent before the third entry's field
    bad(file(templates=[(1, 0, 255, 255), (0, 0, 255, 255), (9, 0, 255, 255)]), 20)
    bad(file(templates=[(0, 0, 255, 255), (1, 0, 255, 255), (9, 0, 255, 255)]), 24)
    # a schema rule's fields: X, a, Y, Z; then the ascent
    bad(put(K, 28, 2), 28)
    bad(put(K, 29, 2), 29)
    bad(put(K, 30, 2), 30)
    bad(put(K, 31, 2), 31)
    bad(put(K, 35, 2), 35)
    bad(file(schema=[(0, 0, 0, 1), (0, 0, 0, 1)]), 20)
    bad(file(schema=[(0, 0, 1, 0), (0, 0, 0, 1)]), 20)
    # ending states
    bad(put(K, 44, 2), 44)
    bad(file(endings=[1, 1]), 17)
    bad(file(endings=[1, 0]), 17)
    bad(file(states=3, endings=[0, 3, 1]), 17)
    # a template rule's fault before a schema rule's
    bad(put(put(K, 44, 9), 19, 200), 19)


def filled(values, room):
    return list(values) + [0] * (room - len(values))


def summary(ends=(), starts=(), relations=(0,), counts=(), *, names=None):
    """A summary: ends, starts, 16 names, 17 relations, and 17 counts of outermost elements, each beside its relation; what is not said is 0."""
    tags = list(ends) + list(starts) if names is None else names
    return len(ends), len(starts), filled(tags, 16), filled(relations, 17), filled(counts, 17)


def raw(s):
    """A summary's bytes: eight for each relation, one for every other number."""
    ends, starts, names, relations, counts = s
    return bytes([ends, starts]) + bytes(names) + b"".join(r.to_bytes(8, "little") for r in relations) + bytes(counts)


def shown(s):
    """The numbers that a line shows of a summary."""
    ends, starts, names, relations, counts = s
    return " ".join(map(str, [ends, starts] + names + relations + counts))


NONE = summary()  # the summary of a refusal, and a summary that no fragment has


def page(data, answer, number=0):
    case("P", data, f"{answer} {number} ")


def fragment(data, s, answer=0, number=0):
    case("G", data, f"{answer} {number} {shown(s)}")


def join(left, right, s, answer=0):
    case("J", bytes([len(left)]) + bytes(left) + bytes(right), f"{answer} 0 {shown(s)}")


def join_structs(left, right, s, answer=0, number=0):
    case("S", raw(left) + raw(right), f"{answer} {number} {shown(s)}")


def net(s, depth, answer=0, number=0):
    case("N", raw(s), f"{answer} {number} {depth}")


def pages():
    sound(K, 2, 3, 2, 3, 4, 1)
    # the cases of the rules, section 7
    page([1, 33], 0)
    page([], 14)
    page([0, 1, 33, 32], 0)
    page([0, 32, 1, 33], 14)
    page([1, 33, 1, 33], 14)
    page([0, 33], 11, 1)
    page([0], 13)
    page([32], 13)
    page([2], 10, 0)
    page([0] * 15 + [1, 33] + [32] * 15, 0)
    page([0] * 17, 12, 16)
    # no tag below A: 2 to 31, 34 to 63, and all from 64 up
    for byte in (2, 31, 34, 63, 64, 65, 127, 128, 255):
        page([0, byte], 10, 1)
    # 12 is judged after each tag, and ends count as well as starts
    page([0] * 16 + [0, 32], 12, 16)
    page([0] * 16 + [32] * 16, 14)
    page([32] * 16, 13)
    page([32] * 17, 12, 16)
    page([32] * 9 + [0] * 8, 12, 16)
    page([32] * 9 + [0] * 7, 13)
    # an unmatched end is no refusal at once; the earliest place decides
    page([32, 0, 33], 11, 2)
    page([0, 33, 2], 11, 1)
    page([2, 0, 33], 10, 0)
    page([0, 1, 32], 11, 2)
    page([33, 1, 33], 13)
    # both are balanced; only one b is allowed, and one is asked for
    page([0, 32], 14)
    page([1, 1, 33, 33], 14)
    page([1, 0, 32, 33], 0)
    # derived, but side by side: two and three; below one element they may be as many as the schema wants
    page([1, 33, 0, 32], 14)
    page([0, 32, 1, 33, 0, 32], 14)
    page([0, 0, 32, 1, 33, 0, 32, 32], 0)
    # a tag that is left comes before it
    page([0, 32, 1, 33, 0], 13)
    # state 0 derives any number of elements, also none; a page has one. Five are 1 in two bits, and 257 in a byte
    sound(anything(), 1, 1, 1, 0, 1, 1)
    page([], 14)
    page([0, 32], 0)
    for many in (2, 3, 4, 5, 6, 257):
        page([0, 32] * many, 14)
        page([0] + [0, 32] * many + [32], 0)


def fragments():
    unit = 513
    sound(K, 2, 3, 2, 3, 4, 1)
    fragment([], summary((), (), (unit,)))
    fragment([1, 33], summary((), (), (2,), (1,)))
    fragment([32, 0], summary((0,), (0,), (unit, unit, unit)))
    fragment([1, 33, 0], summary((), (0,), (2, unit), (1, 0)))
    fragment([33, 1, 33], summary((1,), (), (unit, 2), (0, 1)))
    fragment([1, 33, 1, 33], summary((), (), (0,), (2,)))
    fragment([0, 1, 32], NONE, 11, 2)
    fragment([0, 64], NONE, 10, 1)
    fragment([0] * 16, summary((), [0] * 16, [unit] * 17))
    fragment([0] * 17, NONE, 12, 16)
    # in one go ten 0, ten 0 and twenty 32 are too deep at place 16; joined they are not
    fragment([0] * 20 + [32] * 20, NONE, 12, 16)
    join([0] * 10, [0] * 10 + [32] * 20, summary((), (), (unit,), (1,)))
    join([0] * 16, [0] + [32] * 17, summary((), (), (unit,), (1,)))
    join([0] * 16, [0, 32], summary((), [0] * 16, [unit] * 17, [0] * 16 + [1]))
    join([0, 1], [33, 32], summary((), (), (2,), (1,)))
    join([0], [33], NONE, 11)
    join([0] * 9, [0] * 7, summary((), [0] * 16, [unit] * 17))
    join([0] * 9, [0] * 8, NONE, 12)
    join([0] * 16, [32] * 16, summary((), (), (unit,), (1,)))
    # the innermost start first, and so outward
    join([0, 1], [32], NONE, 11)
    join([0, 1], [33, 33], NONE, 11)
    join([1, 0], [32], summary((), (1,), (unit, unit), (0, 1)))
    # a mismatch comes before too deep
    join([0] * 9, [33] + [0] * 15, NONE, 11)
    join([32] * 9, [32] * 8, NONE, 12)
    join([32], [0], summary((0,), (0,), (unit, unit, unit)))
    # a relation in its order: one b on the left, none on the right
    join([1, 33, 0], [32, 1, 33], summary((), (), (0,), (2,)))
    join([0, 1, 33], [32], summary((), (), (2,), (1,)))


def counts():
    # under K an empty a has the empty word's relation, and counts 1
    unit, one, two = 513, [0, 32], [0, 32, 0, 32]
    sound(K, 2, 3, 2, 3, 4, 1)
    # none, one and two or more elements by themselves, and before and behind each kind of tag
    fragment(one, summary((), (), (unit,), (1,)))
    for many in (2, 3, 4, 5, 257):
        fragment(one * many, summary((), (), (unit,), (2,)))
    fragment([0, 32, 1, 33], summary((), (), (2,), (2,)))
    for before, n in (([], 0), (one, 1), (two, 2), (one * 3, 2)):
        for behind, m in (([], 0), (one, 1), (two, 2), (one * 3, 2)):
            fragment(before + [32] + behind, summary((0,), (), (unit, unit), (n, m)))
            fragment(before + [1] + behind, summary((), (1,), (unit, unit), (n, m)))
    # between the tags, in their order: 16 of them, with 1, 2, 0, 1, .. elements before each
    fragment(one + [32] + two + [0], summary((0,), (0,), [unit] * 3, (1, 2, 0)))
    sixteen = [tag for k in range(16) for tag in one * ((k + 1) % 3) + [32 if k < 8 else 0]]
    fragment(sixteen, summary([0] * 8, [0] * 8, [unit] * 17, [1, 2, 0] * 5 + [1, 0]))
    # an element counts 1, whatever is in it
    for inner in ([], one, two, one * 3):
        fragment([0] + inner + [32], summary((), (), (unit,), (1,)))
    fragment(one + [0] + two + [32, 0], summary((), (0,), (unit, unit), (2, 0)))


def seams():
    # at a seam counts are added, up to 2
    unit, one, two = 513, [0, 32], [0, 32, 0, 32]
    for left, right, n in (([], [], 0), ([], one, 1), (one, [], 1), (one, one, 2), (two, one, 2), (one, two, 2), (two, two, 2), ([], two, 2)):
        join(left, right, summary((), (), (unit,), (n,)))
        join([32] + left, right + [0], summary((0,), (0,), [unit] * 3, (0, n, 0)))
        join([0] + left, right, summary((), (0,), [unit] * 2, (0, n)))
        join(left, right + [32], summary((0,), (), [unit] * 2, (n, 0)))
        # an element that the seam closes counts 1, whatever is in it, beside what stands around it
        join([0] + left, right + [32], summary((), (), (unit,), (1,)))
        join([0] + left, right + [32] + one, summary((), (), (unit,), (2,)))
        join([33, 0] + left, right + [32, 1], summary((1,), (1,), [unit] * 3, (0, 1, 0)))
    join(one + [0], [32], summary((), (), (unit,), (2,)))
    join(two + [0], [32] + two, summary((), (), (unit,), (2,)))
    # two elements that the seam closes, one in the other, count as one
    join([0, 0], [32, 32], summary((), (), (unit,), (1,)))
    join([0] + two + [0], [32] + two + [32], summary((), (), (unit,), (1,)))
    # counts away from the seam stay where they stand
    join(one + [33] + two + [0], [32] + one + [1] + two, summary((1,), (1,), [unit] * 3, (1, 2, 2)))
    # the last count of 16 tags, which no reading gives: a start more would be too deep
    join([0] * 16, two, summary((), [0] * 16, [unit] * 17, [0] * 16 + [2]))
    fragment([0] * 16 + one, NONE, 12, 16)


def structs():
    # summaries that no fragment has; an element counts 1, also around what no state derives
    join_structs(NONE, NONE, NONE)
    join_structs(summary((), (0,), (0, 0)), summary((0,), (), (0, 0)), summary((), (), (0,), (1,)))
    join_structs(summary((), (0,), (513, 2)), summary((0,), (), (513, 513)), summary((), (), (2,), (1,)))
    join_structs(summary((), (), (1,)), summary((), (), (513,)), summary((), (), (1,)))
    # counts that fit no relation beside them: one or two elements with the empty word's, no element with another's
    for n in (1, 2):
        join_structs(summary((), (), (513,), (n,)), summary((), (), (513,)), summary((), (), (513,), (n,)))
        join_structs(summary((), (), (513,)), summary((), (), (513,), (n,)), summary((), (), (513,), (n,)))
        join_structs(summary((), (), (513,), (n,)), summary((), (), (513,), (n,)), summary((), (), (513,), (2,)))
        join_structs(summary((), (), (0,), (n,)), NONE, summary((), (), (0,), (n,)))
    join_structs(summary((), (), (2,)), summary((), (), (513,), (1,)), summary((), (), (2,), (1,)))
    join_structs(summary((), (0,), (513, 513), (2, 2)), summary((0,), (), (513, 513), (2, 2)), summary((), (), (513,), (2,)))
    join_structs(summary((), (0,), (513, 513), (0, 2)), summary((0,), (), (513, 513), (2, 0)), summary((), (), (513,), (1,)))
    join_structs(summary([0] * 8, [1] * 8, [513] * 17, [2] * 17), summary((), (), (513,), (2,)), summary([0] * 8, [1] * 8, [513] * 17, [2] * 17))
    net(NONE, 0)
    net(summary((), [0] * 16, [0] * 17), 16)
    net(summary([1] * 16, (), [0] * 17), -16)
    net(summary((0,), (), (0, 0)), -1)
    net(summary([0] * 8, [1] * 8, [0] * 17), 0)
    # counts and net depth have nothing to do with each other
    net(summary((), (), (513,), (2,)), 0)
    net(summary((0,), (), (513, 513), (2, 2)), -1)
    net(summary((), [0] * 16, [513] * 17, [2] * 17), 16)


def no_summaries():
    # too many tags, a name of A, a bit outside Q, a count above 2, an unused place that is not 0; on either side
    wrong = [
        summary([0] * 16, (0,), [0] * 17, names=[0] * 16),
        summary([0] * 17, (), [0] * 17, names=[0] * 16),
        (255, 255, [0] * 16, [0] * 17, [0] * 17),
        (1, 255, [0] * 16, [0] * 17, [0] * 17),
        summary((), (2,), (0, 0)),
        summary((2,), (), (0, 0)),
        summary((), (), (4,)),
        summary((), (), (1 << 16,)),
        summary((), (), (1 << 63,)),
        summary((), (0,), (0, 1 << 10)),
        summary((), (), (0,), names=[1]),
        summary((), (0,), (0, 0), names=[0, 1]),
        summary((), (), (0, 1)),
        summary((), (0,), (0, 0, 513)),
        summary((), (), (513,), (3,)),
        summary((), (), (513,), (4,)),
        summary((), (), (513,), (255,)),
        summary((), (0,), (513, 513), (3, 0)),
        summary((), (0,), (513, 513), (0, 3)),
        summary((0,), (), (513, 513), (0, 255)),
        summary([0] * 8, [1] * 8, [513] * 17, [2] * 16 + [3]),
        summary((), (), (513,), (0, 1)),
        summary((), (), (0,), [0] * 16 + [1]),
        summary((), (0,), (513, 513), (0, 0, 2)),
        summary((0,), (0,), [513] * 3, (1, 1, 1, 1)),
        summary([0] * 15, (), [513] * 16, [0] * 16 + [2]),
    ]
    for s in wrong:
        join_structs(s, NONE, NONE, 15)
        join_structs(NONE, s, NONE, 15)
        net(s, 0, 15)


def bad_file():
    # every call reads the whole file: a fault in a template rule that it does not use gives 7, before all others
    bad(put(K, 16, 3), 16)
    page([1, 33], 7, 16)
    page([2], 7, 16)
    fragment([1, 33], NONE, 7, 16)
    case("S", raw(NONE) + raw(NONE), f"7 16 {shown(NONE)}")
    case("S", raw(summary((), (2,), (0, 0))) + raw(NONE), f"7 16 {shown(NONE)}")
    case("N", raw(NONE), "7 16 0")
    case("N", raw(summary((), (2,), (0, 0))), "7 16 0")
    case("N", raw(summary((), (), (513,), (3,))), "7 16 0")


def check(budget, answer, number, images=0, rows=(), *, length=5500, fill=7):
    """A check under the file before it. The rows are those that must stand in the worktable; a refusal leaves it as it was."""
    end = min(length, 5376)
    left = 0 if images >= 256 else end - 21 * images
    zeros, filled = (0, left) if answer >= 6 else (left, 0)
    shown_rows = "".join(f"{x} " for row in rows for x in row)
    case("C", half(budget) + half(length) + bytes([fill]), f"{answer} {number} {images} {zeros} {filled} {length - end} {shown_rows}")


def row(nonterminal, ends, starts, names, relations, counts=()):
    """A worktable row; its last entry has the counts, two bits each, the first lowest."""
    names = filled(names, 16)
    packed = [sum(n << 8 * k for k, n in enumerate(half_names)) for half_names in (names[:8], names[8:])]
    return [nonterminal + 256 * ends + 65536 * starts] + packed + filled(relations, 17) + [sum(n << 2 * i for i, n in enumerate(counts))]


KT = [(0, 2, 65, 32), (1, 2, 0, 66), (2, 2, 1, 33)]
KS = [(0, 0, 0, 1), (0, 0, 1, 0), (0, 1, 1, 1), (1, 0, 1, 1)]


def like_k(*rules, nonterminals=3):
    """K with these template rules in place of its own, and its schema."""
    return file(2, nonterminals, 2, sorted(rules), KS, [1])


def doubling(steps):
    """One name and one state, which ends; so many nonterminals double the start tag, as many the end tag, and the start is both in a row."""
    rules = [(1, 1, 0, 255), (steps + 1, 1, 32, 255), (0, 2, 64 + steps, 64 + 2 * steps)]
    for i in list(range(2, steps + 1)) + list(range(steps + 2, 2 * steps + 1)):
        rules.append((i, 2, 63 + i, 63 + i))
    return anything(*rules, nonterminals=2 * steps + 1)


def chain(*last):
    """A chain of 64 nonterminals that ends in one of these; five states, all ending, and a rule from state 0 to each other."""
    rules = [(i, 1, 65 + i, 255) for i in range(63)] + [(63,) + r for r in last]
    return file(4, 64, 5, sorted(rules), [(0, i, 0, i + 1) for i in range(4)], range(5))


def circle(base):
    """64 nonterminals in a circle that nests one element more each time round, so that a page has one outermost element; 4 different
    relations, with one new image in each round."""
    rules = [(i, 1, 65 + i, 255) for i in range(62)] + [(62, 2, 127, 32), (63, 2, 0, 64), base]
    return file(1, 64, 6, sorted(rules), [(0, 0, 0, 1), (2, 0, 3, 1), (3, 0, 4, 1), (4, 0, 5, 1)], [0, 1, 5])


def shelled(last, *more, **schema):
    """The start is an element around a chain of 61 nonterminals, which ends in these right sides; number 63 is free for more rules."""
    rules = [(0, 2, 0, 65), (1, 2, 66, 32)] + [(i, 1, 65 + i, 255) for i in range(2, 62)] + [(62,) + r for r in last]
    return file(nonterminals=64, templates=sorted(rules + list(more)), **schema)


def counted():
    """16 starts with an element before each, and 16 ends with two behind each, both by doubling; the start is one element around both in
    a row."""
    rules = [(0, 2, 65, 32), (1, 2, 0, 66), (2, 2, 67, 68), (3, 2, 69, 69), (4, 2, 72, 72), (5, 2, 70, 70), (6, 2, 71, 71), (7, 2, 78, 78)]
    rules += [(8, 2, 73, 73), (9, 2, 74, 74), (10, 2, 75, 75), (11, 2, 32, 76), (12, 2, 77, 77), (13, 2, 0, 32), (14, 2, 77, 0)]
    return anything(*rules, nonterminals=15)


def checks():
    # K: its rows begin 0, 2, 65537; the budget on both sides of its 4 rounds; tables of 5,376 entries, more, and filled with other numbers
    k_rows = [row(0, 0, 0, [], [2], [1]), row(2, 0, 0, [], [2], [1]), row(1, 0, 1, [0], [513, 2], [0, 1])]
    sound(K, 2, 3, 2, 3, 4, 1)
    for length in (5376, 5377, 5500):
        for fill in (0, 1, 255):
            if fill:
                check(257, 0, 4, 3, k_rows, length=length, fill=fill)
    check(4, 0, 4, 3, k_rows)
    check(3, 5, 3)
    check(1, 5, 1)
    # 9, then 8, then 7, then 6
    check(4, 9, 0, length=5375)
    check(0, 9, 0, length=5375)
    check(4, 9, 0, length=5120)
    check(4, 9, 0, length=0)
    check(0, 8, 0)
    check(258, 8, 0)
    check(65535, 8, 0)
    bad(put(K, 16, 3), 16)
    check(0, 8, 0)
    check(4, 7, 16)
    check(4, 9, 0, length=5375)
    sound(like_k((0, 2, 64, 32)), 2, 3, 2, 1, 4, 1)
    check(64, 6, 0)
    sound(like_k(), 2, 3, 2, 0, 4, 1)
    check(64, 6, 0)
    # the cases of the rules, section 11
    sound(like_k(*KT, (2, 0, 255, 255)), 2, 3, 2, 4, 4, 1)
    check(64, 2, 3)
    check(2, 5, 2)
    sound(like_k(KT[0], KT[1], (2, 2, 1, 32)), 2, 3, 2, 3, 4, 1)
    check(64, 1, 1)
    rows = [row(0, 0, 0, [], [1], [1])]
    for i in range(5):
        rows += [row(6 + i, 2 ** i, 0, [], [1] * (2 ** i + 1)), row(1 + i, 0, 2 ** i, [], [1] * (2 ** i + 1))]
    sound(doubling(5), 1, 11, 1, 11, 1, 1)
    check(64, 0, 7, 11, sorted(rows))
    sound(doubling(6), 1, 13, 1, 13, 1, 1)
    check(64, 3, 6)
    four = [(2, i, 32 + i) for i in range(4)]
    sound(chain(*four), 4, 64, 5, 67, 4, 5)
    check(65, 0, 65, 256)
    check(64, 5, 64)
    sound(chain(*four, (0, 255, 255)), 4, 64, 5, 68, 4, 5)
    check(64, 4, 52)
    check(51, 5, 51)
    # 257 rounds are needed: a pass with 256 images, and a crowd
    sound(circle((62, 2, 0, 32)), 1, 64, 6, 65, 4, 3)
    check(257, 0, 257, 256)
    check(256, 5, 256)
    sound(circle((63, 1, 0, 255)), 1, 64, 6, 65, 4, 3)
    check(257, 4, 257)
    # a rule that no page uses changes no answer: not reached; reached only beside a nonterminal that derives nothing
    sound(like_k(*KT, (3, 2, 0, 33), nonterminals=4), 2, 4, 2, 4, 4, 1)
    check(64, 0, 4, 3, k_rows)
    sound(like_k(*KT, (0, 2, 67, 68), (3, 2, 0, 33), nonterminals=5), 2, 5, 2, 5, 4, 1)
    check(64, 0, 4, 3, k_rows)
    # a mismatch under a useful nonterminal, in a round that finds no new image
    sound(like_k((0, 2, 65, 66), (1, 1, 0, 255), (2, 1, 33, 255)), 2, 3, 2, 3, 4, 1)
    check(64, 1, 2)
    # a mismatch in the round of an invalid page decides; so does an invalid page in the round of a string that is too deep
    sound(like_k((0, 1, 0, 255), (0, 1, 65, 255), (1, 2, 0, 33)), 2, 3, 2, 3, 4, 1)
    check(64, 1, 1)
    rules = [(1, 1, 0, 255)] + [(i, 2, 63 + i, 63 + i) for i in range(2, 6)] + [(0, 2, 69, 65)]
    sound(file(1, 6, 1, sorted(rules), [(0, 0, 0, 0)], [0]), 1, 6, 1, 6, 1, 1)
    check(64, 2, 6)
    # valid is the definition, not the page reader's answer: pages that nest past 16 are in a set that passes
    sound(anything((0, 2, 0, 65), (1, 1, 32, 255), (1, 2, 64, 32), nonterminals=2), 1, 2, 1, 3, 1, 1)
    check(64, 0, 4, 3, [row(0, 0, 0, [], [1], [1]), row(1, 1, 0, [0], [1, 1]), row(1, 1, 0, [0], [1, 1], [1])])
    page([0] * 16 + [32] * 16, 0)
    page([0] * 17 + [32] * 17, 12, 16)


def counted_checks():
    # images that differ in counts alone: an element around a list of none, one or more elements
    sound(anything((0, 2, 0, 65), (1, 2, 66, 32), (2, 0, 255, 255), (2, 2, 67, 66), (3, 2, 0, 32), nonterminals=4), 1, 4, 1, 5, 1, 1)
    lists = [row(2, 0, 0, [], [1], [n]) for n in (0, 1, 2)]
    closed = [row(1, 1, 0, [0], [1, 1], [n, 0]) for n in (0, 1, 2)]
    check(64, 0, 5, 8, [row(0, 0, 0, [], [1], [1])] + lists + [row(3, 0, 0, [], [1], [1])] + closed)
    check(4, 5, 4)
    # rows are compared by their last entry last: here it descends where the relations ascend
    ab = {"names": 2, "states": 2, "schema": [(0, 0, 0, 0), (0, 1, 0, 0), (1, 0, 1, 1)], "endings": [0, 1]}
    sound(file(nonterminals=3, templates=[(0, 2, 0, 65), (1, 2, 66, 32), (2, 0, 255, 255), (2, 2, 1, 33)], **ab), 2, 3, 2, 4, 3, 2)
    check(64, 0, 4, 6, [row(0, 0, 0, [], [1], [1]), row(0, 0, 0, [], [513], [1]), row(2, 0, 0, [], [1], [1]), row(2, 0, 0, [], [513], [0]),
                        row(1, 1, 0, [0], [1, 513], [1, 0]), row(1, 1, 0, [0], [513, 513], [0, 0])])
    # all 17 counts of a row
    sound(counted(), 1, 15, 1, 15, 1, 1)
    ends = [row(k, n, 0, [0] * n, [1] * (n + 1), [0] + [2] * n) for k, n in ((11, 1), (10, 2), (9, 4), (8, 8), (4, 16))]
    starts = [row(k, 0, n, [0] * n, [1] * (n + 1), [1] * n) for k, n in ((14, 1), (7, 2), (6, 4), (5, 8), (3, 16))]
    balanced = [row(k, 0, 0, [], [1], [n]) for k, n in ((0, 1), (2, 2), (12, 2), (13, 1))]
    check(64, 0, 11, 15, balanced + ends + [row(1, 0, 1, [0], [1, 1], [0, 2])] + starts)
    # counts alone make 188 images of 64, and a crowd where there would be none
    a = {"names": 1, "states": 1, "schema": [(0, 0, 0, 0)], "endings": [0]}
    up_to_two = [(0, 255, 255), (1, 127, 255), (2, 127, 127)]
    sound(shelled(up_to_two, (63, 2, 0, 32), **a), 1, 64, 1, 66, 1, 1)
    check(64, 0, 64, 188)
    check(63, 5, 63)
    sound(shelled(up_to_two, (63, 2, 0, 32), (63, 2, 1, 33), **ab), 2, 64, 2, 67, 3, 2)
    check(64, 4, 52)
    check(51, 5, 51)


def roots():
    # a start that can be empty, in round 1 and later, is an invalid page, though its schema derives it
    sound(anything((0, 0, 255, 255)), 1, 1, 1, 1, 1, 1)
    check(64, 2, 1)
    sound(anything((0, 0, 255, 255), (0, 2, 0, 32)), 1, 1, 1, 2, 1, 1)
    check(64, 2, 1)
    sound(anything((0, 0, 255, 255), (0, 2, 0, 65), (1, 2, 64, 32), nonterminals=2), 1, 2, 1, 3, 1, 1)
    check(64, 2, 1)
    sound(anything((0, 1, 65, 255), (1, 1, 66, 255), (2, 0, 255, 255), (2, 2, 0, 32), nonterminals=3), 1, 3, 1, 4, 1, 1)
    check(64, 2, 3)
    check(2, 5, 2)
    # so is one that can be two elements, or more
    sound(anything((0, 2, 0, 32), (0, 2, 64, 64)), 1, 1, 1, 2, 1, 1)
    check(64, 2, 2)
    check(1, 5, 1)
    sound(anything((0, 2, 65, 66), (1, 2, 67, 67), (2, 2, 67, 67), (3, 2, 0, 32), nonterminals=4), 1, 4, 1, 4, 1, 1)
    check(64, 2, 3)
    check(2, 5, 2)
    # an a and a b, in this order, are derived by K's schema; around them an a makes a page
    sound(like_k((0, 2, 65, 66), (1, 2, 0, 32), (2, 2, 1, 33)), 2, 3, 2, 3, 4, 1)
    check(64, 2, 2)
    sound(like_k((0, 2, 0, 67), (1, 2, 0, 32), (2, 2, 1, 33), (3, 2, 68, 32), (4, 2, 65, 66), nonterminals=5), 2, 5, 2, 5, 4, 1)
    check(64, 0, 5, 5, [row(0, 0, 0, [], [2], [1]), row(1, 0, 0, [], [513], [1]), row(2, 0, 0, [], [2], [1]), row(4, 0, 0, [], [2], [2]),
                        row(3, 1, 0, [0], [2, 513], [2, 0])])
    # a mismatch in the round of an empty page decides; so does an empty page in the round of a string that is too deep
    sound(file(2, 2, 1, [(0, 0, 255, 255), (0, 1, 65, 255), (1, 2, 0, 33)], [(0, 0, 0, 0)], [0]), 2, 2, 1, 3, 1, 1)
    check(64, 1, 1)
    late = [(i, 1, 65 + i, 255) for i in range(4)] + [(4, 0, 255, 255)]
    deep = [(5, 2, 0, 0)] + [(i, 2, 63 + i, 63 + i) for i in range(6, 10)]
    sound(anything((0, 2, 73, 32), *late, *deep, nonterminals=10), 1, 10, 1, 11, 1, 1)
    check(64, 2, 5)
    check(4, 5, 4)


def rule(left, *symbols):
    """A long rule of 14 bytes."""
    return (left, len(symbols)) + symbols + (255,) * (12 - len(symbols))


def long_file(names, nonterminals, states, rules, schema=(), endings=()):
    """A file of long rules, laid out as the rules say, of these entries, whatever they hold."""
    r, s, e = len(rules), len(schema), len(endings)
    head = bytes((names, nonterminals, states, 0))
    head += half(16) + half(r) + half(16 + 14 * r) + half(s) + half(16 + 14 * r + 4 * s) + half(e)
    return head + b"".join(map(bytes, rules)) + b"".join(map(bytes, schema)) + bytes(endings)


def split(f, written, room=None, fill=7):
    """Splitting gives this file; the bytes behind it stay."""
    room = len(written) + 2 if room is None else room
    out = written + bytes([fill]) * (room - len(written))
    case("L", half(room) + bytes([fill]) + f, " ".join(map(str, [0, len(written), *out])) + " ")


def unsplit(f, answer, number=0, room=9, fill=7):
    """Splitting refuses, and every byte of the output stays."""
    case("L", half(room) + bytes([fill]) + f, " ".join(map(str, [answer, number] + [fill] * room)) + " ")


def splits():
    # lengths 0, 1 and 2: the rules stay; K with rules of 14 bytes gives K
    k_long = long_file(2, 3, 2, [rule(0, 65, 32), rule(1, 0, 66), rule(2, 1, 33)], KS, [1])
    split(k_long, K)
    split(long_file(1, 1, 1, [rule(0), rule(0, 0), rule(0, 0, 32)]), file(1, 1, 1, [(0, 0, 255, 255), (0, 1, 0, 255), (0, 2, 0, 32)]))
    split(long_file(1, 1, 1, []), file(1, 1, 1))
    # three symbols, and twelve: numbers from N on, from left to right
    split(long_file(1, 2, 1, [rule(0, 0, 65, 32), rule(1, 0, 32)]), file(1, 3, 1, [(0, 2, 0, 66), (1, 2, 0, 32), (2, 2, 65, 32)]))
    twelve = [0, 32] * 6
    parts = [(0, 2, 0, 65)] + [(i, 2, twelve[i], 65 + i) for i in range(1, 10)] + [(10, 2, 0, 32)]
    split(long_file(1, 1, 1, [rule(0, *twelve)]), file(1, 11, 1, parts))
    # numbers follow the order of the rules, where the length counts before the symbols; the written rules are sorted anew
    split(long_file(2, 1, 1, [rule(0, 0, 32, 1), rule(0, 1, 33, 0, 32)]),
          file(2, 4, 1, [(0, 2, 0, 65), (0, 2, 1, 66), (1, 2, 32, 1), (2, 2, 33, 67), (3, 2, 0, 32)]))
    split(long_file(2, 1, 1, [rule(0, 1, 33, 0), rule(0, 0, 32, 1, 33)]),
          file(2, 4, 1, [(0, 2, 0, 66), (0, 2, 1, 65), (1, 2, 33, 0), (2, 2, 32, 67), (3, 2, 1, 33)]))
    # a long rule that stands before a short one of the same left side
    split(long_file(2, 1, 1, [rule(0, 1, 33), rule(0, 0, 32, 0)]), file(2, 2, 1, [(0, 2, 0, 65), (0, 2, 1, 33), (1, 2, 32, 0)]))
    # two rules with the same rest share no nonterminal
    split(long_file(2, 1, 1, [rule(0, 0, 32, 32), rule(0, 1, 32, 32)]),
          file(2, 3, 1, [(0, 2, 0, 65), (0, 2, 1, 66), (1, 2, 32, 32), (2, 2, 32, 32)]))
    # exactly 64 nonterminals, six and five times ten new ones and eight; and 65
    six = [rule(i, *twelve) for i in range(6)]
    split(long_file(1, 6, 1, six[:5] + [rule(5, *twelve[:10])]),
          file(1, 64, 1, sorted([(i, 2, 0, 70 + 10 * i) for i in range(5)] + [(5, 2, 0, 120)]
               + [(6 + 10 * i + j, 2, twelve[j + 1], 71 + 10 * i + j) if j < 9 else (6 + 10 * i + j, 2, 0, 32) for i in range(5) for j in range(10)]
               + [(56 + j, 2, twelve[j + 1], 121 + j) if j < 7 else (56 + j, 2, 0, 32) for j in range(8)])))
    unsplit(long_file(1, 6, 1, six[:5] + [rule(5, *twelve[:11])]), 16)
    # 64 nonterminals without a long rule are no reason; with one they are
    split(long_file(1, 64, 1, [rule(0, 0, 32)]), file(1, 64, 1, [(0, 2, 0, 32)]))
    unsplit(long_file(1, 64, 1, [rule(0, 0, 32, 0)]), 16)
    # exactly 256 rules, and 257
    many = [rule(i // 25, i % 25, 32 + i // 64) for i in range(256)]
    split(long_file(32, 12, 1, many), file(32, 12, 1, [r[:4] for r in many]))
    tail = many[:254] + [rule(11, 0, 32, 0)]
    split(long_file(32, 12, 1, tail), file(32, 13, 1, [r[:4] for r in many[:254]] + [(11, 2, 0, 76), (12, 2, 32, 0)]))
    unsplit(long_file(32, 12, 1, many[:255] + [rule(11, 0, 32, 0)]), 16)
    # exact room, and one byte less; 16 before 17, 7 before both
    split(k_long, K, room=45)
    unsplit(k_long, 17, room=44)
    unsplit(k_long, 17, room=0)
    unsplit(long_file(1, 64, 1, [rule(0, 0, 32, 0)]), 16, room=0)
    unsplit(b"", 7, 0, room=0)
    # the order of reading: offsets behind rules of 14 bytes, the length up to 12, each symbol in its turn, the ascent over all bytes
    unsplit(K, 7, 8)
    unsplit(put(k_long, 17, 13), 7, 17)
    unsplit(put(k_long, 20, 0), 7, 20)
    unsplit(put(k_long, 29, 254), 7, 29)
    unsplit(put(k_long, 18, 67), 7, 18)
    unsplit(long_file(1, 1, 1, [rule(0, 0, 32), rule(0, 0, 32)]), 7, 30)
    unsplit(long_file(1, 1, 1, [rule(0, 0, 32), rule(0, 0)]), 7, 30)
    unsplit(long_file(1, 1, 1, [rule(0, *twelve), rule(0, 32, 0, 0)]), 7, 30)
    unsplit(k_long + b"\0", 7, 0)


def main():
    files()
    pages()
    fragments()
    counts()
    seams()
    structs()
    no_summaries()
    bad_file()
    checks()
    counted_checks()
    roots()
    splits()
    here = os.path.join(os.path.dirname(__file__), "..", "crates", "cases")
    read = b"".join(letter.encode() + half(len(data)) + data for letter, data, _ in cases)
    assert len(read) <= READ
    with open(os.path.join(here, "stdin"), "wb") as f:
        f.write(read)
    with open(os.path.join(here, "stdout"), "w") as f:
        for _, _, line in cases:
            f.write(line + "\n")
    print(len(cases), "cases")


if __name__ == "__main__":
    main()
