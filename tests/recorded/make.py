#!/usr/bin/env python3
"""Makes the recorded list of the oracle's answers: one text file a theme.

A file is a list of commands for a fresh oracle. Each is a line `> command`;
then, if it has an answer, a line `= ..` with what document 01 expects, and the
lines of the oracle's answer:

  = ok               inside the domain of equality: another program must give
                     the same answer
  = refused K A B C  document 01's refusal with its places, whatever the Rust does
  = LINE             each line of the answer that document 01 expects, where the
                     Rust gives another
  = oracle           a question to the oracle alone

The expectations come from model.py, written from document 01. Wherever the
model and the oracle both speak they are compared, and nothing is written if
they disagree in a way that docs/DIFFERENCES.md does not list. Where the oracle
says `unsupported`, the Rust has nothing of the kind, and the model speaks alone.

A question over lists, of which the Rust has none, is put to the oracle place by
place by its single calls, and its answer is what replay.py makes of theirs.

Run it after oracle/build.sh. The same oracle gives the same bytes each time.
Arguments choose the themes; without any, all are made.
"""

import itertools
import math
import random
import sys

from model import Model, Refused, enumerate_orders, spaced
from replay import HERE, rust


def rows_command(n, count, rows):
    return spaced("table", n, count, *itertools.chain(*rows))


# -------------------------------------------------------- document 01's cases

S3 = "enum 2 3"
Z2 = "enum 1"
Z2_8 = spaced("enum", 8, *[2] * 28)
FIVE = "table 2 5 1 2 0 3 3 0 4 4 2 1"
CROSSED = (
    "table 4 16 1 2 3 4 0 5 6 7 5 0 8 9 6 8 0 10 7 9 10 0 2 1 11 12 3 12 1 13 4 11 13 1 11 3 2 14"
    " 12 4 14 2 13 14 4 3 8 7 5 15 9 6 15 5 10 15 7 6 15 10 9 8 14 13 12 11"
)
# Too long for the model: the oracle's trace says where 5 and 6 come.
LONG_RUNS = {
    "enum 2 4096",
    "enum 2 4097",
    "enum 4 3 2 4 2 2 3",
    "enum 4 5 2 3 2 2 3",
    "enum 5 3 2 3 2 2 3 2 2 2 3",
    "enum 6 2 2 3 3 2 3 2 2 2 3 2 2 2 2 3",
    "enum 6 4 2 3 2 2 3 2 2 2 3 2 2 2 2 3",
    "enum 7 3 2 3 2 2 3 2 2 2 3 2 2 2 2 3 2 2 2 2 2 3",
}


def known():
    yield "# The known groups of document 01, and both sides of each edge."
    yield from ["enum 0", "enum 1", "enum 2 2", S3]
    yield "# S3"
    yield from ["factor " + S3, "prod", "gens", "compose 1 3", "compose 3 1", "conjugate 1 2"]
    yield from ["powi 3 2", "powi 3 -1", "powi 3 -2147483648", "period 3", "period 0", "word 5"]
    yield from ["inverse %d" % e for e in range(6)] + ["flatten", "clear"]
    yield "# S3 by Z2"
    yield from ["factor " + S3, "factor " + Z2, "prod", "gens", "split 9", "word 9"]
    yield from ["compose 9 7", "inverse 9", "flatten", "clear"]
    yield "# the empty product"
    yield from ["prod", "gens", "flatten", "period 0", "word 0", "clear"]
    yield "# composed rows"
    yield from ["table 0 1", "table 1 2 1 0", "table 1 2 1 1", "table 1 1 0"]
    yield from ["table 2 4 1 2 3 3 0 0 2 1", "table 2 2 1 1 0 0", CROSSED, "check " + CROSSED]
    yield from ["factor " + CROSSED, "prod", "step 6 1", "step 5 2", "clear"]
    yield from ["table 1 3 1 2 0", "against table 1 3 1 2 0 |"]
    yield "# orders at their edges"
    yield from ["enum 2 1", "enum 3 3 3", "quiet 1"]
    yield from ["room 40", "enum 2 32767", "enum 2 32768"]
    for room in (8191, 8192, 8193):
        yield from ["room %d" % room, "enum 2 4096"]
    for room in (8193, 8194):
        yield from ["room %d" % room, "enum 2 4097"]
    for room in (119, 120, 65535):
        yield from ["room %d" % room, "enum 3 5 2 3"]
    for room in (1, 2, 1000, 65535):
        yield from ["room %d" % room, "enum 3 3 3 3"]
    yield "# rooms at their edges"
    for room in (0, 1, 65536):
        yield from ["room %d" % room, "enum 0", "enum 1", "table 0 1", "table 1 2 1 0"]
    yield from ["room 65535", "table 0 0", "table 1 2 1", "table 1 2 1 0 9"]
    yield "# larger groups"
    for line in sorted(LONG_RUNS):
        if not line.startswith("enum 2"):
            yield line
    yield from ["enum 4 3 2 3 2 2 3", "enum 4 3 3 2 3 2 2", Z2_8, "check " + Z2_8]


# --------------------------------------------------------------- enumerations


def accepted_size(n, orders, room):
    try:
        return enumerate_orders(n, orders, room).count
    except Refused:
        return None


def around(n, orders, most, infinite_rooms):
    """Rooms about the group's size, or the given ones if it is not finite."""
    size = accepted_size(n, orders, most)
    for room in [size - 1, size, size + 1] if size else infinite_rooms:
        yield from ["room %d" % room, spaced("enum", n, *orders)]


def enumerations():
    yield "# Every order list of up to 3 generators with orders 2 to 6."
    yield "quiet 1"
    for n in range(4):
        for orders in itertools.product(range(2, 7), repeat=n * (n - 1) // 2):
            yield from around(n, orders, 200, (1, 2, 17, 150))
    yield "# Random lists of 4 to 8 generators, most orders 2 or 3."
    rng = random.Random(1)
    for _ in range(120):
        n = rng.choice((4, 4, 4, 5, 5, 6, 7, 8))
        odds = (2,) * 12 + (3, 3, 3, 4, 5) if n > 4 else (2, 2, 2, 2, 3, 3, 4, 5)
        orders = [rng.choice(odds) for _ in range(n * (n - 1) // 2)]
        yield from around(n, orders, 260, (3, 60))
    yield "# Two generators, longer orders."
    for m in (7, 12, 31, 64, 97):
        yield from around(2, [m], 300, ())
    yield "# Longer relations among more generators, and eight generators."
    for n, orders in ((3, [2, 31, 2]), (4, [9, 2, 2, 2, 2, 8]), (4, [20, 2, 2, 2, 2, 20]), (8, [2] * 28)):
        yield from around(n, orders, 1700, ())
    yield "# Lists that are refused before a run."
    yield "room 100"
    yield from ["enum 9 " + spaced(*[2] * 36), "enum 9 2", "enum 2", "enum 2 3 3", "enum 3 1 2"]
    yield from ["enum 2 0", "enum 3 2 2 1", "enum 3 2 1 0", "enum 3 2 40000 2", "enum 0 2"]
    yield from ["room 0", "enum 2 3", "enum 2 1", "enum 9 2", "room 70000", "enum 2 3"]


# ---------------------------------------------------------------------- tables


def readings(n, room):
    """Every table with n generators and `room` rows, as far as reading goes:
    it reaches all the rows, or stops at a place. The rest is zeros."""

    def go(sofar, count):
        e, g = divmod(len(sofar), n)
        if e == count:
            if count == room:
                yield sofar
            return
        for v in range(count + 2):
            if v > count or (v == count and count == room):
                yield sofar + [v] + [0] * (n * room - len(sofar) - 1)
            else:
                yield from go(sofar + [v], max(count, v + 1))

    for numbers in go([], 1):
        yield spaced("table", n, room, *numbers)


def by_first_appearance(columns):
    """Rows of the given columns, numbered from point 0 by first appearance."""
    number, order, rows = {0: 0}, [0], []
    for x in order:
        for c in columns:
            if c[x] not in number:
                number[c[x]] = len(order)
                order.append(c[x])
        rows.append([number[c[x]] for c in columns])
    return rows


def closure(generators):
    """Rows of the group that some permutations generate."""
    identity = tuple(range(len(generators[0])))
    seen, order = {identity: 0}, [identity]
    rows = []
    for a in order:
        row = []
        for g in generators:
            b = tuple(g[x] for x in a)
            if b not in seen:
                seen[b] = len(order)
                order.append(b)
            row.append(seen[b])
        rows.append(row)
        if len(order) > 130:
            return None
    return rows


def random_permutation(rng, k):
    p = list(range(k))
    rng.shuffle(p)
    return p


def random_group(rng):
    """Rows of a random small group; now and then a generator is repeated, or
    is the identity."""
    while True:
        k = rng.choice((3, 4, 4, 5, 5, 6, 7, 8))
        generators = []
        for _ in range(rng.randint(1, 4)):
            p = random_permutation(rng, k)
            power = rng.choice((1, 1, 2, 3))
            q = list(range(k))
            for _ in range(power):
                q = [p[x] for x in q]
            if q != sorted(q) and q not in generators or rng.random() < 0.03:
                generators.append(q)
        rows = closure(generators) if generators else None
        if rows and len(rows) > 2:
            return rows


def crossed(rng, rows):
    """Two steps crossed in two columns, which keeps them permutations; an
    involution is kept one."""
    n, count = len(rows[0]), len(rows)
    columns = [[row[g] for row in rows] for g in range(n)]
    x, y = rng.sample(range(count), 2)
    for c in rng.sample(columns, min(2, n)):
        u, v = c[x], c[y]
        involution = all(c[c[i]] == i for i in range(count))
        if involution and len({x, y, u, v}) == 4:
            c[x], c[v], c[y], c[u] = v, x, u, y
        else:
            c[x], c[y] = v, u
    return columns


def damaged(rng, rows):
    n, count = len(rows[0]), len(rows)
    columns = crossed(rng, rows)
    yield [list(row) for row in zip(*columns)]
    yield by_first_appearance(columns)
    two = [row[:] for row in rows]
    (d, g), (e, h) = [(rng.randrange(count), rng.randrange(n)) for _ in range(2)]
    two[d][g], two[e][h] = two[e][h], two[d][g]
    yield two
    two = [row[:] for row in rows]
    two[rng.randrange(count)] = two[rng.randrange(count)]
    yield two
    columns = [[row[g] for row in rows] for g in range(n)]
    c, (d, e) = rng.choice(columns), rng.sample(range(count), 2)
    c[d], c[e] = c[e], c[d]
    yield by_first_appearance(columns)


def random_columns(rng):
    """Random permutations, half the time involutions without fixed points."""
    n, count = rng.randint(2, 4), rng.choice((4, 6, 6, 8, 8, 10, 12))
    columns = []
    for _ in range(n):
        p = random_permutation(rng, count)
        if rng.random() < 0.7:
            for i in range(0, count, 2):
                p[i], p[i + 1] = sorted((p[i], p[i + 1]))
            q = [0] * count
            for i in range(0, count, 2):
                q[p[i]], q[p[i + 1]] = p[i + 1], p[i]
            p = q
        columns.append(p)
    return by_first_appearance(columns)


def nine_shifts(n):
    """The group of 9 shifts of a 3 by 3 square, by n of them; the ninth given
    repeats one."""
    shifts = [(a, b) for a in range(3) for b in range(3) if a or b] + [(0, 1)]
    columns = []
    for a, b in shifts[:n]:
        columns.append([(x + a) % 3 + (y + b) % 3 * 3 for y in range(3) for x in range(3)])
    return rows_command(n, 9, by_first_appearance(columns))


def refusal(*lines):
    """The number of the first refusal that the model gives, or None."""
    model = Model()
    try:
        for line in lines:
            model.answer(line)
    except Refused as refused:
        return refused.number


def tables():
    for n, most in ((1, 5), (2, 3), (3, 2)):
        yield "# Every reading of %d generators and up to %d rows." % (n, most)
        for room in range(1, most + 1):
            yield from readings(n, room)
    yield "quiet 1"
    rng = random.Random(2)
    yield "# Random groups, and the same damaged; a room one short at times."
    for _ in range(170):
        rows = random_group(rng)
        n, count = len(rows[0]), len(rows)
        yield rows_command(n, count, rows)
        for bad in damaged(rng, rows):
            yield rows_command(n, len(bad), bad)
        if rng.random() < 0.3:
            yield from ["room %d" % (count - 1), rows_command(n, count, rows), "room 65535"]
    yield "# Random columns, numbered by first appearance."
    for _ in range(250):
        rows = random_columns(rng)
        yield rows_command(len(rows[0]), len(rows), rows)
    yield "# Tables that the Rust takes and that are no group's."
    found = 0
    while found < 80:
        if rng.random() < 0.5:
            rows = by_first_appearance(crossed(rng, random_group(rng)))
        else:
            rows = random_columns(rng)
        line = rows_command(len(rows[0]), len(rows), rows)
        if len(rows) <= 24 and refusal(line) == 12:
            found += 1
            yield line
    yield "# Eight generators, and nine."
    yield from [nine_shifts(8), nine_shifts(9)]
    yield "# The word limit: a cycle of 4,097 has a word of 4,096, of 4,098 one too long."
    for count in (4097, 4098):
        yield rows_command(1, count, [[(e + 1) % count] for e in range(count)])
    yield "room 4097"
    yield rows_command(1, 4098, [[(e + 1) % 4098] for e in range(4098)])


# ---------------------------------------------------------------- the builder


def sets(n, rows):
    """All steps of the rows, set in order."""
    return [spaced("set", e, g, rows[e][g]) for e in range(len(rows)) for g in range(n)]


def grown(rng, rows, in_order):
    """A builder's commands for these rows: elements are added where they first
    appear, or else in any order, which numbers them anew; steps between known
    elements are set in between, in any order."""
    n = len(rows[0])
    number, todo = {0: 0}, [(e, g) for e in range(len(rows)) for g in range(n)]
    yield spaced("builder", n)
    while todo:
        news = [(e, g) for e, g in todo if e in number and rows[e][g] not in number]
        olds = [(e, g) for e, g in todo if e in number and rows[e][g] in number]
        if news and (not olds or rng.random() < 0.5):
            e, g = news[0] if in_order else rng.choice(news)
            number[rows[e][g]] = len(number)
            yield spaced("add", number[e], g)
        elif olds:
            e, g = rng.choice(olds)
            yield spaced("set", number[e], g, number[rows[e][g]])
        else:
            return  # what is left is never reached
        todo.remove((e, g))


def spoilt(rng, lines):
    """The same with steps overwritten, left out, added or out of range."""
    lines = list(lines)
    count = 1 + sum(line.startswith("add") for line in lines)
    n = int(lines[0].split()[1])
    for _ in range(rng.randint(1, 3)):
        k, way = rng.randrange(1, len(lines) + 1), rng.randrange(5)
        e, g, r = rng.randrange(count + 1), rng.randrange(n), rng.randrange(count + 1)
        if way == 0 and k < len(lines) and lines[k].startswith("set"):
            del lines[k]
        elif way == 1:
            lines.insert(k, spaced("add", e, g))
        elif way == 2:  # overwritten, and set right again
            again = [line for line in lines if line.startswith(spaced("set", e, g, ""))]
            lines += [spaced("set", e, g, r), *again[-1:]]
        elif way == 3:
            lines.insert(k, spaced("set", e, rng.choice((g, n, 255)), r))
        else:
            lines.append(spaced("set", e, g, r))
    return lines


def built(rng, most):
    """A build in order, one in another order, and spoilt ones."""
    rows = random_group(rng)
    while len(rows) > most:
        rows = random_group(rng)
    yield from [*grown(rng, rows, True), "build", *grown(rng, rows, False), "build"]
    for worse in (rows, *damaged(rng, rows)):
        yield from [*spoilt(rng, grown(rng, worse, rng.random() < 0.7)), "build"]


def builders():
    rng = random.Random(13)
    yield "# Builds element by element."
    yield from ["builder 0", "add 0 0", "build", "builder 9", "room 0", "builder 1", "room 1", "builder 1"]
    yield from ["add 0 0", "add 0 0", "build", "room 65536", "builder 1", "room 130"]
    for _ in range(40):
        yield from built(rng, 12)


# --------------------------------------------------------- products, subgroups

FACTORS = ["enum 0", Z2, "enum 2 2", S3, "enum 2 4", "enum 2 5", "enum 3 2 2 2", "enum 3 3 2 3"]
FACTORS += ["table 1 3 1 2 0", "table 1 4 1 2 3 0", "table 1 5 1 2 3 4 0", "table 2 3 1 2 2 0 0 1"]


def more_factors():
    quaternions = [[2, 3, 1, 0, 7, 6, 4, 5], [4, 5, 6, 7, 1, 0, 3, 2]]
    yield rows_command(2, 8, by_first_appearance(quaternions))
    rng = random.Random(3)
    for _ in range(12):
        rows = random_group(rng)
        line = rows_command(len(rows[0]), len(rows), rows)
        if len(rows) <= 60 and refusal(line) is None:
            yield line


def cycle(k):
    return spaced("factor table 1", k, *range(1, k), 0)


def abelian(orders):
    """The table of a product of cycles by their generators, numbered by first appearance."""
    zero = (0,) * len(orders)
    number, listed, rows = {zero: 0}, [zero], []
    for e in listed:
        for g, m in enumerate(orders):
            x = (*e[:g], (e[g] + 1) % m, *e[g + 1 :])
            if x not in number:
                number[x] = len(listed)
                listed.append(x)
            rows.append(number[x])
    return spaced("table", len(orders), len(listed), *rows)


def make_product(rng, choices, most, size):
    """Commands that make a random product of not too many elements."""
    while True:
        lines = [rng.choice(choices) for _ in range(rng.randint(0, most))]
        counts = [Model().make(line.split()).count for line in lines]
        total = math.prod(counts)
        if total <= size:
            return ["clear"] + ["factor " + line for line in lines] + ["prod"], counts, total


def one_product(rng, choices, most=4, size=10**7):
    """A random product, and questions on both sides of the edges."""
    lines, counts, total = make_product(rng, choices, most, size)
    yield from lines + ["gens"]
    n = sum(int(line.split()[2]) for line in lines if line.startswith("factor"))

    def element():
        return rng.randrange(total) if rng.random() < 0.97 else total + rng.randrange(3)

    for _ in range(4):
        yield spaced("compose", element(), element())
        yield spaced("conjugate", element(), element())
        yield spaced("step", element(), rng.randrange(n + (rng.random() < 0.1)) if n else 0)
    for _ in range(2):
        for name in ("inverse", "period", "word", "split"):
            yield spaced(name, element())
    some = [rng.randint(-50, 50), rng.randint(-(2**31), 2**31 - 1)]
    for i in [0, 1, -1, 2, 2**31 - 1, -(2**31)] + some:
        yield spaced("powi", element(), i)
    if counts:
        digits = [rng.randrange(c) for c in counts]
        yield spaced("join", *digits)
        f = rng.randrange(len(counts))
        yield spaced("project", f, element())
        yield spaced("inject", f, rng.randrange(counts[f]))
        yield spaced("project", len(counts), 0)
    if total <= 200:
        yield "flatten"


def products():
    choices = FACTORS + list(more_factors())
    rng = random.Random(4)
    yield "quiet 1"
    for _ in range(70):
        yield from one_product(rng, choices)
    yield "# Flattening: the room, and a ninth generator."
    small = ["clear", "factor " + Z2, "factor " + Z2, "factor table 1 5 1 2 3 4 0", "prod"]
    yield from small
    for room in (0, 19, 20, 21):
        yield from ["room %d" % room, "flatten"]
    yield from ["room 65535", "clear", "factor " + Z2_8, "prod", "flatten"]
    yield from ["clear", "factor " + Z2_8, "factor " + Z2, "prod", "flatten", "word 511"]
    yield "# Eight factors, and nine."
    yield from ["clear"] + ["factor " + Z2] * 8 + ["prod", "gens", "flatten", "word 255"]
    yield from ["factor " + Z2, "prod"]
    yield "# Large products: 3, 5, 17 and 257 make 65,535, and 65,536 times that."
    yield from ["clear"] + [cycle(k) for k in (3, 5, 17, 257)]
    yield from ["prod", "split 65534", "compose 65534 65534", "period 1", "period 65534"]
    yield from ["factor " + Z2_8] * 2 + ["prod", "split 4294901759", "inverse 4294901759"]
    yield from ["compose 4294901759 4294901758", "powi 4294901759 -2147483648", "word 65535"]


def one_subgroup(rng, choices):
    """A random product, and some of its subgroups, now and then refused."""
    lines, _, total = make_product(rng, choices, 3, 240)
    yield from lines
    yield "quiet %d" % (total > 24)
    for _ in range(rng.randint(2, 4)):
        few = rng.choice((0, 1, 1, 1, 2, 2, 3))
        # the identity, a repeat or a number too large comes now and then
        low, high = (0, total + 1) if rng.random() < 0.1 else (min(1, total - 1), total)
        line = spaced("sub", *(rng.randrange(low, high) for _ in range(few)))
        yield line
        if refusal(*lines, line) is not None:
            continue
        if rng.random() < 0.6:
            yield from ["subgens", spaced("s2o", rng.randrange(3))]
            yield spaced("o2s", rng.randrange(total + 1))
        if rng.random() < 0.5:
            for choice in FACTORS[:6], FACTORS[:4]:
                yield spaced(rng.choice(("subleft", "subright")), rng.choice(choice))
            yield from ["subgens", "s2o 1", spaced("o2s", rng.randrange(total)), "o2s 0"]
    p = rng.choice((0.02, 0.1, 0.5, 1))
    yield spaced("subpred", *(int(rng.random() < p) for _ in range(total)))
    yield "subgens"
    if total >= 2 and rng.random() < 0.5:
        yield from ["room %d" % rng.randint(1, total), spaced("sub", rng.randrange(1, total))]
        yield spaced("subpred", *[1] * total)
        yield "room 65535"


def subgroups():
    choices = FACTORS + list(more_factors())
    rng = random.Random(5)
    for _ in range(110):
        yield from one_subgroup(rng, choices)
    yield "# Eight generators, and nine; a predicate that needs eight."
    yield from ["clear", "quiet 1", "factor " + Z2_8, "prod"]
    yield from [spaced("sub", *(2**i for i in range(8))), spaced("sub", 1, 2, 3, 4, 5, 6, 7, 8, 9)]
    yield from [spaced("subpred", *[1] * 256), "subgens"]
    yield "# An overgroup of 65,535 elements, and a larger one."
    yield from ["clear"] + [cycle(k) for k in (3, 5, 17, 257)] + ["prod", "sub 1 3", "subgens"]
    yield from ["clear", "factor " + Z2_8, cycle(257), "prod", "sub 1"]


# ----------------------------------------------------------------------- names


def named(name):
    return spaced("name", name.hex() or "-")


def joins(lengths):
    """The joined name in buffers on both sides of its length, and in the longest."""
    whole = sum(lengths) + 3 * max(len(lengths) - 1, 0)
    return [spaced("joined", size) for size in sorted({max(whole - 1, 0), whole, whole + 1, 0, 277, 300})]


def text(k, length):
    """Text of so many bytes, another for each k."""
    return bytes(33 + (7 * k + i) % 94 for i in range(length))


def labelled(names):
    """A product of so many factors with these names, and its joined name."""
    yield "clear"
    for k, name in enumerate(names):
        yield from [named(name), "factor " + (Z2, S3, "table 1 3 1 2 0")[k % 3]]
    yield from ["prod", *joins([len(name) for name in names])]


def names():
    yield "quiet 1"
    yield "# Both sides of 32 bytes, by each call that makes a factor. A builder has the name that it was begun with."
    for length in (0, 1, 2, 31, 32, 33, 34, 64, 255, 256, 257, 288):
        yield from ["clear", named(text(0, length)), S3, "table 1 3 1 2 0", "builder 1"]
        if length <= 32:
            yield from ["add 0 0", named(b"other"), "set 1 0 0", "build", *joins([length])]
            for made in (S3, "table 1 3 1 2 0"):
                yield from ["clear", named(text(1, length)), "factor " + made, named(b"other"), "prod", *joins([length])]
    yield "# 0 to 8 factors, and each joined length on both sides."
    for count in range(9):
        for lengths in ([0] * count, [32] * count, [1] * count, range(count), range(32, 32 - count, -1)):
            yield from labelled([text(k, length) for k, length in enumerate(lengths)])
    rng = random.Random(6)
    for _ in range(60):
        yield from labelled([text(k, rng.choice((0, 0, 1, 2, 5, 31, 32))) for k in range(rng.randint(1, 8))])
    yield "# Nine are too many, whatever their names are."
    yield from ["clear", named(b"Z2"), *["factor " + Z2] * 9, "prod"]
    yield "# Bytes that are like what stands between names, in other scripts, and no text at all."
    for name in (b" x ", b"x", b" ", b"\0", b"a\0b", "\u2124\u2082 \u00d7 \u2124\u2083".encode(), "\U0001f9e9".encode() * 8):
        yield from labelled([name, b"", name])
    for name in (b"\xff", b"\x80" * 32, "\u2124".encode()[:2], bytes(range(224, 256))):
        yield from labelled([name, b"text"])
    yield "# A name over 32 bytes is after 1 to 4, and before 5 to 12; one of 32 changes nothing."
    for length in (32, 33):
        yield from ["clear", named(text(2, length))]
        yield from ["enum 9 " + spaced(*[2] * 36), "table 9 1", "builder 9", "enum 2", "enum 2 3 3", "enum 2 1", "enum 3 2 2 40000"]
        yield from ["room 0", "enum 2 1", S3, "table 1 2 1 0", "builder 1", "room 65536", S3, "builder 1", "room 65535", "table 1 2 1"]
        for line in ("table 1 1 1", "table 1 3 2 1 0", "table 1 2 1 1", "table 1 1 0", "table 2 4 1 2 3 3 0 0 2 1", "table 2 2 1 1 0 0", FIVE, CROSSED):
            yield from [line, "factor " + line]
        yield from ["room 5", S3, "factor " + S3, "room 65535"]
    yield rows_command(1, 4098, [[(e + 1) % 4098] for e in range(4098)])
    yield "# A length that was altered, and a count: 17, then 15, then 18. What stands behind a name is zero."
    for count in (1, 2, 8):
        for k in {0, count // 2, count - 1}:
            for length in (0, 1, 3, 31, 32, 33, 64, 128, 255):
                yield from [line for line in labelled([b"S3"] * count) if not line.startswith("joined")]
                yield from [spaced("forgename", k, length), "joined 277", "joined 0", spaced("joined", max(5 * count + length - 6, 0))]
                yield from ["forgecount 9", "joined 277", "joined 0", "forgecount %d" % k, "joined 277"]
    for count in (0, 1, 7, 8):
        for forged in (0, 1, 2, 8, 9, 255):
            yield from [line for line in labelled([b"S3"] * count) if not line.startswith("joined")]
            yield from ["forgecount %d" % forged, "joined 277", "joined 1"]
    yield "# What is made with names answers as it does without."
    yield from ["clear", "quiet 0", named(b"S3"), "factor " + S3, named(b"Z2"), "factor " + Z2, "prod", "joined 7", "gens", "split 9"]
    yield from ["word 9", "compose 9 7", "inverse 9", "conjugate 1 2", "powi 9 -2", "period 9", "step 9 2", "flatten", "sub 3 6", "subgens"]
    yield from ["subleft " + Z2, "subgens", "s2o 3", "o2s 9", S3, "against table 1 3 1 2 0 |"]


# ----------------------------------------------------------------------- lists

# Ways to fill a list. Words get longer as the numbers of elements grow, so that low and high numbers are short and long words.
KINDS = ("any", "in turn", "rare", "identity", "longest")


def filled(rng, kind, total, length):
    first = rng.randrange(2)

    def element(place):
        if kind == "any":
            return rng.randrange(total)
        if kind in ("identity", "longest"):
            return 0 if kind == "identity" else total - 1
        low = rng.randrange(min(4, total))
        high = place % 2 == first if kind == "in turn" else rng.random() < 0.1
        return total - 1 - low if high else low

    return [element(place) for place in range(length)]


def exponents(rng, length):
    def one():
        return rng.choice((0, 1, -1, 2, -2, 3, 2**31 - 1, -(2**31), rng.randint(-50, 50), rng.randint(-(2**31), 2**31 - 1)))

    return [one() for _ in range(length)]


def over(name, *lists):
    """A question over these lists; `-` is one with no place. A word for the output list is taken as it is."""
    return spaced(name, *(x if isinstance(x, str) else ",".join(map(str, x)) or "-" for x in lists))


def over_lists(rng, kind, total, length):
    """Each question over lists of so many places, filled in one way."""
    yield over("composes", filled(rng, kind, total, length), filled(rng, kind, total, length))
    yield over("inverses", filled(rng, kind, total, length))
    yield over("powers", filled(rng, kind, total, length), exponents(rng, length))


def some(rng, ways, few):
    """A few of these ways to ask, or all."""
    return [over(*way) for way in (ways if few is None else rng.sample(ways, few))]


def spoilt_lists(rng, total, length, few=None):
    """Elements that are none in the first list, in the second and in both: at its first place, at its last, and at any few. The
    first place counts, and there the first list. An exponent is never out of range."""
    a, b, powers = filled(rng, "any", total, length), filled(rng, "any", total, length), exponents(rng, length)

    def any_few():
        return rng.sample(range(length), min(length, rng.randint(1, 3)))

    def spoilt(numbers, at):
        return [total + rng.randrange(3) if place in at else x for place, x in enumerate(numbers)]

    ways = []
    for at in ([0], [length - 1], any_few(), any_few()):
        for first, second in ((at, []), ([], at), (any_few(), at), (at, at)):
            ways.append(("composes", spoilt(a, first), spoilt(b, second)))
        ways += [("inverses", spoilt(a, at)), ("powers", spoilt(a, at), powers)]
    return some(rng, ways, few)


def wrong_lengths(rng, total, length, few=None):
    """Lists that differ in length, by one place and by all of them, and an output list of one place more or less: 4, before an
    element that is none."""
    right, powers = filled(rng, "any", total, length + 1), exponents(rng, length + 1)
    ways = [("composes", "-", "-", "+1"), ("inverses", "-", "+1"), ("powers", "-", "-", "+1")]
    for a in (right, [*right[: length - 1], total, total]):
        for k, m in ((length, length + 1), (length + 1, length), (0, length), (length, 0)):
            ways += [("composes", a[:k], a[:m]), ("powers", a[:k], powers[:m])]
        for out in ("+1", "-1"):
            whole = a[:length]
            ways += [("composes", whole, whole, out), ("inverses", whole, out), ("powers", whole, powers[:length], out)]
    return some(rng, ways, few)


H3 = "enum 3 5 2 3"


def rotations():
    """The table of a subgroup: the rotations of H3, by two that are no involutions."""
    model = Model()
    for line in ("factor " + H3, "prod"):
        model.answer(line)
    p = model.product
    model.answer(spaced("sub", p.compose(1, 2), p.compose(2, 3)))
    return rows_command(2, 60, model.sub.factor.rows)


# Within four of the most elements that a product can have.
NEAR = [331, 151, 341, 63, 4]


def lists():
    rng = random.Random(7)
    z3, z5, quaternions = abelian([3]), abelian([5]), next(more_factors())
    groups = [[], ["enum 0"], [Z2], [S3], [z3], [z5], [quaternions], [abelian([3, 4, 5])], [rotations()], [H3]]
    groups += [["enum 0"] * 8, [S3, Z2], [z3, S3, quaternions], [S3] * 8, [H3, H3]]
    groups += [[abelian([k]) for k in NEAR]]
    for factors in groups:
        yield from ["clear", *("factor " + line for line in factors), "prod"]
        total = math.prod(Model().make(line.split()).count for line in factors)
        for length in (0, 1, 2, 3, 4, 5):
            yield from over_lists(rng, rng.choice(KINDS), total, length)
        for length in (1, 2, 5):
            yield from spoilt_lists(rng, total, length, 3 * length)
        yield from wrong_lengths(rng, total, 3)
    yield "# All products and inverses of S3, and all powers by the exponents at the edges."
    yield from ["clear", "factor " + S3, "prod", "inverses 0,1,2,3,4,5"]
    yield over("composes", [a for a in range(6) for _ in range(6)], [*range(6)] * 6)
    edges = (0, 1, -1, 2, -2, 2**31 - 1, -(2**31), 1 - 2**31)
    yield over("powers", [a for a in range(6) for _ in edges], edges * 6)
    for factors in ([H3], [quaternions, H3]):
        yield "# About 64 places and twice that; 65 are filled in every way."
        yield from ["clear", *("factor " + line for line in factors), "prod"]
        total = math.prod(Model().make(line.split()).count for line in factors)
        for length in (63, 64, 65, 129):
            for kind in KINDS if length == 65 else rng.sample(KINDS, 2):
                yield from over_lists(rng, kind, total, length)
            yield from spoilt_lists(rng, total, length, 4)
            yield from wrong_lengths(rng, total, length, 2)
    yield "# As many places as there may be, and one more."
    yield from ["clear", "factor " + H3, "prod"]
    yield over("composes", filled(rng, "any", 120, 4096), filled(rng, "any", 120, 4096))
    yield over("inverses", filled(rng, "any", 120, 4096))
    yield over("powers", filled(rng, "rare", 120, 4096), [rng.randint(-3, 6) for _ in range(4096)])
    for name, few in (("composes", 2), ("inverses", 1), ("powers", 2)):
        yield over(name, *[[0] * 4097] * few)


# ------------------------------------------------------------------ differences


def differences():
    """Each title is a heading of docs/DIFFERENCES.md."""
    for title, lines in (
        (
            "Tables that are no group's",
            [FIVE, "check " + FIVE, "factor " + FIVE, "prod", "compose 1 2", "compose 2 1"]
            + ["period 1", "period 2", "period 3", "period 4"],
        ),
        ("The crossed table", [CROSSED, "check " + CROSSED]),
        (
            "A repeated generator",
            ["table 2 2 1 1 0 0", "factor table 2 2 1 1 0 0", "prod", "gens", "step 0 1"],
        ),
        (
            "A builder whose steps were overwritten",
            ["builder 2", "add 0 1", "add 0 0", *sets(2, [[1, 2], [2, 0], [0, 1]]), "build"],
        ),
        (
            "A builder's element added elsewhere",
            ["builder 2", "add 0 0", "add 0 1", "add 2 0"]
            + [*sets(2, [[1, 2], [0, 3], [3, 0], [2, 1]]), "build"],
        ),
        (
            "A builder whose numbers skip",
            ["builder 2", "add 0 0", "add 0 1", "add 2 0", "add 1 1", "add 4 0"]
            + [*sets(2, [[1, 2], [0, 4], [3, 0], [2, 5], [5, 1], [4, 3]]), "build"],
        ),
        (
            "A builder's element that nothing reaches",
            ["builder 1", "add 0 0", "add 1 0", "add 2 0"]
            + [*sets(1, [[1], [0], [3], [2]]), "build"]
            + ["builder 1", "add 0 0", "add 1 0", "set 1 0 1", "build"],
        ),
        (
            "A builder's arguments out of range",
            ["builder 1", "add 1 0", "add 0 1", "set 0 0 1", "add 0 0", "set 0 0 2", "build"],
        ),
        ("The room before the number", ["table 1 1 2", "table 1 2 1 3"]),
        (
            "Elements out of range",
            ["factor " + S3, "factor " + Z2, "prod", "compose 100 1", "compose 0 100"]
            + ["inverse 12", "word 13", "split 100", "period 13", "powi 13 1", "inject 0 9"],
        ),
        (
            "Digits out of range, and too few of them",
            ["factor " + S3, "factor " + Z2, "prod", "join 3", "join 6 0", "join 3 2", "join 6", "join"],
        ),
        (
            "Generators and factors out of range",
            ["factor " + S3, "factor " + Z2, "prod", "step 0 3", "project 2 0", "sub 12"],
        ),
        (
            "A product of exactly 2^32 elements",
            ["factor " + Z2_8] * 4 + ["prod", "split 4294967295", "factor enum 0", "prod"]
            + ["project 4 0"],
        ),
        (
            "More than 8 factors",
            ["factor " + Z2] * 9 + ["prod", "word 511"],
        ),
        ("Orders 0 and 1", ["enum 2 1", "enum 2 0"]),
        (
            "Orders from 32,768 on",
            ["enum 2 32769", "enum 2 32770", "room 9", "enum 2 32768"],
        ),
        ("No limit on words", ["quiet 1", "room 8194", "enum 2 4097"]),
        ("More than 8 generators", ["quiet 1", "enum 9 " + spaced(*[2] * 36)]),
        (
            "A ninth generator of a subgroup",
            ["quiet 1", "factor " + Z2_8, "factor " + Z2, "prod"]
            + [spaced("sub", *(2**i for i in range(9))), spaced("subpred", *[1] * 512), "subgens"],
        ),
        (
            "A repeated generator of a subgroup",
            ["factor " + S3, "prod", "sub 1 1", "subgens"],
        ),
        (
            "An overgroup above 65,535 elements",
            ["quiet 1", "factor " + Z2_8, "factor " + Z2_8, "prod", "sub 1"],
        ),
        (
            "A ninth factor beside a subgroup",
            ["quiet 1", "factor " + Z2, "prod", "sub 1", *["subleft " + Z2] * 8, "subgens"]
            + ["sub 1", *["subright " + Z2] * 7, "subgens", "subright " + Z2]
            + ["clear", *["factor enum 0"] * 8, "prod", "sub", "subleft enum 0"],
        ),
        (
            "A predicate short of the overgroup",
            ["factor " + S3, "prod", "subpred 1 0 0"],
        ),
        (
            "Elements that are none, in the maps",
            ["factor " + S3, "prod", "sub 1", "s2o 2", "o2s 6"],
        ),
        (
            "Flattening a product whose numbers skip",
            ["factor " + S3, "factor " + Z2, "prod", "flatten"],
        ),
        (
            "Flattening one factor",
            ["factor " + S3, "prod", "room 5", "flatten"],
        ),
        (
            "Flattening to a ninth generator",
            ["quiet 1", "factor " + nine_shifts(8), "factor " + Z2, "prod", "flatten"],
        ),
        ("Rooms of 0 and above 65,535", ["room 0", "enum 0", "room 65536", "enum 0"]),
        ("A name over 32 bytes", [named(b"n" * 33), Z2, "factor " + Z2, "prod", "joined 277", "name -"]),
        (
            "A joined name longer than its buffer",
            [named(b"S3"), "factor " + S3, named(b"Z2"), "factor " + Z2, "prod", "joined 7", "joined 6", "name -"],
        ),
        (
            "The name of a flattened product",
            [named(b"Z2"), "factor " + Z2, "prod", "flatname", "factor " + Z2, "prod", "flatname", "name -"],
        ),
        ("The name of a subgroup", [named(b"S3"), "factor " + S3, "prod", "sub 1", "subname", "name -"]),
    ):
        yield "# " + title
        yield from ["clear", "room 65535", "quiet 0"] + lines


# ------------------------------------------------------------------ the list

FILES = {
    "known": known,
    "enum": enumerations,
    "table": tables,
    "builder": builders,
    "product": products,
    "subgroup": subgroups,
    "names": names,
    "lists": lists,
    "differences": differences,
}


LONG = "long"  # the expectation comes from the oracle's trace


def allowed(command, refused, answer):
    """Whether the oracle's answer goes with a refusal by document 01."""
    k, (a, b, c), said = refused.number, refused.places, answer[0]
    read = spaced("last-read", a, b)
    if k in (1, 4, 6, 14, 15, 18):
        return True  # limits of document 01 that the Rust does not have
    if command in ("add", "set") or command == "build" and (refused.stale or k in (7, 8, 17)):
        return True  # the Rust looks at no order of numbers, nor from where an element is reached
    if k == 2:
        return said == "bad order list length"
    if k == 3:  # 1 and 0, or from 32,768 on, which wraps
        return said == "err BadCD" or not said.startswith("panic")
    if k == 5:
        full = "err IndexOverflow GroupElementId"
        if command == "flatten" and said.startswith("ok"):
            return True  # one factor is handed on as it is
        return said.startswith(full) and (read + " " in said if "last-read" in said else True)
    if k == 7:
        skip = said.startswith(("panic skip", "err IndexOverflow"))
        return skip and (command == "flatten" or said.endswith(spaced(read, c)))
    if k == 8:
        return said.startswith("err IncompleteGroupStructure")
    if k == 9:
        return said.startswith("err BadGroupStructure")
    if k == 10:
        return (said + " ").startswith(spaced("err BadInverse", a, b, c) + " ")
    if k in (11, 12):
        return said.startswith("ok")
    return k == 13 and said == spaced("fails", a, b, c)


def traced(room, place):
    """The expectation for a long run, from the oracle's `place`."""
    words = place.split()
    long = words[words.index("long") + 1 :] if "long" in words else None
    e, g = words[words.index("at") + 1 :][:2]
    if long and int(long[2]) < room:
        return "refused 6 %s %s 0" % tuple(long[:2])
    return "ok" if words[0] == "ok" else "refused 5 %s %s 0" % (e, g)


def commands(lines):
    """The commands, each with what the model says of it: ok and the lines of
    the answer, or a refusal. An enumeration that runs out of room is followed
    by its `place`, a long one by `place` and `check`."""
    model = Model()
    for line in lines:
        place = line.replace("enum", "place", 1)
        if line.startswith("#"):
            yield line, None, None
        elif line in LONG_RUNS:
            yield from [(line, LONG, model.room), (place, "oracle", None)]
            if not line.startswith("enum 2"):
                yield "check " + line, "oracle", None
        else:
            stale = line == "build" and model.builder and model.builder.stale()
            try:
                answer = model.answer(line)
                if stale or line in ("flatname", "subname"):
                    yield line, answer, None
                else:
                    yield line, "oracle" if answer is None else "ok", answer
            except Refused as refused:
                refused.stale = stale
                yield line, refused, None
                if refused.number == 5 and line.startswith("enum"):
                    yield place, "oracle", refused.places


def agree(line, expect, said, answer):
    """Whether the model and the oracle agree, so far as both speak."""
    words = line.split()
    if isinstance(expect, list) or answer == ["unsupported"]:
        return True
    if isinstance(expect, Refused):
        return allowed(words[words[0] == "factor"], expect, answer)
    if words[0] == "place" and said:
        return answer == ["err IndexOverflow GroupElementId at %d %d" % said[:2]]
    if line.startswith("check enum"):
        return " group true numbered true relations true exact true " in answer[0]
    return expect != "ok" or said == answer


def record(name, theme):
    plan = list(commands(theme()))
    answers = [answer for _, answer in rust([line for line, _, _ in plan if not line.startswith("#")])]
    text, done = [], 0
    for line, expect, said in plan:
        if line.startswith("#"):
            text.append(line)
            continue
        answer = answers[done]
        done += 1
        if expect is LONG:
            expect = traced(said, answers[done][0])
        elif not agree(line, expect, said, answer):
            sys.exit(
                "%s: %s\n  document 01: %s %s\n  oracle: %s" % (name, line, expect, said, answer)
            )
        if answer == ["unsupported"] and expect == "ok":
            expect = said
        text.append("> " + line)
        if answer:
            lines = expect if isinstance(expect, list) else [expect]
            text += [*("= %s" % x for x in lines), *answer]
    (HERE / (name + ".txt")).write_text("\n".join(text) + "\n")
    print("%s.txt: %d cases" % (name, sum(line.startswith("= ") for line in text)))


if __name__ == "__main__":
    for file in sys.argv[1:] or FILES:
        record(file, FILES[file])
