#!/usr/bin/env python3
"""What crates/example_calls, crates/example_names and crates/example_lists have to print, by the original Rust: each question
goes to the oracle, one for each place of a list, and where an argument is past its range, the product is forged or a name is too
long, which the Rust does not refuse, the answer is document 01's or that of order 1 or 2. With `--check` each text is compared with the file `stdout` of its crate, which `rt ci` holds the
program to."""

import pathlib
import sys

HERE = pathlib.Path(__file__).resolve().parent
sys.path.insert(0, str(HERE / "recorded"))
from replay import ORACLE, cases, run

CRATES = HERE.parent / "crates"

# Document 01: 14 is "an element, generator or factor argument out of range", 15 "more than 8 factors".
RANGE, FACTORS = "refused 14", "refused 15"
EXPONENTS = (0, 1, -1, 2, -(2**31), 2**31 - 1)


def letters(word):
    """The first five places of a word: its letters, and from its end on 256 and its length. What is refused has none."""
    return " ".join((word + [str(256 + len(word))] * 5)[:5])


def product(*factors):
    return ["clear", *("factor enum " + f for f in factors), "prod"]


def group(name, made):
    """The questions to the product that the last of these commands makes."""
    generators, elements = map(int, cases(run(made))[-1][1][0].split()[1:])

    def ask(commands):
        """The answers of the Rust, in order."""
        return [lines[0] for _, lines in cases(run([*made, *commands]))[len(made):]]

    def line(what, right):
        return "%s: %s" % (what, " ".join([*map(str, right), RANGE]))

    def lines(what, count, command, last):
        """A line for each element, `last` for what is past the range, and one for the first number that is no element."""
        for a in range(elements):
            yield "%s %d: %s" % (what, a, " ".join([*ask(command(a, b) for b in range(count)), *last]))
        yield "%s %d: %s" % (what, elements, " ".join([RANGE] * (count + len(last))))

    each = range(elements)
    yield name
    yield "elements: %d" % elements
    yield "generators: %d" % generators
    yield line("generator", ask(["gens"])[0].split()[1:])
    yield line("inverse", ask("inverse %d" % e for e in each))
    yield line("period", ask("period %d" % e for e in each))
    yield line("length", (len(word.split()) - 1 for word in ask("word %d" % e for e in each)))
    yield from lines("step", generators, lambda a, b: "step %d %d" % (a, b), [RANGE])
    yield from lines("compose", elements, lambda a, b: "compose %d %d" % (a, b), [RANGE])
    yield from lines("conjugate", elements, lambda a, b: "conjugate %d %d" % (a, b), [RANGE])
    yield from lines("power", len(EXPONENTS), lambda a, b: "powi %d %d" % (a, EXPONENTS[b]), [])
    for e, word in enumerate([*ask("word %d" % e for e in each), "ok"]):
        yield "word %d: %s" % (e, letters(word.split()[1:]))


def forged():
    """A value that says more factors than a product may have, which the Rust cannot be given."""
    yield "forged"
    for what in ("elements", "generators", "generator", "inverse", "period", "length", "step 0", "compose 0", "conjugate 0"):
        yield "%s: %s" % (what, FACTORS)
    yield "power 0: " + " ".join([FACTORS] * len(EXPONENTS))
    yield "word 0: " + letters([])


# The subgroup of S3 that element 1 generates, and the same with the group of two elements multiplied on below.
SUBGROUP = [*product("2 3"), "sub 1"]
BELOW = [*SUBGROUP, "subleft enum 1"]


def maps(name, made):
    """Both maps of a subgroup."""
    yield name
    inside, outside = map(int, cases(run(made))[-1][1][0].split()[2::2])
    for way, command, count in (("over", "s2o", inside), ("back", "o2s", outside)):
        answers = cases(run([*made, *("%s %d" % (command, x) for x in range(count))]))[len(made):]
        yield "%s: %s %s" % (way, " ".join(lines[0] for _, lines in answers), RANGE)


def generators(name, made):
    """How many generators a subgroup has."""
    yield "%s: %d" % (name, len(cases(run([*made, "subgens"]))[-1][1][0].split()) - 1)


def calls():
    yield from group("product", product("2 3", "1"))
    yield from group("alone", product("2 3"))
    yield from group("none", product())
    yield from forged()
    yield from maps("subgroup", SUBGROUP)
    yield from generators("generators", SUBGROUP)
    yield from generators("below", BELOW)
    yield from group("overgroup", [*BELOW, "overgroup"])
    yield "refused: refused 17 " + FACTORS  # of a value that does not fit its buffer, and of one with too many factors
    yield from maps("trivial", ["clear", "subtrivial"])
    yield from generators("generators", ["clear", "subtrivial"])
    yield "overgroup: %s" % cases(run(["clear", "subtrivial", "overgroup"]))[-1][1][0].split()[2]


S3, Z2, Z3 = ("S3", "enum 2 3"), ("Z2", "table 1 2 1 0"), ("Z3", "table 1 3 1 2 0")


def label(*factors):
    """The label that the Rust gives to the product of these factors, each a name and how it is made."""
    made = [line for name, how in factors for line in ("name " + (name.encode().hex() or "-"), "factor " + how)]
    told = cases(run(["clear", *made, "prod", "joined 277"]))[-1][1][0].split()[1]
    return "" if told == "-" else bytes.fromhex(told).decode()


def shown(what, name, size):
    """How long the name is, what a buffer of dots holds then, and the part that is handed back; 18 where the buffer is shorter."""
    dots = "." * size
    if len(name) > size:
        return "%s refused 18 [%s] []" % (what, dots)
    return "%s %d [%s] [%s]" % (what, len(name), name + dots[len(name):], name)


def names():
    # 32 bytes, 33, 33 with nine generators, with rows that no group has, and with no room: "18 .. (after 4, before the build)".
    yield from ("most 0", "long refused 18", "many refused 1", "wrong refused 18", "begun refused 4")
    for what, factor in (("orders", S3), ("rows", Z2), ("built", Z3)):
        yield shown(what, label(factor), 8)
    # "An image read back, a flattened table and a subgroup have the empty name".
    for what in ("read", "flattened", "subgroup"):
        yield shown(what, "", 8)
    for what, size in (("longer", 9), ("right", 7), ("short", 6)):
        yield shown(what, label(S3, Z2), size)
    yield shown("none", label(), 0)
    yield shown("between", label(S3, Z2, ("", Z2[1]), Z3), 16)
    eight = label(*[Z2] * 8)
    yield shown("eight", eight, len(eight))
    # A factor whose handle fits no buffer; the buffer for its name has what the eight left there.
    yield "nine " + FACTORS
    yield "nine refused 17 [%s] []" % eight
    # Forged lengths: 32 is longer than the buffer, and 33 is no name's.
    yield shown("thirty-two", "S3".ljust(32), 8)
    yield "thirty-three refused 17 [........] []"


def listed(what, made, elements, fits, lists, command):
    """The single questions at each place, into an output of four sevens, or of one for one place: 4 where the lengths differ, then the first refused place."""
    out = ["7"] * (len(lists[0]) if len(lists[0]) < 2 else 4)
    if any(len(one) != len(out) for one in lists):
        return "%s refused 4 0 0 0: %s" % (what, " ".join(out))
    # An exponent may be any; an element is in its range.
    past = lambda place: [i for i, x in enumerate(place) if (i == 0 or command == "compose") and x >= elements]
    for i, place in enumerate(zip(*lists)):
        if past(place) or not fits:
            return "%s at %d %s 0 0: %s" % (what, i, "refused 17 0" if not fits else "refused 14 %d" % past(place)[0], " ".join(out))
    asked = [command + "".join(" %d" % x for x in place) for place in zip(*lists)]
    answers = [lines[0] for _, lines in cases(run([*made, *asked]))[len(made):]]
    return "%s fine:%s" % (what, "".join(" " + x for x in answers))


def over_lists():
    one, two = product("2 3"), product("2 3", "2 3")
    exponents = [2, -1, 2, -(2**31)]
    asked = [("", one, 6, [1, 3, 4, 3], [3, 1, 5, 5]), ("", one, 6, [1, 3, 6, 7], [3, 8, 5, 5]), ("", one, 6, [1, 3, 9], [3, 1, 5, 5])]
    first, second = [3, 17, 5, 35], [3, 38, 5, 35]
    asked += [("product ", two, 36, a, b) for a, b in (([9, 33, 22, 20], first), ([9, 33, 36, 37], second), ([9, 33, 99], first))]
    asked += [("", one, 6, [], []), ("product ", two, 36, [], [])]
    asked += [line for x, y in ((3, 22), (6, 36)) for line in (("", one, 6, [x], [5]), ("product ", two, 36, [y], [35]))]
    for fits in (True, False):
        for what, made, elements, a, b in asked:
            yield listed(what + "compose", made, elements, fits, [a, b], "compose")
            yield listed(what + "inverse", made, elements, fits, [a], "inverse")
            yield listed(what + "power", made, elements, fits, [a, exponents[1 : len(a) + 1] if len(a) < 2 else exponents], "powi")


TEXTS = {"example_calls": calls, "example_names": names, "example_lists": over_lists}

if __name__ == "__main__":
    if not ORACLE.exists():
        sys.exit("the oracle is not built (oracle/build.sh)")
    for crate, text in TEXTS.items():
        want = list(text())
        if sys.argv[1:] != ["--check"]:
            print(*want, sep="\n")
            continue
        have = (CRATES / crate / "stdout").read_text().splitlines()
        if want != have:
            differ = [(w, h) for w, h in zip(want, have) if w != h] or [("%d lines" % len(want), "%d lines" % len(have))]
            sys.exit("crates/%s/stdout differs from the Rust:\n  expected: %s\n  there:    %s" % (crate, *differ[0]))
        print("%s: %d lines of answers, as the Rust gives them" % (crate, len(have)))
