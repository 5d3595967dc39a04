#!/usr/bin/env python3
"""The proved library beside the original Rust.

First the recorded list is replayed by `ours` alone, also where the oracle is not built: where document 01 puts an input
inside the domain of equality its answer must be the recorded one of the Rust, and elsewhere the refusal that
tests/recorded/model.py, written from document 01, expects. Then fresh builds and questions, from a seed that is printed (or
the first argument), go to the model, the oracle and `ours`; images go to the model and `ours`, since the Rust has none.
What is made has names now and then, of which no answer knows but the joined one: the Rust's label, where they are text. A
question over lists is answered as the single calls are at its places, by the model and by the Rust, which has no lists: of
up to 4,096 places, in small groups and in large ones, and with numbers out of range in the tables. Altered tables and
forged handles: an answer or a refusal that is due, 14 or 17 (of a check against orders 2, 3, 13 or 17), never anything
else, and over lists what the single calls just said, also in tables so large that walks go side by side. And the largest
factor that there can be, 65,535 elements, beside the Rust.
"""

import math
import pathlib
import random
import sys

HERE = pathlib.Path(__file__).resolve().parent
sys.path.insert(0, str(HERE / "recorded"))
from make import FACTORS, H3, KINDS, NEAR, S3, Z2, abelian, built, cycle, damaged, make_product, more_factors, named, one_product, one_subgroup
from make import filled, over, over_lists, random_columns, random_group, rotations, rows_command, spoilt_lists, wrong_lengths
from model import LISTS, Model, Product, Refused, RefusedAt, check_arguments, single_calls
from replay import ORACLE, cases, listed, run, rust

OURS = (HERE.parent / "target" / "ours", "--echo")
H4 = "enum 4 5 2 3 2 2 3"


def differs(where, command, want, got):
    print("%s: > %s" % (where, command), "expected:", *want, "ours:", *got, sep="\n  ")
    sys.exit(1)


def replay_recorded():
    compared = skipped = safe = 0
    for path in sorted((HERE / "recorded").glob("*.txt")):
        recorded = cases(path.read_text().splitlines())
        *answers, (_, told) = cases(run([*(command for command, _ in recorded), "safe"], OURS))
        safe += int(told[0])
        for (command, lines), (_, got) in zip(recorded, answers, strict=True):
            expect = [line[2:] for line in lines if line.startswith("= ")]
            if not expect or expect == ["oracle"]:
                skipped += bool(expect)
                continue
            want = [line for line in lines if not line.startswith("= ")] if expect == ["ok"] else expect
            if want != got:
                differs(path.name, command, want, got)
            compared += 1
    # All but questions to the oracle alone are answered: fewer would mean that the list or the program lost something.
    if compared < 15300:
        sys.exit("only %d of the recorded cases were compared" % compared)
    # Beside its calls on buffers `ours` asks the safe types of the Rust crate, which give the same answers or it ends.
    if safe < 833000:
        sys.exit("only %d answers of the safe types were compared" % safe)
    print("recorded: %d compared, %d for the oracle alone, %d answers of safe types" % (compared, skipped, safe))


def random_orders(rng, n):
    return [rng.choice((2, 2, 2, 2, 3, 3, 4, rng.randint(2, 40))) for _ in range(n * (n - 1) // 2)]


def enumeration(n, orders):
    return " ".join(map(str, ["enum", n, *orders]))


def finite(rng):
    """Random pair orders of which the Rust makes a group of at most 400 elements, each with the rows of its table."""
    tried = [(n, random_orders(rng, n)) for n in (rng.choice((0, 1, 2, 2, 3, 3, 3, 4, 4, 5, 6, 7, 8)) for _ in range(200))]
    for (n, orders), (_, lines) in zip(tried, cases(run(["room 400", *(enumeration(*t) for t in tried)]))[1:], strict=True):
        if lines[0].startswith("ok"):
            yield n, orders, [line.split()[3:] for line in lines[1:-1]]


def questions(rng, n, size):
    for _ in range(6):
        a, b = rng.randrange(size), rng.randrange(size)
        yield from ("compose %d %d" % (a, b), "conjugate %d %d" % (a, b), "inverse %d" % a, "word %d" % b)
        if n:
            yield "step %d %d" % (a, rng.randrange(n))


def random_name(rng, most=32):
    """Bytes of a name, mostly text, and mostly short or just as long as may be."""
    length = rng.choice((0, 0, 1, 2, rng.randint(0, most), most))
    if rng.random() < 0.1:
        return bytes(rng.randrange(256) for _ in range(length))
    return "".join(rng.choice("Sx 3\0\u00d7") for _ in range(length)).encode()[:length].decode(errors="ignore").encode()


def name_commands(rng):
    """Products with names, joined in buffers of every kind of length; and names that are too long, where something else is wrong too."""
    for _ in range(60):
        names = [random_name(rng) for _ in range(rng.choice((0, 1, 1, 2, 3, 4, 8)))]
        yield from ("clear", *(line for name in names for line in (named(name), "factor " + rng.choice(FACTORS[:4]))), "prod")
        whole = len(b" x ".join(names))
        yield from ("joined %d" % size for size in (0, max(whole - 1, 0), whole, whole + 1, rng.randrange(300), 277))
        yield from ("flatname", "gens") if math.prod([6] * len(names)) < 300 else ["gens"]
    for _ in range(60):
        yield named(random_name(rng, rng.choice((32, 33, 33, 34, 64, 300))))
        yield "room %d" % rng.choice((0, 1, 5, 6, 100, 100))
        n = rng.choice((0, 1, 2, 2, 2, 3, 9))
        yield " ".join(map(str, ["enum", n, *(rng.choice((0, 1, 2, 3, 32768)) for _ in range(n * (n - 1) // 2 + (rng.random() < 0.1)))]))
        rows = random_group(rng)
        rows = rng.choice((rows, *damaged(rng, rows)))
        yield rows_command(len(rows[0]), len(rows), rows)
        yield "builder %d" % n
    yield from ("room 65535", "name -")


def fresh_commands(rng):
    for _ in range(150):
        yield named(random_name(rng))
        rows = random_group(rng)
        yield rows_command(len(rows[0]), len(rows), rows)
        yield "room %d" % (len(rows) - rng.randint(0, 1))
        yield rows_command(len(rows[0]), len(rows), rows)
        yield "room 65535"
        for worse in damaged(rng, rows):
            yield rows_command(len(worse[0]), len(worse), worse)
        other = random_columns(rng)
        yield rows_command(len(other[0]), len(other), other)
    for _ in range(200):
        n = rng.randint(0, 8)
        yield named(random_name(rng))
        yield "room %d" % rng.choice((1, 2, 3, 8, 24, 48, 120, 200, 384, 1000))
        yield enumeration(n, random_orders(rng, n))
    # Rooms around the size; then what was built is asked, and checked against its own orders and others.
    for n, orders, rows in finite(rng):
        size = len(rows)
        for room in (size - 1, size + 1, size):
            yield from ("room %d" % room, enumeration(n, orders))
        yield from ("clear", "factor " + enumeration(n, orders), "prod", "gens", *questions(rng, n, size), "room 65535")
        for checked in (orders, random_orders(rng, n)):
            yield "against %s | %s" % (rows_command(n, size, rows), " ".join(map(str, checked)))
    yield "room 130"
    for _ in range(12):
        name = random_name(rng)
        yield from ("clear", named(name), *built(rng, 130))
        yield from ("name -", "joined %d" % len(name), "joined 32")
    yield from name_commands(rng)
    yield named(random_name(rng))
    yield from product_commands(rng)
    yield from list_commands(rng)
    # Both sides of the edges of arguments, buffers and words.
    for line in ("room 65535", "table 9 1", "room 0", "enum 2 3", "room 65536", "enum 2 3", "room 65535", "enum 2 1", "enum 2 32768",
                 "table 1 3 1 2 0", "room 2", "table 1 3 1 2 0", "room 3", "table 1 3 1 2 0"):
        yield line


def product_commands(rng):
    """Products of 0 to 9 factors, up to 2^32 elements, and subgroups."""
    rows = [random_group(rng) for _ in range(4)]
    choices = FACTORS + [rows_command(len(r[0]), len(r), r) for r in rows if r[0] == list(range(1, len(r[0]) + 1))]
    yield "quiet 1"
    for _ in range(25):
        yield from one_product(rng, choices)
    for most, size in ((8, 10**7), (8, 2**32 - 1), (9, 10**6)):
        yield from one_product(rng, FACTORS[:4], most, size)
    yield from ("clear", "factor enum 2 3", "factor enum 1", "prod")
    for power in (-(2**31), 1 - 2**31, -2, -1, 0, 1, 2, 2**31 - 2, 2**31 - 1):
        yield from ("powi %d %d" % (e, power) for e in (0, 3, 9, 11, 12))
    # Lists of digits that are too short, too long, and with digits that their factor does not have.
    for count in (0, 1, 1, 1, 2, 2, 2, 2, 3, 3):
        yield " ".join(["join", *(str(rng.choice((0, 1, 2, 5, 6))) for _ in range(count))])
    # Factors multiplied on beside a subgroup, until they are too many.
    for _ in range(3):
        yield from ("clear", *["factor enum 1"] * rng.randint(1, 3), "prod", "sub 1")
        yield from (line for _ in range(8) for line in (rng.choice(("subleft enum 1", "subright enum 1", "subright enum 0")), "subgens"))
    # One factor more than fits: 15 by the count, and by the size.
    yield from ("clear", *["factor enum 1"] * 9, "prod", "clear", *["factor enum 8" + " 2" * 28] * 4, "prod", "clear")
    yield from (*["factor enum 8" + " 2" * 28] * 3, *["factor enum 1"] * 7 + [cycle(rng.randint(2, 9))], "prod", "clear")
    for room in (23, 24, 25, 120):
        yield from ("room %d" % room, "factor enum 3 3 2 3", "prod", "flatten", "sub 1 2", "sub 1 2 3", "clear")
    yield "room 65535"
    for _ in range(25):
        yield from one_subgroup(rng, choices)
    yield "quiet 0"


# Lists of one place, of up to 32, 64 and 256 and of more are worked out in ways of their own.
EDGES = (31, 32, 33, 63, 64, 65, 255, 256, 257, 512, 513)


def list_commands(rng):
    """Questions over lists in random products: filled in each way, with elements that are none, and of wrong lengths."""
    for most in (1, 2, 4, 8) * 6:
        lines, _, total = make_product(rng, FACTORS, most, 2**32 - 1)
        yield from lines
        for kind in KINDS:
            yield from over_lists(rng, kind, total, rng.choice((0, 1, 2, 3, 4, 5, 6, 7, 8, *EDGES, 66, 67, 68, rng.randrange(600))))
        yield from spoilt_lists(rng, total, rng.choice((1, 2, 5, 130, 600, *EDGES)), 6)
        yield from wrong_lengths(rng, total, rng.choice((1, 2, *EDGES)), 3)


def fresh(seed):
    commands = list(fresh_commands(random.Random(seed)))
    model, answers, compared, lists = Model(), cases(run(commands, OURS)), 0, 0
    oracle, apart = rust(commands), False
    for (command, got), (_, rust_gave) in zip(answers, oracle, strict=True):
        # Where the Rust keeps a word or a predecessor that the successors do not give, it may answer anything.
        stale = command == "build" and model.builder and model.builder.stale()
        try:
            want = model.answer(command)
        except Refused as refused:
            want = [str(refused)]
        if want is None:  # document 01 has nothing to say: the product or the subgroup was refused
            continue
        # The Rust has no name that is not text, and names what is flattened, or a subgroup, as we do not; and its current product is another after a build that
        # it alone takes.
        other = rust_gave == ["unsupported"] or command in ("flatname", "subname") or apart and command.startswith("joined")
        answered = want and "refused" not in want[0]
        if answered and not stale and not other and rust_gave != want:
            differs("model and oracle", command, want, rust_gave)
        if got != want:
            differs("fresh, seed %s" % seed, command, want, got)
        if command in ("build", "clear", "prod"):
            apart = command == "build" and rust_gave != want
        compared += bool(want)
        lists += command.split()[0] in LISTS
    if lists < 500:
        sys.exit("only %d questions over lists were compared" % lists)
    print("fresh: %d compared, %d of them over lists, seed %s" % (compared, lists, seed))


def damaged_images(rng, image):
    """An image with each byte changed, cut at each length, and extended."""
    for i in range(len(image)):
        for v in {0, 1, image[i] ^ 1, image[i] ^ 128, 255, rng.randrange(256)}:
            yield image[:i] + bytes([v]) + image[i + 1 :]
        yield image[:i]
    yield image + b"\0"
    # A length that goes with what is there, so that what follows it is looked at.
    n, count = rng.randrange(10), rng.choice((0, 1, 2, 3, 6, 24))
    body = bytes([1, n]) + count.to_bytes(2, "big") + bytes(rng.randrange(3) for _ in range(2 * n * count))
    yield len(body).to_bytes(4, "big") + body


def image_commands(rng):
    made = ["enum 0", "enum 1", "enum 2 2", "enum 2 3", "enum 3 3 2 3", "table 1 3 1 2 0"]
    made += [rows_command(len(rows[0]), len(rows), rows) for rows in (random_group(rng) for _ in range(6)) if len(rows) < 30]
    for line in made:
        yield "image " + line
        try:
            image = bytes.fromhex(Model().answer("image " + line)[0].split()[1])
        except Refused:
            continue
        for data in (image, *damaged_images(rng, image)):
            text = data.hex() or "-"
            yield from (ask + " " + text for ask in ("imgcheck", "imgverdict", "imgneed", "unimage"))
            word = [rng.choice((0, 0, 1, 1, 2, 3, 255)) for _ in range(rng.randrange(6))]
            yield " ".join(map(str, ["imgwalk", text, rng.choice((0, 1, 2, 5, 6, 65535, 2**32 - 1)), *word]))


def images(seed):
    commands = list(image_commands(random.Random(seed)))
    model = Model()
    for command, got in cases(run(commands, OURS)):
        try:
            want = model.answer(command)
        except Refused as refused:
            want = [str(refused)]
        if got != want:
            differs("images, seed %s" % seed, command, want, got)
    print("images: %d compared, seed %s" % (len(commands), seed))


def short_buffers():
    """One number, or byte, less than is needed: 4, and nothing is written (`ours` looks at its buffers)."""
    z2, s3 = "000000080101000200010000", "table 2 6 1 2 0 3 4 0 5 1 2 5 3 4"
    short = [("table", s3), ("work", s3), ("rows", s3), ("table", "enum 2 3"), ("work", "enum 2 3"), ("work", "imgcheck " + z2), ("work", "imgverdict " + z2)]
    short += [("table", "unimage " + z2), ("work", "unimage " + z2), ("image", "image enum 2 3"), ("work", "flatten"), ("table", "flatten")]
    short += [(what, line) for line in ("sub 1", "subpred 1 1 0 0 0 0") for what in ("table", "work", "inward", "outward")]
    short += [("table", "builder 2")]
    # Of each list the last command is the one that is refused.
    ways = [["short " + what, line] for what, line in short] + [["subpred 1 1"], ["shortword 5"], ["join"]]
    ways += [["builder 1", "add 0 0", "set 1 0 0", "short work", "build"]]
    ways += [["clear", "factor enum 2 3", "factor enum 1", "prod", "shortsplit 9"], ["join 3"]]
    ways += [["short names", "joined 300"], ["name 5333", "factor enum 2 3", "prod", "short names", "joined 0"]]
    commands, asked = ["factor enum 2 3", "prod"], []
    for way in ways:
        commands += way
        asked.append(len(commands) - 1)
    answers = cases(run(commands, OURS))
    for command, lines in (answers[i] for i in asked):
        # A factor without a name counts as one whose handle does not fit.
        want = ["4"] if command.startswith("imgcheck") else ["refused 17 0 0 0"] if command.startswith("joined") else ["refused 4 0 0 0"]
        if lines != want:
            differs("short buffers", command, want, lines)
    print("short: %d compared" % len(asked))


def other_calls():
    """The calls that have no command of the oracle's: the word by the part that is handed back, its length, the count."""
    factors = {"enum 0": 1, "enum 2 3": 6, "enum 3 3 2 3": 24}
    for line, count in factors.items():
        commands = ["factor " + line, "prod", "count", "part %d" % count, "length %d" % count]
        commands += [c for e in range(count) for c in ("word %d" % e, "part %d" % e, "length %d" % e)]
        got = [lines for _, lines in cases(run(commands, OURS))][2:]
        if got[:3] != [[str(count)], ["ok"], ["refused 14 0 0 0"]]:
            differs("other calls", commands[2], [str(count), "ok", "refused 14 0 0 0"], got[:3])
        for e, (word, part, length) in enumerate(zip(*[iter(got[3:])] * 3)):
            if word != part or length != [str(len(word[0].split()) - 1)]:
                differs("other calls", "part %d" % e, word, [part, length])
    print("other calls: %d factors" % len(factors))


def walks(seed):
    """Turns walked in one call: by the model, and where nothing is out of range turn by turn by the Rust."""
    rng, model, asked, steps = random.Random(seed), Model(), [], []
    for _ in range(100):
        lines, _, total = make_product(rng, FACTORS, 4, 10**7)
        n = sum(int(line.split()[2]) for line in lines if line.startswith("factor"))
        for line in lines:
            model.answer(line)
        asked += [(line, None) for line in lines]
        steps += [(line, None) for line in lines]
        for _ in range(6):
            e = rng.randrange(total) if rng.random() < 0.9 else total + rng.randrange(3)
            turns = [rng.randrange(n) if n and rng.random() < 0.99 else n + rng.randrange(3) for _ in range(rng.choice((0, 1, 3, 40)))]
            command = " ".join(map(str, ["walk", e, *turns]))
            try:
                asked.append((command, model.answer(command)))
            except Refused as refused:
                asked.append((command, [str(refused)]))
                continue
            for g in turns:
                there = model.product.step(e, g)
                steps.append(("step %d %d" % (e, g), [str(there)]))
                e = there
    for name, list_, program in (("ours", asked, OURS), ("the Rust, turn by turn", steps, None))[: 1 + ORACLE.exists()]:
        commands = [command for command, _ in list_]
        for (command, got), (_, want) in zip(cases(run(commands, program) if program else run(commands)), list_, strict=True):
            if want is not None and got != want:
                differs("walks by %s, seed %s" % (name, seed), command, want, got)
    print("walks: %d compared, %d turns, seed %s" % (sum(want is not None for _, want in asked), sum(want is not None for _, want in steps), seed))


def refusal_over_lists(command, total):
    """Order 2's: 4; or 14 at the first place that has an element that is none."""
    try:
        for place, call in enumerate(single_calls(command)):
            single, *numbers = call.split()
            try:
                check_arguments((int(x), total) for x in (numbers[:1] if single == "powi" else numbers))
            except Refused as refused:
                raise RefusedAt(place, refused) from None
    except Refused as refused:
        return [str(refused)]


def long_lists(seed):
    """Lists of up to 4,096 places, in groups that are too large for the model: beside the Rust's single calls."""
    rng, asked, places = random.Random(seed), [], 0
    e6, order, turn = "enum 6 2 2 3 3 2 3 2 2 2 3 2 2 2 2 3", "enum 2 4096", abelian([4097])
    quaternions = next(more_factors())
    groups = [[], ["enum 0"], [S3], [abelian([3])], [abelian([5])], [abelian([7, 8, 9])], [quaternions], [rotations()], [H3], [H4], [e6], [order], [turn]]
    # Up to 2,048 elements places are worked out one after another, and above side by side.
    groups += [[abelian(orders)] for orders in ([32, 64], [3, 683])] + [["enum 2 1024"], ["enum 2 1025"], [abelian([3, 683]), abelian([32, 64]), S3]]
    groups += [["enum 0"] * 8, [H3] * 2, [H4, e6], [S3] * 8, [rotations(), quaternions, abelian([2, 9])], [abelian([k]) for k in NEAR]]
    for factors in groups:
        setup = ["clear", *("factor " + line for line in factors), "prod"]
        total = int(cases(run(setup))[-1][1][0].split()[2])
        right = [line for length in (0, 1, 2, 3, 4, 5, 129, *EDGES) for kind in KINDS for line in over_lists(rng, kind, total, length)]
        many = [rng.choice(list(over_lists(rng, rng.choice(KINDS[:3]), total, 4095))), *over_lists(rng, rng.choice(KINDS[:3]), total, 4096)]
        # A power where words have thousands of letters takes too long.
        right += [line for line in many if not (line.startswith("powers") and factors in ([order], [turn]))]
        wrong = [*spoilt_lists(rng, total, rng.choice((129, *EDGES)), 3), *spoilt_lists(rng, total, 4096, 3), *wrong_lengths(rng, total, 4096, 2), over("inverses", [0] * 4097)]
        answers = rust([*setup, *right])
        asked += answers + [(command, refusal_over_lists(command, total)) for command in wrong]
        places += sum(len(lines[0].split()) - 1 for _, lines in answers[len(setup) :])
    for (command, want), (_, got) in zip(asked, cases(run([command for command, _ in asked], OURS)), strict=True):
        if got != want:
            differs("long lists, seed %s" % seed, command[:200], [line[:200] for line in want or []], [line[:200] for line in got])
    if places < 1100000:
        sys.exit("only %d places of long lists were compared" % places)
    print("long lists: %d compared, %d places, seed %s" % (len(asked), places, seed))


class Altered(Product):
    """Of tables with numbers out of range, which are None here: 17 where one is read, and it is read as document 01 says. "`compose`
    walks the word of the second from the first", which holds where that has at most five letters; a power halves its exponent at
    each call, and one by a negative exponent is the inverse's."""

    def compose(self, a, b):
        digits = []
        for f, x, y in zip(self.factors, self.split(a), self.split(b)):
            for g in f.words[y]:
                x = self.read(f.rows[x][g])
            digits.append(x)
        return self.join(digits)

    def inverse(self, a):
        return self.join([self.read(f.inverses[x]) for f, x in zip(self.factors, self.split(a))])

    def powi(self, a, i):
        if i < 0:
            return self.powi(self.inverse(a), -i)
        if i == 0:
            return 0
        x = self.powi(a, i // 2)
        x = self.compose(x, x)
        return self.compose(x, a) if i % 2 else x

    @staticmethod
    def read(number):
        if number is None:
            raise Refused(17)
        return number


def altered_lists(seed):
    """One number of a table out of range: the places that read it are refused by 17, if none is refused before."""
    rng, asked, met = random.Random(seed), [], {4: 0, 14: 0, 17: 0, "ok": 0}
    small = [Z2, S3, "enum 2 4", "enum 2 5", "enum 3 2 2 2", abelian([3]), abelian([5]), abelian([2, 3]), next(more_factors())]
    for turn in range(120):
        chosen = [rng.choice(small) for _ in range(rng.choice((1, 1, 2, 3)))]
        model, starts, end = Model(), [], 0
        asked += [(line, model.answer(line)) for line in ("clear", "room 10", *("factor " + line for line in chosen), "prod")]
        for f, line in zip(model.product.factors, chosen):
            # `ours` leaves seven numbers free on both sides of a stretch; rows that are given have no more room than they need.
            starts.append(end + 7)
            end += 14 + (2 * f.n + 4) * (f.count if line.startswith("table") else 10)
        k = rng.randrange(len(chosen))
        f, total = model.product.factors[k], model.product.count
        e, g = rng.randrange(f.count), rng.randrange(f.n)
        row = starts[k] + e * (2 * f.n + 4)
        if rng.random() < 0.5:
            f.rows[e][g], cell, number = None, row + g, rng.choice((0, f.count + 1, 2**32 - 1))
        else:
            f.inverses[e], cell, number = None, row + 2 * f.n + 3, rng.choice((f.count, 2**31, 2**32 - 1))
        model.product = Altered(model.product.factors)
        asked.append(("alter %d %d" % (cell, number), []))
        lines = ["inverse %d" % rng.randrange(total), "compose %d %d" % (rng.randrange(total), rng.randrange(total))]
        for length in (1, 2, 3, 4, 5, rng.choice((129, *EDGES)), 4096 if turn % 10 == 0 else 9):
            lines += over_lists(rng, rng.choice(KINDS[:3]), total, length)
            # Where few places read it, it is met late.
            lines.append(over("inverses", filled(rng, "rare", total, length)))
            lines += spoilt_lists(rng, total, length, 2)
        lines += wrong_lengths(rng, total, 3, 2)
        for line in lines:
            try:
                want = model.answer(line)
            except Refused as refused:
                want = [str(refused)]
            asked.append((line, want))
            if line.split()[0] in LISTS:
                met["ok" if want[0].startswith("ok") else int(want[0].split()[-4])] += 1
    for (command, want), (_, got) in zip(asked, cases(run([command for command, _ in asked], OURS)), strict=True):
        if got != want:
            differs("altered lists, seed %s" % seed, command[:200], [line[:200] for line in want], [line[:200] for line in got])
    # Each kind is met some hundred times: fewer would mean that nothing was altered, or not what is read.
    if min(met.values()) < 200:
        sys.exit("altered lists: too few of a kind: %s" % met)
    print("altered lists: %s, seed %s" % (", ".join("%s %d times" % kind for kind in met.items()), seed))


def forged_lists():
    """Handles that do not fit and products of too many factors: 4 for the lengths comes before them, and empty lists are fine
    whatever they are. "Calls on handles check 17 in the handle, then 14, then 15"."""
    fits_not, too_many = "at 0 refused 17 0 0 0", "at 0 refused 15 0 0 0"
    handles = ("0 0 2 6", "7 5 2 6", "7 6 9 6", "7 6 2 0", "100000000 6 2 6", "7 65535 8 6")
    ways = [(["clear", "room 6", "factor enum 2 3", *more, "prod", "forge " + handle], 6, fits_not) for handle in handles for more in ([], ["factor enum 1"])]
    ways += [(["clear", "room 6", "factor enum 2 3", "prod", "forgecount 2"], 6, fits_not)]
    ways += [(["clear", "room 6", *["factor enum 2 3"] * 8, "prod", "forgecount 9"], 6**8, too_many)]
    commands, asked = [], {}
    for setup, total, refused in ways:
        commands += setup
        first = "at 0 refused 14 0 0 0" if refused == too_many else refused
        for line, want in (
            *((line, refused) for line in ("composes 1 1", "inverses 1", "powers 1 -1", "composes 1,2,3 3,2,1", "inverses 0,0", "powers 0,0 0,0")),
            *((over(*lists), first) for lists in (("composes", [total], [1]), ("inverses", [total, 1]), ("powers", [total], [0]))),
            *((line, "refused 4 0 0 0") for line in ("composes 1,1 1", "composes 1 -", "inverses 1 +1", "powers 1 -", "powers 1 1 -1")),
            (over("inverses", [total] * 4097), "refused 4 0 0 0"),
            *((line, "ok") for line in ("composes - -", "inverses -", "powers - -")),
        ):
            asked[len(commands)] = want
            commands.append(line)
    answers = cases(run(commands, OURS))
    for place, want in asked.items():
        command, got = answers[place]
        if got != [want]:
            differs("forged lists", command[:200], [want], got)
    print("forged lists: %d compared" % len(asked))


# The refusals that are due of each question, whatever stands in the buffers and the handles.
DUE = {
    "checked": (2, 3, 13, 17),
    "add": (5, 6, 14, 17),
    "set": (14, 17),
    "build": (4, 6, 7, 8, 9, 10, 11, 12, 17),
    "flatten": (1, 4, 5, 6, 7, 8, 9, 10, 11, 12, 15, 17),
    "sub": (1, 4, 5, 6, 8, 9, 10, 11, 12, 14, 15, 17),
    "subpred": (4, 5, 6, 8, 9, 10, 11, 12, 15, 17),
    "join": (4, 14, 15, 17),
    "joined": (15, 17, 18),
    "image": (4, 17),
}


def asked_both_ways(lines):
    """Questions over lists, each after the single calls at its places."""
    return (call for line in lines for call in (*single_calls(line), line))


def as_single_calls(where, answers, place):
    """A question over lists is answered as the single calls that were asked just before, in order, unless the lengths are wrong,
    which comes before all else. Which kind of answer it is."""
    command, lines = answers[place]
    try:
        before = answers[place - len(single_calls(command)) : place]
        want = listed([lines[0] for _, lines in before])
    except Refused as refused:
        want = str(refused)
    if lines != [want]:
        differs(where, command[:2000], [want[:2000]], [line[:2000] for line in lines])
    words = want.split()
    return words[0] if words[0] != "at" else "at " + words[3]


def garbage_commands(rng):
    def number():
        return rng.choice((0, 1, 2, 5, 6, 7, 11, 255, 65535, 65536, 2**31, 2**32 - 1, rng.randrange(2**32)))

    def handle():
        return "%d %d %d %d" % (rng.choice((0, 7, number())), rng.choice((1, 6, 24, number())), rng.choice((0, 1, 2, 3, 8, 9, 255)), number())

    def questions():
        for question in ("step", "compose", "conjugate"):
            yield "%s %d %d" % (question, rng.choice((0, 1, 5, number())), rng.choice((0, 1, 2, 255)))
        for e in (2, rng.randrange(24), number()):
            yield from ("word %d" % e, "part %d" % e)
        for length in (0, 1, 4, 30):
            yield " ".join(map(str, ["walk", rng.choice((0, 1, 5, number())), *(rng.choice((0, 0, 1, 1, 2, rng.randrange(9))) for _ in range(length))]))
        yield from ("inverse %d" % number(), "inverse 3", "gens", "count", "length %d" % number(), "split %d" % number())
        yield from ("powi %d %d" % (rng.choice((1, 3, number())), rng.randint(-(2**31), 2**31 - 1)), "period %d" % rng.choice((1, 3, number())))
        yield "joined %d" % rng.choice((0, 1, 12, 277, 300))
        for length in (0, 1, 3, 7, rng.choice((4, 130, *EDGES))):
            yield from asked_both_ways(over_lists(rng, "any", rng.choice((2, 3, 6, 6, 7, 24)), length))
        yield from ("composes 1,2 1", "inverses 1 +1", "powers 1,2 3,4 -1")
        yield from ("project %d %d" % (rng.randrange(3), number()), "inject %d %d" % (rng.randrange(3), number()), "join %d %d %d" % (number(), number(), number()))

    def members(count):
        """A number for each element, now and then one too few; of a large product a few alone, which is 4."""
        share = rng.choice((0.02, 0.2, 0.5, 1))
        return " ".join(str(int(rng.random() < share)) for _ in range(min(count, 600) - (rng.random() < 0.1)))

    factors = {"factor enum 2 3": 6, "factor enum 3 3 2 3": 24, "factor table 1 3 1 2 0": 3}
    for _ in range(250):
        chosen = [rng.choice(list(factors)) for _ in range(rng.choice((1, 1, 1, 2, 3)))]
        yield from ("clear", "room 200", named(random_name(rng)), *chosen, "prod")
        if rng.random() < 0.4:
            yield "forgename %d %d" % (rng.randrange(3), rng.choice((0, 1, 32, 33, 255)))
        for _ in range(rng.randint(1, 8)):
            yield "alter %d %d" % (rng.randrange(400), number())
        if rng.random() < 0.4:
            yield "forge %d %s" % (rng.randrange(3), handle())
        if rng.random() < 0.2:
            yield "forgecount %d" % rng.choice((0, 1, 2, 8, 9, 255))
        yield from questions()
        yield from ("checked", "checked %d" % rng.choice((3, 2, number())), "checked 3 2 3", "checked 3 %d 3" % rng.choice((2, 7)))
        yield from ("flatten", "image", "sub %d %d" % (rng.choice((1, 2, number())), rng.choice((1, 3))))
        yield "subpred " + members(math.prod(factors[line] for line in chosen))
    # Long words, and lists of many places.
    long = (H3, "enum 2 31", "enum 4 3 2 3 2 2 3", abelian([40]), rotations())
    for _ in range(60):
        chosen = [rng.choice(long) for _ in range(rng.choice((1, 1, 2)))]
        yield from ("clear", "room 120", *("factor " + line for line in chosen), "prod")
        for _ in range(rng.randint(1, 6)):
            yield "alter %d %d" % (rng.randrange(1300), rng.choice((rng.randrange(40), number())))
        for kind in KINDS[:3]:
            yield from asked_both_ways(over_lists(rng, kind, rng.choice((30, 40, 41)), rng.choice((5, 16, 130, 600, *EDGES))))
    for _ in range(150):
        yield from ("clear", "room %d" % rng.choice((3, 8)), "builder %d" % rng.choice((1, 2, 3)))
        for _ in range(rng.randint(1, 12)):
            e, g, r = rng.randrange(4), rng.randrange(3), rng.randrange(4)
            yield rng.choice(("add %d %d" % (e, g), "set %d %d %d" % (e, g, r), "alter %d %d" % (rng.randrange(100), number())))
        if rng.random() < 0.3:
            yield "forge " + handle()
        if rng.random() < 0.3:
            yield "forgename 0 %d" % rng.choice((0, 32, 33, 255))
        yield from ("add 0 0", "set 0 0 0", "build", "joined 32")
    for _ in range(100):
        yield from ("clear", "room 200", "factor enum 3 3 2 3", "factor enum 1", "prod", "sub %d %d" % (rng.randrange(1, 48), rng.randrange(1, 48)))
        for _ in range(rng.randint(1, 4)):
            yield "%s %d %d" % (rng.choice(("altermap", "altersub")), rng.randrange(60), number())
        yield from ("s2o %d" % rng.randrange(3), "s2o %d" % number(), "o2s %d" % rng.randrange(50), "o2s %d" % number(), "subgens")


def garbage(seed):
    commands, asked, word = list(garbage_commands(random.Random(seed))), 0, None
    answers, lists = cases(run(commands, OURS)), {}
    for place, (command, lines) in enumerate(answers):
        name = command.split()[0]
        if name in ("clear", "room", "name", "factor", "prod", "alter", "forge", "forgecount", "forgename", "altermap", "altersub", "builder") or lines in (["unsupported"], ["no builder"], ["no subgroup"]):
            continue
        words = lines[0].split()
        if name in LISTS:
            kind = as_single_calls("altered, seed %s" % seed, answers, place)
            lists[kind] = lists.get(kind, 0) + 1
            asked += 1
            continue
        due = DUE.get(name, (14, 15, 17))
        fine = words[0] in ("ok", "new", "known") or words[0].isdigit() or words[0] == "refused" and int(words[1]) in due
        if not fine:
            differs("altered, seed %s" % seed, command, ["an answer or one of", *map(str, due)], lines)
        # The part that is handed back is the word, which was asked just before, and nothing where that was refused.
        if name == "part" and lines != (word if word[0].startswith("ok") else ["ok"]):
            differs("altered, seed %s" % seed, command, word, lines)
        word = lines
        asked += 1
    if min(lists.get(kind, 0) for kind in ("ok", "at 14", "at 17", "refused")) < 100:
        sys.exit("altered: too few questions over lists: %s" % lists)
    print("altered: %d questions, %d of them over lists, seed %s" % (asked, sum(lists.values()), seed))


def altered_number(rng, n, count, kind, within):
    """Where in a row some number of a kind stands, and another for it: one that could be there, or else out of range too."""
    element, letters = rng.randrange(count), sum(rng.randrange(n) << 3 * k for k in range(5))
    beyond = rng.choice((count + 1, count + 1, 65535, 2**31, 2**32 - 1))
    wrong_letter = element << 15 | rng.choice((n, 7)) << 3 * rng.randrange(5) if n < 8 else 2**32 - 1
    at, fitting, wrong = {
        "successor": (rng.randrange(n), 1 + element, rng.choice((0, beyond))),
        "predecessor": (n + rng.randrange(n), 1 + element, rng.choice((0, beyond))),
        "letters": (2 * n + 1, element << 15 | letters, rng.choice((wrong_letter, rng.choice((count, 2**17 - 1)) << 15 | letters))),
        "length": (2 * n + 2, rng.choice((0, 1, 5, 6, 4095, 4096, rng.randrange(4097))), rng.choice((4097, beyond))),
        "inverse": (2 * n + 3, element, rng.choice((count, beyond))),
    }[kind]
    return at, fitting if within else rng.choice((fitting, wrong, wrong))


def large_commands(rng):
    """Tables above 2,048 elements, of which numbers are altered, of one kind or of all, in any row or only in the first and the
    last ones: the identity's is the one by which a walk goes on that has no place left. Beside lists of 4 to 513 places there are
    many short ones, in tables with so many altered numbers that about one place comes to one: each walk tests each letter of a
    cell by itself, and one that was missing would show only where no other walk ends the call."""
    # Each with its generators, its elements and about how many letters a walk has.
    large = (("enum 2 1100", 2, 2200, 370), (H4, 4, 14400, 25), (abelian([13, 14, 15]), 3, 2730, 17), (abelian([3, 683]), 2, 2049, 220))
    kinds = ("successor", "predecessor", "letters", "length", "inverse")
    for turn in range(240):
        line, n, count, letters = large[turn % 4]
        small = rng.choice(([], [], [S3], [abelian([5]), S3]))
        total = count * math.prod(Model().make(other.split()).count for other in small)
        yield from ("clear", "room %d" % count, "factor " + line, *("factor " + other for other in small), "prod")
        some = rng.choice((kinds, kinds[1:2], kinds[1:2], kinds[2:3], kinds[2:3], kinds[:1], kinds[3:4], kinds[4:]))
        rows = rng.choice((range(count), range(count), range(count), [0], [*range(6), *range(count - 6, count)]))
        few, within = count // (2 * letters), rng.random() < 0.3
        for _ in range(rng.choice((1, few, few, 2 * few, 2 * few, 1000))):
            at, number = altered_number(rng, n, count, rng.choice(some), within)
            yield "alter %d %d" % (7 + rng.choice(rows) * (2 * n + 4) + at, number)
        for kind in ("any", rng.choice(KINDS)):
            yield from asked_both_ways(over_lists(rng, kind, total, rng.choice((4, 5, 6, 7, 8, 16, 80, *EDGES))))
        yield from asked_both_ways(spoilt_lists(rng, total, rng.choice((4, 5, 20, *EDGES)), 2))
        for _ in range(30):
            length = rng.choice((4, 4, 5, 6, 8))
            yield from asked_both_ways([over("composes", filled(rng, "any", total, length), filled(rng, "any", total, length))])


def side_by_side(seed):
    """Walks that go side by side, in altered tables: over lists what our single calls just said, which have tests of their own."""
    answers, met = cases(run(list(large_commands(random.Random(seed))), OURS)), {}
    for place, (command, _) in enumerate(answers):
        if command.split(None, 1)[0] in LISTS:
            kind = as_single_calls("side by side, seed %s" % seed, answers, place)
            met[kind] = met.get(kind, 0) + 1
    if min(met.get(kind, 0) for kind in ("ok", "at 14", "at 17")) < 100:
        sys.exit("side by side: too few of a kind: %s" % met)
    print("side by side: %s, seed %s" % (", ".join("%s %d times" % kind for kind in met.items()), seed))


def largest():
    """The most elements that a factor can have, from rows, as a subgroup and as an image; and one room too few."""
    orders = (3, 5, 17, 257)
    made, sub = abelian(orders), "sub 1 3 15 255"
    n, count, *rows = map(int, made.split()[1:])
    if count != 65535:
        sys.exit("the largest table has %d elements" % count)
    image = ((4 + 2 * n * count).to_bytes(4, "big") + bytes([1, n]) + b"".join(x.to_bytes(2, "big") for x in (count, *rows))).hex()
    # Reading stops at the first number beyond the room, whether the rows are listed or the subgroup's, which are the same.
    beyond = "refused 5 %d %d 0" % divmod(rows.index(count - 1), n)
    walked = count - 1
    for g in range(n):
        walked = rows[n * walked + g]
    factor = ["quiet 1", "factor " + made, "prod", "compose 65534 65534", "compose 65533 40000", "conjugate 65534 1"]
    factor += ["inverse 65534", "word 65534", "step 65534 3", "period 65534"]
    product = ["clear", *map(cycle, orders), "prod", sub, "subgens", "s2o 65534", "o2s 65534"]
    rust = [lines for _, lines in cases(run([*factor, *product, made]))]
    asked = list(zip(factor, rust))
    asked += [("image", ["ok " + image]), ("imgcheck " + image, ["0"]), ("imgverdict " + image, ["ok"]), ("imgwalk %s 65534 0 1 2 3" % image, [str(walked)])]
    asked += zip(product, rust[len(factor) :])
    asked += [("room 65534", []), (made, [beyond]), (sub, [beyond]), ("room 65535", [])]
    asked += [("unimage " + image, rust[-1])]  # all numbers of the Rust's factor, by their digest
    for (command, want), (_, got) in zip(asked, cases(run([command for command, _ in asked], OURS)), strict=True):
        if got != want:
            differs("largest", command[:60], [line[:200] for line in want], [line[:200] for line in got])
    print("largest: %d compared" % len(asked))


if __name__ == "__main__":
    seed = sys.argv[1] if len(sys.argv) > 1 else str(random.randrange(10**6))
    replay_recorded()
    short_buffers()
    other_calls()
    images(seed)
    walks(seed)
    forged_lists()
    altered_lists(seed)
    garbage(seed)
    side_by_side(seed)
    if ORACLE.exists():
        largest()
        long_lists(seed)
        fresh(seed)
    else:
        print("fresh: not compared, since the oracle is not built (oracle/build.sh)")
