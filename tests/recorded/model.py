"""What document 01 says of each command that the oracle answers.

Written from document 01, and for names and lists from orders 1 and 2 of document 02, alone, for clearness and not for speed. `Model.answer`
takes a command of the oracle (oracle/README.md) and gives what is expected of
a program that follows document 01: the lines of the answer, or the refusal.
"""

import math

WORD_LIMIT = 4096
MOST_GENERATORS = 8
MOST_ELEMENTS = 65535
MOST_FACTORS = 8
MOST_PRODUCT = 2**32 - 1
MOST_NAME = 32
MOST_PLACES = 4096
NOT_A_MEMBER = 2**32 - 1


class Refused(Exception):
    """A numbered refusal with its three places, zero where none is listed."""

    def __init__(self, number, *places):
        self.number = number
        self.places = (*places, 0, 0, 0)[:3]

    def __str__(self):
        return "refused %d %d %d %d" % (self.number, *self.places)


class RefusedAt(Refused):
    """What the single call says at a place of lists, the first that is refused."""

    def __init__(self, place, refused):
        super().__init__(refused.number, *refused.places)
        self.place = place

    def __str__(self):
        return "at %d %s" % (self.place, super().__str__())


class Factor:
    """An accepted table: rows of successors, recorded words, inverses; and a
    name, the empty one unless it is told."""

    def __init__(self, n, rows, words, inverses):
        self.n, self.rows, self.words, self.inverses = n, rows, words, inverses
        self.count, self.name = len(rows), b""

    def named(self, name):
        self.name = name
        return self

    def parents(self):
        number = {word: e for e, word in enumerate(self.words)}
        return [number[word[:-1]] for word in self.words]

    def compose(self, a, b):
        for g in self.words[b]:
            a = self.rows[a][g]
        return a

    def powi(self, a, i):
        powers, x = [0], a
        while x != 0:
            powers.append(x)
            x = self.compose(x, a)
        return powers[i % len(powers)]


def places(count, n):
    return ((e, g) for e in range(count) for g in range(n))


# ------------------------------------------------------------- composed rows


def check_room(n, room, entries=None):
    """Refusals 1 and 4; `entries` is the length of a lent composed list."""
    if n > MOST_GENERATORS:
        raise Refused(1, n)
    if not 1 <= room <= MOST_ELEMENTS:
        raise Refused(4)
    if entries is not None and entries < room * n:
        raise Refused(4)


def check_name(name):
    """Refusal 18, "name over 32 bytes (after 4, before the build)"."""
    if len(name) > MOST_NAME:
        raise Refused(18)


def new_element(words, e, g, room):
    """Refusals 5 and 6, or a new element whose word is e's and then g."""
    if len(words) == room:
        raise Refused(5, e, g)
    if len(words[e]) == WORD_LIMIT:
        raise Refused(6, e, g)
    words.append(words[e] + (g,))


def read(n, room, number, count=1, image=False):
    """Reads number(e, g) at each place in order: 7, 5, 6, and then `build`. A
    builder's number may be missing (None), and its `count` of elements may be
    more than are reached; an image's is 16 then, before 8."""
    rows, words = [], [()]
    while len(rows) < len(words):
        e, row = len(rows), []
        for g in range(n):
            v = number(e, g)
            if v is not None and v > len(words):
                raise Refused(7, e, g, v)
            if v == len(words):
                new_element(words, e, g, room)
            row.append(v)
        rows.append(row)
    if image and len(rows) < count:
        raise Refused(16)
    return build(n, rows, words, count)


def build(n, rows, words, known=1):
    """Refusals 8 to 12 on the rows that were reached. Rows never reached are
    not read, so the first element that was not reached has no successor."""
    count = len(rows)
    back = [[None] * n for _ in rows]
    for e, g in places(count, n):
        if rows[e][g] is not None:
            back[rows[e][g]][g] = e
    for table in (rows, back):
        for e, g in places(count, n):
            if table[e][g] is None:
                raise Refused(8, e, g)
        if count < known:
            raise Refused(8, count, 0)
    arrivals = [0] * count
    for e, g in places(count, n):
        v = rows[e][g]
        if v == e or (e == 0) != (v == rows[0][g]):
            raise Refused(9, e, g)
        arrivals[v] += 1
    for e in range(count):
        if arrivals[e] != n:
            raise Refused(9, e, n)
    inverses = []
    for word in words:
        e = 0
        for g in reversed(word):
            e = back[e][g]
        inverses.append(e)
    for e, i in enumerate(inverses):
        if inverses[i] != e:
            raise Refused(10, e, i, inverses[i])
    for g in range(n):
        if rows[0][g] != g + 1:
            raise Refused(11, g)
    factor = Factor(n, rows, words, inverses)
    if not is_group(factor):
        raise Refused(12)
    return factor


def is_group(f):
    """Whether a(xg) = (ax)g for all a, x and generators g, where ax is reached
    from a by the word of x. The columns are permutations by now, so this is
    all that a group asks."""
    parents = f.parents()
    for a in range(f.count):
        times = [a]  # times[x] = ax; an element's parent comes before it
        for x in range(1, f.count):
            times.append(f.rows[times[parents[x]]][f.words[x][-1]])
        for x, g in places(f.count, f.n):
            if times[f.rows[x][g]] != f.rows[times[x]][g]:
                return False
    return True


def table(n, room, numbers, name=b""):
    """A composed table with `room`, from a lent list."""
    check_room(n, room, len(numbers))
    check_name(name)
    return read(n, room, lambda e, g: numbers[e * n + g]).named(name)


# ------------------------------------------------------------------- builder


class Builder:
    """A table built element by element. `lengths` is None once the build has
    ended: its handle then fits no buffer. `made` has the place where each
    element was added, and `overwritten` says whether a step was set anew."""

    def __init__(self, n, room, name=b""):
        check_room(n, room)
        check_name(name)
        self.n, self.room, self.name = n, room, name
        self.rows, self.lengths, self.made = [[None] * n], [0], [None]
        self.overwritten = False

    def place(self, *arguments):
        if self.lengths is None:
            raise Refused(17)
        bounds = (len(self.rows), self.n, len(self.rows))
        check_arguments(zip(arguments, bounds))

    def add(self, e, g):
        self.place(e, g)
        if len(self.rows) == self.room or self.lengths[e] == WORD_LIMIT:
            full = len(self.rows) == self.room
            self.lengths = None
            raise Refused(5 if full else 6, e, g)
        self.rows.append([None] * self.n)
        self.lengths.append(self.lengths[e] + 1)
        self.overwritten |= self.rows[e][g] is not None
        self.made.append((e, g))
        self.rows[e][g] = len(self.rows) - 1
        return len(self.rows) - 1

    def stale(self):
        """Whether a word or a predecessor that the Rust keeps may not be what
        the successors say: a step was set anew, or an element was not added at
        the place where it first appears."""
        first = {}
        for e, g in places(len(self.rows), self.n):
            first.setdefault(self.rows[e][g], (e, g))
        made = enumerate(self.made[1:], 1)
        return self.overwritten or any(first.get(x) != place for x, place in made)

    def set(self, e, g, r):
        self.place(e, g, r)
        new = self.rows[e][g] is None
        self.overwritten |= self.rows[e][g] not in (None, r)
        self.rows[e][g] = r
        return "new" if new else "known"

    def build(self):
        """What its successors say, read in order."""
        self.place()
        rows, self.lengths = self.rows, None
        return read(self.n, self.room, lambda e, g: rows[e][g], len(rows)).named(self.name)


# ----------------------------------------------------------------- the image


def image_of(f):
    body = bytes([1, f.n]) + f.count.to_bytes(2, "big")
    body += b"".join(v.to_bytes(2, "big") for row in f.rows for v in row)
    return len(body).to_bytes(4, "big") + body


def image_head(data):
    """n, N and the successors by (e, g): total size, length, version (16), n
    (1), N not 0 and the length formula (16)."""
    if len(data) < 8 or int.from_bytes(data[:4], "big") != len(data) - 4 or data[4] != 1:
        raise Refused(16)
    n, count = data[5], int.from_bytes(data[6:8], "big")
    if n > MOST_GENERATORS:
        raise Refused(1, n)
    if count == 0 or len(data) != 8 + 2 * n * count:
        raise Refused(16)
    return n, count, lambda e, g: int.from_bytes(data[8 + 2 * (e * n + g) :][:2], "big")


def read_image(data):
    n, count, number = image_head(data)
    return read(n, count, number, count, image=True)


def check_image(data):
    """What the C function returns: the refusal's number, or 0."""
    try:
        read_image(data)
    except Refused as refused:
        return refused.number
    return 0


def image_need(data):
    """The bytes of work that a check needs; without a generator there is one element."""
    n, count, _ = image_head(data)
    if n == 0 and count != 1:
        raise Refused(16)
    return count * (32 * n * n + 100)


def walk_image(data, start, word):
    """The element reached, or 65,536 and the refusal's number."""
    try:
        n, count, number = image_head(data)
        check_arguments([(start, count), *((g, n) for g in word)])
        for g in word:
            start = number(start, g)
            if start >= count:
                raise Refused(17)
    except Refused as refused:
        return 65536 + refused.number
    return start


# --------------------------------------------------------------- enumeration


def pairs(n):
    return [(i, j) for j in range(n) for i in range(j)]


def enumerate_orders(n, orders, room, name=b""):
    """The enumeration of 000, as module 4 of document 01 sets it out."""
    if n > MOST_GENERATORS:
        raise Refused(1, n)
    if len(orders) != n * (n - 1) // 2:
        raise Refused(2)
    for i, m in enumerate(orders):
        if not 2 <= m <= 32767:
            raise Refused(3, i)
    check_room(n, room)
    check_name(name)

    rows, words = [[None] * n], [()]
    back = [[None] * n]
    waiting = [[([], []) for _ in range(n)]]  # left rows and right rows

    def set_both(e, g, v):
        new = rows[e][g] is None
        rows[e][g], back[v][g] = v, e
        return new

    def start(e):
        for (a, b), m in zip(pairs(n), orders):
            row = ((a, b), 0, 2 * m - 1, e, e)
            waiting[e][a][0].append(row)
            waiting[e][b][1].append(row)

    def fill(row):
        """Moves the right end back, then the left end forward."""
        pair, l, r, left, right = row
        while l < r and back[right][pair[r & 1]] is not None:
            right, r = back[right][pair[r & 1]], r - 1
        while l < r and rows[left][pair[l & 1]] is not None:
            left, l = rows[left][pair[l & 1]], l + 1
        return pair, l, r, left, right

    def wake(e, g):
        lists, waiting[e][g] = waiting[e][g], ([], [])
        found = []
        for side in (0, 1):
            for row in lists[side]:
                pair, l, r, left, right = row = fill(row)
                if l == r:
                    for fact in ((left, right), (right, left)):
                        if set_both(fact[0], pair[l & 1], fact[1]):
                            found.append((fact[0], pair[l & 1]))
                elif side == 0:
                    waiting[left][pair[l & 1]][0].append(row)
                else:
                    waiting[right][pair[r & 1]][1].append(row)
        return found

    start(0)
    e = 0
    while e < len(words):
        for g in range(n):
            if rows[e][g] is not None:
                continue
            new_element(words, e, g, room)
            new = len(words) - 1
            rows.append([None] * n)
            back.append([None] * n)
            waiting.append([([], []) for _ in range(n)])
            set_both(e, g, new)
            set_both(new, g, e)
            start(new)
            facts = [(e, g)]
            while facts:
                facts += wake(*facts.pop())
        e += 1
    factor = build(n, rows, words)
    against(factor, orders)
    return factor.named(name)


def against(f, orders):
    """Refusal 13: at each element each generator doubled, then each pair."""
    for e in range(f.count):
        for g in range(f.n):
            if f.rows[f.rows[e][g]][g] != e:
                raise Refused(13, e, g, g)
        for (i, j), m in zip(pairs(f.n), orders):
            x = e
            for _ in range(m):
                x = f.rows[f.rows[x][i]][j]
            if x != e:
                raise Refused(13, e, i, j)


# ----------------------------------------------------- products and subgroups


class Product:
    """A product of factors; the first is the fastest digit."""

    def __init__(self, factors):
        self.factors = list(factors)
        self.count = math.prod(f.count for f in self.factors)
        if len(self.factors) > MOST_FACTORS or self.count > MOST_PRODUCT:
            raise Refused(15)
        self.n = sum(f.n for f in self.factors)
        # for each generator: its factor, and its number there
        self.where = [(i, g) for i, f in enumerate(self.factors) for g in range(f.n)]

    def split(self, e):
        digits = []
        for f in self.factors:
            e, digit = divmod(e, f.count)
            digits.append(digit)
        return digits

    def join(self, digits):
        e, stride = 0, 1
        for f, digit in zip(self.factors, digits):
            e, stride = e + stride * digit, stride * f.count
        return e

    def step(self, e, g):
        i, k = self.where[g]
        digits = self.split(e)
        digits[i] = self.factors[i].rows[digits[i]][k]
        return self.join(digits)

    def compose(self, a, b):
        both = zip(self.factors, self.split(a), self.split(b))
        return self.join(f.compose(x, y) for f, x, y in both)

    def inverse(self, a):
        return self.join(f.inverses[x] for f, x in zip(self.factors, self.split(a)))

    def conjugate(self, a, b):
        return self.compose(self.compose(a, b), self.inverse(a))

    def period(self, a):
        x, k = a, 1
        while x != 0:
            x, k = self.compose(x, a), k + 1
        return k

    def powi(self, a, i):
        return self.join(f.powi(x, i) for f, x in zip(self.factors, self.split(a)))

    def word(self, a):
        word, offset = [], 0
        for f, x in zip(self.factors, self.split(a)):
            word += [offset + g for g in f.words[x]]
            offset += f.n
        return word

    def flatten(self, room):
        check_room(self.n, room)
        return read(self.n, room, self.step)


class Names:
    """What stands beside the handles of a product: of each factor 32 bytes, the
    name and zeros, and a length; and how many factors there are to be."""

    def __init__(self, factors):
        self.records = [[f.name.ljust(MOST_NAME, b"\0"), len(f.name)] for f in factors]
        self.count = len(factors)

    def joined(self, size):
        """The joined name in a buffer of `size` bytes. 17 for a factor that is
        not there or a recorded length over 32, among those that a product can
        have; then 15; then 18, "joined name longer than the buffer"."""
        listed = self.records[: min(self.count, MOST_FACTORS)]
        if len(listed) < min(self.count, MOST_FACTORS) or any(length > MOST_NAME for _, length in listed):
            raise Refused(17)
        if self.count > MOST_FACTORS:
            raise Refused(15)
        name = b" x ".join(record[:length] for record, length in listed)
        if size < len(name):
            raise Refused(18)
        return name


class Subgroup:
    """A subgroup of a product, numbered by first appearance. `below` is the
    count of what was multiplied on at the left, `above` at the right."""

    def __init__(self, over, generators, room):
        check_arguments((a, over.count) for a in generators)
        if over.count > MOST_ELEMENTS:
            raise Refused(15)
        check_room(len(generators), room)
        self.to_over, self.to_sub = [0], {0: 0}

        def number(e, g):
            a = over.compose(self.to_over[e], generators[g])
            if a not in self.to_sub:
                self.to_sub[a] = len(self.to_over)
                self.to_over.append(a)
            return self.to_sub[a]

        self.factor = read(len(generators), room, number)
        self.generators = list(generators)
        self.over_count, self.below, self.above = over.count, 1, 1
        self.over_factors, self.sides = len(over.factors), []

    def multiplied(self, factor, left):
        s = object.__new__(Subgroup)
        s.__dict__.update(self.__dict__)
        s.sides = [(left, factor)] + self.sides if left else self.sides + [(left, factor)]
        if left:
            s.below *= factor.count
        else:
            s.above *= factor.count
        # "More than 8 factors, product too large", of the overgroup or of the subgroup, whose own factor is one.
        if len(s.sides) + max(1, s.over_factors) > MOST_FACTORS or max(s.counts()) > MOST_PRODUCT:
            raise Refused(15)
        return s

    def counts(self):
        sides = self.below * self.above
        return self.factor.count * sides, self.over_count * sides

    def s2o(self, x):
        rest, low = divmod(x, self.below)
        high, middle = divmod(rest, self.factor.count)
        return (high * self.over_count + self.to_over[middle]) * self.below + low

    def o2s(self, x):
        rest, low = divmod(x, self.below)
        high, middle = divmod(rest, self.over_count)
        if middle not in self.to_sub:
            return NOT_A_MEMBER
        return (high * self.factor.count + self.to_sub[middle]) * self.below + low

    def generator_elements(self):
        """In the subgroup's product: the factors' in order."""
        stride, out = 1, []
        left = [f for is_left, f in self.sides if is_left]
        right = [f for is_left, f in self.sides if not is_left]
        for f in left + [self.factor] + right:
            out += [stride * f.rows[0][g] for g in range(f.n)]
            stride *= f.count
        return out


def from_predicate(over, member, room):
    """Rebuilt with one more generator for each member not yet reached."""
    if over.count > MOST_ELEMENTS:
        raise Refused(15)
    if len(member) < over.count:
        raise Refused(4)
    sub = Subgroup(over, [], room)
    for e in range(over.count):
        if member[e] and e not in sub.to_sub:
            if len(sub.generators) == MOST_GENERATORS:
                raise Refused(15)
            sub = Subgroup(over, sub.generators + [e], room)
    return sub


def check_arguments(arguments):
    """Refusal 14 at the first argument that is not below its bound."""
    for i, (a, bound) in enumerate(arguments):
        if not 0 <= a < bound:
            raise Refused(14, i)


# ---------------------------------------------------------------------- lists

# Each question over lists: the single call, and how many lists it takes.
LISTS = {"composes": ("compose", 2), "inverses": ("inverse", 1), "powers": ("powi", 2)}


def single_calls(line):
    """The single calls of a question over lists, place by place. Refusal 4,
    "when the lists' lengths differ or pass 4,096, before anything else"; the
    output list is as long as the first, or by the last word one longer or shorter."""
    name, *rest = line.split()
    single, count = LISTS[name]
    lists = [[] if word == "-" else word.split(",") for word in rest[:count]]
    lengths = [len(numbers) for numbers in lists]
    out = lengths[0] + sum(int(more) for more in rest[count:])
    if {*lengths, out} != {out} or out > MOST_PLACES:
        raise Refused(4)
    return [spaced(single, *place) for place in zip(*lists)]


# ------------------------------------------------------------------- commands


def digest(numbers):
    h = 0xCBF29CE484222325
    for x in numbers:
        h = (h ^ x) * 0x100000001B3 % 2**64
    return "fnv %016x" % h


def spaced(*parts):
    return " ".join(str(p) for p in parts)


class Model:
    """Follows a list of commands as the oracle does. `answer` gives the lines
    of the answer, raises Refused, or gives None where document 01 has nothing
    to say: a question to the oracle alone, or one about a product or subgroup
    that was refused."""

    def __init__(self):
        self.room, self.quiet, self.name = MOST_ELEMENTS, False, b""
        self.clear()

        self.builder = None

    def clear(self):
        self.factors, self.sub = [], None
        self.take(Product([]))
        self.refused = False  # a factor or the product was

    def take(self, product):
        self.product, self.names = product, Names(product.factors)

    def answer(self, line):
        name, *rest = line.split()
        if name in ("check", "place"):
            return None
        if name == "room":
            self.room = int(rest[0])
            return []
        if name == "quiet":
            self.quiet = rest[0] != "0"
            return []
        if name == "clear":
            self.clear()
            return []
        if name == "name":
            self.name = bytes.fromhex(rest[0].replace("-", ""))
            return []
        if name in ("enum", "table"):
            return self.show(self.make([name] + rest))
        if name == "image":
            return [spaced("ok", image_of(self.make(rest)).hex())]
        if name in ("unimage", "imgcheck", "imgverdict", "imgneed", "imgwalk"):
            data = bytes.fromhex(rest[0].replace("-", ""))
            if name == "unimage":
                return self.show(read_image(data))
            if name == "imgcheck":
                return [str(check_image(data))]
            if name == "imgverdict":
                read_image(data)
                return ["ok"]
            if name == "imgneed":
                return [str(image_need(data))]
            return [str(walk_image(data, int(rest[1]), [int(g) for g in rest[2:]]))]
        if name == "builder":
            self.builder = None
            self.builder = Builder(int(rest[0]), self.room, self.name)
            return ["ok"]
        if name in ("add", "set", "build"):
            if self.builder is None:
                return None
            made = getattr(self.builder, name)(*(int(x) for x in rest))
            if name != "build":
                return [str(made)]
            self.take(Product([made]))
            return self.show(made)
        if name == "against":
            bar = rest.index("|")
            against(self.make(rest[:bar]), [int(x) for x in rest[bar + 1 :]])
            return ["ok"]
        if name == "factor":
            try:
                self.factors.append(self.make(rest))
            except Refused:
                self.refused = True
                raise
            return [spaced("ok", len(self.factors))]
        if self.refused:
            return None
        if name == "prod":
            try:
                self.take(Product(self.factors))
            except Refused:
                self.refused = True
                raise
            return [spaced("ok", self.product.n, self.product.count)]
        if name in ("sub", "subpred", "subleft", "subright"):
            return self.make_subgroup(name, rest)
        if name == "flatten":
            return self.show(self.product.flatten(self.room))
        if name in LISTS:
            return self.ask_lists(line)
        numbers = [int(x) for x in rest]
        if name in ("joined", "forgename", "forgecount", "flatname", "subname"):
            return self.ask_names(name, numbers)
        if name in ("s2o", "o2s", "subgens"):
            return self.ask_subgroup(name, numbers)
        return self.ask_product(name, numbers)

    def make(self, words):
        """`enum n orders..` or `table n N rows..`; a table's room is at most
        the N rows given."""
        kind, *numbers = words
        numbers = [int(x) for x in numbers]
        if kind == "enum":
            return enumerate_orders(numbers[0], numbers[1:], self.room, self.name)
        n, count, *rows = numbers
        return table(n, min(self.room, count), rows, self.name)

    def show(self, f):
        if self.quiet:
            seen = []
            for inverse, word, row in zip(f.inverses, f.words, f.rows):
                seen += [inverse, len(word), *word, *row]
            longest = max(len(word) for word in f.words)
            return [spaced("ok", f.n, f.count, "maxword", longest, digest(seen))]
        lines = [spaced("ok", f.n, f.count)]
        for e, row in enumerate(f.rows):
            word = ",".join(str(g) for g in f.words[e]) or "-"
            lines.append(spaced(e, f.inverses[e], word, *row))
        return lines + ["end"]

    def make_subgroup(self, name, rest):
        try:
            if name == "sub":
                self.sub = Subgroup(self.product, [int(x) for x in rest], self.room)
            elif name == "subpred":
                self.sub = from_predicate(self.product, [int(x) for x in rest], self.room)
            elif self.sub is None:
                return None
            else:
                self.sub = self.sub.multiplied(self.make(rest), name == "subleft")
        except Refused:
            self.sub = None
            raise
        s = self.sub
        inside, outside = s.counts()
        lines = [spaced("ok", len(s.generator_elements()), inside, "of", outside)]
        for head, numbers in (
            ("s2o", [s.s2o(x) for x in range(inside)]),
            ("o2s", [s.o2s(x) for x in range(outside)]),
        ):
            lines.append(spaced(head, digest(numbers)) if self.quiet else spaced(head, *numbers))
        return lines if s.sides else lines + self.show(s.factor)

    def ask_subgroup(self, name, numbers):
        s = self.sub
        if s is None:
            return None
        inside, outside = s.counts()
        if name == "subgens":
            return [spaced("ok", *(s.s2o(x) for x in s.generator_elements()))]
        check_arguments([(numbers[0], inside if name == "s2o" else outside)])
        return [str(getattr(s, name)(numbers[0]))]

    def ask_names(self, name, numbers):
        if name == "forgename":
            self.names.records[numbers[0]][1] = numbers[1]
            return []
        if name == "forgecount":
            self.names.count = numbers[0]
            return []
        if name == "joined":
            told = self.names.joined(numbers[0])
        elif name == "flatname":
            told = self.product.flatten(self.room).name
        elif self.sub is None:
            return None
        else:
            told = self.sub.factor.name
        return [spaced("ok", told.hex() or "-")]

    def ask_lists(self, line):
        """Order 2: "The result at each place equals the single call at that place.
        If any place would be refused, the first such place and its refusal come
        back"."""
        results = []
        for place, call in enumerate(single_calls(line)):
            try:
                results += self.answer(call)
            except Refused as refused:
                raise RefusedAt(place, refused) from None
        return [spaced("ok", *results)]

    def ask_product(self, name, numbers):
        p = self.product
        if name == "gens":
            return [spaced("ok", *(p.step(0, g) for g in range(p.n)))]
        if name == "walk":
            e, *turns = numbers
            check_arguments([(e, p.count), *((g, p.n) for g in turns)])
            for g in turns:
                e = p.step(e, g)
            return [str(e)]
        if name == "join":
            check_arguments(zip(numbers, [f.count for f in p.factors]))
            if len(numbers) < len(p.factors):
                raise Refused(4)  # a lent list short
            return [str(p.join(numbers))]
        bounds = {
            "step": (p.count, p.n),
            "compose": (p.count, p.count),
            "conjugate": (p.count, p.count),
            "project": (len(p.factors), p.count),
            "inject": (len(p.factors),),
        }.get(name, (p.count,))
        check_arguments(zip(numbers, bounds))
        if name == "project":
            return [str(p.split(numbers[1])[numbers[0]])]
        if name == "inject":
            f, a = numbers
            if a >= p.factors[f].count:
                raise Refused(14, 1)
            return [str(p.join(a if i == f else 0 for i in range(len(p.factors))))]
        value = getattr(p, name)(*numbers)
        return [spaced("ok", *value) if name in ("word", "split") else str(value)]
