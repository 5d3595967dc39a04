#!/usr/bin/env python3
"""Speed beside the original Rust, as ratios: both in release, on this machine, in one run. The two take turns, five times
for what takes less than a second and once for the rest, each turn being the least of three; the least of the turns
counts. Both answer the same arguments, and the sums of their answers are compared. Ours fills lent buffers that it first
zeroes, and checks 8 to 13; the Rust allocates, and checks 8 to 10.

GAP (Debian's gap-core, installed if it is missing) is beside where it can do the same: it enumerates the cosets of the
trivial subgroup, in a numbering of its own and with no checks.

Our archives are for x86-64. Elsewhere they would run under an emulator, and no time would mean anything: there the same
proved modules are compiled for the machine's own processor (host/build.sh makes target/here/ours), which is not what is
shipped.

A question over lists is asked in lists of 1, 16, 256 and 4,096 places, each beside our single call and beside the Rust's, which
has no lists; all of these are asked the same arguments, as many in all, and take turns in one run. The arguments are elements
before the clock starts, for the single calls too: a host has its lists already.

Arguments choose the tables (enumerations, questions, products, lists, walks, ones, names, subgroups, maps, images); without
any, all are measured."""

import pathlib
import platform
import shutil
import subprocess
import sys

HERE = pathlib.Path(__file__).resolve().parent
sys.path.insert(0, str(HERE / "recorded"))
from beside import OURS
from make import abelian
from replay import cases, run

S3, H3, H4 = "2 3", "3 5 2 3", "4 5 2 3 2 2 3"
E6, B6 = "6 2 2 3 3 2 3 2 2 2 3 2 2 2 2 3", "6 4 2 3 2 2 3 2 2 2 3 2 2 2 2 3"
F4, B5 = "4 3 2 4 2 2 3", "5 4 2 3 2 2 3 2 2 2 3"
LONG = "5 4092 2 2 2 2 2 2 2 2 2"


def seconds(commands, *program):
    """The answer and the seconds of the last command."""
    given, took = cases(run(commands, *program))[-1][1][0].split()
    return given, float(took)


def least(*runs):
    """The least seconds of each run, commands and a program; all give the same answer."""
    took = [[] for _ in runs]
    while not took[-1] or len(took[-1]) < 5 and took[-1][0] < 1:
        answers = set()
        for times, (commands, program) in zip(took, runs):
            given, s = seconds(commands, *program)
            times.append(s)
            answers.add(given)
        if len(answers) != 1:
            sys.exit("%s: the answers differ: %s" % (runs[0][0][-1], " ".join(sorted(answers))))
    return [min(times) for times in took]


def beside(commands):
    """Ours and the Rust's."""
    return least((commands, (OURS,)), (commands, ()))


def table(*heads):
    print("| %s |\n|%s" % (" | ".join(heads), "---|" * len(heads)), flush=True)


def row(name, commands, unit=1, form="%.4f"):
    ours, rust = beside(commands)
    print(("| %s | " + form + " | " + form + " | %.2f |") % (name, ours * unit, rust * unit, rust / ours), flush=True)


GAP = """
n := %d; orders := [%s];
free := GeneratorsOfGroup(FreeGroup(n));
relations := List(free, x -> x^2);
k := 0;
for j in [2..n] do for i in [1..j-1] do k := k + 1; Add(relations, (free[i]*free[j])^orders[k]); od; od;
least := infinity;
for turn in [1..3] do
  start := NanosecondsSinceEpoch();
  cosets := CosetTableFromGensAndRels(free, relations, []);
  least := Minimum(least, NanosecondsSinceEpoch() - start);
od;
Print(Length(cosets[1]), " ", least, "\\n");
"""


def gap(size, orders):
    """GAP's least seconds of three as text, or why there are none."""
    if not shutil.which("gap"):
        subprocess.run([HERE.parent / "tools" / "install.sh", "gap-core"], capture_output=True)
    if not shutil.which("gap"):
        return "not installed"
    n, *listed = orders.split()
    try:
        done = subprocess.run(["gap", "-q", "-A"], input=GAP % (int(n), ",".join(listed)), capture_output=True, text=True, timeout=120)
    except subprocess.TimeoutExpired:
        return "three times take over 120"
    count, took = done.stdout.split()[-2:]
    if int(count) != size:
        sys.exit("GAP gives %s for %s" % (count, orders))
    return "%.4f" % (int(took) / 1e9)


def enumerations():
    table("group", "ours, s", "Rust, s", "times as fast", "GAP, s")
    for name, size, orders in (("H4", 14400, H4), ("E6", 51840, E6), ("B6", 46080, B6), ("order 4096", 8192, "2 4096"),
                               ("4092,2,2,2,2,2,2,2,2,2", 65472, LONG)):
        ours, rust = beside(["room %d" % size, "bench enum " + orders])
        print("| %s | %.4f | %.4f | %.2f | %s |" % (name, ours, rust, rust / ours, gap(size, orders)), flush=True)


def asked(name, factors, questions):
    setup = ["clear", *("factor enum " + orders for orders in factors), "prod"]
    for question, turns in questions:
        row("%s, %s" % (name, question), [*setup, "bench %s %d" % (question, turns)], 1e9 / turns, "%.0f")


def beside_alone(name, factors, questions):
    """Beside the Rust, and beside the same questions to the factors one after another, their arguments split before the clock."""
    setup = ["clear", *("factor enum " + orders for orders in factors), "prod"]
    for question, turns in questions:
        whole, each = ([*setup, "bench %s%s %d" % (kind, question, turns)] for kind in ("", "alone "))
        product, rust, alone = (s * 1e9 / turns for s in least((whole, (OURS,)), (whole, ()), (each, (OURS,))))
        print("| %s, %s | %.0f | %.0f | %.2f | %.0f | %.2f |" % (name, question, product, rust, rust / product, alone, alone / product), flush=True)


# How often each is asked, so that a turn takes a millisecond or more; at order 4096 words are long.
ALL = (("step", 400000), ("compose", 50000), ("conjugate", 50000), ("inverse", 400000), ("word", 20000), ("powi", 2000), ("period", 2000))
LONG_WORDS = (("step", 400000), ("compose", 2000), ("conjugate", 2000), ("inverse", 400000), ("word", 2000), ("powi", 500))


def questions():
    table("factor, question", "ours, ns", "Rust, ns", "times as fast")
    for name, orders in (("S3", S3), ("H3", H3), ("H4", H4), ("E6", E6), ("order 4096", "2 4096")):
        asked(name, [orders], LONG_WORDS if orders == "2 4096" else ALL)


def products():
    table("product, question", "ours, ns", "Rust, ns", "times as fast", "its factors alone, ns", "as those")
    beside_alone("H3 by H3", [H3] * 2, ALL[:-1])
    beside_alone("eight S3", [S3] * 8, ALL[:-1])
    beside_alone("H4 by E6", [H4, E6], ALL[:-1])
    print()
    table("product, question", "ours, ns", "Rust, ns", "times as fast")
    asked("H3 by H3", [H3] * 2, ALL[-1:])
    asked("eight S3", [S3] * 8, ALL[-1:])


def ones():
    """A product of one factor: by the calls on products, and by those on the factor itself."""
    table("factor, question", "as a product, ns", "the factor alone, ns", "Rust, ns", "times as fast as the Rust", "as the factor alone")
    for name, orders in (("S3", S3), ("H3", H3), ("H4", H4)):
        setup = ["clear", "factor enum " + orders, "prod"]
        for question, turns in ALL[:5]:
            plain, whole = ([*setup, "bench %s%s %d" % (kind, question, turns)] for kind in ("", "product "))
            product, alone, rust = (s * 1e9 / turns for s in least((whole, (OURS,)), (plain, (OURS,)), (plain, ())))
            print("| %s, %s | %.0f | %.0f | %.0f | %.2f | %.2f |" % (name, question, product, alone, rust, rust / product, alone / product), flush=True)


def walks():
    """A word of many turns, each of which waits for the one before: a turn of one walk, of a call a turn, and of the Rust's steps."""
    table("walk", "one call, ns a turn", "a call a turn, ns", "Rust, ns", "times as fast as the Rust", "as a call a turn")
    for name, factors in (("S3", [S3]), ("H3", [H3]), ("H4", [H4]), ("E6", [E6]), ("H3 by H3", [H3] * 2), ("H4 by E6", [H4, E6]), ("eight S3", [S3] * 8)):
        for turns in (10, 100000):
            setup = ["clear", *("factor enum " + orders for orders in factors), "prod"]
            walk, each = ([*setup, "bench %s %d" % (kind, turns)] for kind in ("walk", "turns"))
            whole, calls, rust = (s * 1e9 / turns for s in least((walk, (OURS,)), (each, (OURS,)), (walk, ())))
            print("| %s, %d turns | %.1f | %.1f | %.1f | %.2f | %.2f |" % (name, turns, whole, calls, rust, rust / whole, calls / whole), flush=True)


def lists():
    """Places of lists: of one call for the list, of a call a place, and of the Rust's single calls. F4 has 1,152 elements and B5
    3,840, below and above 2,048, from where on products are worked out side by side."""
    table("question, places a list", "ours, ns a place", "a call a place, ns", "Rust, ns", "times as fast as the Rust", "as a call a place")
    sizes = (1, 16, 256, 4096)
    for name, factors in (("S3", [S3]), ("H3", [H3]), ("F4", [F4]), ("B5", [B5]), ("H4", [H4]), ("E6", [E6]), ("order 4096", ["2 4096"]),
                          ("H3 by H3", [H3] * 2), ("eight S3", [S3] * 8), ("H4 by E6", [H4, E6])):
        setup = ["clear", *("factor enum " + orders for orders in factors), "prod"]
        for what, question, turns in (("compose", "composes", 40960), ("inverse", "inverses", 409600), ("powi", "powers", 4096)):
            turns = min(turns, 4096) if name == "order 4096" and what == "compose" else turns
            *runs, each = ([*setup, "bench %s %d %d" % (question, places, turns)] for places in (*sizes, 0))
            *over, one, rust = (s * 1e9 / turns for s in least(*((commands, (OURS,)) for commands in runs), (each, (OURS,)), (each, ())))
            for places, took in zip(sizes, over):
                print("| %s, %s, %d | %.1f | %.1f | %.1f | %.2f | %.2f |" % (name, what, places, took, one, rust, rust / took, one / took), flush=True)


def names():
    """The joined name of a product, in a buffer that is there; the Rust's label is a text that it allocates."""
    table("product, names", "ours, ns", "Rust, ns", "times as fast")
    turns = 100000
    for name, count in (("S3", 1), ("two S3", 2), ("eight S3", 8)):
        for label in ("S3", "a name that has thirty-two bytes"):
            setup = ["clear", "name " + label.encode().hex(), *["factor enum " + S3] * count, "prod"]
            row("%s, %d bytes each" % (name, len(label)), [*setup, "bench joined %d" % turns], 1e9 / turns, "%.0f")


def maps():
    """One place of a subgroup's maps, and one digit of a product."""
    table("question", "ours, ns", "Rust, ns", "times as fast")
    turns = 100000
    for name, orders, generators in (("S3 by 1", S3, "1"), ("H4 by 1 2 3", H4, "1 2 3")):
        setup = ["clear", "factor enum " + orders, "prod", "sub " + generators]
        for what, question in (("to the overgroup", "s2o"), ("to the subgroup", "o2s")):
            row("%s, %s" % (name, what), [*setup, "bench %s %d" % (question, turns)], 1e9 / turns, "%.0f")
    row("H3 by H3, project", ["clear", "factor enum " + H3, "factor enum " + H3, "prod", "bench project %d" % turns], 1e9 / turns, "%.0f")


def subgroups():
    """With as much room as the subgroup has elements, and with as much as the overgroup has, all of which is cleared."""
    table("subgroup", "ours, s", "Rust, s", "times as fast")
    for name, orders, generators in (("H4 by 1 2 3", H4, "1 2 3"), ("H4 by 1 2 3 4", H4, "1 2 3 4"), ("B6 by 1 2 3 4 5", B6, "1 2 3 4 5")):
        setup = ["clear", "factor enum " + orders, "prod"]
        lines = cases(run([*setup, "sub " + generators]))[-1][1]
        _, _, size, _, over = lines[0].split()
        members = " ".join("0" if x == "4294967295" else "1" for x in next(l for l in lines if l.startswith("o2s")).split()[1:])
        for room in sorted({int(size), int(over)}):
            row("%s, room %d" % (name, room), [*setup, "room %d" % room, "bench sub " + generators], form="%.5f")
            row("%s, by a predicate, room %d" % (name, room), [*setup, "room %d" % room, "bench subpred " + members], form="%.5f")


def images():
    """Ours alone: reading and checking an image beside building from the same rows, composed."""
    table("image", "from composed rows, s", "read, times as fast", "checked, times as fast")
    for name, made in (("H4", "enum " + H4), ("order 4096", "enum 2 4096"), ("4092,2,2,2,2,2,2,2,2,2", "enum " + LONG),
                       ("Z2^6 by Z33 by Z31, n = 8", abelian([2] * 6 + [33, 31]))):
        image = cases(run(["image " + made], OURS))[-1][1][0].split()[1]
        n, count = int(image[10:12], 16), int(image[12:16], 16)
        rows = " ".join(str(int(image[i : i + 4], 16)) for i in range(16, len(image), 4))
        commands = ["table %d %d %s" % (n, count, rows), "unimage " + image, "imgcheck " + image]
        turns = [[seconds(["room %d" % count, "bench " + what], OURS) for what in commands] for _ in range(5)]
        if any([given for given, _ in turn] != [str(count), str(count), "0"] for turn in turns):
            sys.exit("%s: refused" % name)
        composed, read, checked = (min(turn[k][1] for turn in turns) for k in range(3))
        print("| %s | %.4f | %.2f | %.2f |" % (name, composed, composed / read, composed / checked), flush=True)


if __name__ == "__main__":
    if platform.machine() != "x86_64":
        OURS = (HERE.parent / "target" / "here" / "ours", "--echo")
        if not OURS[0].exists():
            sys.exit("%s is not there: host/build.sh makes it" % OURS[0].relative_to(HERE.parent))
    tables = {f.__name__: f for f in (enumerations, questions, products, lists, walks, ones, names, subgroups, maps, images)}
    for name in sys.argv[1:] or tables:
        print("\n%s\n" % name.capitalize())
        tables[name]()
