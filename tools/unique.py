#!/usr/bin/env python3
"""unique.py [ROOT]: lists each public call whose answer is not proved to be unique.

The rule: every public call (each `pub fn` outside modules named `inner`) has a theorem over its own contract,
`NAME_unique : Unique ..` (crates/promises/specs/Unique.antt), in a crate of promises: any two outcomes
that meet the contract for the same arguments have the same answer and leave the same in the lent buffers. A theorem counts
for a call only if the kinds and the contract that it is over (`Kinds` and `Reads`) are that call's, and if what it says to
be the same is the answer, where there is one, and each buffer that the call is lent to write to. A call that hands a part
of such a buffer back uses it up, and no contract can say more of it than what that part holds (docs/DECISIONS.md): there
the part is the answer, and stands for its buffer.

Programs' `main`, re-exports and the empty function of a crate without code are no calls. The exports of a static library
have the contracts of the functions that they call (tools/exports.py), and those have the theorems. Exit status 1 where a
call has no such theorem, or a theorem of that name is over no public call."""
import glob
import os
import re
import sys

from exports import STATIC
from surface import FUNCTION, outside_inner

# `use Rattle.CRATE.proofs.FN.Reads as NAME`, with the modules between if FN stands in one.
USE = re.compile(r"(?m)^use Rattle\.(\w+)\.proofs\.([\w.]+)\.(Kinds|Reads) as ([\w-]+)$")
SPEC = re.compile(r"(?m)^use Rattle\.promises\.specs\.Unique\.\{Unique\}$")
STATED = re.compile(
    r"(?ms)^pub (\w+)_unique : Unique \d+ ([\w-]+)\.ps ([\w-]+)\.r ([\w-]+)\.Post\s+(?:\{A = [^}]*\} )?\(λ κs a x\. (.*?)\)\n\1_unique ="
)


def parameters(text):
    """The parameters of a signature, and its answer's type, "" where it has none."""
    depth = 0
    for end, c in enumerate(text):
        depth += (c in "([") - (c in ")]")
        if c == ")" and depth == 0:
            break
    answer = re.match(r"\s*->\s*(.*?)\s*(?=$|\brequires\b|\bensures\b|\bcaptures\b)", text[end + 1 :], re.S)
    parts = re.split(r",(?![^\[(]*[\])])", text[text.index("(") + 1 : end])
    return [p.strip() for p in parts if p.strip()], answer.group(1) if answer else ""


def calls(root):
    """Each public call as (crate, function with its modules), with what its theorem has to name: whether it answers, and which of its parameters it writes to."""
    static = STATIC.findall(open(os.path.join(root, "crates.txt"), encoding="utf-8").read())
    for path in sorted(glob.glob(os.path.join(root, "crates/*/src/**/*.rt"), recursive=True)):
        crate, _, *modules = os.path.relpath(path, root).split(os.sep)[1:]
        if crate in static or "inner" in modules or "inner.rt" in modules:
            continue
        text = outside_inner(open(path, encoding="utf-8").read())
        for found in FUNCTION.finditer(text):
            if found.group(3):
                continue
            # A method's proof lies in a folder of its type's name.
            block = re.search(r"(?ms).*^impl (\w+) \{(?!.*^\})", text[: found.start()])
            given, answer = parameters(found.group(2))
            part = re.match(r"&\s*('\w+)?\s*mut\b", answer)
            lent = {i for i, p in enumerate(given) if re.search(r":\s*&\s*(?:'\w+\s+)?mut\b", p)}
            if part:
                back = {i for i in lent if not part.group(1) or part.group(1) in given[i]}
                lent -= back
            inside = [m.removesuffix(".rt") for m in modules if m not in ("lib.rt", "main.rt")]
            inside += [block.group(1)] if block else []
            yield (crate, ".".join([*inside, found.group(1)])), bool(answer), lent


def theorems(root):
    """Each statement of `Unique` in a crate of promises: where it stands, its name, the call that its kinds and its contract are of, and what it names."""
    for path in sorted(glob.glob(os.path.join(root, "crates/promises*/proofs/**/*.antt"), recursive=True)):
        text = open(path, encoding="utf-8").read()
        if not SPEC.search(text):
            continue
        used = {alias: (crate, fn, kind) for crate, fn, kind, alias in USE.findall(text)}
        for name, ps, r, post, seen in STATED.findall(text):
            crate, fn, kind = used.get(post, ("", "", ""))
            right = kind == "Reads" and used.get(ps) == used.get(r) == (crate, fn, "Kinds")
            answers = bool(re.search(r"(?<![\w.])a\b", seen))
            # The place of a lent buffer among the parameters: `x.0` is the first, `x.1.0` the second.
            places = {ones.count(".1") for ones in re.findall(r"\bx((?:\.1)*)\.0\.now\b", seen)}
            yield f"{os.path.relpath(path, root)}: {name}_unique", name, (crate, fn) if right else None, answers, places


def lacking(root):
    known = {call: (answers, lent) for call, answers, lent in calls(root)}
    proved = set()
    bad = []
    for where, name, call, answers, places in theorems(root):
        if call not in known:
            bad.append(f"{where} is over the contract of no public call")
        elif name != call[1].split(".")[-1]:
            bad.append(f"{where} is over the contract of {call[0]}::{call[1]}")
        elif (answers, places) != known[call]:
            bad.append(f"{where} does not name the answer and the buffers that {call[0]}::{call[1]} writes to, and nothing else")
        else:
            proved.add(call)
    bad += [f"{crate}::{fn} has no theorem that its answer is unique" for crate, fn in known if (crate, fn) not in proved]
    return bad, len(known), len(known) - len(proved)


if __name__ == "__main__":
    bad, count, open_ones = lacking(sys.argv[1] if len(sys.argv) > 1 else ".")
    print("\n".join(bad + [f"{count} public calls, {open_ones} whose answer is not proved to be unique"]))
    sys.exit(1 if bad else 0)
