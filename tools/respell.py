#!/usr/bin/env python3
"""Brings this repository's own names to today's spelling, once, after the kit's port.py: words in snake case, types and modules in camel case.

usage: tools/respell.py            at the top of the repository; files are rewritten in place
       tools/respell.py --list     only lists the names that would meet another

A name counts where a file of specs/ or proofs/ declares it: a definition, a lemma, a constructor or a field. In each of its dash-joined parts that does not begin
with a capital, camel case becomes words with underscores, and dashes become underscores; a part that begins with a capital is the name of a type and keeps it.
Names of src/ (functions, types, fields) are in this spelling already, and so are the names of C functions. A name that a file imports from a library stays in it.
Where a lemma would fall together with a definition, the lemma gets `_lem` after its name (the kit's own rule). OTHERWISE has what is settled by hand, and LEMMAS the
names in snake case already, of lemmas, that a definition's new name would meet.
"""
import collections
import os
import re
import sys

TOKEN = re.compile(r"(?<![A-Za-z0-9_'₀-₉-])[A-Za-z][A-Za-z0-9_'₀-₉ᵢ⁺-]*")
DECLARED = re.compile(r"^ *(?:(?:abbrev|unfoldable|pub|data|record|irreducible|instance|constructor|field|ruleset) +)*((?:[A-Za-z][A-Za-z0-9_'₀-₉-]* +)*[A-Za-z][A-Za-z0-9_'₀-₉-]*)(?: +\{[^{}\n]*\})* *:(?!:)", re.M)
ALIAS = re.compile(r"\bas +([A-Za-z][A-Za-z0-9_'-]*)")
USE = re.compile(r"^ *(?:ghost )?(?:pub )?use ([^\s;{]+?)\.?\{([^}]*)\}", re.M)
USE_ONE = re.compile(r"^ *(?:ghost )?(?:pub )?use ([^\s;{]+)\.([^\s.;{}]+)(?: as \S+)?;?$", re.M)
LABEL = re.compile(r"^ *(?:abbrev +)?([A-Za-z][A-Za-z0-9_'-]*) : (?:tie|goal)\.", re.M)
OTHERWISE = {"readBack": "read_step_back"}
LEMMAS = "all_known all_placed back_from below_at has_room in_order inverses_right left_by list_at no_number place_at step_in stored_row told_of too_long".split()


def part(s):
    if not s or s[0].isupper():
        return s
    s = re.sub(r"(?<=[a-z0-9'₀-₉])([A-Z]+)", lambda m: "_" + m[1].lower(), s)
    return s


def turn(name):
    if name in OTHERWISE:
        return OTHERWISE[name]
    return "_".join(part(s) for s in name.split("-"))


def files(root):
    for d, ds, fs in os.walk(os.path.join(root, "crates")):
        ds[:] = sorted(x for x in ds if x != "out")
        for f in sorted(fs):
            yield os.path.join(d, f)


def read(p):
    with open(p, encoding="utf-8") as f:
        return f.read()


def bare(text):
    return re.sub(r"--.*", "", text)


def is_comment(text, at):
    return "--" in text[text.rfind("\n", 0, at) + 1 : at]


def is_proof(p):
    return os.path.basename(p) == "Proof.antt"


def ours(path):
    return path.startswith("Rattle.") and not re.match(r"Rattle\.(std|core|std_\w+|libc|io|os|bytes)\b", path)


def imported(text):
    names = set()
    for m in USE.finditer(text):
        if not ours(m[1]):
            names |= {n.split(" as ")[0].strip() for n in m[2].split(",")}
    for m in USE_ONE.finditer(text):
        if not ours(m[1] + "." + m[2]):
            names.add(m[2])
    return names


def declared(root):
    names = set()
    for p in files(root):
        if not p.endswith(".antt"):
            continue
        text = bare(read(p))
        labels = set(LABEL.findall(text)) if is_proof(p) else set()
        for m in DECLARED.finditer(text):
            for n in m[1].split():
                if n not in labels and not (is_proof(p) and n.endswith("spec")):
                    names.add(n)
    return names


def changes(names):
    """Each name that changes, with its new one. A dashed name, a lemma's, gives way to a definition's."""
    taken = names - {n for n in names if turn(n) != n}
    change = {}
    for n in sorted(n for n in names if turn(n) != n and "-" not in n):
        change[n] = turn(n)
    met = set(change.values()) & set(taken) - set(LEMMAS)
    if met or len(set(change.values())) != len(change):
        print("respell: these definitions would fall together:", sorted(met))
    taken |= set(change.values())
    for n in LEMMAS:
        change[n] = n + "_lem"
        taken.add(n + "_lem")
    for n in sorted(n for n in names if turn(n) != n and "-" in n):
        new = turn(n)
        if new in taken:
            new += "_lem"
        if new in taken:
            print("respell: no name for", n)
        taken.add(new)
        change[n] = new
    return change


def main(argv):
    names = declared(".")
    change = changes(names)
    texts = {p: read(p) for p in files(".")}
    if "--list" in argv:
        seen = collections.defaultdict(set)
        for p, t in texts.items():
            if p.endswith(".antt"):
                for m in TOKEN.finditer(bare(t)):
                    a, b = t[m.start() - 1 : m.start()], ""
                    seen[m[0]].add(p)
        where = collections.defaultdict(list)
        for a, b in change.items():
            where[b].append(a)
        plain = collections.Counter()
        for p, t in texts.items():
            if p.endswith(".antt"):
                t = bare(t)
                for m in TOKEN.finditer(t):
                    before, after = t[m.start() - 1 : m.start()], t[m.end() : m.end() + 1]
                    if before != "." and not (after == "." and "use " in t[t.rfind("\n", 0, m.start()) : m.start()]):
                        plain[m[0]] += 1
        print(len(names), len(change))
        for b, l in sorted(where.items()):
            if len(l) > 1 or plain[b]:
                ex = sorted(seen[b])[:2]
                print(b, plain[b], l, "DECL" if b in names else "", *ex)
        return 0
    changed = 0
    for p, t in texts.items():
        if not p.endswith((".antt", ".rt", ".edit")):
            continue
        stay = imported(t)
        labels = set(LABEL.findall(t)) if is_proof(p) else set()
        def put(m):
            n = m[0]
            if n not in change or n in stay or n in labels:
                return n
            if n in LEMMAS and (not p.endswith(".antt") or t[m.start() - 1 : m.start()] == "." or is_comment(t, m.start()) or t[m.end() : m.end() + 1] == "."):
                return n
            return change[n]

        new = TOKEN.sub(put, t)
        if new != t:
            changed += 1
            with open(p, "w", encoding="utf-8") as f:
                f.write(new)
    pages = ["README.md"] + [os.path.join(d, f) for d, _, fs in os.walk("docs") for f in fs if f.endswith(".md") and not f.startswith("0") and not d.startswith("docs/src")]
    pages += [os.path.join("docs/orders", f) for f in os.listdir("docs/orders")]
    for p in sorted(set(pages)):
        t = read(p)
        new = re.sub(r"`[^`\n]*`", lambda q: TOKEN.sub(lambda m: change.get(m[0], m[0]), q[0]), t)
        if new != t:
            changed += 1
            with open(p, "w", encoding="utf-8") as f:
                f.write(new)
    print(f"respell: {len(change)} names of {len(names)}, {changed} files")
    return 0


if __name__ == "__main__":
    raise SystemExit(main(sys.argv[1:]))
