#!/usr/bin/env python3
"""Turns a crate's proofs of the older Rattle (a Proof.antt for each function) into today's Invariants.antt and Answers.antt.

usage: tools/turn_proofs.py CRATE NAMES.json COMMIT [FUNCTION ..]

For work that was written before docs/PORT.md: first the kit's port.py and tools/respell.py turn the text, COMMIT is that text, and the crates below prove. In the folder of
the crate `rt check --generated DIR --old-names` writes DIR/names.json: the goals, steps and arms of each function by their older and today's names. Then this, `rt fmt`,
`rt check`; what is printed could not be turned. A function that calls itself is done by hand (its folder is +F, its answers take the measure before c).

What becomes of an answer: `c.before.before.X.f` is `c.STEP.f`, with today's name of the step; `X.given.1` in an arm is `in-VARIANT.is`; `.auto.1.0` names the parameter;
an invariant's `s₀` and `s` are `l.initial.s` and `l.s`. What was only `search rules` is left out, since the check tries that and more.
"""
import json
import os
import re
import subprocess
import sys

NAME = r"[A-Za-z_][A-Za-z0-9_'₀-₉-]*"
STEPS = r"(?:\.[A-Za-z0-9_'₀-₉+-]+)+"
MADE = re.compile(r"\.(Tie|Lts|Reads|Statement|Kinds|Contract)\b")


def git(*words):
    r = subprocess.run(["git", *words], capture_output=True, text=True)
    return r.stdout if r.returncode == 0 else ""


def word(name):
    """A name as it is compared: dashes were underscores in some, and respell.py may have put _lem behind it."""
    return re.sub(r"_lem$", "", name.replace("-", "_").lower())


def stands(name, text):
    if "◌" in name:
        return all(part in text for part in name.split("◌") if part)
    return re.search(rf"(?<![A-Za-z0-9_'₀-₉-]){re.escape(name)}(?![A-Za-z0-9_'₀-₉-])", text) is not None


def parameters(crate, function):
    """The parameters of the function in src/, by their order."""
    modules = [m for m in function.split(".")[:-1] if m[:1].islower()]
    found = []
    for folder, _, files in os.walk(f"crates/{crate}/src"):
        for f in files:
            path = os.path.relpath(os.path.join(folder, f), f"crates/{crate}/src")[:-3].split("/")
            with open(os.path.join(folder, f), encoding="utf-8") as it:
                m = re.search(rf"\bfn {re.escape(function.split('.')[-1])}\s*(?:<[^(]*>)?\(([^)]*)\)", it.read())
            if m:
                here = [x.strip().split(":")[0].replace("mut ", "").strip() for x in m[1].split(",") if ":" in x]
                found.append(((path if path not in (["lib"], ["main"]) else []) != modules, here))
    return min(found)[1] if found else []


class Function:
    def __init__(self, crate, function, made):
        self.crate, self.function, self.made = crate, function, made
        self.said = []
        self.goals = {word(old): new for old, new in made["needs"]}
        self.steps = {}
        for place in made["places"]:
            if place[2][0]:
                self.steps.setdefault(word(place[2][0]), place[2][1])
        self.callees = {place[2][1]: place[3] for place in made["places"] if place[3]}
        self.parts = {}
        for place in made["places"]:
            self.parts.setdefault(place[2][1], {}).update(dict(place[4]))
        self.arms = [(word(step), at, arm[0], field) for arm in made["arms"] if arm for field, step, at in arm[2] if at]
        self.arms.sort(key=lambda a: -len(a[1]))
        self.loops = {}
        for (old, new), _ in made["loops"]:
            self.loops[word(old)] = self.steps[word(old)] = new
            self.steps.setdefault(word(old + "-test"), new + "-test")

    def step(self, name):
        """Today's name of a step, and the word by which its loop is found."""
        if word(name) in self.steps:
            return self.steps[word(name)], word(name)
        m = re.fullmatch(r"(.*?)(\d+)", word(name))
        if m:
            # A name that a fact of the type had first was counted from 2.
            before = m[1] if m[2] == "2" else m[1] + str(int(m[2]) - 1)
            if before in self.steps:
                return self.steps[before], before
        self.said.append(f"no step {name}")
        return name.replace("-", "_"), word(name)

    def path(self, path):
        """What stands behind `c`, by today's names."""
        while path and path[0] == "before":
            path = path[1:]
        path = ["type_inv" if p == "type-inv" else p for p in path]
        if not path:
            return "c"
        if path[0] == "args" and len(path) > 1:
            path[1] = path[1].replace("-", "_")
            own, m = parameters(self.crate, self.function), re.fullmatch(r"t(\d+)", path[1])
            if m and path[1] not in own and 0 < int(m[1]) <= len(own):
                path[1] = own[int(m[1]) - 1]
        elif path[0] not in ("args", "requires", "ranges", "type_inv", "utf8", "loans"):
            for step, at, arm, field in self.arms:
                if step == word(path[0]) and path[1 : 1 + len(at)] == at:
                    return ".".join(["c", arm, field] + path[1 + len(at) :])
            path[0], loop = self.step(path[0])
            own = self.made["params"].get(self.callees.get(path[0]), [])
            if len(path) > 2 and path[1] in ("auto", "new") and path[2] in ("0", "1"):
                at = 2
                while at < len(path) and path[at] == "1":
                    at += 1
                if at < len(path) and path[at] == "0" and at - 2 < len(own):
                    path[2 : at + 1] = [own[at - 2]]
            if len(path) > 1:
                path[1] = self.parts.get(path[0], {}).get(path[1], path[1])
                if loop in self.loops:
                    path[1] = path[1].replace("-", "_")
        return ".".join(["c"] + path)

    def term(self, term):
        """An answer's term: all names of places lead to c."""
        roots = {"c"}
        while True:
            lets = [m for m in re.finditer(rf"let ({NAME}) = ({NAME})((?:\.before)*) in\s*", term) if m[2] in roots]
            if not lets:
                break
            roots.add(lets[0][1])
            term = term[: lets[0].start()] + term[lets[0].end() :]
        any_root = "|".join(re.escape(r) for r in sorted(roots))
        term = re.sub(rf"(?<![A-Za-z0-9_'.-])(?:{any_root}){STEPS}", lambda m: self.path(m[0].split(".")[1:]), term)
        for r in roots - {"c"}:
            term = re.sub(rf"(?<![A-Za-z0-9_'.-]){re.escape(r)}(?![A-Za-z0-9_'.-])", "c", term)
        # `if !x` has the fact about x itself now.
        fact = r"(c\.[A-Za-z0-9_'+-]+)\.(true|false)-raw"
        for form in (rf"\((?:not-true|not-false) _ {fact}\)", rf"(?:not-true|not-false) _ {fact}", rf"(?:not-true|not-false) _ \({fact}\)"):
            term = re.sub(form, r"\1.\2", term)
        return term

    def goal(self, old, label):
        """Today's name of a goal."""
        for name in (word(old), re.sub(r"^(overflow|slice_bounds|bounds|offset_bounds)_", "", word(old)), word(label)):
            if name in self.goals:
                return self.goals[name]
            like = [g for g in self.goals if re.fullmatch(r".*_t\d+", name) and re.fullmatch(re.escape(re.sub(r"\d+$", "", name)) + r"\d+", g)]
            if len(like) == 1:
                return self.goals[like[0]]
        return None

    def turn(self, text):
        """(imports, head, lemmas, invariants, answers) of a Proof.antt."""
        imports, head, lemmas, invariants, answers = [], [], [], [], []
        for block in re.split(r"\n\s*\n", text):
            lines = [l for l in block.split("\n") if l.strip()]
            imports += [l for l in lines if l.startswith("use ")]
            lines = [l for l in lines if not l.startswith("use ")]
            comments, body = [l for l in lines if l.startswith("--")], [l for l in lines if not l.startswith("--")]
            if not body:
                head += comments
                continue
            if re.match(rf"(?:pub )?{NAME}[-_]spec\b", body[0]):
                continue
            m = re.match(rf"(?:abbrev +)?({NAME}) : tie\.(?:Need-)?({NAME})", body[0])
            if not m:
                lemmas.append("\n".join(lines))
                continue
            unfolding = [l for l in body[1:] if l.startswith("unfolding")]
            clause = "\n".join(l for l in body[1:] if not l.startswith("unfolding"))
            it = re.match(rf"{re.escape(m[1])}((?: [^=\s]+)*) =", clause)
            if not it:
                self.said.append(f"no clause of {m[1]}")
                continue
            binds, term = it[1].split(), clause[it.end() :].strip("\n")
            loop = re.fullmatch(r"(invariant|decreases)-(.*)", m[2])
            if body[0].startswith("abbrev"):
                if not loop or word(loop[2]) not in self.loops:
                    self.said.append(f"no loop {m[2]}")
                    continue
                name = f"{loop[1]}-{self.loops[word(loop[2])]}"
                of = lambda x: ("l.initial." + x[:-1] if x.endswith("₀") else "l." + x).replace("-", "_")
                term = re.sub(rf"(?<![A-Za-z0-9_'.-]){NAME}", lambda x: of(x[0]) if x[0] in binds else x[0], term)
                invariants.append("\n".join(comments + [f"abbrev pub {name} : goal.{name}"] + unfolding + [f"{name} l ={term}"]))
                continue
            only_search = term.strip() == "search rules" and not unfolding
            name = self.goal(m[2], m[1])
            if name is None and not only_search:
                self.said.append(f"no goal {m[2]} : {term.strip()[:80]}")
            if name is not None and not only_search:
                takes = [b for b in binds if b != "κs" or "κs" in term]
                answers.append("\n".join(comments + [f"pub {name} : goal.{name}"] + unfolding + [" ".join([name] + takes) + f" ={self.term(term)}"]))
        return imports, head, lemmas, invariants, answers

    def page(self, imports, module, head, parts):
        body, kept = "\n\n".join(parts), []
        for line in imports:
            many, one = re.fullmatch(r"(use \S+\.)\{([^}]*)\}", line), re.search(r" as (\S+)$", line)
            if many and not MADE.search(many[1]):
                names = [n.strip() for n in many[2].split(",") if stands(n.split(" as ")[-1].strip(), body)]
                kept += [many[1] + "{" + ", ".join(names) + "}"] if names else []
            elif one and stands(one[1], body) and f"{one[1]}." in body:
                kept.append(line)
        kept.append(f"use Rattle.{self.crate}.proofs.{self.function}.{module} as goal")
        return "\n".join(head + kept) + "\n\n" + body + "\n"


def main(argv):
    crate, names, commit, only = argv[0], argv[1], argv[2], argv[3:]
    os.chdir(git("rev-parse", "--show-toplevel").strip())
    with open(names, encoding="utf-8") as it:
        made = json.load(it)
    for path in git("ls-tree", "-r", "--name-only", commit, f"crates/{crate}/proofs").split():
        if not path.endswith("/Proof.antt"):
            continue
        folder = os.path.dirname(path)
        function = folder[len(f"crates/{crate}/proofs/") :].replace("/", ".")
        if only and function not in only:
            continue
        key = f"Rattle-{crate}-proofs.{function}.Lts"
        if key not in made:
            print(f"{function}: by hand")
            continue
        f = Function(crate, function, made[key])
        imports, head, lemmas, invariants, answers = f.turn(git("show", f"{commit}:{path}"))
        if os.path.exists(path):
            os.remove(path)
        os.makedirs(folder, exist_ok=True)
        names_of = lambda lemma: re.search(rf"^(?:\w+ )*?({NAME}) :", lemma, re.M)
        if invariants:
            below = [l for l in lemmas if names_of(l) and stands(names_of(l)[1], "\n".join(invariants))]
            with open(f"{folder}/Invariants.antt", "w", encoding="utf-8") as out:
                out.write(f.page(imports, "Given", head, below + invariants))
        if answers:
            with open(f"{folder}/Answers.antt", "w", encoding="utf-8") as out:
                out.write(f.page(imports, "Goals", [] if invariants else head, lemmas + answers))
        for said in f.said:
            print(f"{function}: {said}")
    return 0


if __name__ == "__main__":
    if len(sys.argv) < 4:
        print(__doc__)
        raise SystemExit(2)
    raise SystemExit(main(sys.argv[1:]))
