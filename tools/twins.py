#!/usr/bin/env python3
"""twins.py [COMMIT]: lists, by groups, the functions whose bodies have one shape, that is the same text but for names and numbers.

It goes by the files as they stand, or by those of a commit. A body counts from five lines on. The exports of static libraries do not, since each
repeats its library's function on purpose (tools/exports.py). docs/DESIGN-PASS.md counts twins by it."""
import glob
import re
import subprocess
import sys

from exports import STATIC

FUNCTION = re.compile(r"^( *)(?:pub )?fn (\w+).*?\n\1\{\n(.*?)\n\1\}", re.M | re.S)
KEPT = frozenset("let mut if else while for in return match fn pub as true false Ok Err Some None".split())


def git(*words):
    return subprocess.run(["git", *words], check=True, capture_output=True, text=True).stdout


def sources(commit):
    """Each file of a crate's src/ with its text, but for the static libraries'."""
    read = (lambda path: git("show", f"{commit}:{path}")) if commit else (lambda path: open(path, encoding="utf-8").read())
    paths = git("ls-tree", "-r", "--name-only", commit, "crates").split() if commit else sorted(glob.glob("crates/*/src/**/*.rt", recursive=True))
    static = set(STATIC.findall(read("crates.txt")))
    for path in paths:
        found = re.fullmatch(r"crates/(\w+)/src/.*\.rt", path)
        if found and found.group(1) not in static:
            yield path, re.sub(r"//[^\n]*", "", read(path))


def shape(body):
    """The body with its names numbered as they first appear, every number 0, and one blank for many."""
    names = {}

    def plain(found):
        word = found.group(0)
        if word in KEPT:
            return word
        return "0" if word[0].isdigit() else names.setdefault(word, f"v{len(names)}")

    return " ".join(re.sub(r"[A-Za-z_]\w*|\d+", plain, body).split())


def main(commit=None):
    functions, groups = 0, {}
    for path, text in sources(commit):
        for _, name, body in FUNCTION.findall(text):
            functions += 1
            if body.count("\n") >= 4:
                groups.setdefault(shape(body), []).append(f"{path.removeprefix('crates/').replace('/src', '', 1)} {name}")
    twins = sorted((group for group in groups.values() if len(group) > 1), key=len, reverse=True)
    print(f"{functions} functions; {len(twins)} groups of one shape, {sum(map(len, twins))} functions in them")
    for group in twins:
        print("  ", "; ".join(group))


if __name__ == "__main__":
    main(*sys.argv[1:])
