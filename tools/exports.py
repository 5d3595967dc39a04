#!/usr/bin/env python3
"""exports.py [ROOT]: holds each static library to the library that it exports to C.

A crate is a library or a static library, and an archive exports the marked functions of the static library alone. So the
functions that C calls, their contracts, proofs and theorems stand in a library NAME, and NAME_c over it has one export for
each public function of NAME: with its name, parameters, answer and clauses, in names that come from where NAME has them,
and a body that is the one call. What is proved of the function's contract holds of the export's then, since it is the same.
There is a NAME_c for each line of host/hypergroup/archives.txt, and for no other crate. Prints each break; exit status 1
where there is one."""
import os
import re
import sys

from surface import outside_inner

EXPORT = re.compile(r'^#\[unsafe\(no_mangle\)\]\npub extern "C" fn (\w+)(\(.*?)^\{\n(.*?)^\}$', re.S | re.M)
FUNCTION = re.compile(r"^pub fn (\w+)(\(.*?)^\{$", re.S | re.M)
STATIC = re.compile(r"(?m)^(\w+) staticlib:")
GHOST_USE = re.compile(r"^ghost use ([\w.]+?)(?:\.\{([^}]*)\}| as (\w+));\n", re.M)


def one_line(signature):
    """A signature with its clauses in one layout: `extern "C"` and a longer path may have broken its line."""
    return re.sub(r",? ([)\]])", r"\1", re.sub(r"([(\[]) ", r"\1", " ".join(signature.split())))


def cited(text):
    """Each name that a `ghost use` brings in, with where it comes from."""
    for path, names, alias in GHOST_USE.findall(text):
        yield from ((alias, path),) if alias else ((name.strip(), path) for name in names.split(","))


def breaks(root):
    def read(*parts):
        path = os.path.join(root, *parts)
        return open(path, encoding="utf-8").read() if os.path.isfile(path) else ""

    static = set(STATIC.findall(read("crates.txt")))
    archives = read("host/hypergroup/archives.txt").split()
    for crate in sorted(static ^ {f"{name}_c" for name in archives}):
        yield f"{crate} is {'of no archive' if crate in static else 'no static library'}"
    for name in sorted(name for name in archives if f"{name}_c" in static):
        crate, library = f"{name}_c", read("crates", name, "src/lib.rt")
        text = re.sub(r"(?m)^ *//[^\n]*\n", "", read("crates", crate, "src/lib.rt"))
        wanted = {fn: one_line(said) for fn, said in FUNCTION.findall(outside_inner(library))}
        exported = {fn: (one_line(said), body.strip()) for fn, said, body in EXPORT.findall(text)}
        for fn in sorted(wanted.keys() ^ exported.keys()):
            yield f"{crate} exports {fn}, and {name} has no such function" if fn in exported else f"{crate} does not export {fn}"
        for fn, (said, body) in exported.items():
            given = re.findall(r"(\w+): ", said[: said.index(")")])
            if fn in wanted and said != wanted[fn]:
                yield f"{crate}::{fn} is not declared as {name}::{fn} is"
            if one_line(body) != f"{name}::{fn}({', '.join(given)})":
                yield f"{crate}::{fn} does more than call {name}::{fn}"
        other = {*cited(text)} - {*cited(library)}
        yield from (f"{crate} has {word} from {path}, and {name} has not" for word, path in sorted(other))
        rest = GHOST_USE.sub("", EXPORT.sub("", text)).split()
        if rest != ["#![tactic(auto)]"]:
            yield f"{crate} has more than its exports"
        if "extern" in library or "no_mangle" in library:
            yield f"{name} exports, and only {crate} is to"


if __name__ == "__main__":
    found = list(breaks(sys.argv[1] if len(sys.argv) > 1 else "."))
    print("\n".join(found + [f"{len(found)} breaks of the exports"]))
    sys.exit(1 if found else 0)
