#!/usr/bin/env python3
"""layers.py [ROOT]: holds crates.txt to the layers that the crates' names show.

The first word of a crate's name is its layer. A crate may name crates of its own layer and of those that stand beside its
layer below, and no others; so theorems about a layer are named from that layer on and no lower, and nothing but a promise
names a promise. A crate without code is called `theory`, `theory_..`, `.._laws`, `promises` or `promises_..`, and no crate
with code is. A static library is called `capi_.._c`, and no other crate is. Prints each break; exit status 1 where there
is one."""
import glob
import os
import re
import sys

# Each layer, and the layers that its crates may name besides their own.
MAY_NAME = {
    "theory": "",
    "egg": "",
    "build": "theory egg",  # build_.. and builder..
    "factor": "theory egg build",
    "enumeration": "theory egg build factor",
    "group": "theory egg build factor",
    "subgroup": "theory egg build factor group",
    "image": "theory egg build factor",
    "names": "theory egg build factor enumeration group image",
    "lists": "theory egg build factor group",
    "listing": "egg build factor enumeration",
    "example": "egg build factor enumeration group subgroup image names lists",
    "capi": "theory egg build factor enumeration group subgroup image names lists",
    "promises": "theory egg build factor enumeration group subgroup image names lists listing capi",
}
# The toolchain's own libraries that a crate may name; std is never named. None is needed.
KIT = set()


def layer(crate):
    first = crate.split("_")[0]
    return "build" if first == "builder" else first


def has_code(root, crate):
    """Whether the crate's source has more than the one function that does nothing, which a crate without code needs."""
    paths = glob.glob(os.path.join(root, "crates", crate, "src/**/*.rt"), recursive=True)
    source = "".join(open(path, encoding="utf-8").read() for path in paths)
    return re.findall(r"\bfn .*", source) != ["fn nothing() {}"]


def breaks(root):
    for line in open(os.path.join(root, "crates.txt"), encoding="utf-8"):
        if line.startswith("#") or ":" not in line:
            continue
        (crate, *kind), named = line.split(":")[0].split(), line.split(":")[1]
        if layer(crate) not in MAY_NAME:
            yield f"{crate}: no layer is called {layer(crate)}"
            continue
        without = layer(crate) in ("theory", "promises") or crate.endswith("_laws")
        if has_code(root, crate) == without:
            yield f"{crate} {'has code' if without else 'has no code'}, and its name says otherwise"
        if ("staticlib" in kind) != (layer(crate) == "capi" and crate.endswith("_c")):
            yield f"{crate} is {'a' if 'staticlib' in kind else 'no'} static library, and its name says otherwise"
        allowed = {layer(crate), *MAY_NAME[layer(crate)].split()}
        for below in named.split():
            if below not in KIT and layer(below) not in allowed:
                yield f"{crate} names {below}, and {layer(crate)} may not name {layer(below)}"


if __name__ == "__main__":
    found = list(breaks(sys.argv[1] if len(sys.argv) > 1 else "."))
    print("\n".join(found + [f"{len(found)} breaks of the layers"]))
    sys.exit(1 if found else 0)
