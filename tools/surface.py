#!/usr/bin/env python3
"""surface.py [ROOT]: lists each public function that stands in no module named `inner` and has a `requires`, or has no
`ensures`.

A public call refuses bad input instead of asking its caller to check first, and its contract determines its
answer. Only the layers above call what stands in `inner`. Exit status 1 where there is one."""
import glob
import os
import re
import sys

# A signature with its contract, up to the line that ends in the body's first brace.
FUNCTION = re.compile(r'\bpub (?:extern "C" )?fn (\w+)(.*?)\{(\}?)[ ]*$', re.S | re.M)


def outside_inner(text):
    """The source without comments and without its modules named `inner`, whose closing brace ends their indentation."""
    text = re.sub(r"//[^\n]*", "", text)
    return re.sub(r"(?ms)^( *)pub mod inner \{.*?^\1\}$", "", text)


def demanding(root):
    for path in sorted(glob.glob(os.path.join(root, "crates/*/src/**/*.rt"), recursive=True)):
        parts = os.path.relpath(path, root).split(os.sep)[3:]
        if "inner" in parts or "inner.rt" in parts:
            continue
        for found in FUNCTION.finditer(outside_inner(open(path, encoding="utf-8").read())):
            where = f"{os.path.relpath(path, root)}: {found.group(1)}"
            if re.search(r"\brequires\b", found.group(2)):
                yield f"{where} has a requires"
            # A crate without code has a function that does nothing, and there is nothing to say of it.
            if not found.group(3) and not re.search(r"\bensures\b", found.group(2)):
                yield f"{where} has no ensures"


if __name__ == "__main__":
    found = list(demanding(sys.argv[1] if len(sys.argv) > 1 else "."))
    print("\n".join(found + [f"{len(found)} public functions with a requires or with no ensures"]))
    sys.exit(1 if found else 0)
