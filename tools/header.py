#!/usr/bin/env python3
"""header.py [--check]: writes the prototypes of host/hypergroup.h from the exported functions of the crates.

What stands above and below the two marked lines is kept. Each export of a static library crates/NAME_c gives one
prototype, with the comment that stands over the function of its name in crates/NAME; a slice is a pointer and a length. With --check nothing is written, and the
status is 1 where the header is not what the crates say, or Rust declares a function otherwise than they do."""
import pathlib
import re
import sys
import textwrap

from exports import STATIC

HEADER = pathlib.Path("host/hypergroup.h")
FIRST, LAST = "/* The functions. tools/header.py writes them. */", "/* End of the functions. */"
FUNCTION = re.compile(r'^#\[unsafe\(no_mangle\)\]\npub extern "C" fn (\w+)\((.*?)\)(?: -> (\w+))?\n', re.M | re.S)
# Between the comment and the function may stand what names the laws of its proof.
COMMENT = re.compile(r"((?:^//[^\n]*\n)*)(?:^#\[[^\n]*\n)*^pub fn (\w+)\(", re.M)
NUMBERS = {"usize": "size_t", "u8": "uint8_t", "u16": "uint16_t", "u32": "uint32_t", "u64": "uint64_t", "i32": "int32_t", "i64": "int64_t", "bool": "bool"}
# The files in Rust that declare them, and whether all of them; and the names that stand for types there.
DECLARING = {"host/hypergroup/src/ffi.rs": True, "host/hypergroup/tests/short_out.rs": False}
DECLARED = re.compile(r"^    fn (hg_\w+)\((.*?)\)(?: -> (\w+))?;", re.M | re.S)
SHORT = {"In": "*const u32", "Out": "*mut u32"}
TAKEN = {"new", "class", "this", "delete", "operator", "template"}  # words of C++


def parameter(text):
    name, kind = (part.strip() for part in text.split(":"))
    name += "_" if name in TAKEN else ""
    slice_of = re.fullmatch(r"&(mut )?\[(\w+)\]", kind)
    if not slice_of:
        return [f"{NUMBERS[kind]} {name}"]
    const = "" if slice_of[1] else "const "
    return [f"{const}{NUMBERS[slice_of[2]]} *{name}", f"size_t {name}_len"]


def prototype(comment, name, parameters, answer):
    said = " ".join(line.lstrip("/ ") for line in comment.splitlines())
    listed = [p for text in re.split(r",\s*", parameters.strip(" \n,")) if text for p in parameter(text)]
    lines, line = [], f"{NUMBERS[answer] if answer else 'void'} {name}("
    for i, p in enumerate(listed or ["void"]):
        p += ");" if i + 1 >= len(listed) else ", "
        if len(line + p.rstrip()) > 100:
            lines.append(line.rstrip())
            line = "    "
        line += p
    told = "\n".join(textwrap.wrap(f"/* {said}", 97, subsequent_indent=" * ", break_on_hyphens=False)) + " */\n" if said else ""
    return "\n" + told + "\n".join(lines + [line]) + "\n"


def exported():
    # By name: the order of crates.txt is no reason to move a prototype.
    static = STATIC.findall(pathlib.Path("crates.txt").read_text())
    for crate in sorted(name.removesuffix("_c") for name in static):
        comments = {name: comment for comment, name in COMMENT.findall(pathlib.Path(f"crates/{crate}/src/lib.rt").read_text())}
        found = FUNCTION.findall(pathlib.Path(f"crates/{crate}_c/src/lib.rt").read_text())
        yield crate, [(comments.get(name, ""), name, parameters, answer) for name, parameters, answer in found]


def functions():
    for crate, found in exported():
        yield f"\n/* lib{crate}.a */\n" + "".join(prototype(*f) for f in found)


def types(parameters):
    """The types of parameters in Rust's words, a slice of Rattle's as the two that it is."""
    for kind in (text.split(":")[1].strip() for text in re.split(r",\s*", parameters.strip(" \n,")) if text):
        slice_of = re.fullmatch(r"&(mut )?\[(\w+)\]", kind)
        yield from [f"*{'mut' if slice_of[1] else 'const'} {slice_of[2]}", "usize"] if slice_of else [SHORT.get(kind, kind)]


def misdeclared():
    wanted = {name: (list(types(parameters)), answer) for _, found in exported() for _, name, parameters, answer in found}
    for path, every in DECLARING.items():
        declared = {name: (list(types(parameters)), answer) for name, parameters, answer in DECLARED.findall(pathlib.Path(path).read_text())}
        missing = wanted.keys() - declared.keys() if every else set()
        yield from (f"{path} does not declare {name}" for name in sorted(missing))
        yield from (f"{path} declares {name} otherwise than it is exported" for name, d in declared.items() if d != wanted.get(name))


old = HEADER.read_text()
head, rest = old.split(FIRST)
new = head + FIRST + "\n" + "".join(functions()) + "\n" + LAST + rest.split(LAST)[1]
if "--check" not in sys.argv[1:]:
    HEADER.write_text(new)
else:
    wrong = ["host/hypergroup.h is not what the crates export: run tools/header.py"] * (new != old) + list(misdeclared())
    sys.exit("\n".join(wrong) or None)
