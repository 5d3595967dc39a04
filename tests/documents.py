#!/usr/bin/env python3
"""Every file that README.md or a page of docs/ names exists, alone or in a command; every name in backticks is a word of
the sources, and of the file that is named after it; and every statement that docs/PROMISES.md or a page of docs/promises/ names in a table stands, declared pub,
in the file beside it.

In these pages the last column of every table is `file` and the one before it has the names. A row names one file or
several, then each name stands in one of them. Definitions stand in specs/, statements in proofs/. A row without a file or
without a name, a row that begins with ".." and a row whose file is "the same" are errors: each row is read by itself."""
import glob
import os
import re
import sys

# Names that are none of ours: of the compiler's and the prover's own.
FOREIGN = {"nonnull", "noundef", "noalias", "dereferenceable", "nm", "clang", "overflow_cast-x", "c.if-not-f", "c.in-A.k", "c.in-A.ensures", "c.in_ok-f", "c.in_err-f", "c.in_err-f.field-0.0",
           "returns-in_err-f", "c.from_residual-in_err-f.result"}


def words_of_sources():
    words = set(re.findall(r"\w+", open("crates.txt", encoding="utf-8").read()))
    for root in ("crates", "host", "tests", "tools", "oracle", "docs/src"):
        for folder, folders, files in os.walk(root):
            folders[:] = [f for f in folders if f not in ("target", "out", "__pycache__")]
            words.update(folders)
            for file in files:
                words.update((file, os.path.splitext(file)[0]))
                if file.endswith((".rt", ".antt", ".rs", ".h", ".c", ".py", ".sh", ".edit", ".toml")) or "." not in file:
                    text = open(os.path.join(folder, file), encoding="utf-8").read()
                    words.update(re.findall(r"\w+", text) + re.findall(r"[\w'-]+", text))
    return words


bad, seen, words = [], 0, words_of_sources()
promises = ["docs/PROMISES.md", *sorted(glob.glob("docs/promises/*.md"))]
pages = ["README.md", *sorted(glob.glob("docs/*.md") + glob.glob("docs/orders/*.md")), *promises[1:]]
for page in pages:
    text = open(page, encoding="utf-8").read()
    spans = re.findall(r"`([^`\n]+)`", text)
    named = {path for span in spans for path in re.findall(r"(?<![\w./-])(?:crates/(?!hyp|NAME)|docs/|tests/|tools/|oracle/|host/)[\w./-]*\w", span)}
    # Links are from the folder of the page.
    linked = {os.path.normpath(os.path.join(os.path.dirname(page), to)) for to in re.findall(r"\]\((?!https?:)([^)#]+)", text)}
    for path in sorted(named | linked):
        seen += 1
        if not os.path.exists(path):
            bad.append(f"{page} names {path}, which is not there")
    for name, path in re.findall(r"`([\w-]+)`,? (?:in |of |\()`((?:crates|host|tests)/[\w./-]+\.\w+)`(?=[),.;])", text):
        seen += 1
        if os.path.isfile(path) and name not in re.findall(r"[\w'-]+", open(path, encoding="utf-8").read()):
            bad.append(f"{page}: {name} does not stand in {path}")
    # The documents that decide speak of what is to be built as well.
    if page in ("docs/01-scope.md", "docs/02-change-requests.md"):
        continue
    prose = re.findall(r"`([^`\n]+)`", re.sub(r"(?ms)^ *```.*?^ *```$", "", text))
    for name in {s for s in prose if re.fullmatch(r"[A-Za-z][\w-]*(?:(?:::|\.)[\w-]+)*(?:\(\))?\*?", s)} - FOREIGN:
        for part in re.split(r"::|\.", name.removesuffix("()")):
            seen += 1
            if part not in words and not (part.endswith("*") and any(w.startswith(part[:-1]) for w in words)):
                bad.append(f"{page} names {name}, and {part} stands in no source")


def declared(name, path):
    text = open(path, encoding="utf-8").read() if os.path.isfile(path) else ""
    return re.search(rf"(?m)^ *(?:(?:abbrev|unfoldable) )?pub (?:record |data )?{re.escape(name)}(?=[ :]|$)", text)


for page in promises:
    rows = 0
    for number, line in enumerate(open(page, encoding="utf-8"), 1):
        if not line.startswith("|"):
            rows = 0
            continue
        rows += 1
        where = f"{page}, line {number}"
        # A stroke in a cell is written \|.
        cells = [c.strip() for c in re.split(r"(?<!\\)\|", line.strip())[1:-1]]
        if rows == 1:
            width, folder = len(cells), {"definition": "specs", "statement": "proofs"}.get(cells[-2] if len(cells) > 2 else "")
            if not folder or cells[-1] != "file":
                bad.append(f"{where}: the last columns of this table are not `statement` or `definition`, and `file`")
            continue
        if rows == 2:
            continue
        if len(cells) != width:
            bad.append(f"{where}: {len(cells)} columns where the table has {width}")
            continue
        names = re.findall(r"`([^`]+)`", cells[-2])
        files = re.findall(r"`(crates/[\w./-]+\.antt)`", cells[-1])
        if not names or not files or re.sub(r"`[^`]+`|[, ]", "", cells[-2] + cells[-1]):
            bad.append(f"{where}: a row has names and files, in backticks, with commas between, and nothing else beside its sentence")
        if cells[0].startswith("..") or re.match(r"\(\d(?:, \d)*\) *\.\.", cells[0]):
            bad.append(f"{where}: a row is a sentence of its own")
        for name in names:
            seen += 1
            if not any(declared(name, path) for path in files):
                bad.append(f"{where}: {name} is not declared pub in {' or '.join(files)}")
        for path in files:
            if not any(declared(name, path) for name in names):
                bad.append(f"{where}: none of the names stands in {path}")
            if path.split("/")[2] != folder:
                bad.append(f"{where}: {path} is not in {folder}/")
print("\n".join(bad + [f"{seen} names looked up, {len(bad)} missing"]))
sys.exit(1 if bad else 0)
