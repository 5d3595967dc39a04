#!/usr/bin/env python3
"""Runs the oracle over the recorded commands and compares its answers.

Prints a line for each file, and last `recorded: N cases agree`; or the first
case that differs, and exits 1. Needs the oracle built (oracle/build.sh). Also
sees that each title in differences.txt has its heading in docs/DIFFERENCES.md.
"""

import sys

from replay import HERE, ORACLE, cases, rust


def check_headings():
    page = (HERE.parent.parent / "docs" / "DIFFERENCES.md").read_text().splitlines()
    for line in (HERE / "differences.txt").read_text().splitlines():
        if line.startswith("# ") and "##" + line not in page:
            sys.exit("docs/DIFFERENCES.md has no heading: " + line[2:])


def main():
    if not ORACLE.exists():
        sys.exit("recorded: the oracle is not built; run oracle/build.sh")
    total = 0
    for path in sorted(HERE.glob("*.txt")):
        recorded = cases(path.read_text().splitlines())
        answers = rust([command for command, _ in recorded])
        count = 0
        for i, (command, lines) in enumerate(recorded):
            want = [line for line in lines if not line.startswith("= ")]
            got = answers[i][1] if i < len(answers) else ["(no answer)"]
            if want != got:
                print("%s: > %s" % (path.name, command))
                print("recorded:", *want, sep="\n  ")
                print("oracle:", *got, sep="\n  ")
                sys.exit(1)
            count += bool(want)
        print("%s: %d" % (path.name, count))
        total += count
    check_headings()
    if not total:
        sys.exit("recorded: no cases")
    print("recorded: %d cases agree" % total)


if __name__ == "__main__":
    main()
