"""Reading the recorded files, and running a program over their commands."""

import pathlib
import subprocess

from model import LISTS, Refused, single_calls

HERE = pathlib.Path(__file__).resolve().parent
ORACLE = HERE.parent.parent / "oracle" / "target" / "release" / "oracle"


def run(commands, program=(ORACLE, "--echo")):
    """The program's output lines: each command as `> command`, its answer."""
    text = "".join(line + "\n" for line in commands)
    program = [str(p) for p in program]
    done = subprocess.run(program, input=text, capture_output=True, text=True, check=True)
    return done.stdout.splitlines()


def cases(lines):
    """(command, lines of its answer) for each command in a program's output or
    a recorded file; expectations stay among the lines as `= ..`."""
    out = []
    for line in lines:
        if line.startswith("> "):
            out.append((line[2:], []))
        elif not line.startswith("#"):
            out[-1][1].append(line)
    return out


def asked_singly(command):
    """The single calls of a question over lists, and of any other command itself alone; None for lists whose lengths are wrong."""
    if command.split(None, 1)[0] not in LISTS:
        return [command]
    try:
        return single_calls(command)
    except Refused:
        return None


def rust(commands):
    """The oracle's answers, as `cases` gives them. The Rust has no questions over lists, so these are asked place by place: `ok`
    and the answers, or at its place the first that is no number; `unsupported` where there are no places to ask."""
    calls = [asked_singly(command) for command in commands]
    answers = iter(cases(run([call for each in calls for call in each or []])))
    out = []
    for command, each in zip(commands, calls):
        given = [next(answers)[1] for _ in each or []]
        if each == [command]:
            out.append((command, given[0]))
        elif each is None:
            out.append((command, ["unsupported"]))
        else:
            out.append((command, [listed([" ".join(lines) for lines in given])]))
    return out


def listed(answers):
    """What the answers of single calls, in order, come to over a list."""
    for place, answer in enumerate(answers):
        if not answer.isdigit():
            return "at %d %s" % (place, answer)
    return " ".join(["ok", *answers])
