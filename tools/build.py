#!/usr/bin/env python3
"""build.py archives: target/staticlib/libNAME.a for each NAME of host/hypergroup/archives.txt, and libhypergroup.a beside them.
build.py archives TARGET FOLDER: the same for another processor (tools/here.sh), once those are made.
build.py listing: the listing program, crates/listing/out/listing.
build.py noted: what an `rt ci` that passed has left here (tests/run).

What has not changed is not proved and not compiled again. `rt ci` proves each crate from nothing and leaves in its out/ the
library for the crates above it, with its statements and its code, but without the note by which rt's other commands would
take it: they would prove it a second time. So `noted` writes into target/ci what `rt ci` proved and what it left, and where
nothing of that has changed since the archives are compiled over it, as many at a time as there are processors. Else `rt lib`
and `rt run` make what is wanted, and prove what is new first. Says on standard error how far it is."""
import contextlib
import fcntl
import filecmp
import hashlib
import json
import os
import re
import shutil
import subprocess
import sys
import time
from concurrent.futures import ThreadPoolExecutor

BEGAN, BEGAN_NS = time.time(), time.time_ns()
NOTE, LOG = "target/ci", "target/rt.log"


def say(text):
    took = int(time.time() - BEGAN)
    print(f"{took // 60:3}:{took % 60:02}  {text}", file=sys.stderr, flush=True)


def read(path):
    with open(path, encoding="utf-8") as it:
        return it.read()


def sum_of(*paths):
    found = hashlib.sha256()
    for path in paths:
        with open(path, "rb") as it:
            found.update(repr((path, it.read())).encode())
    return found.hexdigest()


def lines():
    """The lines of crates.txt, by crate."""
    found = [line.partition("#")[0] for line in read("crates.txt").splitlines()]
    return {re.match(r"\w+", line)[0]: line for line in found if ":" in line}


def listed():
    """The crates of crates.txt, each with the libraries that it names."""
    return {name: line.partition(":")[2].split() for name, line in lines().items()}


def below(*names):
    """These crates and all those that they stand on, lowest first."""
    crates, found = listed(), []

    def visit(name):
        if name in crates and name not in found:
            for one in crates[name]:
                visit(one)
            found.append(name)

    for name in names:
        visit(name)
    return found


def kit():
    """The toolchain's folder."""
    return os.path.dirname(subprocess.run(["rt", "doc"], stdout=subprocess.PIPE, text=True, check=True).stdout.strip())


def sources(names):
    """For each crate a sum of what its proof reads: its files, and what crates.txt says of it."""
    with_kit, found = subprocess.run(["rt", "version"], stdout=subprocess.PIPE, check=True).stdout, {}
    said = lines()
    for name in names:
        walked = (at for part in ("src", "specs", "proofs") for at in os.walk(f"crates/{name}/{part}"))
        files = sorted(f"{at}/{file}" for at, _, some in walked for file in some)
        found[name] = hashlib.sha256(repr((with_kit, said[name], sum_of(*files))).encode()).hexdigest()
    return found


def left(name):
    """A sum of what lies in the crate's out/ for those above it, or of the program; None where rt's other commands have made it, which look after it."""
    out = f"crates/{name}/out"
    if os.path.exists(f"{out}/rlib/stamp") or os.path.exists(f"{out}/{name}.stamp"):
        return None
    return sum_of(*(path for path in (f"{out}/rlib/{name}.rlib/format", f"{out}/{name}") if os.path.isfile(path)))


def noted():
    names = below(*listed())
    sums = sources(names)
    os.makedirs("target", exist_ok=True)
    with open(f"{NOTE}.new", "w", encoding="utf-8") as it:
        json.dump({name: [sums[name], left(name)] for name in names}, it, indent=0)
    os.replace(f"{NOTE}.new", NOTE)


def by_ci(names):
    """Whether an `rt ci` that passed proved just this of these crates, and what it left of them is still there."""
    try:
        note = json.loads(read(NOTE))
    except (OSError, ValueError):
        return False
    sums = sources(names)
    return all(left(name) is not None and note.get(name) == [sums[name], left(name)] for name in names)


@contextlib.contextmanager
def held(*folders, who=None):
    """Keeps others out of these folders: who, our own, which write in target/; or else rt, which locks each crate's folder that it works in."""
    locks = [os.open(folder, os.O_RDONLY) for folder in folders]
    try:
        for folder, lock in zip(folders, locks):
            how = fcntl.LOCK_EX if who else fcntl.LOCK_SH
            try:
                fcntl.flock(lock, how | fcntl.LOCK_NB)
            except BlockingIOError:
                say(f"{who}: another build is at work in target/; this one waits until it has ended" if who else f"waiting for rt to end in {folder}")
                fcntl.flock(lock, how)
        yield
    finally:
        for lock in locks:
            os.close(lock)


def following(*words, crate):
    """Runs a command of rt in the crate's folder, shows which crate it is at, and where it fails what it said. Returns what it said, or None."""
    said = []
    how = {"cwd": f"crates/{crate}", "stdin": subprocess.DEVNULL, "stdout": subprocess.PIPE, "stderr": subprocess.STDOUT, "text": True, "errors": "replace"}
    with subprocess.Popen(words, **how) as ran, open(LOG, "w", encoding="utf-8") as log:
        for line in ran.stdout:
            said.append(line)
            log.write(line)
            at = re.match(r"rt: chose --jobs \d+ for (\w+)$|rt: (.*waiting for.*)$", line)
            if at:
                say(at[1] or at[2])
    # Of a program the status is its own.
    if ran.returncode == 0 or any(line.startswith("rt: running ") for line in said):
        return said
    quiet = re.compile(r"fn .*: proved$|statements |library |crate |logic |axioms |rt: chose ")
    print(*[line.rstrip() for line in said if not quiet.match(line)][-40:], sep="\n", file=sys.stderr)
    return None


def compiled(name, target=None):
    """Compiles a crate's archive as rt does, over the libraries that lie in out/, and returns whether that went well. The crate itself, which has calls
    alone, is proved again with it."""
    home, top, archive = kit(), os.getcwd(), f"out/lib{name}.{target}.a" if target else f"out/lib{name}.a"
    words = [f"{home}/bin/rattle", "build", "--crate-name", name, "src/lib.rt", "--crate-type", "staticlib", "--links", f"{name}=", "-o", archive]
    for one in listed()[name]:
        words += ["--extern", f"{one}={top}/crates/{one}/out/rlib/{one}.rlib"]
    for one in below(name)[:-1]:
        words += ["-L", f"dependency={top}/crates/{one}/out/rlib"]
    words += ["--extern", f"std={home}/rlibs/std.rlib", "-L", f"dependency={home}/rlibs", "--logic-built", f"{home}/logic_built"]
    words += ["--antt-project", f"{home}/rattle/logic/antt-project.json", "--toolchain", f"{home}/toolchain", "--backend", "llvm"]
    words += ["--target", target] if target else []
    os.makedirs(f"crates/{name}/out", exist_ok=True)
    ran = subprocess.run(words, cwd=f"crates/{name}", stdin=subprocess.DEVNULL, stdout=subprocess.PIPE, stderr=subprocess.STDOUT, text=True, errors="replace")
    if ran.returncode:
        print(ran.stdout[-4000:], file=sys.stderr)
    return ran.returncode == 0


def put(made, place):
    """One that is the same stays, so that cargo has nothing to link again."""
    if not os.path.exists(place) or not filecmp.cmp(made, place, shallow=False):
        shutil.copyfile(made, f"{place}.new")
        os.replace(f"{place}.new", place)


def archives(target=None, folder="target/staticlib"):
    names = read("host/hypergroup/archives.txt").split()
    standing = below(*[f"{name}_c" for name in names])
    sums = sources(standing)
    os.makedirs(f"{folder}/made", exist_ok=True)
    # What an archive is made from: nothing but that is in it.
    wanted = {name: hashlib.sha256(repr((target, [(it, sums[it]) for it in below(f"{name}_c")])).encode()).hexdigest() for name in names}
    stands = lambda name: os.path.exists(f"{folder}/lib{name}.a") and os.path.exists(f"{folder}/made/{name}") and read(f"{folder}/made/{name}") == wanted[name]
    new = [name for name in names if not stands(name)]

    def finished(name):
        crate = f"{name}_c"
        put(f"crates/{crate}/out/lib{crate}.{target}.a" if target else f"crates/{crate}/out/lib{crate}.a", f"{folder}/lib{name}.a")
        with open(f"{folder}/made/{name}", "w", encoding="utf-8") as it:
            it.write(wanted[name])
        say(f"compiled  lib{name}.a")

    def over_libraries():
        say(f"compiling {len(new)} archives over what is proved here")
        with ThreadPoolExecutor(len(os.sched_getaffinity(0))) as pool:
            return all(pool.map(lambda name: compiled(f"{name}_c", target) and not finished(name), new))

    crates = [f"crates/{name}" for name in standing]
    with held(*crates):
        is_of_ci = bool(new) and by_ci(standing)
        if is_of_ci and not over_libraries():
            return 1
    if new and not is_of_ci:
        say(f"proving what is new of the {len(standing)} crates of the library; from nothing that takes long")
        for name in new:
            if following("rt", "lib", crate=f"{name}_c") is None:
                return 1
            if not target:
                finished(name)
        with held(*crates):
            if target and not over_libraries():
                return 1
    # Each archive is one object, named as its crate, in which all but the exported functions have local names.
    whole = f"{folder}/made/libhypergroup.a"
    with contextlib.suppress(FileNotFoundError):
        os.remove(whole)
    words = ["qcsL", whole, *[f"{folder}/lib{name}.a" for name in names]]
    subprocess.run([f"{kit()}/toolchain/bin/llvm-ar", *words], check=True)
    put(whole, f"{folder}/libhypergroup.a")
    # For host/hypergroup/build.rs: the crates whose sources are in the archives, and since when a change of them is not.
    with open(f"{folder}/proved", "w", encoding="utf-8") as it:
        print(BEGAN_NS, *standing, sep="\n", file=it)
    say(f"all proved and compiled; {folder}/libhypergroup.a has every function")
    return 0


def listing():
    if by_ci(below("listing")):
        return 0
    if not os.path.exists("crates/listing/out/listing.stamp"):
        say("list: proving and building the program first; from nothing that takes some minutes")
    return 0 if following("rt", "run", crate="listing") is not None else 1


def main(what="", *words):
    os.chdir(os.path.join(os.path.dirname(os.path.abspath(__file__)), ".."))
    call = {"archives": archives, "listing": listing, "noted": noted}.get(what)
    if not call or len(words) not in ((0, 2) if what == "archives" else (0,)):
        sys.exit(__doc__)
    if not shutil.which("rt"):
        sys.exit(f"{what}: there is no rt, the Rattle toolchain, on this PATH; it proves the library and compiles it")
    os.makedirs("target", exist_ok=True)
    with held(".", who=what):
        return call(*words)


if __name__ == "__main__":
    sys.exit(main(*sys.argv[1:]))
