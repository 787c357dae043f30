#!/usr/bin/env python3
"""Reads crates.txt, in which a crate stands behind those that it stands on.

    .ci/crates.py above CRATE ..          prints these crates and those that stand on them, in the order of crates.txt
    .ci/crates.py below CRATE ..          the crates that these stand on, without them; `needed`: with them
    .ci/crates.py room FOLDER CRATE ..    makes a folder a tree of these crates alone, for an `rt ci` of its own
    .ci/crates.py jobs                    prints how many checks `rt ci` may make at a time, if it need not find that out
    .ci/crates.py check CRATE [FUNCTION ..]
                                          checks a crate, or these functions of it, over the libraries that ./verify left in this
                                          tree, and keeps what it proved in out/checked
"""
import os
import re
import shutil
import subprocess
import sys

TOP = os.path.normpath(f"{os.path.dirname(os.path.abspath(__file__))}/..")
# What of a crate a check or a run reads.
READ = ("src", "specs", "proofs", "data", "args", "stdin", "stdout", "status")
# The parts, each a title with its crates, and each crate's line by its name. (The first comment says what the file is.)
PARTS, LINES = [], {}
with open(f"{TOP}/crates.txt", encoding="utf-8") as lines:
    for number, line in enumerate(lines):
        if number and line.startswith("# "):
            PARTS.append((line[2:].strip(), []))
        elif line := line.partition("#")[0].strip():
            name = line.partition(":")[0].split()[0]
            LINES[name] = line
            if PARTS:
                PARTS[-1][1].append(name)


def libraries():
    """Returns the libraries that each crate's line names, by the crate's name."""
    return {name: line.partition(":")[2].split() for name, line in LINES.items()}


def below(names):
    """Returns the crates that these stand on, without them, lowest first."""
    found = set()
    for crate, named in reversed(libraries().items()):
        found.update(named if crate in names or crate in found else ())
    return [it for it in LINES if it in found and it not in names]


def above(names):
    """Returns these crates and those that stand on them, in order."""
    found = {*names}
    for crate, named in libraries().items():
        found.update([crate] if found.intersection(named) else [])
    return [it for it in LINES if it in found]


def check_words(crate, room, jobs=1):
    """Returns the command that checks a crate in its folder, over the libraries that lie in this room."""
    kit = os.path.dirname(subprocess.run(["rt", "doc"], stdout=subprocess.PIPE, check=True, text=True).stdout.strip())
    named, root = libraries()[crate], "lib" if os.path.exists(f"{TOP}/crates/{crate}/src/lib.rt") else "main"
    words = [f"{kit}/bin/rattle", "check", "--crate-name", crate, f"src/{root}.rt", "-L", f"dependency={kit}/rlibs"]
    for name in ["std", *(it for it in named if it not in LINES)]:
        words += ["--extern", f"{name}={kit}/rlibs/{name}.rlib"]
    for name in below([crate]):
        made = f"{room}/crates/{name}/out/rlib"
        words += ["-L", f"dependency={made}"] + ["--extern", f"{name}={made}/{name}.rlib"] * (name in named)
    return [*words, "--antt-project", f"{kit}/rattle/logic/antt-project.json", "--logic-built", f"{kit}/logic_built", "--jobs", str(jobs)]


def check(crate, functions):
    """Checks a crate, or these functions of it, and returns how that ended."""
    lost = [it for it in below([crate]) if not os.path.exists(f"{TOP}/crates/{it}/out/rlib/{it}.rlib")]
    if lost:
        raise SystemExit(f"crates.py: the library of {lost[0]} isn't in this tree: ./verify, or rt ci, makes it")
    only = [it for name in functions for it in ("--only", name)]
    os.makedirs(kept := f"{TOP}/out/checked/{crate}", exist_ok=True)
    words = [*check_words(crate, TOP, os.cpu_count()), *only, "--incremental", kept]
    return subprocess.run(words, cwd=f"{TOP}/crates/{crate}", check=False).returncode


def jobs():
    """Returns how many checks `rt ci` may make at a time, or '': it takes a check to want twice the memory that it does."""
    with open("/proc/meminfo", encoding="ascii") as it:
        free = int(re.search(r"MemAvailable: *(\d+)", it.read())[1])
    return os.environ.get("RT_JOBS") or (os.cpu_count() if free >= 4_000_000 * os.cpu_count() else "")


def make_room(folder, names):
    """Makes a folder a tree of these crates alone."""
    os.makedirs(f"{folder}/crates")
    shutil.copy(f"{TOP}/HANDLES", folder)
    with open(f"{folder}/crates.txt", "w", encoding="utf-8") as it:
        it.writelines(f"{LINES[name]}\n" for name in LINES if name in names)
    for name in names:
        os.mkdir(f"{folder}/crates/{name}")
        for part in READ:
            path = f"{TOP}/crates/{name}/{part}"
            if os.path.exists(path):
                (shutil.copytree if os.path.isdir(path) else shutil.copy)(path, f"{folder}/crates/{name}/{part}")


def main(words):
    way, *names = words or [""]
    if way == "check" and names and names[0] in LINES:
        return check(names[0], names[1:])
    if words == ["jobs"]:
        print(jobs())
        return 0
    folder = names.pop(0) if way == "room" and names else ""
    ways = {"above": above, "below": below, "needed": lambda it: [*below(it), *it], "room": lambda it: make_room(folder, it)}
    lost = [it for it in names if it not in LINES]
    if way not in ways or not names or lost:
        print(f"crates.py: crates.txt has no crate {lost[0]}" if lost else __doc__, file=sys.stderr)
        return 2
    for name in ways[way](names) or ():
        print(name)
    return 0


if __name__ == "__main__":
    sys.exit(main(sys.argv[1:]))
