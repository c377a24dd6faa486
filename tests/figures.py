#!/usr/bin/env python3
"""Prints one table of all crates: lines of code, definitions, laws and proofs of functions, edits that must be refused, and the time of a
check in units of one check of `pacing`. Each crate is proved from nothing, by itself, in a copy of the repository: by the kit's compiler,
since `rt check` begins with what earlier checks kept. With --lines nothing is proved. Lines that are blank or only a comment aren't counted;
the time is CPU, so read the ratios. Below it stands what the last `make bench` printed."""
import os
import resource
import shutil
import subprocess
import sys
import tempfile

sys.dont_write_bytecode = True
import kit  # noqa: E402

COLUMNS = ["crate", "code", "definitions", "laws", "proofs", "edits", "check"]


def lines_of(path):
    mark = "//" if path.endswith(".rt") else "--"
    with open(path, encoding="utf-8") as lines:
        return sum(1 for line in lines if line.strip() and not line.strip().startswith(mark))


def counts(crate):
    """Code, definitions, laws, proofs of functions, edits."""
    found = dict.fromkeys(COLUMNS[1:6], 0)
    for folder, folders, files in os.walk(f"crates/{crate}"):
        folders[:] = [it for it in folders if it != "out"]
        for name in files:
            path = os.path.join(folder, name)
            if name.endswith(".edit"):
                found["edits"] += 1
            elif name.endswith(".rt"):
                found["code"] += lines_of(path)
            elif name.endswith(".antt") and "/specs" in folder:
                found["definitions"] += lines_of(path)
            elif name.endswith(".antt") and "/proofs/" in folder:
                found["proofs"] += lines_of(path)
            elif name.endswith(".antt"):
                found["laws"] += lines_of(path)
    return [found[column] for column in COLUMNS[1:6]]


def spent():
    used = resource.getrusage(resource.RUSAGE_CHILDREN)
    return used.ru_utime + used.ru_stime


def times(names):
    """The CPU seconds of each crate's check, what it rests on being proved before it."""
    room, top = tempfile.mkdtemp(), os.getcwd()
    try:
        subprocess.run(["git", "clone", "--quiet", ".", room], check=True)
        os.chdir(room)
        taken, listed = {}, kit.crates()
        # (each behind those that it uses)
        for name in sorted(names, key=lambda it: len(kit.below(it, listed))):
            is_library = not listed[name][0] and os.path.isfile(f"crates/{name}/src/lib.rt")
            os.makedirs(f"crates/{name}/out/rlib")
            words = kit.words("build" if is_library else "check", name, listed)
            words += ["-o", f"out/rlib/{name}.rlib"] if is_library else []
            before = spent()
            said = subprocess.run(words, cwd=f"crates/{name}", capture_output=True, text=True, check=False)
            if said.returncode != 0:
                sys.exit(f"figures: {name} is not proved\n{said.stdout[-2000:]}")
            taken[name] = spent() - before
            print(f"figures: {name} {taken[name]:.1f} s", file=sys.stderr)
        return taken
    finally:
        os.chdir(top)
        shutil.rmtree(room)


def benchmark():
    """What differential/bench.sh keeps."""
    print()
    if not os.path.exists("target/bench.txt"):
        print("No benchmark yet: make bench")
        return
    with open("target/bench.txt", encoding="utf-8") as lines:
        for line in lines:
            print(("    " + line).rstrip())


def main():
    os.chdir(os.path.join(os.path.dirname(os.path.abspath(__file__)), ".."))
    names = list(kit.crates())
    taken = {} if "--lines" in sys.argv else times(names)
    rows, total = [], [0] * 5
    for name in names:
        numbers = counts(name)
        total = [a + b for a, b in zip(total, numbers)]
        unit = f"{taken[name] / taken['pacing']:.1f}" if taken else ""
        rows.append([f"`{name}`", *numbers, unit])
    whole = f"{sum(taken.values()) / taken['pacing']:.0f}" if taken else ""
    rows.append(["all", *total, whole])
    print("| " + " | ".join(COLUMNS) + " |")
    print("|" + "---|" * len(COLUMNS))
    for row in rows:
        print("| " + " | ".join(f"{cell:,}" if isinstance(cell, int) else cell for cell in row) + " |")
    benchmark()


main()
