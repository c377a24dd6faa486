"""What tests/archive and tests/figures.py ask of the kit beside `rt`: the crates of crates.txt, a sum over their text, and the compiler's
words for one of them, over the libraries that stand in crates/NAME/out/rlib. Standard library only.

`tests/kit.py` prints the sum over the text, `tests/kit.py libraries` the sum over the libraries; the gate keeps both in target/proved once
`rt ci` has passed over that very text."""
import glob
import hashlib
import os
import shutil
import sys

KIT = os.path.dirname(os.path.dirname(os.path.realpath(shutil.which("rt") or "rt")))


def crates():
    """Each crate, as crates.txt has it: what it is built as ('staticlib', else ''), and the libraries that it sees."""
    found = {}
    with open("crates.txt", encoding="utf-8") as lines:
        for line in lines:
            head, _, seen = line.split("#")[0].partition(":")
            if head.strip():
                name, *kind = head.split()
                found[name] = ("staticlib" if "staticlib" in kind else "", seen.split())
    return found


def summed(paths):
    said = hashlib.sha256()
    for path in sorted(paths):
        with open(path, "rb") as file:
            said.update(f"{path} {hashlib.sha256(file.read()).hexdigest()}\n".encode())
    return said.hexdigest()


def text():
    """A sum over all that `rt ci` proves: crates.txt, and src, specs and proofs of every crate."""
    found = ["crates.txt"]
    for folder, folders, files in os.walk("crates"):
        if folder.count("/") == 1:
            folders[:] = [it for it in folders if it in ("src", "specs", "proofs")]
        found += [f"{folder}/{it}" for it in files if it.endswith((".rt", ".antt"))]
    return summed(found)


def libraries():
    """A sum over the libraries that stand in crates/NAME/out/rlib."""
    tops = glob.glob("crates/*/out/rlib")
    return summed(f"{folder}/{it}" for top in tops for folder, _, files in os.walk(top) for it in files)


def kept(path):
    """What a file of target/ says, without white space around it; nothing where there is none."""
    if not os.path.isfile(path):
        return ""
    with open(path, encoding="utf-8") as file:
        return file.read().strip()


def below(name, listed):
    """The repository's libraries below a crate, each after those that it uses."""
    found = []

    def add(it):
        for dep in listed[it][1]:
            if dep in listed and dep not in found:
                add(dep)
                found.append(dep)

    add(name)
    return found


def words(verb, name, listed, jobs=2):
    """`rattle check` or `rattle build` of a crate, to be run in its folder. It proves the crate from nothing."""
    kind, seen = listed[name]
    is_program = os.path.isfile(f"crates/{name}/src/main.rt")
    said = [f"{KIT}/bin/rattle", verb, "--crate-name", name, "src/main.rt" if is_program else "src/lib.rt"]
    for it in ["std", *[it for it in seen if it not in listed]]:
        said += ["--extern", f"{it}={KIT}/rlibs/{it}.rlib"]
    said += ["-L", f"dependency={KIT}/rlibs"]
    for it in seen:
        if it in listed:
            said += ["--extern", f"{it}={os.path.abspath(f'crates/{it}/out/rlib/{it}.rlib')}"]
    for it in below(name, listed):
        said += ["-L", f"dependency={os.path.abspath(f'crates/{it}/out/rlib')}"]
    said += ["--antt-project", f"{KIT}/rattle/logic/antt-project.json", "--logic-built", f"{KIT}/logic_built"]
    said += ["--jobs", str(jobs), "--links", f"{name}="]
    if kind:
        said += ["--crate-type", kind]
    if kind and verb == "build":
        said += ["--toolchain", f"{KIT}/toolchain", "--backend", "llvm"]
    return said


if __name__ == "__main__":
    print(libraries() if sys.argv[1:] == ["libraries"] else text())
