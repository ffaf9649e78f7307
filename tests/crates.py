"""The crates of this repository, and copies of it in which one of them is checked beside others."""
import os
import re
import shutil
import tempfile

ROOT = os.path.dirname(os.path.dirname(os.path.realpath(__file__)))


def read(path):
    with open(path, encoding="utf-8") as it:
        return it.read()


def listed():
    """The crates of crates.txt, each with those that it names and that stand here."""
    lines = re.findall(r"^(\w+)(?: \w+)*:(.*)$", re.sub("#.*", "", read(f"{ROOT}/crates.txt")), re.M)
    names = {name for name, _ in lines}
    return {name: names & {*uses.split()} for name, uses in lines}


def below(crate):
    """The crates that stand here and that a crate stands on."""
    uses, found, left = listed(), set(), [crate]
    while left:
        new = uses[left.pop()] - found
        found |= new
        left += new
    return found


def link(one, other):
    """Gives a file that `rt` has kept another name: it replaces such a file, and never writes into one. What it removes is needed no more."""
    try:
        os.link(one, other)
    except FileNotFoundError:
        pass
    except OSError:
        shutil.copy2(one, other)


def copy_for(crate, room):
    """A copy of the repository in a new folder of the room, since `rt` lets no two checks work in one. It begins with what is proved of the
    crate and of the libraries below: others may be proved meanwhile."""
    top = tempfile.mkdtemp(dir=room)
    libraries = {crate} | below(crate)
    for name in listed():
        for part in ("src", "specs", "proofs", *["out/rlib"] * (name in libraries), *["out/incremental"] * (name == crate)):
            folder, how = f"crates/{name}/{part}", link if part.startswith("out") else shutil.copy2
            if os.path.isdir(f"{ROOT}/{folder}"):
                shutil.copytree(f"{ROOT}/{folder}", f"{top}/{folder}", copy_function=how)
    shutil.copy(f"{ROOT}/crates.txt", top)
    # `rt` looks for the top of the repository by this.
    os.mkdir(f"{top}/.git")
    return top
