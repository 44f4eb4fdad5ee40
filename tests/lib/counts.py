"""What tests there are: tests/counts.txt names each file with its parts and its skipped tests, and tests/names.txt each crate, wrong body and row.

A file with fewer parts than it says, or with more skipped tests, has failed; one with more parts wants its new line, in the same commit:
`python3 -m tests KIND --pin` writes the lines of a kind of tests, and `make docs` the names of what lies in folders.
"""
import glob
import os

from tests.lib import examples
from tests.lib.settings import ROOT

FILE, NAMES = f"{ROOT}/tests/counts.txt", f"{ROOT}/tests/names.txt"
HEAD = """# How many parts each file of tests has, and how many of its tests are skipped on the gate's machine. The gate compares them.
# `python3 -m tests KIND --pin` and `make docs` write a kind's lines anew (tests/lib/counts.py).
"""
HEAD_OF_NAMES = """# The crates, their wrong bodies and the rows of inputs and outputs: one that is gone, or that isn't named here, fails the gate.
# `make docs` writes them anew (tests/lib/counts.py).
"""
# Where they lie.
LIE = ["crates/*/src", "crates/*/wrong/*.edit", "crates/*/must-fail/*.edit", "tests/rows/*/*"]


def read(file=FILE):
    """What is pinned: for each kind its names, each with its numbers."""
    found = {}
    with open(file, encoding="utf-8") as lines:
        for line in lines:
            if line.strip() and not line.startswith("#"):
                kind, name, *numbers = line.split()
                found.setdefault(kind, {})[name] = tuple(map(int, numbers))
    return found


def pin(kind, seen, file=FILE):
    """Writes a kind's lines anew, and leaves the others."""
    pinned = read(file) if os.path.exists(file) else {}
    pinned[kind] = seen
    with open(file, "w", encoding="utf-8") as to:
        to.write(HEAD)
        for one, names in sorted(pinned.items()):
            to.writelines(f"{one} {name} {' '.join(map(str, numbers))}\n" for name, numbers in sorted(names.items()))


def lying(root=ROOT):
    """The names of what lies in folders: crates, wrong bodies and rows."""
    return sorted(it.removeprefix(f"{root}/").removesuffix("/src") for pattern in LIE for it in glob.glob(f"{root}/{pattern}"))


def names(file=NAMES):
    """The names that are pinned."""
    with open(file, encoding="utf-8") as lines:
        return [line.strip() for line in lines if line.strip() and not line.startswith("#")]


def pin_names(seen, file=NAMES):
    """Writes the names anew."""
    with open(file, "w", encoding="utf-8") as to:
        to.write(HEAD_OF_NAMES + "".join(f"{it}\n" for it in seen))


def lost(seen, pinned):
    """What lies in folders and isn't pinned, and the other way round, a line each."""
    yield from (f"{it}: it is gone; tests/names.txt names it" for it in sorted({*pinned} - {*seen}))
    yield from (f"{it}: tests/names.txt lacks it: make docs, in the same commit" for it in sorted({*seen} - {*pinned}))


def worked(file=examples.FILE):
    """How many worked examples there are, and how many names of tests they have."""
    found = examples.read(file)
    return {"tests/examples.txt": (len(found), sum(map(len, found.values())))}


def faults(kind, seen, pinned):
    """What differs from what is pinned of a kind, a line each: names that are missing or new, and numbers that are others."""
    for name in sorted({*pinned, *seen}):
        wanted, found = pinned.get(name), seen.get(name)
        if wanted == found:
            continue
        if found is None:
            yield f"{kind}/{name}: it is gone; tests/counts.txt names it with {wanted[0]}"
        elif wanted is None:
            yield f"{kind}/{name}: tests/counts.txt lacks it, with {found[0]}: pin it in the same commit"
        elif found[0] > wanted[0]:
            yield f"{kind}/{name}: {found[0]}, and tests/counts.txt has {wanted[0]}: pin it in the same commit"
        elif found[0] < wanted[0]:
            yield f"{kind}/{name}: {found[0]}, where tests/counts.txt has {wanted[0]}{skips(found, wanted)}"
        else:
            yield f"{kind}/{name}: {found[1]} as its second number, where tests/counts.txt has {wanted[1]}"


def skips(found, wanted):
    """Says that tests were skipped, if more were than is pinned."""
    more = (found[1:] or (0,))[0] - (wanted[1:] or (0,))[0]
    return f"; {more} more of its tests are skipped" if more > 0 else ""
