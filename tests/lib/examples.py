"""The worked examples of tests/examples.txt, and where each is tested."""
import functools
import glob
import os
import re

from tests.lib.settings import ROOT

FILE = f"{ROOT}/tests/examples.txt"
# A test of a crate, and one that is written here.
OF_CRATE = re.compile(r"^ *#\[test\]\n(?: *#.*\n)* *fn (\w+)", re.M)
OF_FILE = re.compile(r"^ *def test_(\w+)", re.M)


def read(file=FILE):
    """Each example with the names of its tests."""
    with open(file, encoding="utf-8") as lines:
        rows = [line.rpartition(":") for line in lines if line.strip() and not line.startswith("#")]
    return {what: names.split() for what, _, names in rows}


@functools.cache
def places(root=ROOT):
    """Where each name of a test stands: crate/file, kind/file or tests/rows/COMMAND."""
    found = {}
    for path in sorted(glob.glob(f"{root}/tests/rows/*/*/stdin*") + glob.glob(f"{root}/tests/rows/*/*/args")):
        found.setdefault(path.split("/")[-2], {})[f"tests/rows/{path.split('/')[-3]}"] = None
    for path in sorted(glob.glob(f"{root}/crates/*/src/**/*.rt", recursive=True)):
        with open(path, encoding="utf-8") as it:
            for name in OF_CRATE.findall(it.read()):
                found.setdefault(name, {})[f"{path.removeprefix(root + '/crates/').split('/')[0]}/{os.path.basename(path)[:-3]}"] = None
    for path in sorted(glob.glob(f"{root}/tests/*/test_*.py")):
        with open(path, encoding="utf-8") as it:
            for name in OF_FILE.findall(it.read()):
                found.setdefault(name, {})[path.removeprefix(root + "/")] = None
    return found


def faults(file=FILE, root=ROOT):
    """Examples that no test has, and names that no test has, a line each."""
    for what, names in read(file).items():
        if not names:
            yield f"tests/examples.txt: no test has '{what}'"
        yield from (f"tests/examples.txt: no test is named {name}, of '{what}'" for name in names if name not in places(root))


def show():
    """Prints each example with where it is tested, and how many there are. Returns the status."""
    examples, wrong = read(), list(faults())
    for what, names in examples.items():
        print(what)
        for name in names:
            print(f"    {name}: {', '.join(places().get(name, {})) or 'NOWHERE'}")
    print("\n".join([*wrong, f"{len(examples)} examples, {sum(map(len, examples.values()))} tests, {len(wrong)} faults"]))
    return int(bool(wrong))
