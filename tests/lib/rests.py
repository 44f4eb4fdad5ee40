"""What the refusal of a wrong body rests on.

A function is proved over the contracts of what it calls, and never over their bodies. So a refusal rests on the toolchain; of the crates below
on all but the bodies of functions and their answers; and of its own crate on the same, and on the bodies and the answers of the functions that
it changes. A wrong body that changes more than bodies, as a constant or a clause, rests on all of its own crate.

Bodies of `const fn`, and macros, are no bodies here: types and contracts may be made of them.
"""
import os
import re

from tests.lib import bodies

MACRO = re.compile(r"(\s*)(?:pub(?:\([a-z]+\))? )?macro_rules! \w+ \{$")


def without_bodies(text):
    """The text of a source without the bodies of its functions."""
    lines, kept = text.split("\n"), 0
    macros = [(at, lines.index(f"{found[1]}}}", at)) for at, line in enumerate(lines) for found in [MACRO.match(line)] if found and f"{found[1]}}}" in lines[at:]]
    left = []
    for name, first, last in sorted(bodies.functions(text), key=lambda it: it[1]):
        head = next(at for at in range(first, -1, -1) if (found := bodies.HEAD.match(lines[at])) and found[2] == name)
        if first < kept or " const fn " in f" {lines[head].strip()}" or any(begin <= first <= end for begin, end in macros):
            continue
        left += lines[kept : first + 1]
        kept = last
    return "\n".join(left + lines[kept:])


def files(folder, parts):
    """The files of a crate, each with its path in it, in one order."""
    for part in parts:
        for at, inside, names in os.walk(f"{folder}/{part}"):
            inside.sort()
            for name in sorted(names):
                yield os.path.relpath(f"{at}/{name}", folder), f"{at}/{name}"


def is_answer(path):
    """Whether a file is of the proof of one function, which no other proof can cite."""
    return path.startswith("proofs/") and path.count("/") > 1


def seen(folder, parts):
    """What crates above see of a crate: its files without answers, and without the bodies of functions."""
    for path, file in files(folder, parts):
        if not is_answer(path):
            with open(file, "rb") as it:
                data = it.read()
            yield path, without_bodies(data.decode(errors="surrogateescape")) if path.endswith(".rt") else data


def changed(sources, spots):
    """The bodies and the answers of the functions that a wrong body changes."""
    for file, name, first, last in sorted(spots):
        yield file, name, sources.text(file).split("\n")[first : last + 1]
        place = os.path.splitext(file.removeprefix("src/"))[0]
        inside = "proofs/" if place in ("lib", "main") else f"proofs/{place}/"
        for path, answers in files(sources.folder, ["proofs"]):
            if path.startswith(inside) and is_answer(path) and os.path.basename(os.path.dirname(path)) == name:
                with open(answers, "rb") as it:
                    yield path, name, it.read()
