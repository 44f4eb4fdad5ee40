"""Compares the instructions of a request over TCP with those of tests/instructions.txt: `python3 -m tests.instructions [--pin] [--requests N]`

They are counted by bench/instructions.py on the proved program, whose clock stands. One that takes more by a fiftieth has failed; where one takes as
much less, --pin writes the new ones. They are those of one compiler and one C library, so they are no part of the gate.
"""
import os
import re
import subprocess
import sys

from tests.lib import settings

FILE = f"{settings.ROOT}/tests/instructions.txt"
HEAD = "# The instructions of a request over TCP (bench/instructions.py --now 1000), on the proved program. `python3 -m tests.instructions --pin` writes them.\n"
# By so much of a count it may differ.
PART = 0.02
ROW = re.compile(r"\| (\D.*?) \| ([\d,]+) \|")


def read():
    """The stored counts by what is asked for."""
    with open(FILE, encoding="utf-8") as lines:
        rows = [line.rpartition(":") for line in lines if line.strip() and not line.startswith("#")]
    return {name: int(count) for name, _, count in rows}


def counted(options):
    """What bench/instructions.py counts."""
    words = [sys.executable, "bench/instructions.py", "--now", "1000", "--program", settings.program(), *options]
    said = subprocess.run(words, cwd=settings.ROOT, stdout=subprocess.PIPE, text=True, check=True).stdout
    return {name: int(count.replace(",", "")) for name, count in ROW.findall(said)}


def faults(stored, found):
    """What differs by more than it may, a line each."""
    for name in sorted({*stored, *found}):
        if name not in found or name not in stored:
            yield f"{name}: stored {stored.get(name)}, counted {found.get(name)}"
        elif abs(found[name] - stored[name]) > PART * stored[name]:
            yield f"{name}: {found[name]:,} instructions, stored {stored[name]:,}"


def main(words):
    found = counted([it for it in words if it != "--pin"])
    if "--pin" in words:
        with open(FILE, "w", encoding="utf-8") as to:
            to.write(HEAD + "".join(f"{name}: {count}\n" for name, count in found.items()))
    if not os.path.exists(FILE):
        print(f"there is no {FILE}: --pin writes it, of the proved program")
    stored = read() if os.path.exists(FILE) else {}
    wrong = list(faults(stored, found))
    print("\n".join([*(f"{name}: {count:,}" for name, count in found.items()), *(f"FAILED {it}" for it in wrong)]))
    print(f"{len(found) - len(wrong)} passed, {len(wrong)} failed")
    return int(bool(wrong) or not found)


if __name__ == "__main__":
    sys.exit(main(sys.argv[1:]))
