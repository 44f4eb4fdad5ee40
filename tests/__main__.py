"""Runs the tests of one kind, which is a folder here:

    python3 -m tests protocol|sockets|history|refusals|interop|standin [-k WORD] [-p FILE] [-f]
    python3 -m tests KIND [-p FILE] --pin
    python3 -m tests rows --list

The options are those of `python3 -m unittest discover`, which runs the same tests: -k takes those in whose name the word is, -p the
files of a name, -f ends at the first failure. Without options the parts of each file are compared with tests/counts.txt, if it has the
kind; --pin writes them there, of all files or of those that were run. The last form tells where each worked example of tests/examples.txt
is tested. What the environment may change is in lib/settings.py. The last line is `N passed, N failed, N skipped`; the status is 0 where
something passed and nothing failed.
"""
import importlib
import os
import signal
import sys
import unittest

from tests.lib import beside, counts, examples, settings
from tests.lib.result import Runner, name_of
from tests.lib.settings import NAMES, ROOT

KINDS = ["protocol", "sockets", "history", "refusals", "interop", "standin"]


def run(kind, options=(), left_out=()):
    """Runs the tests of a kind but for those of some files, and gives unittest's result."""
    # where it was started behind `&` in a script SIGINT is ignored, and what it starts would ignore it, too
    signal.signal(signal.SIGINT, signal.default_int_handler)
    words = ["python3 -m tests", "discover", "-s", f"{ROOT}/tests/{kind}", "-t", ROOT, *options]
    return unittest.main(None, argv=words, testRunner=Runner, testLoader=beside.Others(left_out), exit=False).result


def run_all(kind):
    """Runs all tests of a kind, at first those of the files that may run beside one another. Gives the result, and the lines of skipped tests."""
    files = getattr(importlib.import_module(f"tests.{kind}"), "BESIDE", [])
    others = beside.run(kind, files)
    result = run(kind, left_out=files)
    for file, (passed, failed, skipped) in others.items():
        result.add_file(file, passed, failed, len(skipped))
    return result, [line for _, _, lines in others.values() for line in lines]


def compared(kind, result):
    """Compares the parts of each file with what is pinned, prints what differs, and gives how much that is."""
    pinned = counts.read().get(kind)
    found = list(counts.faults(kind, result.by_file(), pinned)) if pinned else []
    for line in found:
        print(f"FAILED {line}", flush=True)
    return len(found)


def main(words):
    if words == ["rows", "--list"]:
        return examples.show()
    if not words or words[0] not in KINDS:
        print(__doc__, end="")
        return 2
    os.chdir(ROOT)
    kind, options = words[0], words[1:]
    is_all = options in ([], ["--pin"])
    settings.is_whole = is_all or "--beside" in options
    result, skipped = run_all(kind) if is_all else (run(kind, [it for it in options if it not in ("--pin", "--beside")]), [])
    if "--pin" in options and result.wasSuccessful():
        # (of a run of some files the lines of the others stay)
        others = counts.read().get(kind, {}) if options != ["--pin"] else {}
        counts.pin(kind, {**others, **result.by_file()})
    # another program or other numbers have other parts
    is_whole = not options and not any(os.environ.get(name) for name in NAMES if name != "LONGEST")
    failed = result.failed + (compared(kind, result) if is_whole else 0)
    skipped += [f"skipped {name_of(test)}: {reason}" for test, reason in result.skipped]
    print("\n".join([*skipped, f"{result.passed} passed, {failed} failed, {len(skipped)} skipped"]), flush=True)
    return 0 if result.wasSuccessful() and not failed else 1


if __name__ == "__main__":
    sys.exit(main(sys.argv[1:]))
