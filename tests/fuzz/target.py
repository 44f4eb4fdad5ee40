"""Builds the program unproved for AFL++, which is told each edge that a run takes: out/fuzz/mcserver.

The modules are compiled as `make try FAST=1` does (tools/try.py), with the compiler's coverage of edges, and linked with the runtime of Debian's
package afl++. Where that package isn't installed, or the kit's compiler is another, there is no such program.
"""
import glob
import importlib
import os
import sys

from tests.lib.settings import ROOT

PROGRAM = f"{ROOT}/out/fuzz/mcserver"
RUNTIME = "/usr/lib/afl/afl-compiler-rt.o"
COMPILER = """#!/bin/sh
for word; do
    shift
    case "$word" in
        -fsanitize=address) ;;
        -O0) set -- "$@" -O1 -fsanitize-coverage=trace-pc-guard ;;
        *) set -- "$@" "$word" ;;
    esac
done
exec "{compiler}" "$@"
"""


def is_new():
    """Whether it was built since a source changed."""
    sources = glob.glob(f"{ROOT}/crates/*/src/**/*.rt", recursive=True)
    return os.path.exists(PROGRAM) and all(os.path.getmtime(it) < os.path.getmtime(PROGRAM) for it in sources)


def build():
    """Builds it unless it is there, and returns its path; None where it can't be built so."""
    if not os.path.exists(RUNTIME):
        return None
    if is_new():
        return PROGRAM
    sys.path.insert(0, f"{ROOT}/tools")
    made = importlib.import_module("try")
    made.PROGRAM, made.COMPILER = PROGRAM, COMPILER
    made.LINKER = made.LINKER.replace('"{linker}" "$@" || exit', f'"{{linker}}" "$@" {RUNTIME} || exit')
    return PROGRAM if made.main("--fast") == 0 else None


if __name__ == "__main__":
    sys.exit(0 if build() else 1)
