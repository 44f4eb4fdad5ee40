"""The judge of wrong bodies finds what is wrong with some: one that is right, one that isn't read, one of a function that isn't there.

They are of a small crate of its own, which the toolchain checks. (No part of the gate.)
"""
import contextlib
import io
import os
import shutil
import subprocess
import tempfile
import threading
import time
import unittest
from unittest import mock

from tests import wrong
from tests.lib import kit

CODE = """#![tactic(auto)]
//! Small sums.

ghost use Rattle.std.specs.Prelude.{◌≡◌, ◌+◌, ◌<◌};

/// Returns the number behind another.
pub fn next(number: u32) -> u32
    requires { number < 1000 }
    ensures { result ≡ number + 1 }
{
    number + 1
}

/// Returns twice a number.
pub fn twice(number: u32) -> u32
    requires { number < 1000 }
    ensures { result ≡ number + number }
{
    number + number
}

/// Returns a number and four.
pub const fn four_more(number: u32) -> u32
    requires { number < 1000 }
    ensures { result ≡ number + 4 }
{
    number + 4
}

/// Returns the number behind the one behind another.
pub fn behind_next(number: u32) -> u32
    requires { number < 900 }
    ensures { result ≡ number + 1 + 1 }
{
    let behind = next(number);
    next(behind)
}
"""
ABOVE = """#![tactic(auto)]
//! Sums of sums.

ghost use Rattle.std.specs.Prelude.{◌≡◌, ◌+◌, ◌<◌};

use mc_sums::next;

/// Returns the number behind the one behind another.
pub fn next_but_one(number: u32) -> u32
    requires { number < 900 }
    ensures { result ≡ number + 1 + 1 }
{
    next(number + 1)
}
"""
# Each wrong body: the function that it names, what it changes, and what must be said of it.
BODIES = {
    "one_too_many": ("next", "    number + 1", "    number + 2", "refused: src/lib.rt"),
    "the_same_by_another_name": ("twice", "    number + number", "    let both = number + number; both", "FAILED: STILL PROVED"),
    "no_number": ("four_more", "    number + 4", "    number + true", "FAILED: it can't be read: src/lib.rt"),
    "of_no_function": ("five_more", "    next(behind)", "    next(behind) + 1", "FAILED: there is no function"),
    "in_what_calls_a_wrong_one": ("behind_next", "    let behind = next(number);", "    let it = number; let behind = next(it);", "FAILED: "),
    "of_no_text": ("next", "    number + 7", "    number + 8", "FAILED: an 'old:' text stands in src/lib.rt 0 times"),
}
# Changes of the first crate: the file, the text, the new text, and the crates whose wrong bodies aren't judged again.
CHANGES = {
    "a body of another function": ("src/lib.rt", "    number + number\n}", "    number * 2\n}", {"mc_sums", "mc_doubles"}),
    "lines of another body": ("src/lib.rt", "    next(behind)\n", "    let last = next(behind);\n    last\n", {"mc_sums", "mc_doubles"}),
    "the body that is changed": ("src/lib.rt", "    number + 1\n}", "    1 + number\n}", {"mc_doubles"}),
    "answers of another function": ("proofs/twice/Answers.antt", "two", "three", {"mc_sums", "mc_doubles"}),
    "answers of the function": ("proofs/next/Answers.antt", "one", "three", {"mc_doubles"}),
    "a clause": ("src/lib.rt", "result ≡ number + number", "result ≡ number * 2", set()),
    "a signature": ("src/lib.rt", "pub fn twice(number: u32)", "pub fn twice(it: u32)", set()),
    "an item": ("src/lib.rt", "//! Small sums.\n", "//! Small sums.\n\nconst MOST: u32 = 7;\n", set()),
    "a body of a const fn": ("src/lib.rt", "    number + 4\n}", "    4 + number\n}", set()),
    "a line of crates.txt": ("../../crates.txt", "mc_sums:", "mc_sums: itoa", set()),
}
# A prover that refuses each function that it is asked for. Where a text adds 5 it gives no verdict, and what it starts keeps its output open.
PROVER = """#!/bin/sh
if grep -q 'number + 5' src/lib.rt; then
    sleep 600 &
    sleep 600
fi
while test $# -gt 0; do
    test "$1" = --only && printf 'note: src/lib.rt:1:1: a goal is not proved (`returns`)\\nfn %s: not proved\\n' "$2"
    shift
done
echo logic=not-proved
exit 1
"""
# One that proves each function that it is asked for, and any crate.
BELIEVER = """#!/bin/sh
while test $# -gt 0; do
    test "$1" = --only && echo "fn $2: proved"
    shift
done
echo logic=proved
"""
# Bodies for the first: the function, and the texts. The second spins.
SPINNING = {
    "one_too_many": ("next", "    number + 1", "    number + 2"),
    "without_end": ("twice", "    number + number", "    number + 5"),
    "one_too_few": ("four_more", "    number + 4", "    number + 3"),
}


class WrongBodies(unittest.TestCase):
    def repository(self, folder, bodies, place="wrong"):
        """Writes a repository of one crate with some of the wrong bodies."""
        os.makedirs(f"{folder}/crates/mc_sums/src")
        os.mkdir(f"{folder}/crates/mc_sums/{place}")
        for file, text in {"crates.txt": "mc_sums:\n", "HANDLES": "Handles allowed: none.\n", "crates/mc_sums/src/lib.rt": CODE}.items():
            with open(f"{folder}/{file}", "w", encoding="utf-8") as it:
                it.write(text)
        for name in bodies:
            function, old, new, *_ = {**BODIES, **SPINNING}[name]
            with open(f"{folder}/crates/mc_sums/{place}/{name}.edit", "w", encoding="utf-8") as it:
                it.write(f"function: {function}\nfile: src/lib.rt\nold: {old}\nnew: {new}\n")

    def judged(self, bodies, *words, place="wrong"):
        """The status of a run, and its lines."""
        with tempfile.TemporaryDirectory() as folder, contextlib.redirect_stdout(io.StringIO()) as said:
            self.repository(folder, bodies, place)
            status = wrong.main(["mc_sums", "--anew", *words], folder)
        return status, said.getvalue().splitlines()

    def test_each_is_found_among_others(self):
        status, lines = self.judged(BODIES)
        for name, (_, _, _, wanted) in BODIES.items():
            with self.subTest(name):
                self.assertTrue(any(it.startswith(f"mc_sums/{name}: {wanted}") for it in lines), lines)
        self.assertEqual(("1 passed, 5 failed", 1), (lines[-1], status))

    def test_wrong_ones_alone_pass(self):
        status, lines = self.judged(["one_too_many"])
        self.assertEqual(("1 passed, 0 failed", 0), (lines[-1], status), lines)

    def judged_by(self, prover, bodies, *words, place="wrong", **settings):
        """The same where the prover is a script. What that says isn't kept."""
        toolchain = kit.toolchain()
        with tempfile.TemporaryDirectory() as folder, contextlib.ExitStack() as changed:
            toolchain.rtlib.RATTLE = f"{folder}/prover"
            with open(toolchain.rtlib.RATTLE, "w", encoding="utf-8", opener=lambda *it: os.open(*it, 0o700)) as it:
                it.write(prover)
            for patch in (mock.patch.object(kit, "toolchain", lambda: toolchain), mock.patch.object(kit.Results, "keep"), mock.patch.dict(os.environ, settings)):
                changed.enter_context(patch)
            return self.judged(bodies, *words, place=place)

    def test_one_that_spins_is_named_and_others_are_judged(self):
        began = time.monotonic()
        status, lines = self.judged_by(PROVER, SPINNING, LIMIT="20")
        self.assertIn("mc_sums/without_end: FAILED: gave no verdict in 20 s", lines)
        self.assertEqual(("2 passed, 1 failed", 1), (lines[-1], status), lines)
        # what the check started had its output, so it was killed, too
        self.assertLess(time.monotonic() - began, 300)

    def test_an_edit_that_is_proved_fails(self):
        status, lines = self.judged_by(BELIEVER, ["one_too_many"], "--edits", place="must-fail")
        self.assertIn("mc_sums/must-fail/one_too_many: FAILED: ", "\n".join(lines))
        self.assertEqual(("0 passed, 1 failed", 1), (lines[-1], status), lines)

    def test_what_the_gate_left_is_taken(self):
        with tempfile.TemporaryDirectory() as folder, contextlib.redirect_stdout(io.StringIO()) as said:
            self.repository(folder, ["one_too_many"])
            self.put_above(folder)
            ran = subprocess.run(["rt", "ci"], cwd=folder, stdin=subprocess.DEVNULL, capture_output=True, text=True)
            self.assertIn("2 passed, 0 failed", ran.stdout.splitlines()[-1:], ran.stdout)
            with mock.patch.object(kit.subprocess, "run", self.but_no_library(kit.subprocess.run)):
                status = wrong.main(["mc_doubles", "mc_sums", "--anew", "--left"], folder)
        lines = said.getvalue().splitlines()
        self.assertEqual(("2 passed, 0 failed", 0), (lines[-1], status), lines)

    def test_bodies_are_judged_beside_the_gate(self):
        with tempfile.TemporaryDirectory() as folder, contextlib.ExitStack() as changed:
            said = changed.enter_context(contextlib.redirect_stdout(io.StringIO()))
            self.repository(folder, ["one_too_many"])
            self.put_above(folder)
            os.makedirs(f"{folder}/aside/mc_sums")
            shutil.move(f"{folder}/crates/mc_sums/wrong/one_too_many.edit", f"{folder}/aside/mc_sums")
            heard, line = os.pipe()
            for patch in (mock.patch.object(wrong.sys, "stdin", changed.enter_context(os.fdopen(heard))), mock.patch.object(os, "nice")):
                changed.enter_context(patch)
            ci = subprocess.Popen(["rt", "ci"], cwd=folder, stdin=subprocess.DEVNULL, stdout=subprocess.DEVNULL)
            threading.Thread(target=lambda: (ci.wait(), os.write(line, b"proved\n"), os.close(line))).start()
            status = wrong.main(["mc_doubles", "mc_sums", "--anew", "--left", "--edits", "--beside", "aside"], folder)
        lines = said.getvalue().splitlines()
        self.assertIn("mc_sums/must-fail/one_too_many: refused: ", "\n".join(lines))
        self.assertEqual(("2 passed, 0 failed", 0), (lines[-1], status), lines)

    def test_a_refusal_rests_on_what_is_seen(self):
        with tempfile.TemporaryDirectory() as folder:
            self.repository(folder, ["one_too_many"])
            self.put_above(folder)
            self.answer(folder, "next", "-- one\n")
            self.answer(folder, "twice", "-- two\n")
            before = self.keys(folder)
            for what, (file, old, new, stays) in CHANGES.items():
                with self.subTest(what):
                    path = f"{folder}/crates/mc_sums/{file}"
                    with open(path, encoding="utf-8") as it:
                        text = it.read()
                    self.assertIn(old, text)
                    with open(path, "w", encoding="utf-8") as it:
                        it.write(text.replace(old, new, 1))
                    after = self.keys(folder)
                    self.assertEqual(stays, {crate for crate in before if before[crate] == after[crate]})
                    with open(path, "w", encoding="utf-8") as it:
                        it.write(text)
            self.assertEqual(before, self.keys(folder))

    def keys(self, folder):
        """The keys by which the refusals of the crates' wrong bodies are kept."""
        with tempfile.TemporaryDirectory() as room, mock.patch.object(kit, "Limit"):
            results = kit.Results(kit.Copy(folder, room))
            crates = [wrong.Crate(it, results.copy) for it in ("mc_sums", "mc_doubles")]
            return {it.name: [results.key(it, body) for body in it.read(f"{folder}/crates/{it.name}/wrong", None)] for it in crates}

    def answer(self, folder, function, text):
        os.makedirs(f"{folder}/crates/mc_sums/proofs/{function}")
        with open(f"{folder}/crates/mc_sums/proofs/{function}/Answers.antt", "w", encoding="utf-8") as it:
            it.write(text)

    def put_above(self, folder):
        """Adds a crate with a wrong body above the first one."""
        os.makedirs(f"{folder}/crates/mc_doubles/src")
        os.mkdir(f"{folder}/crates/mc_doubles/wrong")
        os.mkdir(f"{folder}/.git")
        edit = "function: next_but_one\nfile: src/lib.rt\nold:     next(number + 1)\nnew:     next(number)\n"
        for file, text in {"crates.txt": "mc_sums:\nmc_doubles: mc_sums\n", "crates/mc_doubles/src/lib.rt": ABOVE, "crates/mc_doubles/wrong/one_too_few.edit": edit}.items():
            with open(f"{folder}/{file}", "w", encoding="utf-8") as it:
                it.write(text)

    def but_no_library(self, run):
        """A call of commands that builds no library."""

        def call(words, **how):
            self.assertNotEqual(["rt", "lib"], list(words[:2]))
            return run(words, **how)

        return call
