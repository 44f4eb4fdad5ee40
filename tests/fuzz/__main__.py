"""Has AFL++ make inputs to a session on standard input, and judges one input of each path that it finds: `python3 -m tests.fuzz [--minutes N] [--jobs N]`

The rows of tests/rows/ are its corpus, and the words of the protocol its dictionary. The program is built with the coverage of edges (target.py), so
that AFL++ keeps an input if it takes a new path. Each kept one is then answered by the program that is tested, whole and byte by byte, and compared
with the model; one that fails is made shorter and kept as a row. Where the program can't be built so, AFL++ runs without coverage (`-n`): then it looks
for crashes and hangs alone, and there is nothing to judge. It wants Debian's package afl++. The last line is `N passed, N failed`.
"""
import argparse
import contextlib
import glob
import os
import shutil
import subprocess
import sys
import tempfile
import time
import zlib
from concurrent.futures import ThreadPoolExecutor

from tests.fuzz import target
from tests.lib import inputs, model, rows, settings
from tests.lib.process import run, run_in_pieces
from tests.lib.shrink import shorter

# Where the clock stands, and how many pages the store has: so few that writes are refused.
NOW, PAGES = 1000, 1
ARGS = ["--stdin", "--now", str(NOW), "-m", str(PAGES)]
# A longer row is no part of the corpus, nor does AFL++ make longer inputs.
LONGEST = 4096
# So many bytes an input has that is handed over byte by byte, and by so many runs one that fails is made shorter.
BYTEWISE, RUNS = 1024, 300
NAMES = b"set add replace append prepend cas get gets gat gats touch delete incr decr flush_all version quit noreply".split()
WORDS = [*NAMES, b"\r\n", b"\n", b" ", b"a", b"set a 0 0 1\r\nx\r\n", b"get a\r\n", *inputs.FLAGS, *inputs.EXPTIMES, *inputs.UNIQUES, *inputs.DELTAS, *inputs.LENGTHS]
QUIET = {
    "AFL_NO_UI": "1", "AFL_SKIP_CPUFREQ": "1", "AFL_I_DONT_CARE_ABOUT_MISSING_CRASHES": "1", "AFL_NO_AFFINITY": "1", "AFL_TRY_AFFINITY": "1",
    "AFL_AUTORESUME": "0", "AFL_SKIP_BIN_CHECK": "1",
}
# What AFL++ tells of a run, and what that is called here.
TOLD = {"execs_done": "executions", "corpus_count": "paths", "edges_found": "edges", "saved_crashes": "crashes", "saved_hangs": "hangs"}


def put_corpus(folder):
    """Writes the inputs of the rows, and the dictionary beside them. Returns how many inputs there are."""
    os.makedirs(folder)
    made = {row.stdin for row in rows.all_rows() if row.session() and 0 < len(row.stdin) <= LONGEST}
    for number, stream in enumerate(sorted(made)):
        with open(f"{folder}/{number}", "wb") as to:
            to.write(stream)
    with open(f"{folder}.dict", "w", encoding="ascii") as to:
        for word in dict.fromkeys(it for it in WORDS if it):
            to.write('"' + "".join(f"\\x{byte:02x}" for byte in word) + '"\n')
    return len(made)


def fuzzed(program, room, minutes, jobs, is_covered):
    """Runs AFL++ for so many minutes, by so many processes side by side."""
    made = []
    for number in range(jobs):
        name = ["-M", "one"] if number == 0 else ["-S", f"more{number}"]
        words = ["afl-fuzz", "-i", f"{room}/corpus", "-o", f"{room}/found", *name, "-V", str(int(60 * minutes)), "-t", "2000+", "-m", "none"]
        words += ["-x", f"{room}/corpus.dict", "-G", str(LONGEST), *([] if is_covered else ["-n"]), "--", program, *ARGS]
        with open(f"{room}/log{number}", "wb") as log:
            made.append(subprocess.Popen(words, env={**os.environ, **QUIET}, stdin=subprocess.DEVNULL, stdout=log, stderr=subprocess.STDOUT))
        time.sleep(1)
    for it in made:
        with contextlib.suppress(subprocess.TimeoutExpired):
            it.wait(60 * minutes + 300)
        it.kill()
    return told_of(room)


def told_of(room):
    """What AFL++ tells in the end: executions of all processes, and of the one that has most the rest."""
    found = {}
    for path in glob.glob(f"{room}/found/*/fuzzer_stats"):
        with open(path, encoding="utf-8") as it:
            stats = dict(map(str.strip, line.split(":", 1)) for line in it if ":" in line)
        for key, name in TOLD.items():
            number = int(stats.get(key, 0))
            found[name] = found.get(name, 0) + number if key == "execs_done" else max(found.get(name, 0), number)
    return found


def fault(program, stream):
    """What is wrong with how the program answers; nothing if it is right."""
    wanted = model.answer(stream, NOW, PAGES)
    ways = [lambda: run(program, ARGS, stream)] + [lambda: run_in_pieces(program, ARGS, stream, 1)] * (len(stream) <= BYTEWISE)
    for way in ways:
        try:
            ran = way()
            ran.ended()
            ran.wrote(wanted)
        except AssertionError as error:
            return str(error)
    return None


def judged(program, path):
    """Compares the answer to a kept input with the model's. Returns what is wrong, with the input as a row."""
    with open(path, "rb") as it:
        stream = it.read()
    why = fault(program, stream)
    if not why:
        return None
    lines = shorter(stream.splitlines(keepends=True), lambda less: fault(program, b"".join(less)), RUNS)
    stream = b"".join(lines)
    return f"{os.path.basename(path)}: {fault(program, stream) or why}\n{rows.kept(f'fuzzed_{zlib.crc32(stream):08x}', ARGS, stream, model.answer(stream, NOW, PAGES))}"


def kept(room):
    """The inputs that AFL++ has kept, each content once: new paths, crashes and hangs."""
    found = {}
    for path in sorted(glob.glob(f"{room}/found/*/queue/id*") + glob.glob(f"{room}/found/*/crashes/id*") + glob.glob(f"{room}/found/*/hangs/id*")):
        with open(path, "rb") as it:
            found.setdefault(it.read(), path)
    return list(found.values())


def main():
    parser = argparse.ArgumentParser(prog="python3 -m tests.fuzz", description=__doc__, formatter_class=argparse.RawDescriptionHelpFormatter)
    parser.add_argument("--minutes", type=float, default=60)
    parser.add_argument("--jobs", type=int, default=os.cpu_count() or 1)
    given = parser.parse_args()
    if not shutil.which("afl-fuzz"):
        print("there is no afl-fuzz: apt-get install afl++\n0 passed, 1 failed")
        return 1
    covered = target.build()
    print(f"AFL++ runs {'with the coverage of edges' if covered else 'without coverage (-n): nothing is judged but crashes and hangs'}", flush=True)
    with tempfile.TemporaryDirectory(prefix="mcserver-fuzz-") as room:
        print(f"{put_corpus(f'{room}/corpus')} inputs of rows", flush=True)
        found = fuzzed(covered or settings.program(), room, given.minutes, given.jobs, bool(covered))
        if not found.get("executions"):
            with open(f"{room}/log0", encoding="utf-8", errors="replace") as log:
                print(log.read()[-3000:])
            print("AFL++ ran nothing\n0 passed, 1 failed")
            return 1
        paths = kept(room)
        with ThreadPoolExecutor(given.jobs) as pool:
            wrong = [it for it in pool.map(lambda path: judged(settings.program(), path), paths) if it]
    print("\n".join(f"FAILED {it}" for it in wrong[:30]))
    print(", ".join(f"{number:,} {name}" for name, number in found.items()) + f"; {len(paths):,} inputs judged")
    failed = len(wrong) + found["crashes"] + found["hangs"]
    print(f"{len(paths) - len(wrong)} passed, {failed} failed")
    return int(bool(failed) or not paths)


if __name__ == "__main__":
    sys.exit(main())
