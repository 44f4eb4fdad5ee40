#!/usr/bin/env python3
"""Writes the parts of the documents that the sources hold, and checks the rest.

  python3 docs/make.py            writes out/docs/CALLS.md and out/docs/DEFINITIONS.md, the regions `<!-- made: KIND -->` of README.md
                                  and docs/, docs/tcp.svg and docs/tcp-all.svg, and tests/names.txt, what lies in folders
  python3 docs/make.py --check    writes nothing. Prints each stale region, each link, path and name that isn't there, each option that
                                  PROTOCOL.md or the manual page lacks, each wrong body that can't be planted any more, each worked example without
                                  a test, and the counts of style.py. Last line: 'N passed, M failed'
"""
import functools
import itertools
import json
import re
import subprocess
import sys
import textwrap
from pathlib import Path

ROOT = Path(__file__).resolve().parent.parent
sys.path[:0] = [str(ROOT), str(ROOT / "bench"), str(ROOT / "docs")]
import chart  # noqa: E402
import style  # noqa: E402
from tests.lib import bodies, counts, examples  # noqa: E402

# The run that README.md, docs/BENCHMARKS.md and both charts show.
RUN = "bench/results/2026-12-01-60493260.json"
# The workloads of README.md's table, and of its chart.
SHOWN = ["get", "set", "get-32", "set-1m"]
DRAWN = ["get", "set", "get-32", "set-32", "get-100-keys", "idle-1000", "get-100k", "set-1m"]
REGION = re.compile(r"(<!-- made: ([^>]+?) -->\n)(.*?)(<!-- end -->)", re.S)
# A link to a definition, whose line is kept right.
PLACE = re.compile(r"\[`(\w+)`\]\(([^)#]+)#L\d+\)")
# What the kit's libraries are for, in the order in which docs/THEOREM.md names them.
LIBRARIES = {
    "memchr": "finds line ends and word ends", "itoa": "prints numbers", "byteorder": "reads and writes an item's header",
    "thiserror": "makes error types", "clap": "parses the command line (brings `strsim`)", "mio": "polls sockets",
    "crossbeam_queue": "hands connections to the workers (brings `crossbeam_utils`)", "slab": "keeps the places of links", "httparse": "parses the head of an HTTP request",
    "atomic_table": "has the atomic steps of threads", "os": "names a thread", "core": "",
}
# Of these documents the names in code spans are looked up, too; the others name what clients and systems have.
INSIDE = ("README.md", "CONTRIBUTING.md", *(f"docs/{name}.md" for name in "ARCHITECTURE DECISIONS FIRST-CHANGE GAPS PROVING THEOREM".split()))
# Words in code spans that no source of this repository has: those of the system, of other programs, and of examples.
OTHERS = set("""mn MN NM mc_x mc_y touchif mapped""".split())
# Where a path in a code span may begin.
PLACES = [ROOT, ROOT / "docs", ROOT / "tests", ROOT / "crates", *sorted((ROOT / "crates").iterdir())]
# What a cell of a table can't have.
CELL = str.maketrans({"|": "\\|", "<": "&lt;"})
FUNCTION = re.compile(r"^( *)(pub(?:\([\w ]+\))? )?(?:const |unsafe )*fn (\w+)")
OWNER = re.compile(r"^(?:pub(?:\([\w ]+\))? )?(?:unsafe )?(?:impl(?:<[^{]*?>)? (?:([\w:]+)(?:<.*>)? for )?(\w+)|trait (\w+))")
DEFINITION = re.compile(r"^ *(?:pub )?(?:abbrev|unfoldable|data|record) (?:pub )?([^\s:{(]+)")


def read(path):
    return (ROOT / path).read_text(encoding="utf-8")


@functools.cache
def crates():
    """The crates of crates.txt in its order, each with its libraries."""
    lines = [line.partition(":") for line in read("crates.txt").splitlines() if line.strip() and not line.startswith("#")]
    return {name.split()[0]: libraries.split() for name, _, libraries in lines}


@functools.cache
def under(name):
    """What a crate stands on, and what that stands on."""
    return {low for own in crates().get(name, []) for low in under(own) | {own}}


def root_file(crate):
    return next(path for path in (f"crates/{crate}/src/lib.rt", f"crates/{crate}/src/main.rt") if (ROOT / path).exists())


def page(crate):
    """What a crate's root file says of it: the paragraphs of its `//!` lines, each as one line."""
    lines = [line[3:].strip() for line in read(root_file(crate)).splitlines() if line.startswith("//!")]
    return [" ".join(part.split("\n")) for part in "\n".join(lines).split("\n\n")]


def comment_above(lines, at, mark):
    """The first paragraph of the comment that ends above a line."""
    above = itertools.takewhile(lambda line: line.strip().startswith((mark, "#[")), reversed(lines[:at]))
    found = [line.strip()[len(mark):].strip() for line in above if not line.strip().startswith("#[")]
    return " ".join("\n".join(reversed(found)).split("\n\n")[0].split("\n"))


def calls(crate):
    """The functions of a crate's code: file, line, owner, name, whether it is open to other crates, comment, clauses."""
    uses = " ".join(re.findall(r"^pub use ([^;]+);", read(root_file(crate)), re.M))
    exported = set(re.findall(r"\w+", uses))
    for path in sorted((ROOT / f"crates/{crate}/src").rglob("*.rt")):
        lines, owner, trait = path.read_text(encoding="utf-8").splitlines(), "", ""
        for at, line in enumerate(lines):
            if line == "}":
                owner = trait = ""
            elif OWNER.match(line):
                trait, name, made = OWNER.match(line).groups()
                owner, trait = name or made, trait or made or ""
            found = FUNCTION.match(line)
            if found and "_tests" not in path.name:
                end = next((to for to in range(at, len(lines)) if not lines[to] or re.match(rf"{found[1]}\S.*[{{}};]$|{found[1]}{{$", lines[to])), at)
                clauses = re.findall(r"^ *ensures (\w+) {", "\n".join(lines[at:end]), re.M)
                is_open = (bool(found[2] and "(" not in found[2]) or bool(trait)) and (owner or found[3]) in exported
                yield path.name, at, owner, found[3], is_open, comment_above(lines, at, "///"), clauses


def edits(crate, functions):
    """The wrong bodies that a crate must refuse, each with the function that it changes."""
    for path in sorted((ROOT / f"crates/{crate}").glob("*/*.edit")):
        text = path.read_text(encoding="utf-8")
        file, old = (re.search(rf"^{word}: ?(.*)$", text, re.M).group(1) for word in ("file", "old"))
        lines = read(f"crates/{crate}/{file.strip()}").splitlines()
        at = next((at for at, line in enumerate(lines) if old.strip() in line), -1)
        inside = [call for call in functions if call[0] == Path(file.strip()).name and call[1] <= at]
        yield path.stem, (inside[-1][2], inside[-1][3]) if inside else ("", file.strip())


def list_calls():
    """Which call carries what: a table for each crate."""
    text = "# Public calls\n\nWritten by `make docs`: each call, its comment, its named clauses, and the wrong bodies that must fail.\n"
    for crate in crates():
        functions = list(calls(crate))
        wrong = list(edits(crate, functions))
        text += f"\n## {crate}\n\n{page(crate)[0]}\n\n| Call | What it does | Clauses | Must fail |\n|---|---|---|---|\n"
        for _, _, owner, name, is_open, doc, clauses in functions:
            refused = [edit for edit, place in wrong if place == (owner, name)]
            if is_open or refused:
                title = f"{owner}::{name}" if owner else name
                text += f"| `{title}` | {doc.translate(CELL)} | {', '.join(filter(None, clauses))} | {', '.join(refused)} |\n"
    return text


def list_definitions():
    """Every definition of specs/, with its comment and its place."""
    text = "# Definitions\n\nWritten by `make docs`: what contracts cite, file by file.\n"
    for crate in crates():
        for path in sorted((ROOT / f"crates/{crate}/specs").glob("*.antt")):
            lines = path.read_text(encoding="utf-8").splitlines()
            rows = [f"- `{found[1]}` (line {at + 1}) {comment_above(lines, at, '--')}\n" for at, line in enumerate(lines)
                    for found in [DEFINITION.match(line)] if found and not re.match(r" *pub (mod|use) ", line)]
            text += f"\n## {crate}/specs/{path.name}\n\n{''.join(rows)}" if rows else ""
    return text


def made_crates():
    """A row for each crate: what it is, the crates it stands on, its tests."""
    rows = []
    for name, libraries in crates().items():
        direct = [low for low in libraries if low in crates() and not any(low in under(other) for other in libraries)]
        tests = re.search(r"Tests: (.*?)\.?$", page(name)[-1])
        what = re.split(r"(?<=\.) ", page(name)[0])[0].rstrip(".")
        files = re.sub(r"`|src/(tests/)?", "", tests.group(1)) if tests else ""
        rows.append(f"| `{name}` | {what.translate(CELL)} | {' '.join(direct)} | {files} |\n")
    return "| Crate | What it is | Stands on | Tests |\n|---|---|---|---|\n" + "".join(rows)


def made_libraries():
    """The kit's libraries that the program links."""
    kit = under("mc_server") - set(crates())
    if kit - set(LIBRARIES):
        raise SystemExit(f"docs/make.py: LIBRARIES lacks {kit - set(LIBRARIES)}")
    uses = [f"| `{name}` | {use} |\n" for name, use in LIBRARIES.items() if name in kit and use]
    return "| Library of the kit | What it does here |\n|---|---|\n" + "".join(uses)


def ratio_of(row, figure):
    it = row["ratios"][figure]
    return f"{it['median']:.2f} ({it['least']:.2f}-{it['most']:.2f})"


def made_tcp(short=""):
    """The table of the stored run: all of it, or the workloads that README.md shows with the figures that a user asks for."""
    it = json.loads(read(RUN))
    text = f"Run of {it['date']}, commit `{it['commit']}`, {it['machine']}, {it['memcached']}:\n`{it['command']}`.\n\n"
    if short:
        text += "| Workload | Requests/s, memcached | mcserver | Ratio | Ratio of CPU time a request |\n|---|--:|--:|--:|--:|\n"
        shown = [next(row for row in it["rows"] if row["name"] == name) for name in SHOWN]
        return text + "".join(f"| {row['title']} | {row['sides']['memcached']['a_second']:,.0f} | {row['sides']['mcserver']['a_second']:,.0f} | "
                              f"{ratio_of(row, 'a_second')} | {ratio_of(row, 'us')} |\n" for row in shown)
    text += "| Workload | Requests/s, memcached | mcserver | Ratio | CPU us a request, memcached | mcserver | Ratio | p99 ratio |\n"
    text += "|---|--:|--:|--:|--:|--:|--:|--:|\n"
    for row in it["rows"]:
        theirs, ours = row["sides"]["memcached"], row["sides"]["mcserver"]
        text += (f"| {row['title']} | {theirs['a_second']:,.0f} | {ours['a_second']:,.0f} | {ratio_of(row, 'a_second')} | {theirs['us']:.2f} | "
                 f"{ours['us']:.2f} | {ratio_of(row, 'us')} | {ratio_of(row, 'p99')} |\n")
    return text


def made_clauses(file, name, *clauses):
    """The contract of a function as it stands, or some of its clauses."""
    head = re.search(rf"^ *(?:pub )?fn {name}\b.*?\n *(?:{{\n|{{}}\n)", read(file), re.S | re.M).group(0)
    found = re.findall(r"^( *(?:requires|ensures) (\w*).*?)(?=\n *(?:requires|ensures|{\n|{}\n|//))", head, re.S | re.M)
    kept = [text for text, clause in found if not clauses or clause in clauses]
    return "```\n" + textwrap.dedent("\n".join(kept)) + "\n```\n"


def line_of(name, file):
    """The line at which a definition or a function begins."""
    heads = [("pub " not in line, number) for number, line in enumerate(file.read_text(encoding="utf-8").splitlines(), 1)
             if re.match(rf" *(?:(?:pub|abbrev|unfoldable|record|data|fn) )+{name}\b", line)]
    if not heads:
        raise SystemExit(f"docs/make.py: {file} has no {name}")
    return min(heads)[1]


KINDS = {"crates": made_crates, "libraries": made_libraries, "tcp": made_tcp, "clauses": made_clauses}


def tracked(pattern="*"):
    listed = subprocess.run(["git", "-C", ROOT, "ls-files", pattern], stdout=subprocess.PIPE, check=True, text=True).stdout
    return [path for path in listed.split() if (ROOT / path).is_file()]


def made_anew():
    """Each file that is made, in whole or in part, with the text it should have."""
    for path in tracked("*.md"):
        text = read(path)
        new = REGION.sub(lambda found: found[1] + KINDS[found[2].split()[0]](*found[2].split()[1:]) + found[4], text)
        here = (ROOT / path).parent
        new = PLACE.sub(lambda found: f"[`{found[1]}`]({found[2]}#L{line_of(found[1], here / found[2])})", new)
        if "<!-- made: " in text:
            yield path, new
    rows = json.loads(read(RUN))["rows"]
    yield "docs/tcp.svg", chart.chart(rows, DRAWN)
    yield "docs/tcp-all.svg", chart.chart(rows)


def known_words():
    """Every word of the sources, and of the names of files."""
    text = "\n".join(read(path) for path in tracked() if not re.search(r"\.(md|svg|json)$|^tests/rows|^docs/", path))
    return set(re.findall(r"\w+", text + " ".join(tracked())))


def lost(path, words):
    """What a document names that isn't there: links, paths and names in code spans; and documents that it names without a link."""
    text = re.sub(r"^```.*?^```", "", REGION.sub("", read(path)), flags=re.S | re.M)
    here = (ROOT / path).parent
    for target, _, anchor in (found.partition("#") for found in re.findall(r"\]\(([^)\s]+)\)", text)):
        if not re.match(r"\w+:", target):
            to = here / target if target else ROOT / path
            heads = re.findall(r"^#+ (.*)", to.read_text(encoding="utf-8"), re.M) if to.is_file() and anchor else []
            anchors = [re.sub(r"[^\w -]", "", head).replace(" ", "-").lower() for head in heads]
            if not to.exists() or (anchor and not re.fullmatch(r"L\d+", anchor) and anchor not in anchors):
                yield f"{path}: there is no {target}{'#' + anchor if anchor else ''}"
    bare = re.sub(r"\[[^]]*\]\([^)]*\)", "", text)
    yield from (f"{path}: {name} is no link" for name in re.findall(r"[\w/]*[A-Z]+\.md\b", re.sub(r"`[^`]*`", "", bare)))
    for span in re.findall(r"`([^`\n]+)`", text):
        if re.fullmatch(r"[\w.-]+(/[\w.-]+)+/?", span) and re.search(r"\.\w+$|/$", span) and not re.search(r"[XA-Z]{4}|\bX|out/", span):
            if not any((place / span).exists() for place in PLACES):
                yield f"{path}: there is no {span}"
        elif found := re.fullmatch(r"(mc_\w+_tests|mc_sockets)/(\w+)(?:: (\w+))?", span):
            tests = list((ROOT / f"crates/{found[1]}/src").rglob(f"{found[2]}.rt"))
            if not tests or (found[3] and found[3] not in tests[0].read_text(encoding="utf-8")):
                yield f"{path}: there is no {span}"
        elif found := re.fullmatch(r"([\w/]*\btest_\w+\.py)(?:: (\w+))?", span):
            files = [it for it in tracked("tests/*.py") if f"/{it}".endswith(f"/{found[1]}")]
            text = read(files[0]) if files else ""
            # a test that is made from a row has the row's words as its name
            is_made = "tests_of(" in text and (found[2] or "").removeprefix("test_") in re.sub(r"\W+", "_", text)
            if not files or (found[2] and not is_made and not re.search(rf"^ *(?:def|class) {found[2]}\b", text, re.M)):
                yield f"{path}: there is no {span}"
        elif path in INSIDE and re.fullmatch(r"[A-Za-z_][\w:]*(\(\))?", span):
            yield from (f"{path}: nothing is named {word}" for word in re.findall(r"\w+", span) if word not in words | OTHERS)


def lost_tests():
    """Crates whose page names no tests, or tests that aren't there; and sources that name documents that aren't there."""
    for crate in crates():
        tests = re.findall(r"Tests: .*", page(crate)[-1])
        if not tests and not crate.endswith("_tests"):
            yield f"{root_file(crate)}: the page doesn't end with 'Tests: CRATE, src/FILE.rt.'"
        yield from (f"{root_file(crate)}: there is no {other}/{file}" for line in tests
                    for other, file in re.findall(r"`?(mc_\w+)`?, `?(src/[\w/]+\.rt)", line) if not (ROOT / f"crates/{other}/{file}").exists())
    for path in tracked():
        if path.endswith((".rt", ".py", ".antt", "Makefile", ".sh")) and not path.startswith("docs/"):
            yield from (f"{path}: there is no {name}" for name in re.findall(r"\bdocs/[\w-]+\.md", read(path)) if not (ROOT / name).exists())


def lacking_options():
    """Options that PROTOCOL.md or the manual page lacks, and documents of another version."""
    code, rows = (read(f"crates/mc_options/src/{name}.rt") for name in ("options", "served"))
    version = re.search(r'const VERSION: .*"([\d.]+) ', code).group(1)
    for path in ("docs/PROTOCOL.md", "man/mcserver.1"):
        text = read(path).replace("\\-", "-")
        yield from (f"{path}: --{option} is missing" for option in re.findall(r'long: "([\w-]+)"', rows) if f"--{option}" not in text)
        if f"mcserver {version}" not in text:
            yield f"{path}: the version isn't {version}"
    if f"\n## {version}\n" not in read("CHANGELOG.md"):
        yield f"CHANGELOG.md: {version} is missing"


def lost_texts():
    """Texts of standard error in PROTOCOL.md's table of statuses that no source and no row has."""
    table = re.search(r"\| Status \| When \|.*?\n\n", read("docs/PROTOCOL.md"), re.S).group(0)
    known = "\n".join(read(path) for path in tracked() if re.fullmatch(r"crates/\w+/src/.*\.rt|tests/rows/\w+/\w+/stderr.*", path))
    for text in re.findall(r"`(mcserver: [^`]*)`", table):
        # what differs from run to run: the address, an option and its value
        parts = re.split(r"(?: on)? ADDR:PORT|'-u' \('--user'\)|-m \"64m\"", text.removeprefix("mcserver: "))
        yield from (f"docs/PROTOCOL.md: nothing writes '{part.strip()}', of '{text}'" for part in parts if part.strip(" :") and part.strip() not in known)


def unplanted():
    """Wrong bodies that cite a text, or name a function, which the sources don't have any more."""
    for crate in crates():
        sources = bodies.Sources(ROOT / f"crates/{crate}")
        for path in tracked(f"crates/{crate}/wrong/*.edit"):
            try:
                body = bodies.read(ROOT / path)
                sources.cuts(body)
                if sources.lacks(body):
                    yield f"{path}: there is no function {body.function}"
            except bodies.Unplanted as error:
                yield f"{path}: {error}"


def miscounted():
    """Wrong bodies, crates and rows that are gone, or that tests/names.txt lacks; and fewer worked examples than tests/counts.txt has."""
    return [*counts.lost(counts.lying(), counts.names()), *counts.faults("folders", counts.worked(), counts.read().get("folders", {}))]


def check():
    passed, faults, words = 0, [], known_words()
    stale = [f"{path}: not what the sources say: make docs" for path, new in made_anew() if read(path) != new]
    for found in (stale, list(lost_tests()), list(lacking_options()), list(lost_texts()), list(unplanted()), miscounted(), list(examples.faults()), *(list(lost(path, words)) for path in tracked("*.md")), *style.faults(ROOT)):
        faults += found
        passed += not found
    print("\n".join([*faults, f"{passed} passed, {len(faults)} failed"]))
    return int(bool(faults) or not passed)


def main():
    if sys.argv[1:] == ["--check"]:
        return check()
    (ROOT / "out/docs").mkdir(parents=True, exist_ok=True)
    for path, text in [("out/docs/CALLS.md", list_calls()), ("out/docs/DEFINITIONS.md", list_definitions()), *made_anew()]:
        (ROOT / path).write_text(text, encoding="utf-8")
    counts.pin_names(counts.lying())
    counts.pin("folders", counts.worked())
    return 0


if __name__ == "__main__":
    sys.exit(main())
