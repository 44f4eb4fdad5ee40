#!/usr/bin/env python3
"""Counts what docs/STYLE.md asks for. `python3 docs/style.py 9` prints them with the nine worst places; `make docs-check` fails if one is above its limit."""
import re
import subprocess
import sys
from pathlib import Path

LIMITS = {"bytes of a document beyond its budget": 0, "bytes of a row of GAPS beyond 300": 0, "words before a first change": 6_000,
          "weak verbs": 60, "piled sentences": 0, "long sentences": 0, "piled words in definitions": 110}
# How many bytes a document may have: the next one who adds to it shortens it, too. CHANGELOG.md only grows.
BUDGETS = {"README.md": 6_144, "CONTRIBUTING.md": 14_336, "docs/A-COUNTER.md": 2_500, "docs/ARCHITECTURE.md": 10_500, "docs/BENCHMARKS.md": 16_200,
           "docs/CLIENTS.md": 12_500, "docs/CONTAINERS.md": 6_500, "docs/DECISIONS.md": 14_500, "docs/FIRST-CHANGE.md": 7_100, "docs/OPERATING.md": 34_816,
           "docs/PLANNED.md": 7_500, "docs/PROTOCOL.md": 21_600, "docs/PROVING.md": 18_200, "docs/SCALING.md": 5_400, "docs/STYLE.md": 5_000,
           "docs/THEOREM.md": 14_100, "tests/README.md": 7_000}
UNBOUNDED, BY_ROW, A_ROW = ("CHANGELOG.md",), "docs/GAPS.md", 300
WEAK = re.compile(r"\b(?:told|tells|tell|said|says)\b")
PILED = re.compile(r"\b(?:of which|for which|so many|whoever|those that)\b", re.I)
SHORT = ["README.md", "docs/OPERATING.md"]
MOST_WORDS = 30


def sentences(text):
    """The sentences of a markdown text without its code: list items, cells of tables and headings end one, too."""
    text = re.sub(r"^```.*?^```|<!--.*?-->|^ {4}.*?$", "", text, flags=re.S | re.M)
    text = re.sub(r"\]\([^)]*\)", "]", re.sub(r"`[^`\n]*`", "code", text))
    for unit in re.split(r"\n\s*\n|\n(?=\s*(?:[-*#|]|\d+\.) ?)|(?<!\\)\|", text):
        yield from (" ".join(part.split()) for part in re.split(r"(?<=[.!?])[)\"*']*\s+", unit) if part.strip())


def counted(root):
    """For each limit the places that count, as (amount, what)."""
    listed = subprocess.run(["git", "-C", root, "ls-files"], stdout=subprocess.PIPE, check=True, text=True).stdout.split()
    texts = {path: (root / path).read_text(encoding="utf-8") for path in listed
             if (root / path).is_file() and re.fullmatch(r".*\.md|crates/[^/]+/(src/.*\.rt|specs/.*\.antt)", path)}
    definitions = {path: "\n".join(re.findall(r"^ *--.*", texts.pop(path), re.M)) for path in [*texts] if path.endswith(".antt")}
    documents = {path: text for path, text in texts.items() if path.endswith(".md")}
    comments = {path: re.findall(r"^ *//.*", text, re.M) for path, text in texts.items() if path.endswith(".rt")}
    first = re.search(r"\*\*Before a first change\*\*.*?\n\n", documents["CONTRIBUTING.md"], re.S).group(0)
    asked = ["CONTRIBUTING.md", *re.findall(r"\]\(([^)#]+\.md)", first)]
    plain = {**documents, **{path: re.sub(r"(?m)^ *//[/!]? ?", "", "\n".join(lines)) for path, lines in comments.items()}}
    return {
        "bytes of a document beyond its budget": [(max(len(text.encode()) - BUDGETS.get(path, 0), 0), path) for path, text in documents.items()
                                                  if path not in (*UNBOUNDED, BY_ROW)],
        "bytes of a row of GAPS beyond 300": [(max(len(row.encode()) - A_ROW, 0), f"{BY_ROW}: {row[:60]}")
                                              for row in documents[BY_ROW].splitlines() if row.startswith("|")],
        "words before a first change": [(len(documents[path].split()), path) for path in asked],
        "weak verbs": [(len(WEAK.findall("\n".join(comments.get(path, [text])))), path) for path, text in texts.items()],
        "piled sentences": [(1, f"{path}: {it}") for path, text in plain.items() for it in sentences(text) if len(PILED.findall(it)) > 1],
        "long sentences": [(1, f"{path}: {it}") for path in SHORT for it in sentences(documents[path])
                           if len(re.findall(r"\S*\w\S*", it)) > MOST_WORDS],
        "piled words in definitions": [(len(PILED.findall(text)), path) for path, text in definitions.items()]}


def faults(root):
    """For each limit what is above it, and nothing if it holds."""
    for name, found in counted(Path(root)).items():
        total = sum(amount for amount, _ in found)
        worst = sorted((it for it in found if it[0]), key=lambda it: -it[0])[:5 if LIMITS[name] else None]
        yield [f"{name}: {total:,}, at most {LIMITS[name]:,}: " + "; ".join(f"{it} ({n})" for n, it in worst)] if total > LIMITS[name] else []


if __name__ == "__main__":
    for title, places in counted(Path(__file__).resolve().parent.parent).items():
        shown = sorted(places, key=lambda it: -it[0])[:int(sys.argv[1]) if sys.argv[1:] else 0]
        print(f"{title}: {sum(n for n, _ in places):,} of {LIMITS[title]:,}", *(f"  {n:6} {it}" for n, it in shown), sep="\n")
