"""The stored rows: inputs and outputs that were written down by hand.

A row is a folder tests/rows/COMMAND/NAME, where COMMAND is the command that it is about, `lines` or `exptime` if it is about several, or
`option_` with the option; no two rows have one name:

    args          the arguments, one a line
    stdin         the bytes of standard input (no file: none)
    stdout        the bytes that the program must write (no file: none)
    status        the exit status that is wanted (no file: 0)
    stderr        the bytes of standard error that are wanted (no file: none)
    stdout.has    in place of stdout: lines that must stand in what it writes, in any order
    stderr.has    in place of stderr: likewise
    stdin.parts   in place of stdin, for long inputs: each line is JSON, either a text whose characters
                  are bytes or {"repeat": text, "times": number}; stdout.parts likewise
"""
import glob
import json
import os

from tests.lib.compare import same, shown
from tests.lib.settings import ROOT, keep

ROWS = f"{ROOT}/tests/rows"
# The pages of a store where no option says how many, and the greatest charge of its items.
PAGES, GREATEST = 64, 1048576
# An input at most this long is also handed over a byte at a time, a longer one in pieces of this many bytes.
BYTEWISE, PIECE = 4096, 4093


def parts(data):
    made = []
    for line in data.decode().splitlines():
        part = json.loads(line) if line.strip() else ""
        text, times = (part, 1) if isinstance(part, str) else (part["repeat"], part["times"])
        made.append(text.encode("latin-1") * times)
    return b"".join(made)


class Row:
    """A row: its input, and what is wanted."""

    def __init__(self, folder):
        self.folder = folder
        self.command, self.name = folder.split("/")[-2:]
        self.args = (self.file("args") or b"").decode().splitlines()
        self.stdin = self.stream("stdin")
        self.status = int(self.file("status") or b"0")
        self.wants = {it: (self.stream(it), self.file(f"{it}.has")) for it in ("stdout", "stderr")}

    def file(self, name):
        path = f"{self.folder}/{name}"
        if not os.path.exists(path):
            return None
        with open(path, "rb") as it:
            return it.read()

    def stream(self, name):
        long = self.file(f"{name}.parts")
        return parts(long) if long is not None else self.file(name) or b""

    @property
    def piece(self):
        """How long the pieces are in which the input is handed over."""
        return 1 if len(self.stdin) <= BYTEWISE else PIECE

    def session(self):
        """Where the clock of a plain session stands, how many pages its store has, and the greatest charge there; None for another row."""
        if self.args[:2] != ["--stdin", "--now"] or self.status or self.wants["stdout"][1] is not None:
            return None
        numbers = dict(zip(self.args[1::2], self.args[2::2]))
        if len(self.args) % 2 == 0 or not numbers.keys() <= {"--now", "-m", "-I", "--shelves"}:
            return None
        return int(numbers["--now"]), int(numbers.get("-m", PAGES)), int(numbers.get("-I", GREATEST))

    def holds(self, ran):
        """Fails where a run did something else than is wanted."""
        for name, (wanted, has) in self.wants.items():
            wrote = getattr(ran, name)
            if has is None:
                same(wanted, wrote, name)
            for line in (has or b"").splitlines():
                if line not in wrote:
                    raise AssertionError(f"{name} lacks {shown(line)}, and is {shown(wrote)}")
        if ran.status != self.status:
            raise AssertionError(f"the status is {ran.status}, wanted {self.status}; standard error is {shown(ran.stderr)}")


def all_rows():
    return [Row(folder) for folder in sorted(glob.glob(f"{ROWS}/*/*"))]


def written(data):
    """Bytes as the lines of stdin.parts: a line of JSON for each line of them."""
    return "".join(json.dumps(line.decode("latin-1")) + "\n" for line in data.splitlines(keepends=True))


def kept(name, args, stdin, stdout):
    """Writes an input that failed as a row, with the output that is wanted. Returns what it is, and how it is taken among the rows."""
    folder = os.path.join(keep(), name)
    os.makedirs(folder, exist_ok=True)
    files = {"args": "".join(f"{it}\n" for it in args), "stdin.parts": written(stdin), "stdout.parts": written(stdout)}
    for file, text in files.items():
        with open(f"{folder}/{file}", "w", encoding="utf-8") as to:
            to.write(text)
    told = "".join(f"{file}:\n{text[:3000]}" for file, text in files.items())
    return f"{told}It is a row: mv {folder} tests/rows/COMMAND/NAME, where NAME is what it shows"
