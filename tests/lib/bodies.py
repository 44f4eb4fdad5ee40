"""Wrong bodies: how they are read and planted in a crate's sources, and how a check's output is judged.

A wrong body is a file `crates/NAME/wrong/BODY.edit`:

    function: expiry::is_expired
    file: src/expiry.rt
    old: moment <= now.seconds(),
    new: moment < now.seconds(),

`function:` names the function that the check must refuse, by the name that a check prints, without the crate. Each `old:` text is one line and
stands once in its file, or is one whole line of it alone. The function is refused where a goal of its contract or of its body is not proved, or where a line of its proof
doesn't fit any more. It is not refused where a name is gone, where the text can't be read, or where only a callee is not proved.

One check judges many bodies. Where two change the same function, the second is planted in a twin: a function of another name beside it, with
the same clauses and a copy of its proof. So is a changed clause of a law. Beside twins stands one that has the function's own body: a twin's
refusal counts where that one is proved.
"""
import glob
import os
import re
from dataclasses import dataclass

FN = re.compile(r"fn (\S+): (.*)")
OTHER = re.compile(r"(struct|enum|trait|impl|union|const|static) \S+: ")
GOAL = re.compile(r"note: (src/\S+?:\d+:\d+: .*is not proved .*\(`[^`]+`\).*)")
LINE = re.compile(r"(?:\./)?proofs/(\S+)/(?:Answers|Invariants|Proof)\.antt:(\d+):\d+: error: (.*)")
# A text of the sources or definitions that can't be read.
UNREAD = re.compile(r"(?:\./)?((?:src|specs)/\S+?):(\d+):\d+: error(?:\[|: (?!`[^`]*`: ))")
LACKS = re.compile(r"has no function `([^`]+)`")
# What is said of a proof that names what is there no more.
GONE = re.compile(r"has no field|is not in scope|has no `|was not admitted|is no name|operand is missing|expected the end|cannot continue")
# A goal of a function's end, whose name no change of a body changes.
AT_END = re.compile(r"\(`returns(-clause-[\w-]+)?`\)")
FALSE = "allow values at which this goal is false"
HEAD = re.compile(r"(\s*)(?:pub(?:\([a-z]+\))? )?(?:const )?(?:unsafe )?fn (\w+)")
ATTRIBUTE = re.compile(r"\s*#\[")
# What owns functions: a trait, an `impl` of a type, or of a trait for it.
OWNER = re.compile(r"(?:pub(?:\([a-z]+\))? )?(?:trait|impl(?:<.*?>)?) (?:(\w+)(?:<.*?>)? for )?&?(?:\w+::)*(\w+)")


class Unplanted(Exception):
    """A wrong body that can't be read or planted."""


@dataclass(frozen=True)
class Span:
    """A function of its own, or of a type's `impl`: its name, the lines of its first attribute, of its name and of its end, counted from 0."""

    name: str
    first: int
    head: int
    last: int


@dataclass(frozen=True)
class Spot:
    """What a check judges of a wrong body: the function that must be refused, and the one that must be proved beside a twin."""

    function: str
    control: str = ""


@dataclass(frozen=True)
class Body:
    """A wrong body: its name, the function that must be refused, the changes (file, old, new), and its file's bytes."""

    name: str
    function: str
    changes: tuple
    data: bytes


def read(path):
    """Reads a wrong body from its file."""
    with open(path, "rb") as file:
        data = file.read()
    function, inside, old, changes = "", "", "", []
    for line in data.decode(errors="replace").split("\n"):
        word, _, rest = line.partition(":")
        text = rest.removeprefix(" ")
        if word == "function":
            function = text.strip()
        elif word == "file":
            inside = text.strip()
        elif word == "old":
            old = text
        elif word == "new" and inside and old:
            changes.append((inside, old, text))
            old = ""
        elif line:
            raise Unplanted(f"this line is not read: {line[:60]}")
    if not function or not changes:
        raise Unplanted("it has no 'function:' line, or no 'file:', 'old:' and 'new:' lines")
    return Body(os.path.basename(path).removesuffix(".edit"), function, tuple(changes), data)


class Sources:
    """The files of a crate as they stand."""

    def __init__(self, folder):
        self.folder, self.texts, self.names, self.found = folder, {}, set(), {}

    def once(self, kind, key, make):
        """What is made of a body or a file, which is made once."""
        if (kind, key) not in self.found:
            self.found[kind, key] = make()
        return self.found[kind, key]

    def spans(self, file):
        return self.once("spans", file, lambda: list(spans(self.text(file))))

    def text(self, file):
        """The text of a file below src/, specs/ or proofs/."""
        if file not in self.texts:
            path = os.path.normpath(file)
            if path != file or not file.startswith(("src/", "specs/", "proofs/")) or not os.path.isfile(f"{self.folder}/{file}"):
                raise Unplanted(f"there is no file {file}")
            with open(f"{self.folder}/{file}", encoding="utf-8") as it:
                self.texts[file] = it.read()
        return self.texts[file]

    def lacks(self, body):
        """Whether the crate has no function of the name that a wrong body gives."""
        if not self.names:
            self.names = {it for path in glob.iglob(f"{self.folder}/src/**/*.rt", recursive=True) for it in names(path)}
        owner, _, name = body.function.rpartition("::")
        return not any(name == it[1] and owner.rpartition("::")[2].startswith(it[0]) for it in self.names)

    def cuts(self, body):
        """What a wrong body replaces: the file, where it begins and ends there, and the new text."""
        return self.once("cuts", body, lambda: self.find_cuts(body))

    def find_cuts(self, body):
        found = []
        for file, old, new in body.changes:
            text = self.text(file)
            whole = f"\n{old}\n"
            if text.count(old) != 1 and text.count(whole) != 1:
                raise Unplanted(f"an 'old:' text stands in {file} {text.count(old)} times, and not once")
            if old == new:
                raise Unplanted("an 'old:' and a 'new:' text are the same")
            at = text.index(old) if text.count(old) == 1 else text.index(whole) + 1
            if new.startswith(old):
                # what is put behind a text
                found.append((file, at + len(old), at + len(old), new[len(old):]))
            elif new.endswith(old):
                found.append((file, at, at, new.removesuffix(old)))
            else:
                found.append((file, at, at + len(old), new))
        return found

    def spots(self, body):
        """The functions whose bodies a wrong body changes, or None where it changes anything else: a type, a constant, a clause."""
        return self.once("spots", body, lambda: self.find_spots(body))

    def find_spots(self, body):
        found = set()
        for file, begin, end, new in self.cuts(body):
            text = self.text(file)
            if begin == end and new.startswith(" {") and text[end:].lstrip().startswith("{"):
                # a body that begins behind the last clause
                begin = end = text.index("{", end)
            lines = text.count("\n", 0, begin), text.count("\n", 0, end)
            inside = [it for it in functions(text) if it[1] <= lines[0] and lines[1] <= it[2]]
            if not inside:
                return None
            found.add((file, *inside[-1]))
        return found if any(name == body.function.rpartition("::")[2] for _, name, _, _ in found) else None

    def twin_of(self, body):
        """The function that a twin can stand beside, the changes in it, its clauses among them, and those outside of all functions; or None.

        Outside a body may put a text before or behind a line, and change what a file uses for its clauses.
        """
        return self.once("twin", body, lambda: self.find_twin(body))

    def find_twin(self, body):
        cuts, name = self.cuts(body), body.function.rpartition("::")[2]
        for file in sorted({file for file, _, _, _ in cuts if file.startswith("src/")}):
            text = self.text(file)
            lines = [(text.count("\n", 0, begin), text.count("\n", 0, end)) for _, begin, end, _ in cuts]
            for span in self.spans(file):
                inside = [cut for cut, (one, other) in zip(cuts, lines) if cut[0] == file and span.head < one and other <= span.last]
                outside = [cut for cut in cuts if cut not in inside]
                if span.name == name and inside and all(map(self.is_beside, outside)):
                    return file, span, inside, outside
        return None

    def is_beside(self, cut):
        """Whether a change lies outside of all functions, and takes nothing away but names that a file uses for its clauses."""
        file, begin, end, _ = cut
        text = self.text(file)
        at = text.count("\n", 0, begin)
        return (begin == end or text.split("\n")[at].startswith("ghost use ")) and not any(it.head < at < it.last for it in self.spans(file))

    def copy_of(self, file, span, name, changes=()):
        """The text of a function under another name, with changes."""
        lines = self.text(file).split("\n")
        base = len("\n".join(lines[:span.first])) + 1 if span.first else 0
        text = "\n".join(lines[span.first:span.last + 1])
        for begin, end, new in sorted(changes, reverse=True):
            text = text[:begin - base] + new + text[end - base:]
        return "\n\n" + re.sub(rf"\bfn {span.name}\b", f"fn {name}", text, count=1)

    def proofs_of(self, function, name):
        """The files of a function's proof, for a function of another name beside it."""
        *path, own = function.split("::")
        folder, texts = "/".join(["proofs", *path, own]), {}
        for found in sorted(glob.glob(f"{self.folder}/{glob.escape(folder)}/*.antt")):
            text = self.text(f"{folder}/{os.path.basename(found)}")
            words = re.escape(".".join(["proofs", *path, own]))
            texts["/".join(["proofs", *path, name, os.path.basename(found)])] = re.sub(rf"\b{words}\b", ".".join(["proofs", *path, name]), text)
        return texts

    def planted(self, bodies):
        """The texts of the files that change or are new, with the bodies planted, and what is to be judged of each body."""
        cuts, texts, judged, taken = {}, {}, {}, set()
        for body in bodies:
            spots = self.spots(body)
            if len(bodies) == 1 or spots is not None and not taken & spots:
                taken |= spots or set()
                judged[body.name], changes = Spot(body.function), self.cuts(body)
            else:
                number = sum(bool(it.control) for it in judged.values())
                judged[body.name], changes, proofs = self.twin(body, number)
                texts.update(proofs)
            for file, *cut in changes:
                if cut not in cuts.setdefault(file, []):
                    cuts[file].append(cut)
        for file, found in cuts.items():
            text, last = self.text(file), None
            for begin, end, new in sorted(found, reverse=True):
                if last is not None and end > last:
                    raise Unplanted("two changes meet")
                text, last = text[:begin] + new + text[end:], begin
            texts[file] = text
        return texts, judged

    def twin(self, body, number):
        """What is to be judged of a body in a twin of this number, the changes that plant it, and the files of its proof."""
        if not (found := self.twin_of(body)):
            raise Unplanted("two changes meet")
        file, span, inside, outside = found
        owner, own = body.function.rpartition("::")[::2]
        names = [f"{own}_wrong_{number}", f"{own}_right_{number}"]
        end = len("\n".join(self.text(file).split("\n")[:span.last + 1]))
        both = self.copy_of(file, span, names[0], [cut for _, *cut in inside]) + self.copy_of(file, span, names[1])
        proofs = {path: text for name in names for path, text in self.proofs_of(body.function, name).items()}
        return Spot(*[f"{owner}::{it}" if owner else it for it in names]), [*outside, (file, end, end, both)], proofs

    def rounds(self, bodies):
        """Parts the bodies: those that one check can judge together, and those that want one of their own."""
        together, alone = [], []
        for body in bodies:
            fits = next((it for it in together if self.fits([*it, body])), None)
            if fits:
                fits.append(body)
            else:
                (together if self.fits([body, body]) or self.spots(body) is not None else alone).append([body])
        return together + alone

    def fits(self, bodies):
        """Whether these bodies can be planted together."""
        try:
            return bool(self.planted(bodies))
        except Unplanted:
            return False


def names(path):
    """The functions of a source, each with what the last name before its own begins with where a check prints it: its file, or its owner.

    An `impl` of a trait for a type has both names as one, before those of the trait's arguments.
    """
    owner = module = os.path.basename(path).removesuffix(".rt")
    with open(path, encoding="utf-8") as file:
        for line in file:
            if found := OWNER.match(line):
                # an `impl` for each type is one for `Any`
                given = re.match(rf"impl<[^>]*\b{found[2]}\b", line)
                owner = f"{'Any' if given and found[1] else found[2]}{found[1] or ''}"
            elif found := HEAD.match(line):
                yield owner if found[1] else module, found[2]


def functions(text):
    """The functions of a source, as `rt fmt` lays it out: the name, and the first and last line of the body, counted from 0."""
    lines, found = text.split("\n"), []
    for at, line in enumerate(lines):
        head = HEAD.match(line)
        if not head:
            continue
        inset, name = head.groups()
        if line.endswith("}") and "{" in line:
            found.append((name, at, at))
            continue
        for first in range(at, len(lines)):
            now = lines[first]
            if now == inset + "{" or now.endswith(" {") and (first == at or now.startswith(f"{inset})") or now.startswith(f"{inset}where")):
                last = next((it for it in range(first, len(lines)) if lines[it] == inset + "}"), None)
                if last is not None:
                    found.append((name, first, last))
                break
            if now.endswith(";") and not now.startswith(inset + " ") or now == inset + "}" or first > at and HEAD.match(now):
                break
    return found


def spans(text):
    """The functions of a source beside which a twin can stand: those of no trait, and of no cycle of calls."""
    lines, owner = text.split("\n"), ""
    for at, line in enumerate(lines):
        if OWNER.match(line):
            owner = "trait" if " for " in line or re.match(r"(?:pub(?:\([a-z]+\))? )?trait\b", line) else "type"
        elif line == "}":
            owner = ""
        head = HEAD.match(line)
        if not head or owner == "trait" or bool(head[1]) != bool(owner):
            continue
        ends = (it for it in range(at, len(lines)) if lines[it] in (head[1] + "}", head[1] + "{}") or it == at and "{" in line and line.endswith("}"))
        first, last = at, next(ends, None)
        while first and ATTRIBUTE.match(lines[first - 1]):
            first -= 1
        if last is not None and not any("cycle(" in it or "#[test]" in it for it in lines[first:at]):
            yield Span(head[2], first, at, last)


def culprits(output, bodies, crate):
    """The bodies whose lines are among those that the check can't read, or whose function the crate hasn't."""
    named = {(found[1], int(found[2])) for found in map(UNREAD.match, output.split("\n")) if found}
    lost = []
    for body in bodies:
        lines = set()
        for file, begin, _, _ in crate.sources.cuts(body):
            # each change is one line for one, so lines stay where they are
            lines.add((file, crate.sources.text(file).count("\n", 0, begin) + 1))
        if lines & named or f"{crate.name}::{body.function}" in lacks(output):
            lost.append(body)
    return lost


def lacks(output):
    """The functions that a check was asked for and the crate hasn't."""
    return LACKS.findall(output)


def verdicts(output, crate):
    """What a check says of each function: whether it is proved, and for what reasons of its own it is not."""
    goals, found, gone, lines = [], {}, set(), {}
    for line in output.split("\n"):
        broken, goal, told = LINE.match(line), GOAL.match(line), FN.match(line)
        if broken:
            name = f"{crate}::{broken[1].replace('/', '::')}"
            why = re.sub(r"`[^`]*`", "`", broken[3])
            if GONE.search(why):
                gone.add(name)
            else:
                lines.setdefault(name, []).append(f"proofs/{broken[1]}, line {broken[2]}: {broken[3]}")
        elif goal:
            goals.append(goal[1])
        elif told:
            found[told[1]] = (told[2], goals)
            goals = []
        elif OTHER.match(line):
            goals = []
    return {name: verdict(told, goals, lines.get(name, []), name in gone) for name, (told, goals) in found.items()}


def verdict(told, goals, lines, is_gone):
    """Whether a function is proved, for what reasons of its own it is not, and its line."""
    if told.startswith("proved"):
        return True, [], told
    if is_gone:
        # its answers name what is gone, so a goal of one branch may be open for want of an answer under another name
        goals = [it for it in goals if FALSE in it or AT_END.search(it)]
    return False, [*goals, *lines], told


def unread(output):
    """Whether a check can't read a text of the sources or definitions."""
    return any(map(UNREAD.match, output.split("\n")))


def stands(is_proved, reasons, line):
    """Whether a function is proved, or would be if what it calls were: a check judges other wrong bodies beside."""
    return is_proved or not reasons and line.startswith("no proof: it calls ")


def reason(spot, crate, said):
    """Whether a check refuses a wrong body's function for a reason of its own, and what is to be said; None where there is no such function."""
    name, control = f"{crate}::{spot.function}", f"{crate}::{spot.control}"
    if spot.control and not stands(*said.get(control, (False, [], ""))):
        return False, f"{control} is not proved, which has the function's own body"
    if name not in said:
        return None, f"there is no function {name}"
    is_proved, reasons, line = said[name]
    if is_proved:
        return False, f"STILL PROVED: {name} is proved with this body"
    return (True, reasons[0]) if reasons else (False, f"refused for no reason of its own: {name}: {line}")


def complaint(status, output):
    """What is wrong with a wrong body of which a check says nothing."""
    lines = output.strip().split("\n")
    first = next((it for it in lines if "error" in it), lines[-1])[:200]
    if "has no function" in first:
        return f"there is no function of that name: {first}"
    return f"it can't be read: {first}" if status == 1 else f"the check ended with status {status}: {first}"
