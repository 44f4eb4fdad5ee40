"""A record of many callers' calls of one store, and what stands before what in every order of them.

A record has a line for each call that was taken, in any order of the lines, its words apart by single spaces:

    CALLER NUMBER VERB ARGUMENTS.. REPLY..

The numbers of a caller's lines rise in the order in which it made the calls. Keys are words, flags, exptimes and numbers
are decimal. A block is written behind "=", each space and "%" in it as "%20" and "%25"; "=" alone is the empty block.

    set add replace append prepend    KEY FLAGS EXPTIME =BLOCK           STORED, NOT_STORED, TOO_LARGE, NO_CHUNK
    cas                               KEY FLAGS EXPTIME UNIQUE =BLOCK    STORED, EXISTS, NOT_FOUND, TOO_LARGE, NO_CHUNK
    get                               KEY                                HIT FLAGS UNIQUE =BLOCK, MISS
    gat                               KEY EXPTIME                        HIT FLAGS UNIQUE =BLOCK, MISS
    touch                             KEY EXPTIME                        TOUCHED, NOT_FOUND
    delete                            KEY                                DELETED, NOT_FOUND
    incr decr                         KEY DELTA                          NUMBER VALUE, NOT_FOUND, NOT_NUMERIC, TOO_LARGE, NO_CHUNK
    flush                                                                FLUSHED
    made joined                       OTHER

"made" says that the caller made another, whose calls stand after all that this one had done; "joined" that all calls of the
other stand before those that follow. A UNIQUE of "-" in a reply wasn't told. The store began with no items, and its clock
stands: an exptime below 0 is over at once, and no other ever. Calls that were refused (a bay was busy, memory ran short,
numbers were spent) changed nothing and are left out.
"""
from collections import defaultdict
from functools import lru_cache
from typing import NamedTuple
from urllib.parse import unquote_to_bytes

STORES = ("set", "add", "replace", "append", "prepend")
# How many arguments stand behind a verb.
ARGUMENTS = {"cas": 5, "get": 1, "gat": 2, "touch": 2, "delete": 1, "incr": 2, "decr": 2, "flush": 0, "made": 1, "joined": 1}
ARGUMENTS.update(dict.fromkeys(STORES, 4))
GIVES_FLAGS = ("set", "add", "replace", "cas")
# Which argument is the exptime.
EXPTIME_AT = {"set": 2, "add": 2, "replace": 2, "cas": 2, "gat": 1, "touch": 1}
# A write with such a reply was refused, and changed nothing.
REFUSED = ("TOO_LARGE", "NO_CHUNK")


class NotARecord(Exception):
    """A line that says nothing, or lines that no run could have left."""


class Call:
    """One line of the record, and what its words mean."""

    def __init__(self, caller, number, verb, arguments, reply):
        self.caller, self.number, self.verb, self.arguments, self.reply = caller, number, verb, arguments, reply
        self.key = arguments[0] if verb not in ("flush", "made", "joined") else None
        # The flags, number and block of a hit. A number that wasn't told is None.
        self.hit = None
        if reply[0] == "HIT":
            self.hit = int(reply[1]), None if reply[2] == "-" else int(reply[2]), block_of(reply[3])
        self.wrote = reply[0] in ("STORED", "NUMBER")
        self.flags = int(arguments[1]) if verb in GIVES_FLAGS else None
        self.block = block_of(arguments[-1]) if verb in STORES or verb == "cas" else None
        self.over = verb in EXPTIME_AT and int(arguments[EXPTIME_AT[verb]]) < 0
        self.unique = int(arguments[3]) if verb == "cas" else None
        self.delta = int(arguments[1]) if verb in ("incr", "decr") else None
        # Whether no order lets it change anything. It may still tell the number of what stood.
        self.keeps = not self.wrote and reply[0] not in ("FLUSHED", "DELETED") and not (self.over and reply[0] in ("HIT", "TOUCHED"))
        self.span = None

    def meets(self):
        """The number of the item that stood when the call was taken, where the line tells it."""
        if self.hit:
            return self.hit[1]
        if self.verb == "cas" and self.reply[0] in ("STORED", *REFUSED):
            return self.unique
        return None

    def __str__(self):
        return " ".join([self.caller, str(self.number), self.verb, *self.arguments, *self.reply])


@lru_cache(maxsize=None)
def block_of(word):
    if not word.startswith("="):
        raise NotARecord(f"a block stands behind '=': {word}")
    return unquote_to_bytes(word[1:])


def read_call(line):
    words = line.split(" ")
    if len(words) < 3 or words[2] not in ARGUMENTS or not words[1].isdigit():
        raise NotARecord(f"no call: {line}")
    caller, number, verb = words[0], int(words[1]), words[2]
    count = ARGUMENTS[verb]
    arguments, reply = words[3 : 3 + count], words[3 + count :]
    wanted = 0 if verb in ("made", "joined") else {"HIT": 4, "NUMBER": 2}.get(reply[0] if reply else "", 1)
    if len(arguments) < count or len(reply) != wanted:
        raise NotARecord(f"arguments or a reply are missing: {line}")
    return Call(caller, number, verb, tuple(arguments), tuple(reply) or ("",))


def read_record(text):
    """The calls of each caller, in its own order."""
    callers = defaultdict(list)
    for line in text.splitlines():
        if line:
            call = read_call(line)
            callers[call.caller].append(call)
    for caller, calls in callers.items():
        calls.sort(key=lambda call: call.number)
        if len({call.number for call in calls}) < len(calls):
            raise NotARecord(f"{caller} has two calls of one number")
    return dict(callers)


class Known(NamedTuple):
    """What stands before a call in every order: of each caller, how many of its lines."""

    before: dict

    def joined(self, other):
        names = self.before.keys() | other.before.keys()
        return Known({name: max(self.before.get(name, 0), other.before.get(name, 0)) for name in names})

    def further(self, caller):
        return Known({**self.before, caller: self.before.get(caller, 0) + 1})


def order_of(callers):
    """All calls, each behind what stands before it in every order, and with what that is."""
    makers = {call.arguments[0] for calls in callers.values() for call in calls if call.verb == "made"}
    known = {name: Known({}) for name in callers if name not in makers}
    taken = dict.fromkeys(callers, 0)
    ordered = []
    moved = True
    while moved:
        moved = False
        for name, calls in callers.items():
            while name in known and taken[name] < len(calls):
                call = calls[taken[name]]
                other = call.arguments[0] if call.verb in ("made", "joined") else None
                if call.verb == "joined" and taken.get(other, 0) < len(callers.get(other, [])):
                    break
                ordered.append((call, known[name]))
                taken[name] += 1
                moved = True
                known[name] = known[name].further(name)
                if call.verb == "made":
                    known[other] = known[name]
                if call.verb == "joined":
                    known[name] = known[name].joined(known.get(other, Known({})))
    if len(ordered) < sum(map(len, callers.values())):
        raise NotARecord("what was made and joined goes in a circle, or a caller was made after it was joined")
    return ordered
