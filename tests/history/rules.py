"""The protocol's rules of one key: how a call changes what stands there."""
from typing import NamedTuple, Optional

from tests.history.record import REFUSED, STORES

LIMIT = 2**64


class Item(NamedTuple):
    """What stands under the key. A number that isn't known yet is above the floor, and no greater than the top."""

    flags: int
    block: bytes
    unique: Optional[int]
    floor: int
    top: float


class State(NamedTuple):
    """The key's item, and the least that the last number drawn can have been."""

    item: Optional[Item]
    drawn: int


def number_of(block):
    """The number that a block is: 1 to 20 digits below 2^64, and spaces behind them."""
    digits = block.rstrip(b" ")
    if not 1 <= len(digits) <= 20 or not digits.isdigit() or int(digits) >= LIMIT:
        return None
    return int(digits)


class Rules:
    """How a call changes the state of a key, if its reply is right there. None where it isn't."""

    def __init__(self, key, told):
        self.key = key
        self.told = told

    def step(self, call, state):
        """The state after a call whose span is kept, too."""
        least, most, after, _ = call.span
        if state.drawn < least:
            state = State(state.item, least)
        if state.drawn > most:
            return None
        new = self.answer(call, state)
        if new is not None and new.drawn < after:
            return State(new.item, after)
        return new

    def answer(self, call, state):
        if call.verb == "flush":
            return State(None, state.drawn) if call.reply == ("FLUSHED",) else None
        if call.verb in STORES:
            return self.store(call, state)
        return getattr(self, call.verb)(call, state)

    @staticmethod
    def write(call, state, flags, block, reply):
        """A write, refused or not. One that is over at once leaves nothing."""
        if call.reply[0] in REFUSED:
            return state
        if call.reply != reply:
            return None
        floor = max(state.drawn, call.span.after - 1)
        return State(None if call.over else Item(flags, block, None, floor, call.span.end), floor + 1)

    @staticmethod
    def refusal(call, state, reply):
        return state if call.reply == (reply,) else None

    def store(self, call, state):
        item = state.item
        if call.verb == "add" and item or call.verb in ("replace", "append", "prepend") and not item:
            return self.refusal(call, state, "NOT_STORED")
        if call.verb == "append":
            return self.write(call, state, item.flags, item.block + call.block, ("STORED",))
        if call.verb == "prepend":
            return self.write(call, state, item.flags, call.block + item.block, ("STORED",))
        return self.write(call, state, call.flags, call.block, ("STORED",))

    def cas(self, call, state):
        if not state.item:
            return self.refusal(call, state, "NOT_FOUND")
        met = self.learn(state, call.unique)
        if call.reply == ("EXISTS",):
            return state if met is None or state.item.unique is None else None
        if met is None:
            return None
        return self.write(call, met, call.flags, call.block, ("STORED",))

    def learn(self, state, unique):
        """The state where the item has this number, if it can have it."""
        item = state.item
        if item.unique == unique:
            return state
        if item.unique is not None or not item.floor < unique <= item.top:
            return None
        content = (self.key, item.flags, item.block)
        if self.told.get(unique, content) != content:
            return None
        return State(item._replace(unique=unique), max(state.drawn, unique))

    def get(self, call, state):
        if not state.item or not call.hit:
            return state if not state.item and call.reply == ("MISS",) else None
        flags, unique, block = call.hit
        if flags != state.item.flags or block != state.item.block:
            return None
        return state if unique is None else self.learn(state, unique)

    def gat(self, call, state):
        found = self.get(call, state)
        return found and self.expiring(call, found)

    @staticmethod
    def expiring(call, state):
        return State(None, state.drawn) if call.over else state

    def touch(self, call, state):
        if not state.item:
            return self.refusal(call, state, "NOT_FOUND")
        return self.expiring(call, state) if call.reply == ("TOUCHED",) else None

    def delete(self, call, state):
        if not state.item:
            return self.refusal(call, state, "NOT_FOUND")
        return State(None, state.drawn) if call.reply == ("DELETED",) else None

    def incr(self, call, state):
        return self.count(call, state, lambda number, delta: (number + delta) % LIMIT)

    def decr(self, call, state):
        return self.count(call, state, lambda number, delta: max(0, number - delta))

    def count(self, call, state, counted):
        if not state.item:
            return self.refusal(call, state, "NOT_FOUND")
        number = number_of(state.item.block)
        if number is None:
            return self.refusal(call, state, "NOT_NUMERIC")
        new = str(counted(number, call.delta))
        return self.write(call, state, state.item.flags, new.encode(), ("NUMBER", new))
