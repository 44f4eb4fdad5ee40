"""Checks a recorded run of many callers of one store: is there an order of their calls that explains every reply?

    python3 -m tests.history.search [--states N] FILE    "-" reads standard input; status 0 explained, 1 not, 2 not a record, 3 given up

For each key by itself the search goes through the orders of the calls on it that keep each caller's own order and what was
made and joined. That the orders of two keys agree is asked of the unique numbers alone: a write draws a number above all
that were drawn before it, whatever their keys.

The unique numbers say when each call was taken (spans.py), and the search leaves an order as soon as a call is late. Records whose
writes have flags of their own are explained in steps that are few more than their calls.
"""
import sys
from bisect import bisect_left
from collections import defaultdict
from typing import NamedTuple

from tests.history.spans import span_calls, tell_numbers
from tests.history.record import NotARecord, order_of, read_record
from tests.history.rules import Rules, State

# So many states of one key are searched at most, unless another number is asked for.
MOST_STATES = 5_000_000


class Lane(NamedTuple):
    """A caller's calls on one key; of each, how many calls of which other lanes stand before it."""

    calls: list
    needs: list


def lanes_of(ordered, key):
    """The lanes of a key, and of the flushes, which change every key."""
    names, places, own = {}, defaultdict(list), defaultdict(int)
    for call, known in ordered:
        line = own[call.caller]
        own[call.caller] += 1
        if call.verb == "flush" or call.key == key:
            names.setdefault(call.caller, len(names))
            places[call.caller].append((line, call, known))
    lines = {name: [line for line, _, _ in places[name]] for name in names}
    lanes = []
    for name in names:
        needs = []
        for _, _, known in places[name]:
            before = [(other, count) for other, count in known.before.items() if count and other != name and other in names]
            needs.append([(names[other], bisect_left(lines[other], count)) for other, count in before])
        lanes.append(Lane([call for _, call, _ in places[name]], needs))
    return lanes


class Search:
    """A search, depth first, through the orders of the calls of a key; a state is tried once."""

    def __init__(self, key, lanes, told, most):
        self.lanes = lanes
        self.most = most
        self.rules = Rules(key, told)
        self.furthest = (0,) * len(lanes)
        self.met = [self.met_from(lane) for lane in lanes]
        self.tried = set()

    @staticmethod
    def met_from(lane):
        """At each place of a lane the next number that a call there met, as that of the item that stood."""
        found, numbers = None, []
        for call in reversed(lane.calls):
            if call.meets() is not None:
                found = call.meets()
            numbers.append(found)
        return numbers[::-1] + [None]

    def is_lost(self, places, state):
        """Whether a call is late, or is to meet a number that is drawn already and doesn't stand: no later item has it."""
        item, drawn = state
        for lane, met, place in zip(self.lanes, self.met, places):
            if place < len(lane.calls) and drawn > lane.calls[place].span.most:
                return True
            unique = met[place]
            if unique is None or unique > drawn:
                continue
            if item is None or (unique <= item.floor if item.unique is None else item.unique != unique):
                return True
        return False

    def is_ready(self, at, places):
        """Whether a lane has a call left, and all that stands before it was taken."""
        place, lane = places[at], self.lanes[at]
        if place == len(lane.calls):
            return False
        for other, count in lane.needs[place]:
            if places[other] < count:
                return False
        return True

    def passed(self, places, state):
        """The places after all calls that are explained here and change nothing: these can wait for no other."""
        places = list(places)
        moved = True
        while moved:
            moved = False
            for at, lane in enumerate(self.lanes):
                while self.is_ready(at, places):
                    call = lane.calls[places[at]]
                    if not call.keeps or self.rules.step(call, state) != state:
                        break
                    places[at] += 1
                    moved = True
        return tuple(places)

    def nexts(self, places, state):
        """Where a call more leads to. The one that can wait least comes first."""
        ready = [(lane.calls[places[at]].span.most, at) for at, lane in enumerate(self.lanes) if self.is_ready(at, places)]
        for _, at in sorted(ready):
            new = self.rules.step(self.lanes[at].calls[places[at]], state)
            if new is not None:
                yield places[:at] + (places[at] + 1,) + places[at + 1 :], new

    def run(self):
        """Whether an order explains the calls; None where the search was given up."""
        ends = tuple(len(lane.calls) for lane in self.lanes)
        path = [iter([((0,) * len(self.lanes), State(None, 0))])]
        while path:
            found = next(path[-1], None)
            if found is None:
                path.pop()
                continue
            places, state = self.passed(*found), found[1]
            if places == ends:
                return True
            if sum(places) > sum(self.furthest):
                self.furthest = places
            if (places, state) in self.tried or self.is_lost(places, state):
                continue
            if len(self.tried) == self.most:
                return None
            self.tried.add((places, state))
            path.append(self.nexts(places, state))
        return False

    def waiting(self):
        """The calls that no order got past, of the longest that was found."""
        return [str(lane.calls[self.furthest[at]]) for at, lane in enumerate(self.lanes) if self.is_ready(at, self.furthest)]


def check(text, most=MOST_STATES):
    """The verdict of a record: True, False or None where it was given up after so many states; and why."""
    callers = read_record(text)
    ordered = order_of(callers)
    told, fault = tell_numbers(ordered)
    fault = fault or span_calls(ordered, told)
    if fault:
        return False, fault
    keys = sorted({call.key for call, _ in ordered if call.key is not None})
    given_up, states = None, 0
    for key in keys:
        search = Search(key, lanes_of(ordered, key), told, most)
        found = search.run()
        states += len(search.tried)
        if found is False:
            return False, f"no order explains the key {key}; of the next calls none can come:\n" + "\n".join(search.waiting())
        if found is None:
            given_up = f"the search for the key {key} was given up; of the longest order these come next:\n" + "\n".join(search.waiting())
    if given_up:
        return None, given_up
    return True, f"{len(ordered)} lines of {len(callers)} callers on {len(keys)} keys are explained, in {states} states"


def main(words):
    most = MOST_STATES
    if len(words) == 3 and words[0] == "--states" and words[1].isdigit():
        most, words = int(words[1]), words[2:]
    if len(words) != 1:
        print(__doc__)
        return 2
    try:
        with sys.stdin if words[0] == "-" else open(words[0], encoding="ascii") as file:
            verdict, why = check(file.read(), most)
    except (NotARecord, ValueError, OSError) as fault:
        print(fault)
        return 2
    print(why)
    return {True: 0, False: 1, None: 3}[verdict]


if __name__ == "__main__":
    sys.exit(main(sys.argv[1:]))
