"""The unique numbers of a record, which are the clock of its run.

A call that met an item's number came before the next number that is known of that key, and so did all that its caller had done until
then, on every key. So each call has a span of numbers in which it was taken.
"""
from bisect import bisect_left
from collections import Counter, defaultdict
from typing import NamedTuple

# Above all numbers.
NEVER = float("inf")


class Span(NamedTuple):
    """Bounds of the last number drawn: of it before the call from least to most, and after it from after to end."""

    least: int
    most: float
    after: int
    end: float


def tell_numbers(ordered):
    """The contents that hits told: of each number its key, flags and block; and what is wrong with them."""
    told = {}
    for call, _ in ordered:
        if call.hit and call.hit[1] is not None:
            flags, unique, block = call.hit
            content = (call.key, flags, block)
            if told.setdefault(unique, content) != content:
                return told, f"the number {unique} is told of two contents: {call}"
    return told, None


def next_seen(ordered):
    """Of each number that a call met: the next that one met of the same key. None was drawn for it between that are known."""
    seen = defaultdict(set)
    for call, _ in ordered:
        if call.meets() is not None:
            seen[call.key].add(call.meets())
    found = {}
    for key, numbers in seen.items():
        rising = sorted(numbers)
        found.update({(key, unique): later for unique, later in zip(rising, rising[1:])})
    return found


def draws_of(ordered, told):
    """Bounds of the numbers that writes drew, from the flags that hits told: above the first, and no greater than the second.

    An item keeps its flags while it is appended to or counted. So where one write alone gave some flags to a key, the numbers
    that are told with them lie side by side: the write's is the least or below it, and above the last of other flags."""
    givers = Counter((call.key, call.flags) for call, _ in ordered if call.wrote and call.flags is not None)
    least, of_key = {}, defaultdict(list)
    for unique, (key, flags, _) in sorted(told.items()):
        least.setdefault((key, flags), unique)
        of_key[key].append(unique)
    draws = {}
    for call, _ in ordered:
        first = least.get((call.key, call.flags)) if call.wrote and call.flags is not None else None
        if first is not None and givers[call.key, call.flags] == 1:
            at = bisect_left(of_key[call.key], first)
            draws[call] = of_key[call.key][at - 1] if at else 0, first
    return draws


def exact_draws(ordered, told, draws):
    """The same, of those writes where no other can have given what they gave: these drew the very number that is told."""
    others, counts = set(), Counter(told.values())
    for call, _ in ordered:
        if call.verb in ("append", "prepend") and call.wrote and not call.block:
            others.add(call.key)
        if call.reply[0] == "NUMBER":
            others.add((call.key, call.reply[1].encode()))
    for call, (_, first) in draws.items():
        content = (call.key, call.flags, call.block)
        if told[first] == content and counts[content] == 1 and not {call.key, (call.key, call.block)} & others:
            draws[call] = first - 1, first
    return draws


def span_calls(ordered, told):
    """Gives each call its span. Answers what is wrong where one has none."""
    later, draws = next_seen(ordered), exact_draws(ordered, told, draws_of(ordered, told))
    # Of each caller, after each of its lines: the least that the last number drawn can have been.
    after, bounds = defaultdict(list), {}
    for call, known in ordered:
        least = max((after[name][count - 1] for name, count in known.before.items() if count), default=0)
        least = max(least, call.meets() or 0)
        above = draws[call][0] if call in draws else 0
        bounds[call] = least, max(least, above) + 1 if call.wrote else least
        after[call.caller].append(bounds[call][1])
    # Of each caller, before each of its lines: the most.
    most = {}
    for call, _ in reversed(ordered):
        end = most.get(call.caller, NEVER)
        if call.verb == "made":
            end = min(end, most.get(call.arguments[0], NEVER))
        if call in draws:
            end = min(end, draws[call][1])
        before = end - call.wrote
        if call.meets() is not None:
            before = min(before, later.get((call.key, call.meets()), NEVER) - 1)
        most[call.caller] = before
        if call.verb == "joined":
            other = call.arguments[0]
            most[other] = min(most.get(other, NEVER), before)
        least, drawn = bounds[call]
        call.span = Span(least, before, drawn, end)
        if least > before or drawn > end:
            return f"it came after the number {max(least, drawn)} was drawn, and before the number {min(before, end) + 1} was: {call}"
    return None
