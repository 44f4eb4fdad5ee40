"""Alters a recorded run in ways that no order of its calls can explain: what the search must refuse.

Each function takes the calls of a record and random numbers, and gives the lines of another record, or None where the run has no place
for such a change. The flags of the recorded calls are drawn at random, so that one write alone gave those of an item.
"""
from collections import Counter, defaultdict

MADE = ("made", "joined")


def lines_with(calls, changed):
    """The lines of the record, of which some have another reply, or aren't there."""
    told = []
    for call in calls:
        reply = changed.get(call, call.reply)
        if reply is not None:
            told.append(" ".join([call.caller, str(call.number), call.verb, *call.arguments, *([] if call.verb in MADE else reply)]))
    return told


def hits_of(calls):
    """The hits of each caller on each key, in its order."""
    found = defaultdict(list)
    for call in calls:
        if call.hit:
            found[call.caller, call.key].append(call)
    return found


def two_reads_change_places(calls, dice):
    """A caller reads the later item of a key before the earlier."""
    pairs = [pair for hits in hits_of(calls).values() for pair in zip(hits, hits[1:]) if pair[0].hit[1] < pair[1].hit[1]]
    if not pairs:
        return None
    first, second = dice.choice(pairs)
    return lines_with(calls, {first: second.reply, second: first.reply})


def a_write_is_lost(calls, dice):
    """What a caller read before it stored something, it reads again."""
    read, stored, found = {}, {}, []
    for call in calls:
        at = call.caller, call.key
        if call.hit:
            if stored.pop(at, None):
                found.append((read[at], call))
            read[at] = call
        elif call.reply == ("STORED",) and at in read:
            stored[at] = call
    if not found:
        return None
    before, after = dice.choice(found)
    return lines_with(calls, {after: before.reply})


def a_write_that_is_read_was_never_made(calls, dice):
    givers = Counter((call.key, call.flags) for call in calls if call.wrote and call.flags is not None)
    told = {(call.key, call.hit[0]) for call in calls if call.hit}
    written = [call for call in calls if call.wrote and call.flags is not None]
    found = [call for call in written if (call.key, call.flags) in told and givers[call.key, call.flags] == 1]
    return lines_with(calls, {dice.choice(found): None}) if found else None


def two_cas_store_over_one_item(calls, dice):
    taken = {(call.key, call.unique) for call in calls if call.verb == "cas" and call.reply == ("STORED",)}
    found = [call for call in calls if call.reply == ("EXISTS",) and (call.key, call.unique) in taken]
    return lines_with(calls, {dice.choice(found): ("STORED",)}) if found else None


def reads_of_two_keys_change_replies(calls, dice):
    hits = [call for call in calls if call.hit]
    pairs = [(one, two) for one, two in zip(hits, hits[1:]) if one.key != two.key and one.hit[0] != two.hit[0]]
    if not pairs:
        return None
    first, second = dice.choice(pairs)
    return lines_with(calls, {first: second.reply, second: first.reply})


def a_block_has_a_sign_more(calls, dice):
    """No recorded block has that sign."""
    hits = [call for call in calls if call.hit]
    if not hits:
        return None
    call = dice.choice(hits)
    return lines_with(calls, {call: (*call.reply[:3], call.reply[3] + "!")})


def the_last_read_is_stale(calls, dice):
    """The caller that took in all others reads what another has seen replaced."""
    numbers, earlier = defaultdict(list), {}
    for call in calls:
        if call.hit:
            numbers[call.key].append(call.hit[1])
            earlier.setdefault((call.key, call.hit[1]), call)
    joined = max(at for at, call in enumerate(calls) if call.verb == "joined")
    last = [call for call in calls[joined:] if call.key and len(set(numbers[call.key])) > 1]
    if not last:
        return None
    call = dice.choice(last)
    return lines_with(calls, {call: earlier[call.key, min(numbers[call.key])].reply})


CHANGES = [
    two_reads_change_places,
    a_write_is_lost,
    a_write_that_is_read_was_never_made,
    two_cas_store_over_one_item,
    reads_of_two_keys_change_replies,
    a_block_has_a_sign_more,
    the_last_read_is_stale,
]
