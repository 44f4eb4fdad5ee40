#!/usr/bin/python3
"""Uses python-memcached as its documentation does (pydoc3 memcache)."""
import time

import memcache

import checks

PORT, SILENT, CONTROL = checks.ports()
SERVERS = [f"{checks.HOST}:{PORT}"]


def count_up(key, times):
    """Adds one by a loop of gets and cas, while another client does so in turn with it."""
    first, second = (memcache.Client(SERVERS, cache_cas=True) for _ in range(2))
    refused = 0
    for _ in range(times):
        value = first.gets(key)
        second.cas(key, second.gets(key) + 1)
        while not first.cas(key, value + 1):
            refused += 1
            first.reset_cas()
            value = first.gets(key)
    return first.get(key), refused


def late():
    """Gives what a get from a server that doesn't answer gives, and whether it took less than two seconds."""
    start = time.monotonic()
    return memcache.Client([f"{checks.HOST}:{SILENT}"], socket_timeout=0.3).get("a"), time.monotonic() - start < 2


mc = memcache.Client(SERVERS, dead_retry=0.2)
many = {f"many:{i}": f"value {i} " + "x" * (i % 200) for i in range(1000)}
check = checks.Checks(**globals())

check.about("set, get, delete, add, replace, append, prepend")
check.is_true("mc.set('some_key', 'Some value')")
check.gives("mc.get('some_key')", "Some value")
check.gives("mc.get('none')", None)
check.gives("mc.add('some_key', 'x')", False)
check.is_true("mc.add('added', 'first')")
check.is_true("mc.replace('added', 'second')")
check.gives("mc.replace('none', 'x')", False)
check.is_true("mc.append('added', ' and')")
check.is_true("mc.prepend('added', 'the ')")
check.gives("mc.get('added')", "the second and")
check.gives("mc.append('none', 'x')", False)
check.is_true("mc.delete('added')")
check.gives("mc.get('added')", None)
check.is_true("mc.set((17, 'hashed'), 'x') and mc.get((17, 'hashed')) == 'x'")
check.is_true("mc.set('k' * 250, 'long') and mc.get('k' * 250) == 'long'")

check.about("flags, serialised and compressed values")
check.is_true("mc.set('another_key', 3) and mc.get('another_key') == 3")
check.is_true("mc.set('list', [1, {'a': (2, 3)}]) and mc.get('list') == [1, {'a': (2, 3)}]")
check.is_true("mc.set('bytes', bytes(range(256)) * 40) and mc.get('bytes') == bytes(range(256)) * 40")
check.is_true("mc.set('packed', 'x' * 1000000, min_compress_len=1000) and mc.get('packed') == 'x' * 1000000")
check.is_true("mc.set('accents', '\\u00e9' * 100) and mc.get('accents') == '\\u00e9' * 100")

check.about("counters")
check.is_true("mc.set('counter', '20')")
check.gives("mc.incr('counter')", 21)
check.gives("mc.incr('counter', 9)", 30)
check.gives("mc.decr('counter')", 29)
check.gives("mc.decr('counter', 100)", 0)
check.gives("mc.incr('none')", None)

check.about("gets and cas, and 200 loops of two clients")
check.is_true("mc.set('shared', 0)")
check.gives("count_up('shared', 200)", (400, 200))
check.gives("mc.gets('none')", None)

check.about("1,000 keys at once")
check.gives("mc.set_multi(many)", [])
check.gives("mc.get_multi(list(many)) == many", True)
check.gives("mc.get_multi(range(1000), key_prefix='many:') == {i: many[f'many:{i}'] for i in range(1000)}", True)
check.gives("mc.delete_multi(list(many))", 1)
check.gives("mc.get_multi(list(many))", {})

check.about("touch and expiry")
check.is_true("mc.set('brief', 'x', time=1) and mc.set('kept', 'y', time=1)")
check.is_true("mc.touch('kept', 100)")
check.gives("mc.touch('none', 100)", 0)
check.gives("time.sleep(2.2) or mc.get('brief')", None)
check.gives("mc.get('kept')", "y")

check.about("noreply")
check.is_true("mc.set('quiet', 5, noreply=True) and mc.get('quiet') == 5")
check.gives("mc.incr('quiet', 2, noreply=True)", None)
check.gives("mc.get('quiet')", 7)
check.gives("mc.set_multi({f'q{i}': i for i in range(1000)}, noreply=True)", [])
check.gives("len(mc.get_multi([f'q{i}' for i in range(1000)]))", 1000)
check.gives("mc.delete('quiet', noreply=True) and mc.get('quiet')", None)

check.about("what is refused")
check.raises("mc.set('k' * 251, 'x')", "MemcachedKeyLengthError")
check.raises("mc.set('with space', 'x')", "MemcachedKeyCharacterError")
check.gives("mc.set('large', b'x' * 2**21)", 0)
check.is_true("mc.set('large', b'x' * 1048000) and len(mc.get('large')) == 1048000")

check.about("flush")
check.gives("mc.flush_all()", None)
check.gives("mc.get_multi(['some_key', 'large', 'kept'])", {})

check.about("reconnecting after the server was killed and started anew")
check.is_true("mc.set('before', 'x') and checks.restart(CONTROL)")
check.gives("mc.get('before')", None)
check.is_true("time.sleep(0.3) or mc.set('after', 'y')")
check.gives("mc.get('after')", "y")
check.gives("mc.disconnect_all() or mc.get('after')", "y")

check.about("time-outs")
check.gives("late()", (None, True))
check.end()
