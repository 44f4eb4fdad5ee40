#!/usr/bin/python3
"""Uses pylibmc, and libmemcached below it, as its documentation does (https://sendapatch.se/projects/pylibmc)."""
import time

import pylibmc

import checks

PORT, SILENT, CONTROL = checks.ports()
SERVERS = [f"{checks.HOST}:{PORT}"]


def client_of(servers=SERVERS, **behaviors):
    """A client of the text protocol."""
    return pylibmc.Client(servers, binary=False, behaviors={"tcp_nodelay": True, **behaviors})


def count_up(key, times):
    """Adds one by a loop of gets and cas, as the documentation shows, while another client does so in turn with it."""
    first, second = client_of(cas=True), client_of(cas=True)
    refused = 0
    for _ in range(times):
        value, unique = first.gets(key)
        second.cas(key, second.gets(key)[0] + 1, second.gets(key)[1])
        while not first.cas(key, value + 1, unique):
            refused += 1
            value, unique = first.gets(key)
    return first.get(key), refused


def late(servers):
    """Gives whether a get from a server that doesn't answer raised an error within two seconds."""
    start = time.monotonic()
    try:
        client_of(servers, _poll_timeout=300).get("a")
    except pylibmc.Error:
        return time.monotonic() - start < 2
    return False


def first_that_works(call, seconds=10):
    """Makes a call until it raises no error of the client, as it does while the server is believed dead."""
    end = time.monotonic() + seconds
    while True:
        try:
            return call()
        except pylibmc.Error:
            if time.monotonic() > end:
                raise
            time.sleep(0.1)


mc = client_of(cas=True)
many = {f"many:{i}": f"value {i} " + "x" * (i % 200) for i in range(1000)}
check = checks.Checks(**globals())

check.about("set, get, delete, add, replace, append, prepend")
check.gives("mc.set('some_key', 'Some value')", True)
check.gives("mc.get('some_key')", "Some value")
check.gives("mc['some_key']", "Some value")
check.gives("'some_key' in mc", True)
check.gives("'none' in mc", False)
check.gives("mc.get('none')", None)
check.gives("mc.get('none', 'default')", "default")
check.gives("mc.add('some_key', 'x')", False)
check.gives("mc.add('added', b'first')", True)
check.gives("mc.replace('added', b'second')", True)
check.gives("mc.replace('none', 'x')", False)
check.gives("mc.append('added', b' and')", True)
check.gives("mc.prepend('added', b'the ')", True)
check.gives("mc.get('added')", b"the second and")
check.gives("mc.delete('added')", True)
check.gives("mc.delete('added')", False)
check.gives("mc.set('empty', b'') and mc.get('empty')", b"")
check.gives("mc.set('k' * 250, 'long') and mc.get('k' * 250)", "long")

check.about("flags, serialised and compressed values")
check.gives("mc.set('list', [1, {'a': (2, 3)}]) and mc.get('list')", [1, {"a": (2, 3)}])
check.is_true("mc.set('true', True) and mc.get('true') == True")
check.gives("mc.set('float', 1.5) and mc.get('float')", 1.5)
check.gives("mc.set('bytes', bytes(range(256)) * 40) and mc.get('bytes')", bytes(range(256)) * 40)
check.gives("mc.set('packed', 'x' * 2**21, min_compress_len=1000) and mc.get('packed') == 'x' * 2**21", True)

check.about("counters")
check.gives("mc.set('count', 10)", True)
check.gives("mc.incr('count')", 11)
check.gives("mc.incr('count', 9)", 20)
check.gives("mc.decr('count', 15)", 5)
check.gives("mc.get('count')", 5)
check.raises("mc.incr('none')", "NotFound")
check.raises("mc.incr('list')", "Error", "ClientError", "ProtocolError", "UnknownReadFailure")
check.gives("mc.set_multi({'c1': 1, 'c2': 2})", [])
check.gives("mc.incr_multi(['c1', 'c2'], delta=10)", None)
check.gives("mc.get_multi(['c1', 'c2'])", {"c1": 11, "c2": 12})

check.about("gets and cas, and 200 loops of two clients")
check.gives("mc.set('shared', 0)", True)
check.gives("mc.cas('shared', 1, mc.gets('shared')[1])", True)
check.gives("mc.cas('shared', 2, 12345678901234)", False)
check.gives("mc.gets('none')", (None, None))
check.gives("mc.set('shared', 0) and count_up('shared', 200)", (400, 200))

check.about("1,000 keys at once")
check.gives("mc.set_multi(many)", [])
check.gives("mc.get_multi(list(many)) == many", True)
check.gives("mc.get_multi([*many, 'none']) == many", True)
check.gives("mc.get_multi([f'{i}' for i in range(1000)], key_prefix='many:') == {key[5:]: many[key] for key in many}", True)
check.gives("mc.add_multi({'many:1': 'x', 'new': 'y'})", ["many:1"])
check.gives("mc.delete_multi(list(many))", True)
check.gives("mc.get_multi(list(many))", {})

check.about("touch and expiry")
check.gives("mc.set('brief', 'x', time=1) and mc.set('kept', 'y', time=1)", True)
check.gives("mc.touch('kept', 100)", True)
check.gives("mc.touch('none', 100)", False)
check.gives("time.sleep(2.2) or mc.get('brief')", None)
check.gives("mc.get('kept')", "y")

# It sends -1 as 4294967295, a moment of 2106, which memcached takes for one that is past. 2592001 is one of January 1970 to both.
check.about("expiries that are past")
check.gives("mc.set('past', 'x', time=-1) and mc.get('past')", None if checks.IS_MEMCACHED else "x")
check.gives("mc.set('past', 'x', time=2592001) and mc.get('past')", None)
check.gives("mc.set('past', 'x', time=100) and mc.touch('past', -1) and mc.get('past')", None)

check.about("requests that don't block, and noreply")
check.names["unblocked"] = client_of(no_block=True)
check.is_true("all(unblocked.set(f'b{i}', i) for i in range(500))")
check.gives("unblocked.get_multi([f'b{i}' for i in range(500)]) == {f'b{i}': i for i in range(500)}", True)
check.names["quiet"] = client_of(**{"_noreply": True})
check.is_true("[quiet.set(f'n{i}', i) for i in range(500)]")
check.gives("quiet.get('n499')", 499)
check.gives("len(mc.get_multi([f'n{i}' for i in range(500)]))", 500)

check.about("what is refused")
check.raises("mc.set('k' * 251, 'x')", "BadKeyProvided", "ValueError")
check.raises("mc.set('large', b'x' * 2**21)", "TooBig", "ServerError", "Error")
check.gives("mc.get('some_key')", "Some value")
check.gives("mc.set('large', b'x' * 1048000) and len(mc.get('large'))", 1048000)

check.about("flush")
check.gives("mc.flush_all()", True)
check.gives("mc.get_multi(['some_key', 'large', 'kept'])", {})

check.about("clones and pools")
check.gives("mc.clone().set('clone', 'x') and mc.get('clone')", "x")
check.names["pool"] = pylibmc.ClientPool(mc, 4)
check.gives("[(lambda held: held.__enter__().get('clone'))(pool.reserve()) for _ in range(4)]", ["x"] * 4)

check.about("reconnecting after the server was killed and started anew")
check.gives("checks.restart(CONTROL)", True)
check.gives("first_that_works(lambda: client_of(retry_timeout=1).get('clone'))", None)
check.gives("first_that_works(lambda: mc.set('after', 'y')) and mc.get('after')", "y")
check.gives("mc.disconnect_all() or mc.get('after')", "y")

check.about("time-outs")
check.gives("late([f'{checks.HOST}:{SILENT}'])", True)
check.end()
