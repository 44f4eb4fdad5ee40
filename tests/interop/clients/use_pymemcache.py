#!/usr/bin/python3
"""Uses pymemcache as its documentation does (https://pymemcache.readthedocs.io)."""
import json
import threading
import time
import zlib

from pymemcache import serde
from pymemcache.client.base import Client, PooledClient
from pymemcache.client.hash import HashClient
from pymemcache.client.retrying import RetryingClient
from pymemcache.exceptions import MemcacheUnexpectedCloseError

import checks

PORT, SILENT, CONTROL = checks.ports()
SERVER = (checks.HOST, PORT)
OPTIONS = {"connect_timeout": 5, "timeout": 5, "default_noreply": False}


class JsonSerde:
    """The serializer of the documentation, with texts as they are."""

    def serialize(self, key, value):
        return (value, 1) if isinstance(value, str) else (json.dumps(value), 2)

    def deserialize(self, key, value, flags):
        if flags == 1:
            return value.decode()
        if flags == 2:
            return json.loads(value.decode())
        raise Exception("Unknown serialization format")


class CompressedSerde(JsonSerde):
    """JSON that is compressed, with flags of its own."""

    def serialize(self, key, value):
        return zlib.compress(json.dumps(value).encode()), 16

    def deserialize(self, key, value, flags):
        return json.loads(zlib.decompress(value)) if flags == 16 else None


def count_up(key, times):
    """Adds one by a loop of gets and cas, as the documentation shows."""
    client = Client(SERVER, **OPTIONS)
    for _ in range(times):
        while True:
            value, unique = client.gets(key)
            if client.cas(key, str(int(value) + 1), unique):
                break
    client.close()


def count_up_together(key, threads, times):
    running = [threading.Thread(target=count_up, args=(key, times)) for _ in range(threads)]
    for it in running:
        it.start()
    for it in running:
        it.join(60)
    return client.get(key)


def elapsed(call):
    """Gives whether a call raised a time-out, and did so within two seconds."""
    start = time.monotonic()
    try:
        call()
    except (TimeoutError, OSError) as error:
        return type(error).__name__, time.monotonic() - start < 2
    return None, False


client = Client(SERVER, **OPTIONS)
names = dict(globals())
check = checks.Checks(**names)

check.about("set, get, delete, add, replace, append, prepend")
check.gives("client.version()[:2]", b"1.")
check.gives("client.set('some_key', 'some value')", True)
check.gives("client.get('some_key')", b"some value")
check.gives("client.get('none')", None)
check.gives("client.get('none', 'default')", "default")
check.gives("client.add('some_key', 'other')", False)
check.gives("client.add('added', 'first')", True)
check.gives("client.replace('added', 'second')", True)
check.gives("client.replace('none', 'x')", False)
check.gives("client.append('added', ' and')", True)
check.gives("client.prepend('added', 'the ')", True)
check.gives("client.get('added')", b"the second and")
check.gives("client.append('none', 'x')", False)
check.gives("client.delete('added')", True)
check.gives("client.delete('added')", False)
check.gives("client.set('empty', '') and client.get('empty')", b"")
check.gives("client.set('bytes', bytes(range(256)) * 40) and client.get('bytes')", bytes(range(256)) * 40)
check.gives("client.set('k' * 250, 'long') and client.get('k' * 250)", b"long")

check.about("flags, serialised and compressed values")
check.gives("Client(SERVER, serde=JsonSerde(), **OPTIONS).set('json', {'a': [1, 'b']})", True)
check.gives("Client(SERVER, serde=JsonSerde(), **OPTIONS).get('json')", {"a": [1, "b"]})
check.gives("Client(SERVER, serde=JsonSerde(), **OPTIONS).set('text', 'as it is', flags=1)", True)
check.gives("Client(SERVER, serde=JsonSerde(), **OPTIONS).get('text')", "as it is")
check.gives("Client(SERVER, serde=serde.pickle_serde, **OPTIONS).set('pickle', (1, {2: 3}))", True)
check.gives("Client(SERVER, serde=serde.pickle_serde, **OPTIONS).get('pickle')", (1, {2: 3}))
check.gives("Client(SERVER, serde=serde.pickle_serde, **OPTIONS).set('number', 17)", True)
check.gives("Client(SERVER, serde=serde.pickle_serde, **OPTIONS).get('number')", 17)
check.gives("Client(SERVER, serde=CompressedSerde(), **OPTIONS).set('packed', ['x' * 100000])", True)
check.gives("Client(SERVER, serde=CompressedSerde(), **OPTIONS).get('packed')", ["x" * 100000])
check.is_true("len(client.get('packed')) < 1000")
check.gives("Client(SERVER, key_prefix='my:', **OPTIONS).set('key', 'prefixed')", True)
check.gives("client.get('my:key')", b"prefixed")

check.about("counters")
check.gives("client.set('count', '10')", True)
check.gives("client.incr('count', 5)", 15)
check.gives("client.decr('count', 20)", 0)
check.gives("client.incr('none', 1)", None)
check.gives("client.decr('none', 1)", None)
check.gives("client.set('count', '18446744073709551615') and client.incr('count', 1)", 0)
check.raises("client.incr('some_key', 1)", "MemcacheClientError")

check.about("gets and cas, and a loop of them in 4 threads of 250")
check.gives("client.set('shared', '0')", True)
check.gives("client.gets('none')", (None, None))
check.gives("client.cas('shared', '1', client.gets('shared')[1])", True)
check.gives("client.cas('shared', '1', b'1234567890123')", False)
check.gives("client.cas('none', '1', b'1')", None)
check.gives("client.set('shared', '0') and count_up_together('shared', 4, 250)", b"1000")

check.about("1,000 keys at once")
many = {f"many:{i}": f"value {i} " + "x" * (i % 200) for i in range(1000)}
check.names.update(many=many, found={key: value.encode() for key, value in many.items()})
check.gives("client.set_many(many)", [])
check.gives("client.get_many(list(many)) == found", True)
check.gives("client.get_many([*many, 'none']) == found", True)
check.gives("set(client.gets_many(list(many))) == set(found)", True)
check.gives("client.set_many({f'{i:064}': 'x' for i in range(1000)})", [])
check.gives("len(client.get_many([f'{i:064}' for i in range(1000)]))", 1000)
check.gives("client.delete_many(list(many))", True)
check.gives("client.get_many(list(many))", {})

check.about("touch and expiry")
check.gives("client.set('brief', 'x', expire=1) and client.set('kept', 'y', expire=1)", True)
check.gives("client.touch('kept', 100)", True)
check.gives("client.touch('none', 100)", False)
check.gives("client.set('gone', 'x', expire=-1) and client.get('gone')", None)
check.gives("time.sleep(2.2) or client.get('brief')", None)
check.gives("client.get('kept')", b"y")

check.about("noreply")
check.gives("client.set('quiet', '5', noreply=True) and client.get('quiet')", b"5")
check.gives("client.incr('quiet', 2, noreply=True)", None)
check.gives("client.append('quiet', '0', noreply=True) and client.get('quiet')", b"70")
check.gives("client.set_many({f'q{i}': 'v' for i in range(1000)}, noreply=True)", [])
check.gives("len(client.get_many([f'q{i}' for i in range(1000)]))", 1000)
check.gives("client.delete('quiet', noreply=True) and client.get('quiet')", None)

check.about("what is refused")
check.raises("client.set('k' * 251, 'x')", "MemcacheIllegalInputError")
check.raises("client.set('with space', 'x')", "MemcacheIllegalInputError")
check.raises("client.set('large', 'x' * 2**21)", "MemcacheServerError")
check.gives("client.get('some_key')", b"some value")
check.gives("client.set('large', 'x' * 1048000) and len(client.get('large'))", 1048000)

check.about("flush")
check.gives("client.flush_all()", True)
check.gives("client.get_many(['some_key', 'large', 'kept'])", {})

check.about("pools and clients over several servers")
check.gives("PooledClient(SERVER, max_pool_size=4, **OPTIONS).set('pool', 'x')", True)
check.gives("PooledClient(SERVER, max_pool_size=4, **OPTIONS).get('pool')", b"x")
check.gives("HashClient([SERVER], **OPTIONS).set_many({'h1': '1', 'h2': '2'})", [])
check.gives("HashClient([SERVER], **OPTIONS).get_many(['h1', 'h2'])", {"h1": b"1", "h2": b"2"})

check.about("reconnecting after the server was killed and started anew")
check.gives("client.set('before', 'x')", True)
check.gives("checks.restart(CONTROL)", True)
check.raises("client.get('before')", "MemcacheUnexpectedCloseError", "ConnectionResetError", "BrokenPipeError")
check.gives("client.get('before')", None)
check.gives("client.set('after', 'y') and client.get('after')", b"y")
check.names["retrying"] = RetryingClient(client, attempts=3, retry_delay=0.01, retry_for=[MemcacheUnexpectedCloseError, OSError])
check.gives("checks.restart(CONTROL) and retrying.set('again', 'z')", True)
check.gives("retrying.get('again')", b"z")

check.about("time-outs")
check.gives("elapsed(lambda: Client((checks.HOST, SILENT), connect_timeout=0.3, timeout=0.3).get('a'))", ("TimeoutError", True))
check.gives("Client((checks.HOST, SILENT), timeout=0.3, ignore_exc=True).get('a', 'default')", "default")

check.about("quit")
check.gives("client.quit()", None)
check.gives("client.get('again')", b"z")
check.end()
