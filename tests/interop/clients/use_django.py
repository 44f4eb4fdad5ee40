#!/usr/bin/python3
"""Uses Django's cache as its documentation does (https://docs.djangoproject.com/en/3.2/topics/cache/). The first argument names the backend."""
import os
import re
import sys
import time
import warnings

BACKEND = sys.argv.pop(1)

import checks  # noqa: E402  (it reads the arguments)
import django.conf  # noqa: E402

PORT, SILENT, CONTROL = checks.ports()
DOCS = f"{os.path.dirname(os.path.realpath(__file__))}/../../../docs/CLIENTS.md"
# python-memcached asks a server that failed for nothing more for 30 seconds if nothing is said.
OPTIONS = {"dead_retry": 1} if BACKEND == "MemcachedCache" else {}
CACHE = {"BACKEND": f"django.core.cache.backends.memcached.{BACKEND}", "LOCATION": f"{checks.HOST}:{PORT}", "OPTIONS": OPTIONS}
warnings.simplefilter("ignore")
django.conf.settings.configure(
    CACHES={"default": CACHE, "prefixed": {**CACHE, "KEY_PREFIX": "mine", "VERSION": 7}},
    SESSION_ENGINE="django.contrib.sessions.backends.cache",
    SECRET_KEY="none",
)
django.setup()

from django.contrib.sessions.backends.cache import SessionStore  # noqa: E402
from django.core.cache import cache, caches  # noqa: E402
from django.core.cache.utils import make_template_fragment_key  # noqa: E402

# libmemcached sends an expiry of -1 as 4294967295, which mcserver takes for a moment of 2106, and memcached for one that is past.
KEEPS_TIMEOUT_0 = BACKEND == "PyLibMCCache" and not checks.IS_MEMCACHED
prefixed = caches["prefixed"]
many = {f"many{i}": {"number": i, "text": "x" * (i % 200)} for i in range(500)}


def backend_of_docs():
    """The backend that docs/CLIENTS.md shows."""
    with open(DOCS, encoding="utf-8") as page:
        written = re.search("```python django\n(.*?)```", page.read(), re.DOTALL).group(1)
    names = {}
    exec(written, names)
    return names["OurCache"](CACHE["LOCATION"], {})


def session():
    """Stores a session and reads it again, as a request behind it does."""
    first = SessionStore()
    first["user"] = 17
    first.save()
    return SessionStore(session_key=first.session_key).get("user")


def first_that_works(call, seconds=20):
    """Makes a call until it raises nothing and gives something, as it does once the client connects again."""
    end = time.monotonic() + seconds
    while time.monotonic() < end:
        try:
            if call():
                return True
        except Exception:
            cache.close()
        time.sleep(0.2)
    return False


check = checks.Checks(**globals())

check.about("set, get, add, delete, get_or_set")
check.gives("cache.set('my_key', 'hello, world!', 30)", None)
check.gives("cache.get('my_key')", "hello, world!")
check.gives("cache.get('none')", None)
check.gives("cache.get('none', 'has expired')", "has expired")
check.gives("cache.add('my_key', 'other')", False)
check.gives("cache.add('added', [1, 2.5, None, 'x'])", True)
check.gives("cache.get('added')", [1, 2.5, None, "x"])
check.gives("cache.get_or_set('got', lambda: 'made', 100)", "made")
check.gives("cache.get_or_set('got', lambda: 'again', 100)", "made")
check.gives("'got' in cache and 'none' not in cache", True)
check.gives("cache.delete('got')", True)
check.gives("cache.delete('got')", False)
check.gives("cache.set('bytes', bytes(range(256)) * 100) or cache.get('bytes') == bytes(range(256)) * 100", True)

check.about("prefixes and versions")
check.gives("prefixed.set('my_key', 'mine') or (cache.get('my_key'), prefixed.get('my_key'))", ("hello, world!", "mine"))
check.gives("cache.set('versioned', 1, version=2) or (cache.get('versioned'), cache.get('versioned', version=2))", (None, 1))
check.gives("cache.incr_version('versioned', version=2)", 3)
check.gives("cache.get('versioned', version=3)", 1)

check.about("counters")
check.gives("cache.set('num', 1) or cache.incr('num')", 2)
check.gives("cache.incr('num', 10)", 12)
check.gives("cache.decr('num', 5)", 7)
check.gives("cache.incr('num', -2)", 5)
check.raises("cache.incr('none')", "ValueError")

check.about("500 keys at once")
check.gives("cache.set_many(many, 100)", [])
check.gives("cache.get_many(many) == many", True)
check.gives("cache.delete_many(list(many)[:400])", None)
check.gives("len(cache.get_many(many))", 100)

check.about("expiry")
check.gives("cache.set('brief', 1, 1) or cache.set('kept', 2, 1)", None)
check.gives("cache.touch('kept', 100)", True)
check.gives("cache.touch('none', 100)", False)
check.gives("cache.set('month', 3, 60 * 60 * 24 * 31) or cache.get('month')", 3)
check.gives("cache.set('forever', 4, None) or cache.get('forever')", 4)
check.gives("time.sleep(2.2) or (cache.get('brief'), cache.get('kept'))", (None, 2))
check.gives("cache.set('my_key', 'old') or cache.set('my_key', 'not kept', 0)", None)
check.gives("cache.get('my_key')", "not kept" if KEEPS_TIMEOUT_0 else None)
check.gives("cache.delete('my_key') in (True, False) and cache.get('my_key')", None)
check.is_true("cache.set('my_key', 'old') or cache.touch('my_key', 0)")
check.gives("cache.get('my_key')", None)

if BACKEND == "PyLibMCCache":
    check.about("the backend of docs/CLIENTS.md")
    check.names["ours"] = backend_of_docs()
    check.gives("ours.set('my_key', 'kept') or ours.get('my_key')", "kept")
    check.gives("ours.set('my_key', 'not kept', 0) or ours.get('my_key')", None)

check.about("sessions, and keys of parts of a page")
check.gives("session()", 17)
check.gives("cache.set(make_template_fragment_key('sidebar', ['a']), '<p>') or cache.get(make_template_fragment_key('sidebar', ['a']))", "<p>")

check.about("clear")
check.gives("cache.clear()", None)
check.gives("cache.get_many(['kept', 'forever', 'num'])", {})

check.about("after the server was killed and started anew")
check.gives("cache.set('before', 1) or checks.restart(CONTROL)", True)
check.is_true("first_that_works(lambda: cache.set('after', 2) or cache.get('after') == 2)")
check.end()
