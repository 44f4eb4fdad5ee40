#!/usr/bin/python3
"""Uses Flask-Caching as its documentation does (https://flask-caching.readthedocs.io), with pylibmc below it."""
import time

import flask
import flask_caching

import checks

PORT, SILENT, CONTROL = checks.ports()
app = flask.Flask("checks")
SETTINGS = {"CACHE_TYPE": "MemcachedCache", "CACHE_MEMCACHED_SERVERS": [f"{checks.HOST}:{PORT}"], "CACHE_KEY_PREFIX": "site:"}
cache = flask_caching.Cache(app, config={**SETTINGS, "CACHE_DEFAULT_TIMEOUT": 100})
made = {"page": 0, "sum": 0}


@app.route("/page")
@cache.cached(timeout=50)
def page():
    made["page"] += 1
    return f"page {made['page']}"


@app.route("/query")
@cache.cached(query_string=True)
def query():
    made["page"] += 1
    return f"page {made['page']} of {flask.request.args['a']}"


@cache.memoize(50)
def add(one, other):
    made["sum"] += 1
    return one + other


def seen(path):
    return app.test_client().get(path).text


def first_that_works(call, seconds=20):
    """Makes a call until it raises nothing and gives something, as it does once libmemcached connects again."""
    end = time.monotonic() + seconds
    while time.monotonic() < end:
        try:
            if call():
                return True
        except Exception:
            pass
        time.sleep(0.2)
    return False


many = {f"many{i}": [i, "x" * (i % 200)] for i in range(300)}
app.app_context().push()
check = checks.Checks(**globals())

check.about("pages and functions that are kept")
check.gives("seen('/page'), seen('/page')", ("page 1", "page 1"))
check.gives("cache.delete('view//page') and seen('/page')", "page 2")
check.gives("seen('/query?a=1'), seen('/query?a=2'), seen('/query?a=1')", ("page 3 of 1", "page 4 of 2", "page 3 of 1"))
check.gives("add(2, 3), add(2, 3), add(3, 2), made['sum']", (5, 5, 5, 2))
check.gives("cache.delete_memoized(add, 2, 3) or (add(2, 3), add(3, 2), made['sum'])", (5, 5, 3))
check.gives("cache.delete_memoized(add) or (add(3, 2), made['sum'])", (5, 4))

check.about("set, get, add, delete")
check.gives("cache.set('key', {'a': [1, 2.5, None]})", True)
check.gives("cache.get('key')", {"a": [1, 2.5, None]})
check.gives("cache.get('none')", None)
check.gives("cache.add('key', 'x')", False)
check.gives("cache.add('added', 'x')", True)
check.gives("cache.delete('added')", True)
check.gives("cache.delete('added')", False)
check.gives("cache.has('key'), cache.has('none')", (True, False))

check.about("300 keys at once")
check.gives("len(cache.set_many(many))", 300)
check.gives("cache.get_dict(*many) == many", True)
check.gives("cache.get_many('many1', 'none')", [[1, "x"], None])
check.gives("cache.delete_many(*many)", True)
check.gives("cache.get_many('many1', 'many2')", [None, None])

check.about("expiry, which is sent as a moment")
check.gives("cache.set('brief', 1, timeout=1)", True)
check.gives("cache.set('kept', 2, timeout=60 * 60 * 24 * 60)", True)
check.gives("cache.set('forever', 3, timeout=0)", True)
check.gives("time.sleep(2.2) or cache.get_many('brief', 'kept', 'forever')", [None, 2, 3])

check.about("clear")
check.gives("cache.clear()", True)
check.gives("cache.get_many('key', 'kept', 'forever')", [None, None, None])

check.about("after the server was killed and started anew")
check.gives("cache.set('before', 1) and checks.restart(CONTROL)", True)
check.is_true("first_that_works(lambda: cache.set('after', 2) and cache.get('after') == 2)")
check.end()
