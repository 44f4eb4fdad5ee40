"""What --metrics answers, as Prometheus reads it: promtool finds nothing to say of the page, a Prometheus that scrapes it has the same
numbers as were caused, each query of the dashboard has data, and the rules fire when they should, and only then. What isn't installed
is named and not run (Debian's package prometheus has promtool and prometheus).
"""
import contextlib
import json
import math
import re
import shutil
import subprocess
import tempfile
import unittest
import urllib.parse
import urllib.request

from tests.lib.abuse import sent_as_far
from tests.lib.case import ProgramCase
from tests.lib.peer import Peer, clients
from tests.lib.scrape import GET, MetricsServer, sent, told
from tests.lib.server import HOST, Server, Started, free_port
from tests.lib.settings import ROOT
from tests.lib.wait import until

PROMTOOL, PROMETHEUS = shutil.which("promtool"), shutil.which("prometheus")
# So soon a Prometheus has scraped it, which does so each second.
SECONDS = 30
CONFIGURATION = """
global: {{scrape_interval: 1s, evaluation_interval: 1s}}
rule_files: [rules.yml]
scrape_configs:
  - job_name: mcserver
    static_configs: [{{targets: ["{host}:{port}"]}}]
"""
SETS, HITS, MISSES = 300, 200, 100
BLOCK = b"b" * 100
LARGE = b"l" * 1000000
SHIPPED = f"{ROOT}/packaging/prometheus"
# For so many seconds nothing fires while all is well.
QUIET = 8
# What Grafana puts in the place of its variables.
VARIABLES = {"$__rate_interval": "30s", "$job": ".*", "$instance": ".*"}
# What is asked of Prometheus, and what it is to answer.
QUERIES = [
    ('up{job="mcserver"}', 1),
    ("memcached_up", 1),
    ("memcached_current_items", SETS),
    ("memcached_items_total", SETS),
    ('memcached_commands_total{command="set",status="hit"}', SETS),
    ('memcached_commands_total{command="get",status="hit"}', HITS),
    ('memcached_commands_total{command="get",status="miss"}', MISSES),
    ("sum(memcached_slab_chunks_used)", SETS),
    ("mcserver_refusals_total", 0),
    ("sum(memcached_slab_items_outofmemory_total)", 0),
    ("count(memcached_slab_items_outofmemory_total)", 41),
    ("memcached_items_evicted_total", 0),
    ("memcached_items_reclaimed_total", 0),
    ("memcached_connections_rejected_total", 0),
    ("count(process_max_fds > 0)", 1),
    ("count(time() - process_start_time_seconds < 60)", 1),
    ("count(mcserver_build_info)", 1),
    ("memcached_item_too_large_total", 0),
    ("mcserver_buffer_bytes", 0),
    ("mcserver_buffer_limit_bytes", 64 * 1048576),
    ("mcserver_waiting_connections", 0),
    ("count(process_open_fds > 10)", 1),
    ("count(process_resident_memory_bytes > 1000000)", 1),
    ("count(process_virtual_memory_bytes > process_resident_memory_bytes)", 1),
    ("count(process_cpu_seconds_total < 60)", 1),
]


class TickingServer(Server):
    """A running server whose clock goes, with this port of metrics."""

    def __init__(self, metrics, **options):
        self.metrics = metrics
        super().__init__(args=["--metrics", str(metrics)], **options)


def load(server):
    """Sets items, and gets some that are there and some that aren't."""
    with Peer(server.port) as peer:
        for at in range(SETS):
            peer.asks(b"set key:%d 0 0 %d\r\n%s\r\n" % (at, len(BLOCK), BLOCK), b"STORED\r\n")
        for at in range(HITS):
            peer.asks(b"get key:%d\r\n" % at, b"VALUE key:%d 0 %d\r\n%s\r\nEND\r\n" % (at, len(BLOCK), BLOCK))
        for at in range(MISSES):
            peer.asks(b"get none:%d\r\n" % at, b"END\r\n")


def rules():
    """The rules that are shipped, which wait for a second in place of minutes: the text."""
    with open(f"{SHIPPED}/alerts.yml", encoding="utf-8") as text:
        return re.sub(r"(?m)^( *for:) .*$", r"\1 1s", text.read())


def compared():
    """Of each rule what it compares with a limit, by the rule's name."""
    found = {}
    for name, expression in re.findall(r"- alert: (\w+)\n +expr: (?:>-\n)?((?:.*\n)+?) +(?:for|labels):", rules()):
        for part in re.split(r"\bor\b", " ".join(expression.split())):
            found.setdefault(name, []).append(re.split(r" (?:[<>]=?|==) ", part)[0])
    return found


def queries():
    """The queries of the dashboard, as Grafana asks them."""
    with open(f"{SHIPPED}/dashboard.json", encoding="utf-8") as text:
        panels = json.load(text)["panels"]
    for panel in panels:
        for target in panel["targets"]:
            query = target["expr"]
            for name, value in VARIABLES.items():
                query = query.replace(name, value)
            yield panel["title"], query


def formulas():
    """What docs/OPERATING.md says to ask."""
    with open(f"{ROOT}/docs/OPERATING.md", encoding="utf-8") as text:
        return [("OPERATING.md", it) for it in re.findall(r"```promql\n(.*?)\n```", text.read(), re.DOTALL)]


class Page(ProgramCase):
    @unittest.skipUnless(PROMTOOL, "it wants promtool, of the package prometheus")
    def test_promtool_takes_the_rules(self):
        ran = subprocess.run([PROMTOOL, "check", "rules", f"{SHIPPED}/alerts.yml"], capture_output=True, text=True, timeout=SECONDS)
        self.assertEqual((0, ""), (ran.returncode, ran.stderr))

    @unittest.skipUnless(PROMTOOL, "it wants promtool, of the package prometheus")
    def test_promtool_says_nothing_of_it(self):
        """Of the page of a server that has done nothing, and of one that was used."""
        with MetricsServer() as server:
            for used in (False, True):
                if used:
                    load(server)
                page = told(sent(server.metrics, GET)).body
                words = [PROMTOOL, "check", "metrics"]
                ran = subprocess.run(words, input=page, stdout=subprocess.PIPE, stderr=subprocess.STDOUT, timeout=SECONDS)
                self.assertEqual((0, ""), (ran.returncode, ran.stdout.decode()))


def value(answers, query):
    """The one value that a query has, or None."""
    found = answers(query)
    return found[0][1] if len(found) == 1 else None


def has_data(answers, query):
    """Whether a query has values, and each is a number."""
    return all(math.isfinite(number) for _, number in answers(query) or [(None, math.nan)])


def firing(answers):
    """The names of the alerts that fire."""
    return {name for name, _ in answers('ALERTS{alertstate="firing"}')}


@unittest.skipUnless(PROMETHEUS, "it wants prometheus")
class Scraped(ProgramCase):
    @contextlib.contextmanager
    def prometheus(self, server):
        """A Prometheus that scrapes the server; gives what answers a query: the values that it has, by the name of the alert if there is one."""
        port = free_port()
        with tempfile.TemporaryDirectory() as folder:
            with open(f"{folder}/prometheus.yml", "w", encoding="utf-8") as it:
                it.write(CONFIGURATION.format(host=HOST, port=server.metrics))
            with open(f"{folder}/rules.yml", "w", encoding="utf-8") as it:
                it.write(rules())
            words = [PROMETHEUS, f"--config.file={folder}/prometheus.yml", f"--storage.tsdb.path={folder}/data"]
            with Started([*words, f"--web.listen-address={HOST}:{port}"], port):

                def answers(query):
                    asked = urllib.parse.urlencode({"query": query})
                    with contextlib.suppress(OSError, ValueError):
                        with urllib.request.urlopen(f"http://{HOST}:{port}/api/v1/query?{asked}", timeout=SECONDS) as told_so:
                            found = json.load(told_so)["data"]["result"]
                        return [(it["metric"].get("alertname"), float(it["value"][1])) for it in found]
                    return []

                self.assertTrue(until(lambda: value(answers, "up") == 1, SECONDS, 0.2), "it never was up")
                yield answers

    def fires(self, answers, name):
        """The alert fires, and gives which others do."""
        self.assertTrue(until(lambda: name in firing(answers), SECONDS, 0.2), f"{name} doesn't fire; {firing(answers)} do")
        return firing(answers) - {name}

    def test_it_has_what_was_done(self):
        with MetricsServer() as server:
            load(server)
            with self.prometheus(server) as answers:
                for query, wanted in QUERIES:
                    with self.subTest(query):
                        self.assertTrue(until(lambda: value(answers, query) == wanted, SECONDS, 0.2), f"{answers(query)}, wanted {wanted}")

    def test_each_query_and_rule_has_data(self):
        """Of a server that is used; and nothing fires, as all is well."""
        asked = [*queries(), *formulas(), *((name, part) for name, parts in compared().items() for part in parts)]
        self.assertEqual((26, 4, 13), (len([*queries()]), len(formulas()), sum(map(len, compared().values()))))
        with MetricsServer() as server, self.prometheus(server) as answers:

            def without_data():
                load(server)
                return [it for it in asked if not has_data(answers, it[1])]

            until(lambda: not without_data(), SECONDS, 0.5)
            self.assertEqual([], without_data())

    def test_nothing_fires_while_all_is_well(self):
        with MetricsServer() as server, self.prometheus(server) as answers:
            seen = until(lambda: load(server) or {name for name, _ in answers("ALERTS")}, QUIET, 0.2)
            self.assertEqual(set(), seen)
            self.assertGreater(value(answers, "count_over_time(up[1m])"), QUIET / 2)

    def test_a_full_store_fires(self):
        with MetricsServer(pages=2) as server, self.prometheus(server) as answers, Peer(server.port) as peer:
            for key, answer in ((b"a", b"STORED"), (b"b", b"STORED"), (b"c", b"SERVER_ERROR out of memory storing object")):
                peer.asks(b"set %s 0 0 %d\r\n%s\r\n" % (key, len(LARGE), LARGE), answer + b"\r\n")
            self.assertLessEqual(self.fires(answers, "McserverFull"), {"McserverPagesAllInUse"})

    def test_connections_turned_away_fire(self):
        with MetricsServer("-c", "2") as server, self.prometheus(server) as answers, contextlib.ExitStack() as open_ones:
            for _ in range(2):
                open_ones.enter_context(Peer(server.port)).asks(b"version\r\n", b"VERSION 1.6.0\r\n")
            with Peer(server.port) as one_more:
                one_more.is_told(b"ERROR Too many open connections\r\n")
            self.assertLessEqual(self.fires(answers, "McserverTurnedAway"), {"McserverConnectionsNearLimit"})

    def test_items_that_are_too_large_fire(self):
        with MetricsServer() as server, self.prometheus(server) as answers, Peer(server.port) as peer:
            peer.asks(b"set a 0 0 1048576\r\n%s\r\n" % (b"x" * 1048576), b"SERVER_ERROR object too large for cache\r\n")
            self.assertEqual(set(), self.fires(answers, "McserverItemsTooLarge"))

    def test_connections_that_wait_for_room_fire(self):
        with MetricsServer("--buffer-limit", "1", workers=1) as server, self.prometheus(server) as answers, clients(server.port, 2) as peers:
            sent_as_far(peers, b"set held 0 0 600000\r\n" + b"h" * 300_000, 0.5)
            self.assertLessEqual(self.fires(answers, "McserverBuffersFull"), {"McserverHoarding"})

    def test_a_server_that_has_gone_fires_and_one_that_was_restarted_too(self):
        with TickingServer(free_port()) as server, self.prometheus(server) as answers:
            self.assertTrue(until(lambda: (value(answers, "memcached_uptime_seconds") or 0) > 3, SECONDS, 0.2), "its time doesn't go by")
            server.kill()
            self.assertEqual(set(), self.fires(answers, "McserverDown"))
            with TickingServer(server.metrics, port=server.port):
                self.assertLessEqual(self.fires(answers, "McserverRestarted"), {"McserverDown"})
                self.assertTrue(until(lambda: "McserverDown" not in firing(answers), SECONDS, 0.2), "it is down still")
