"""Scrapes a server as Prometheus does, and reads what it is told."""
import re
from collections import namedtuple

from tests.lib.peer import Peer
from tests.lib.server import HOST, MOMENT, Server, free_port

# So long a scrape may take, unless a test says otherwise.
SECONDS = 10
GET = b"GET /metrics HTTP/1.1\r\nHost: mcserver\r\n\r\n"
TEXT = "text/plain; version=0.0.4; charset=utf-8"
HEAD = re.compile(r"# HELP (\w+) (.+)\n# TYPE (\w+) (counter|gauge)")
SAMPLE = re.compile(r'([a-z_]+)(\{[a-z_]+="[^"\\]*"(?:,[a-z_]+="[^"\\]*")*\})? (\d+(?:\.\d\d)?)')
# What the system counts of the process grows by itself.
PROCESS = "process_"

Told = namedtuple("Told", "status fields body")


def sent(port, request, seconds=SECONDS, host=HOST):
    """What comes for a request until the server closes the connection."""
    with Peer(port, seconds, host=host) as peer:
        peer.send(request)
        return peer.rest()


def told(answer, without_body=False):
    """An answer's status, its fields under their small names, and its body, which is as long as it says, or isn't there."""
    head, end, body = answer.partition(b"\r\n\r\n")
    if not end:
        raise AssertionError(f"this is no answer: {answer!r}")
    first, *lines = head.decode().split("\r\n")
    version, status = first.split(" ")[:2]
    fields = {name.lower(): value.strip() for name, _, value in (line.partition(":") for line in lines)}
    length = 0 if without_body else int(fields["content-length"])
    if version != "HTTP/1.1" or fields["connection"] != "close" or length != len(body):
        raise AssertionError(f"the head isn't right: {head!r}, with {len(body)} bytes behind it")
    return Told(int(status), fields, body)


def families(page):
    """The samples of a page under their names and labels, by family, whose form is tested."""
    found = {}
    for part in page.split("# HELP ")[1:]:
        head = HEAD.match("# HELP " + part)
        if not head or head[1] != head[3] or head[1] in found or not part.endswith("\n"):
            raise AssertionError(f"a family doesn't begin and end as one: {part!r}")
        # Prometheus' naming: a counter's name ends with _total, and no gauge's does
        if (head[4] == "counter") != head[1].endswith("_total"):
            raise AssertionError(f"{head[1]} is no name of a {head[4]}")
        samples = {}
        for line in part.splitlines()[2:]:
            sample = SAMPLE.fullmatch(line)
            if not sample or sample[1] != head[1] or sample[2] in samples:
                raise AssertionError(f"this is no sample of {head[1]}: {line!r}")
            samples[sample[2] or ""] = float(sample[3]) if "." in sample[3] else int(sample[3])
        found[head[1]] = samples
    return found


def scrape(port, seconds=SECONDS):
    """The numbers of all samples, under their names with their labels."""
    page = told(sent(port, GET, seconds))
    if (page.status, page.fields["content-type"]) != (200, TEXT):
        raise AssertionError(f"a scrape is answered {page.status} with {page.fields}")
    return {name + labels: number for name, samples in families(page.body.decode()).items() for labels, number in samples.items()}


class MetricsServer(Server):
    """A running server whose clock stands, and where scrapes are answered."""

    def __init__(self, *args, **options):
        self.metrics = free_port()
        super().__init__(args=["--now", str(MOMENT), "--metrics", str(self.metrics), *args], **options)

    def connections(self):
        """How many sockets it has, but for the two at which it listens."""
        return super().connections() - 1

    def scrape(self, seconds=SECONDS):
        return scrape(self.metrics, seconds)

    def grown(self, before):
        """By how much each number has grown, where it has, but for those of the process."""
        now = {name: number for name, number in self.scrape().items() if not name.startswith(PROCESS)}
        return {name: number - before.get(name, 0) for name, number in now.items() if number != before.get(name, 0)}
