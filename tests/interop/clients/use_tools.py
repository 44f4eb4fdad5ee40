#!/usr/bin/python3
"""Uses libmemcached's programs as their manual pages do (memccp(1), memccat(1) and the others)."""
import os
import re
import subprocess
import tempfile
import time

import checks

PORT, SILENT, CONTROL = checks.ports()
SERVERS = f"--servers={checks.HOST}:{PORT}"
FOLDER = tempfile.TemporaryDirectory()
SECONDS = 60


def sh(line, server=SERVERS):
    """Runs a line of the shell in the folder, `$S` being the servers: its status, and what it wrote on standard output."""
    ran = subprocess.run(
        line, shell=True, cwd=FOLDER.name, env={**os.environ, "S": server}, timeout=SECONDS, text=True, errors="replace",
        stdout=subprocess.PIPE, stderr=subprocess.STDOUT, stdin=subprocess.DEVNULL,
    )
    return ran.returncode, ran.stdout


def file(name, data):
    with open(f"{FOLDER.name}/{name}", "wb") as it:
        it.write(data)


def capabilities():
    """The checks of the text protocol that memccapable says are passed, and those that it says aren't."""
    _, wrote = sh(f"memccapable -h {checks.HOST} -p {PORT} -a -t 2")
    ends = dict(re.findall(r"^ascii (\S+(?: \S+)?) +(?:.*\n)??.*\[(pass|FAIL)\]", wrote, re.MULTILINE))
    return [name for name in ends if ends[name] == "pass"], [name for name in ends if ends[name] == "FAIL"]


file("first", b"the first file\n")
file("second", b"the second\n")
file("large", bytes(range(256)) * 2000)
for number in range(1000):
    file(f"many{number}", b"value %d\n" % number)
check = checks.Checks(**globals())

check.about("memccp, memccat, memcexist, memcrm")
check.gives("sh('memcping $S')", (0, ""))
check.gives("sh('memccp $S first second')", (0, ""))
check.gives("sh('memccat $S first')", (0, "the first file\n\n"))
check.is_true("sh('memccat $S first second')[1].replace(chr(10), ' ').split() == 'the first file the second'.split()")
check.is_true("sh('memccat $S none')[0] != 0")
check.gives("sh('memcexist $S first')", (0, ""))
check.is_true("sh('memcexist $S none')[0] != 0")
check.gives("sh('memccp $S large && memccat $S --file=copy large && cmp large copy')", (0, ""))
check.is_true("sh('memccp $S --add first')[0] != 0")
check.gives("sh('memccp $S --replace first')", (0, ""))
check.is_true("sh('memccp $S --replace many1')[0] != 0")
check.gives("sh('memcrm $S first')", (0, ""))
check.is_true("sh('memccat $S first')[0] != 0")
check.is_true("sh('memcrm $S first')[0] != 0")

check.about("flags, expiry and memctouch")
check.gives("sh('memccp $S --flags=4294967295 first')", (0, ""))
check.is_true("'4294967295' in sh('memccat $S --flags first')[1]")
check.gives("sh('memccp $S --expire=1 second && memccp $S --expire=1 first && memctouch $S --expire=100 first')", (0, ""))
check.is_true("sh('memctouch $S --expire=100 none')[0] != 0")
check.is_true("time.sleep(2.2) or sh('memccat $S second')[0] != 0")
check.gives("sh('memccat $S first')", (0, "the first file\n\n"))

check.about("1,000 files at once, requests that don't block, and requests that are buffered")
check.gives("sh('memccp $S many*')", (0, ""))
check.gives("sh('memccat $S $(ls many*) | grep -c value')", (0, "1000\n"))
check.gives("sh('memcflush $S; memccp $S --non-blocking --tcp-nodelay many* && memccat $S many999')", (0, "value 999\n\n"))
check.gives("sh('memcflush $S; memccp $S --buffer many*')", (0, ""))
# (the program ends without waiting for the answers to what it buffered)
check.gives("sh('for i in 1 2 3 4 5 6 7 8 9; do memccat $S many999 && break; sleep 0.2; done')", (0, "value 999\n\n"))

check.about("memcflush")
check.gives("sh('memcflush $S')", (0, ""))
check.is_true("sh('memccat $S many1')[0] != 0")

check.about("memcslap and memcaslap, which make load and compare what they get")
check.is_true("sh('memcslap $S --concurrency=4 --execute-number=500 --test=set --flush')[0] == 0")
check.is_true("sh('memcslap $S --concurrency=4 --execute-number=500 --test=get --initial-load=500')[0] == 0")
check.is_true("sh('memcslap $S --concurrency=2 --execute-number=20 --test=mget --initial-load=500')[0] == 0")
check.is_true(f"'verify_misses: 0' in sh('memcaslap -s {checks.HOST}:{PORT} -T 2 -c 8 -x 20000 -v 1.0 -X 200')[1].replace('  ', ' ')")
check.is_true(f"'verify_failed: 0' in sh('memcaslap -s {checks.HOST}:{PORT} -T 2 -c 8 -x 20000 -v 1.0 -d 50')[1].replace('  ', ' ')")

check.about("memccapable, which tries the text protocol")
check.names["passing"], check.names["failing"] = capabilities()
for name in "quit get gets mget flush delete incr decr append prepend".split():
    check.is_true(f"'{name}' in passing")
print(f"    its checks that fail: {', '.join(check.names['failing']) or 'none'}")

check.about("after the server was killed and started anew")
check.gives("checks.restart(CONTROL)", True)
check.gives("sh('memccp $S first && memccat $S first')", (0, "the first file\n\n"))
check.end()
