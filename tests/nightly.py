"""What takes too long for the gate, a step each, on the program that is built: `python3 -m tests.nightly [STEP..] [--quick]`

Without a STEP all are run, one after another; `--quick` tries each for a short time. A step's last line counts what it tried. At the end stands which
steps failed; the status is 0 if none did. A seed that the steps print repeats a run: `SEED=20261201 python3 -m tests.nightly protocol`.
"""
import os
import subprocess
import sys
import time

from tests.lib import settings

PYTHON = sys.executable
SOAK = [PYTHON, "-m", "tests.soak", "--workers", "16", "--large", "--scrapes", "--faults"]
# Each step: what it is, its words and what the environment says; and the same where it is tried for a short time.
STEPS = {
    "protocol": ("random inputs to a session, by a new seed", [PYTHON, "-m", "tests", "protocol"], {"COUNT": "20000"}, [], {"COUNT": "400"}),
    "sockets": ("the tests over sockets, by a new seed", [PYTHON, "-m", "tests", "sockets"], {"INPUTS": "400000"}, ["-p", "test_random.py"], {"INPUTS": "4000"}),
    "history": ("recorded runs, by new seeds", [PYTHON, "-m", "tests", "history"], {"SEEDS": "60"}, [], {"SEEDS": "2", "CALLS": "1000", "ALTERED": "1"}),
    "standin": ("stand-ins and programs that lie", [PYTHON, "-m", "tests", "standin"], {}, ["-k", "second", "-k", "miscounts_idle"], {}),
    "interop": ("clients, the proxy, Prometheus, the package, the image", ["/usr/bin/python3", "-m", "tests", "interop"], {}, ["-p", "test_charts.py"], {}),
    "load": ("the load generator against delays and costs that are known", [PYTHON, "bench/tcp.py", "--self-test"], {}, [], {}),
    "wrong": ("all wrong bodies, whatever was kept", [PYTHON, "-m", "tests.wrong", "--anew"], {}, ["mc_sizes"], {}),
    "instructions": ("instructions of a request, against those that are stored", [PYTHON, "-m", "tests.instructions"], {}, ["--requests", "200"], {}),
    "soak": ("an hour of mixed load with scrapes and faults", [*SOAK, "--minutes", "60"], {}, ["--minutes", "0.5"], {}),
    "fuzz": ("an hour of inputs that a fuzzer makes", [PYTHON, "-m", "tests.fuzz", "--minutes", "60"], {}, ["--minutes", "1"], {}),
}


def ran(name, is_quick):
    """Runs a step, and returns whether it went well."""
    what, words, environment, quick_words, quick_environment = STEPS[name]
    if is_quick:
        words, environment = [*words, *quick_words], quick_environment
    print(f"== {name}: {what}: {' '.join([*(f'{key}={it}' for key, it in environment.items()), *words])}", flush=True)
    began = time.monotonic()
    status = subprocess.run(words, cwd=settings.ROOT, env={**os.environ, **environment}, stdin=subprocess.DEVNULL).returncode
    print(f"== {name}: {'done' if not status else f'FAILED with status {status}'} in {time.monotonic() - began:.0f} s", flush=True)
    return not status


def main(words):
    is_quick = "--quick" in words
    names = [it for it in words if it != "--quick"] or list(STEPS)
    if unknown := [it for it in names if it not in STEPS]:
        print(f"there is no step {', '.join(unknown)}; there are {', '.join(STEPS)}")
        return 2
    failed = [name for name in names if not ran(name, is_quick)]
    print(f"{len(names) - len(failed)} passed, {len(failed)} failed{': ' * bool(failed)}{', '.join(failed)}", flush=True)
    return int(bool(failed))


if __name__ == "__main__":
    sys.exit(main(sys.argv[1:]))
