"""What is tested, and what the environment may say otherwise: which program, and how much is tried.

    PROGRAM     the server; without it the one that is built here
    COUNT       random inputs to a session
    INPUTS      random inputs over sockets
    SEED        the seed of random tests, which print it; without it another each day, the date
    CALLS       calls of each of the four callers of a recorded run
    SEEDS FIRST how many runs are recorded, and the seed of the first: without it SEED, or 1 for those that are altered
    ALTERED     how many shorter runs are recorded and altered
    JOBS        how many records are judged, or requests refused, side by side
    LIMIT       seconds after which a check of wrong bodies is killed
    LONGEST     seconds after which a test that has no end is ended, and the run with it
    KEEP        the folder in which records lie that aren't as they should be
"""
import datetime
import os
import tempfile

ROOT = os.path.dirname(os.path.dirname(os.path.dirname(os.path.realpath(__file__))))
NUMBERS = {"COUNT": 300, "INPUTS": 100_000, "CALLS": 25_000, "SEEDS": 20, "FIRST": 1, "ALTERED": 5, "JOBS": os.cpu_count() or 1, "LIMIT": 2400, "LONGEST": 900}
NAMES = [*NUMBERS, "SEED", "PROGRAM", "KEEP"]
# The seeds that were told, each once.
told = set()
# Whether all tests of a kind are run, so that some may run beside one another.
is_whole = False


def number(name):
    """A number of the above."""
    return int(os.environ.get(name) or NUMBERS[name])


def seed(name="SEED"):
    """The seed of a random test, or of the first recorded run, which is printed once. Without one in the environment it is the date."""
    today = datetime.date.today()
    found = int(os.environ.get(name) or os.environ.get("SEED") or f"{today:%Y%m%d}")
    if name not in told:
        told.add(name)
        print(f"    {name}={found}", flush=True)
    return found


def built(name):
    """Where a program lies that is built here."""
    return f"{ROOT}/crates/{name}/out/{name}"


def program():
    """The server that is tested."""
    return os.path.abspath(os.environ.get("PROGRAM") or built("mc_server"))


def keep():
    return os.environ.get("KEEP") or tempfile.gettempdir()
