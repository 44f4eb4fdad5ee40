"""The stored rows over TCP: whole, in pieces, and several at once on one server."""
from concurrent.futures import ThreadPoolExecutor

from tests.lib import model
from tests.lib.case import ProgramCase
from tests.lib.compare import same, shown
from tests.lib.exchange import exchange
from tests.lib.rows import GREATEST, PAGES, all_rows
from tests.lib.server import MOMENT, StillServer

# So many servers stand side by side.
SIDE_BY_SIDE = 4
# In pieces of so many bytes go the rows that run at once on one server.
TOGETHER = 16


class Watched(model.Store):
    """Notes which keys were asked for, and whether an answer depends on more than these."""

    def __init__(self, now, pages, greatest):
        super().__init__(now, pages, greatest)
        self.keys, self.is_apart = set(), True

    def live(self, key):
        self.keys.add(key)
        return super().live(key)

    def read(self, key, with_unique, exptime=None):
        self.is_apart &= not with_unique
        return super().read(key, with_unique, exptime)

    def cas(self, *words):
        self.is_apart = False
        return super().cas(*words)

    def flush(self, delay):
        self.is_apart = False
        return super().flush(delay)


class Told:
    """What the model says of a row's session."""

    def __init__(self, row):
        self.row = row
        session = model.Session(row.stdin, *row.session())
        session.store = store = Watched(*row.session())
        out = session.run()
        self.keys, self.is_apart = store.keys, store.is_apart and row.session() == (MOMENT, PAGES, GREATEST)
        # What it leaves unread makes the system reset the connection.
        self.closes_itself = not session.is_open or out.endswith(model.TOO_LONG)

    def holds(self, answer):
        """Fails where an answer over a connection, or how that ended, isn't the wanted."""
        got, end = answer
        same(self.row.wants["stdout"][0], got, f"sent {shown(self.row.stdin)}\nanswer")
        if end != "closed" and not (end == "reset" and self.closes_itself):
            raise AssertionError(f"the connection ended so: {end}")


def alone(told, size):
    """The row on a server of its own."""
    now, pages, greatest = told.row.session()
    with StillServer(now, pages=pages, greatest=greatest, workers=1 + len(told.row.stdin) % 4) as server:
        told.holds(exchange(server.port, [told.row.stdin], size)[0])


def parted(rows):
    """Puts the rows into few groups in each of which no two ask for one key."""
    groups = []
    for told in rows:
        fits = next((group for group in groups if not group[0] & told.keys), None)
        if fits:
            fits[0].update(told.keys)
            fits[1].append(told)
        else:
            groups.append((set(told.keys), [told]))
    return [members for _, members in groups if len(members) > 1]


class RowsOverSockets(ProgramCase):
    @classmethod
    def setUpClass(cls):
        super().setUpClass()
        cls.rows = [Told(row) for row in all_rows() if row.session()]

    def each_alone(self, jobs):
        """Each row on a server of its own, several side by side."""
        with ThreadPoolExecutor(SIDE_BY_SIDE) as pool:
            runs = [(told, size, pool.submit(alone, told, size)) for told, size in jobs]
            for told, size, run in runs:
                with self.subTest(told.row.name, pieces_of=size):
                    run.result()

    def test_whole(self):
        self.each_alone((told, None) for told in self.rows)

    def test_in_pieces(self):
        self.each_alone((told, told.row.piece) for told in self.rows if told.row.stdin)

    def test_beside_others(self):
        """Rows at once, each by a connection of its own."""
        for members in parted([told for told in self.rows if told.is_apart]):
            with StillServer() as server:
                answers = exchange(server.port, [told.row.stdin for told in members], TOGETHER)
            for told, answer in zip(members, answers):
                with self.subTest(told.row.name, beside=len(members) - 1):
                    told.holds(answer)
