"""More connections than descriptors: the further ones are closed at once; the others are served, and later ones again."""
import resource
import time

from tests.lib.abuse import ANSWERED, KEPT, abused
from tests.lib.case import ProgramCase
from tests.lib.peer import Late, clients
from tests.lib.wait import until

DESCRIPTORS, CONNECTIONS = 64, 200


def fate(peer):
    """Whether a connection is answered, closed or neither."""
    try:
        peer.send(b"get fate\r\n")
        return "answered" if peer.exactly(5) == b"END\r\n" else "closed"
    except ConnectionError:
        return "closed"
    except Late:
        return "neither"


class FewDescriptors(ProgramCase):
    def test_more_connections_than_descriptors(self):
        limit = (resource.RLIMIT_NOFILE, DESCRIPTORS, DESCRIPTORS)
        with abused(KEPT, limit=limit) as server:
            for _ in range(2):
                # those that were served before have given their descriptors back
                server.settle()
                with clients(server.port, CONNECTIONS, seconds=ANSWERED) as peers:
                    self.meet_their_fates(server, peers)
                few = DESCRIPTORS // 2
                served = until(lambda: self.are_served(server, few), ANSWERED)
                self.assertTrue(served, f"{few} new connections aren't all served, {ANSWERED} s after the others went")

    def meet_their_fates(self, server, peers):
        """Some are answered, and so they stay; the others are closed, and cost nothing more."""
        fates = []
        for peer in peers:
            fates.append(fate(peer))
            self.assertNotEqual("neither", fates[-1], f"connection {len(fates)}, {ANSWERED} s after it asked")
        before = server.processor()
        time.sleep(1)
        used = server.processor() - before
        later = {fate(peer) for peer, was in zip(peers, fates) if was == "answered"}
        tally = {it: fates.count(it) for it in ("answered", "closed")}
        self.assertGreaterEqual(tally["answered"], DESCRIPTORS // 2, tally)
        self.assertGreaterEqual(tally["closed"], CONNECTIONS - DESCRIPTORS, tally)
        self.assertLessEqual(later, {"answered"}, "what connections that were answered are later")
        self.assertLessEqual(used, 0.3, "seconds of a processor in one second, out of descriptors")

    def are_served(self, server, count):
        """Whether so many new connections are all answered."""
        with clients(server.port, count, seconds=ANSWERED) as peers:
            return all(fate(peer) == "answered" for peer in peers)
