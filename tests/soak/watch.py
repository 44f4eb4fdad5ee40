"""What a server holds, over time."""
import os
import re
import statistics

# Memory may be so much more in the last quarter of the run than in the second, in bytes and as a part.
BYTES, PART = 2 * 2**20, 0.02


class Ended(Exception):
    """The server has ended."""


class Watch:
    """What the server holds, over time."""

    def __init__(self, pid):
        self.pid, self.samples = pid, []

    def sample(self):
        with open(f"/proc/{self.pid}/status") as it:
            status = it.read()
        read = [re.search(rf"^{name}:\s+(\d+)", status, re.MULTILINE) for name in ("VmRSS", "Threads")]
        if None in read:
            raise Ended  # (a process that has ended has no memory)
        found = int(read[0][1]) * 1024, len(os.listdir(f"/proc/{self.pid}/fd")), int(read[1][1])
        self.samples.append(found)
        return found

    def quarters(self):
        """Gives the median of the memory in each quarter of the run. (The most would be that of the answers under way.)"""
        memory, count = [it[0] for it in self.samples], len(self.samples) // 4
        return [statistics.median(memory[i * count : (i + 1) * count]) for i in range(4)] if count else []

    def grown(self):
        """What grew between the second quarter of the run and the last."""
        if not self.quarters():
            return ["the run was too short to tell whether memory grows"]
        _, early, _, late = self.quarters()
        if late > early + max(BYTES, PART * early):
            return [f"memory grew from {early / 1e6:.1f} MB in the second quarter of the run to {late / 1e6:.1f} MB in the last"]
        return []
