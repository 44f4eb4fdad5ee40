"""Waits for what nobody tells of."""
import time


def until(holds, seconds, between=0.01):
    """Waits until it holds, asking again and again, and gives what it was last."""
    end = time.monotonic() + seconds
    while not (found := holds()) and time.monotonic() < end:
        time.sleep(between)
    return found
