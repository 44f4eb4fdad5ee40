"""Recorded runs of callers in threads, and the search for an order of their calls that explains each."""
