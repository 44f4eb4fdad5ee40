"""Inputs to a session on standard input, and what it writes."""
