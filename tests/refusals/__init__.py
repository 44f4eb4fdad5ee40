"""Tests of the crates, of which each request for memory is refused in turn."""
