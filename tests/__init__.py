"""The tests of the program, by kind: `python3 -m tests KIND` runs those of a folder (see README.md)."""
