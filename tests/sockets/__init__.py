"""The running server over sockets of this machine: what it answers to many, to those that misbehave, and short of what it needs."""
# Files that don't measure how soon much is done, and most of which sleep, the longest first: a whole run has them run beside one another.
BESIDE = [f"test_{name}.py" for name in (
    "get_large_memory", "random", "get_large", "get_large_changed", "items_reclaimed", "faults", "metrics", "allow_quit", "lingering_connections", "quit_option", "metrics_slow_clients",
    "connections_closed_total", "other_protocols", "clock", "current_connections", "few_descriptors", "signals", "journal_stream", "verbose",
    "out_of_memory", "stderr_unread", "stack", "exptimes", "urgent")]
