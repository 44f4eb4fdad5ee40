"""Texts of bytes, compared and shown."""


def shown(data, most=200):
    text = repr(data[:most])[2:-1]
    return f"`{text}`" + (f" and {len(data) - most} more bytes" if len(data) > most else "")


def difference(name, wanted, wrote):
    """Where two texts part, with the lines around."""
    same = next((i for i, (a, b) in enumerate(zip(wanted, wrote)) if a != b), min(len(wanted), len(wrote)))
    start = wanted.rfind(b"\n", 0, same) + 1
    start = max(start, same - 100)
    lines = wanted.count(b"\n", 0, start)
    return "\n".join(
        [
            f"{name} differs at byte {same}, after {lines} whole lines ({len(wrote)} bytes, wanted {len(wanted)})",
            f"  wanted  {shown(wanted[start:])}",
            f"  wrote   {shown(wrote[start:])}",
        ]
    )


def same(wanted, got, name="answer"):
    """Fails where two texts differ."""
    if got != wanted:
        raise AssertionError(difference(name, wanted, got))
