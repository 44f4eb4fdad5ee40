"""Makes an input that fails shorter."""


def shorter(parts, fails, most):
    """Returns the parts of which some were left out while the rest still fails; it is tried at most so many times.

    First halves are left out, then quarters, and at last single parts."""
    step = max(len(parts) // 2, 1)
    while most > 0:
        at, was = 0, len(parts)
        while at < len(parts) and most > 0:
            less = parts[:at] + parts[at + step :]
            most -= 1
            if less and fails(less):
                parts = less
            else:
                at += step
        if step == 1 and len(parts) == was:
            break
        step = max(step // 2, 1)
    return parts
