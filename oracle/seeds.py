"""Octets and numbers that depend on a name alone, the same on every machine."""

import hashlib


def seeded(name, length):
    return hashlib.shake_128(name.encode()).digest(length)


def seeded_below(name, count, limit):
    """That many numbers below a limit."""
    data = seeded(name, 4 * count)
    return [int.from_bytes(data[4 * i : 4 * i + 4], "little") % limit for i in range(count)]
