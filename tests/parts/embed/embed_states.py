"""Saved states as bytes: the two versions of one, and the sum of the second, by a definition of its
own (docs/FORMATS.md). saved.py and others change states by these."""


def digest(held):
    """FNV-1a of 64 bits, by its definition."""
    found = 14695981039346656037
    for byte in held:
        found = (found ^ byte) * 1099511628211 % 2**64
    return found


def number(value):
    """A number of 64 bits as bytes, the low byte first."""
    return value.to_bytes(8, "little")


def summed(held, version=2):
    """These bytes with this version, and with the sum of all but the last 8, in place of these."""
    held = held[:3] + bytes([version]) + held[4:-8]
    return held + number(digest(held))


def first_of(saved):
    """A saved state of version 2 as one of version 1, which has neither digest nor sum."""
    return saved[:3] + b"\1" + (len(saved) // 8 - 3).to_bytes(4, "little") + saved[8:-16]


def second_of(first, rom=0):
    """A saved state of version 1 as one of version 2, with the digest of a ROM."""
    count = int.from_bytes(first[4:8], "little") + 2
    head = first[:4] + (count % 2**32).to_bytes(4, "little")
    return summed(head + first[8:] + number(rom) + bytes(8))


def changed_again(chance, first, rom=0):
    """A saved state of version 1, or of version 2: of another sum, of another version, or not."""
    which = chance.randrange(8)
    if which < 2 or len(first) < 8:
        return first
    held = second_of(first, rom)
    if which == 2:
        at = chance.randrange(len(held))
        return held[:at] + bytes([held[at] ^ 1 << chance.randrange(8)]) + held[at + 1:]
    return summed(held, chance.choice((0, 3, 255))) if which == 3 else held
