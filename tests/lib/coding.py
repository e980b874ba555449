"""What the tests share of 131.0-B and 231.0-B: marker, start and tail sequence, randomisers, parity of a code block."""

MARKER, START, TAIL = bytes.fromhex("1acffc1d"), bytes.fromhex("eb90"), bytes.fromhex("c5c5c5c5c5c5c579")


def sequence(*taps: int) -> bytes:
    """The 255 octets of a randomiser, whose next bit is the sum of those that came so many bits ago."""
    bits = [1] * 8
    while len(bits) < 2040:
        bits.append(sum(bits[-tap] for tap in taps) % 2)
    return int("".join(map(str, bits)), 2).to_bytes(255, "big")


TM, TC = sequence(1, 3, 5, 8), sequence(2, 4, 5, 6, 7, 8)


def mixed(octets: bytes, table: bytes) -> bytes:
    return bytes(octet ^ table[at % 255] for at, octet in enumerate(octets))


def parity(seven: bytes) -> int:
    """The remainder of a division of bits by x^7 + x^6 + x^2 + 1, inverted."""
    number = int.from_bytes(seven, "big") << 7
    for bit in range(62, 6, -1):
        number ^= 0b11000101 << bit - 7 if number >> bit & 1 else 0
    return number ^ 127
