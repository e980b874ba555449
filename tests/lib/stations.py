"""Files as stations write them, each with what it is: CADUs, frames with a station's octets before and after each,
randomised ones, TC frames and CLTUs, with junk before them, losses, bit errors, and octets missing or too many."""

import random
from collections import namedtuple

import recordings
from coding import MARKER, START, TAIL, TC, TM, mixed, parity

LENGTHS = (64, 128, 223, 256, 446, 512, 892, 1024, 1115, 1279, 1784, 2044)
SHAPES = ("cadu", "cadu parity", "cadu randomised", "cadu header", "header", "trailer", "header trailer", "junk",
          "randomised", "randomised header", "bare", "cadu parity randomised", "tc", "tc", "cltu", "cltu randomised")
# A file: its octets, how it was made, what it is, at how many places its frames shift, and those that are whole.
Made = namedtuple("Made", "octets shape kind scid length fecf randomised shifts frames")


def noise(r, octets):
    return bytes(r.getrandbits(8) for _ in range(octets))


def by_time(_, number, size):
    """Milliseconds, a counter, and zeros."""
    return ((1790000000000 + 137 * number).to_bytes(8, "big") + number.to_bytes(4, "big") + bytes(size))[:size]


STYLES = (by_time, lambda r, number, size: noise(r, size),
          lambda r, number, size: bytes([number & 255]) + bytes(size - 1),
          lambda r, number, size: (bytes(size) + b"\x15\xaa\x12\x34" + number.to_bytes(4, "big"))[-size:])


def damaged(r, octets, junk):
    """Octets with junk before them, missing or too many; how often these are."""
    shifts = r.choice((0, 0, 0, 1, 2))
    for _ in range(shifts):
        at, number = r.randrange(len(octets) // 3, len(octets) - 40), r.randint(1, 40)
        octets = octets[:at] + (octets[at + number:] if r.random() < 0.5 else noise(r, number) + octets[at:])
    return noise(r, r.randint(1, 4000) if junk else r.choice((0, 0, r.randint(1, 600)))) + octets, shifts


def tm(r, shape):
    """TM frames, and the octets that a station has around each, at a number."""
    length = r.choice((*LENGTHS, r.randint(32, 2048)))
    scid, fecf, number = r.randrange(1024), r.random() < 0.75, r.randint(20, max(25, min(300, 300000 // length)))
    sent = recordings.tm_frames(r, number, scid, length, fecf, r.random(), r.sample(range(7), r.randint(1, 4)))
    lead = r.choice((4, 10, 12, 16, 20, 32)) if "header" in shape else 0
    trail = 32 * r.choice((1, 2, 4, 5, 8)) if "parity" in shape else r.choice((4, 8, 16)) if "trailer" in shape else 0
    before, after = r.choice(STYLES), STYLES[1] if "parity" in shape else r.choice(STYLES)

    def around(at, frame, wrong):
        own = recordings.flipped(r, MARKER) if r.random() < wrong else MARKER
        frame = (own if "cadu" in shape else b"") + (mixed(frame, TM) if "randomised" in shape else frame)
        return (before(r, at, lead) if lead else b"") + frame + (after(r, at, trail) if trail else b"")

    return scid, length, fecf, sent, around


def tc(r, shape):
    """TC frames end to end, or in CLTUs."""
    scid, fecf, vcs = r.randrange(1024), r.random() < 0.5, sorted(r.sample(range(64), r.randint(1, 3)))
    starts = {vc: r.choice((0, r.randrange(256))) for vc in vcs}
    plain = [vc for vc in vcs if r.random() < 0.3]
    sent = recordings.tc_frames(r, r.randint(20, 200), scid, r.choice((20, 60, 200, 480)), fecf, vcs, plain, starts)
    return scid, 0, fecf, sent, lambda at, frame, _: frame if shape == "tc" else (
        coded(frame, "randomised" in shape) + b"\x55" * r.randint(0, 9))


def coded(frame, randomised):
    """The CLTU of a frame."""
    octets = frame + b"\x55" * (-len(frame) % 7)
    octets = mixed(octets, TC) if randomised else octets
    blocks = (octets[at:at + 7] for at in range(0, len(octets), 7))
    return START + b"".join(block + bytes([parity(block) << 1]) for block in blocks) + TAIL


def made(seed, number):
    """The file of this number and seed."""
    r, shape = random.Random(f"{seed} {number}"), SHAPES[number % len(SHAPES)]
    kind = "tc" if shape[:4] in ("tc", "cltu") else "tm"
    scid, length, fecf, sent, around = (tc if kind == "tc" else tm)(r, shape)
    lost, wrong = r.choice((0, 0, 0.02)), r.choice((0, 0.01))
    frames = [frame for frame in sent if r.random() >= lost]
    kept = [recordings.flipped(r, frame) if r.random() < wrong else frame for frame in frames]
    octets, shifts = damaged(r, b"".join(around(at, it, wrong) for at, it in enumerate(kept)), shape == "junk")
    whole = [frame for frame, one in zip(frames, kept) if frame == one]
    return Made(octets, shape, kind, scid, length, fecf, "randomised" in shape, shifts, whole)
