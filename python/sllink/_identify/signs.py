"""What octets show of frames: error control fields, counts that rise, packets that go on, lengths of TC frames."""

import os
from binascii import crc_hqx
from collections import Counter as counter
from itertools import accumulate
from operator import xor
from time import thread_time
from typing import Callable, Counter, Dict, Iterator, List, Optional, Sequence, Tuple

SHORTEST, LONGEST, APART = 32, 2048, 2560                 # octets of a TM frame; from one to the next, at most
HEADERS, PAIRS, NEAR, SECONDS = 1 << 16, 40_000, 8, 1.2            # octets; pairs; places that agree; of the processor
Seen = Counter[Tuple[int, int]]                           # how often frames seem to lie at a distance, at a place in it


class Late(Exception):
    """A recording takes more than SECONDS."""


class Recording:                                          # a file of which parts are read, and a clock
    def __init__(self, name: str, file: int) -> None:
        self.name, self.size, self._file, self._begun = name, os.fstat(file).st_size, file, thread_time()

    def is_late(self) -> bool:
        return thread_time() - self._begun > SECONDS

    def look_at_clock(self) -> None:
        if self.is_late():
            raise Late

    def read(self, offset: int, length: int) -> bytes:
        return os.pread(self._file, length, offset)


def sequence(*taps: int) -> bytes:
    """The octets of a randomiser, of which each bit is the sum of those that came so many bits ago."""
    bits = [1] * 8
    while len(bits) < 2040:
        bits.append(sum(bits[-tap] for tap in taps) % 2)
    return int("".join(map(str, bits)), 2).to_bytes(255, "big") * 33


TM_SEQUENCE, TC_SEQUENCE = sequence(1, 3, 5, 8), sequence(2, 4, 5, 6, 7, 8)       # of 131.0-B and of 231.0-B


def unmasked(octets: bytes, mask: bytes) -> bytes:        # without a randomiser's sequence, or as they are
    return bytes(map(xor, octets, mask)) if mask else octets


def right_frames(octets: bytes) -> Iterator[Tuple[int, int]]:
    """Each place and length of a frame of version 0 whose error control field is right. With R the register over all
    octets so far, the frame from a to b is right where R(a), with ones added, is R(b) after b - a octets of 0. So a
    place has one key as a beginning and one as an end, and right frames are equal keys."""
    begun: Dict[int, List[int]] = {}
    ages = [0] * 65536                                    # how many octets of 0 lead to a register, from 1 or 3 on
    for register in 1, 3:
        for age in range(32767):
            ages[register], register = age, crc_hqx(b"\0", register)
    register = 0
    for at, octet in enumerate(octets + b"\xff"):
        for begin in begun.get((ages[register] - at) % 32767, ()) if register else ():
            if 6 < at - begin <= LONGEST and not crc_hqx(octets[begin:at], 0xFFFF):
                yield begin, at - begin
        if octet < 64:
            key = (ages[register ^ 0xFFFF] - at) % 32767
            begun[key] = [*begun.get(key, ()), at][-NEAR:]
        register = crc_hqx(octets[at:at + 1], register)


def right_fields(frames: Sequence[bytes]) -> int:
    return sum(not crc_hqx(frame, 0xFFFF) for frame in frames)


def fitting(units: Sequence[bytes]) -> int:
    """The length at which most of these units have a right field, or 0; the least, as zeros behind leave it right."""
    ends = {at for unit in units[:12] for at, register in enumerate(accumulate(
        unit[:LONGEST], lambda register, octet: crc_hqx(bytes([octet]), register), initial=0xFFFF))
        if not register and at >= SHORTEST}
    right = ((right_fields([unit[:at] for unit in units if len(unit) >= at]), -at) for at in ends)
    number, length = max(right, default=(0, 0))
    return -length if number >= max(2, len(units) // 2) else 0


def about(frames: Sequence[bytes], whose: Callable[[bytes], int], main: Sequence[int], fecf: Optional[bool],
          number: int = 0) -> List[str]:
    """The lines on frames, of this number at least: of which spacecraft they are, and their error control fields."""
    numbers, known = counter(map(whose, frames)), {True: "yes", False: "no", None: "unknown"}[fecf]
    rest = len(frames) - sum(numbers[craft] for craft in main)
    return [f"frames {len(frames)}" + f" read, of about {number}" * (number > len(frames)),
            *(f"spacecraft {craft} frames {numbers[craft]}" for craft in main), *[f"other headers {rest}"] * (rest > 0),
            f"error control field {known} right {right_fields(frames)}"]


def craft_of(octets: bytes, at: int = 0) -> int:          # version and spacecraft of the TM frame here
    return octets[at] << 4 | octets[at + 1] >> 4


def risen(frames: Sequence[bytes]) -> int:
    """In how many frames the count of the spacecraft, or that of the virtual channel, is the next one."""
    last: Dict[int, int] = {}
    number = 0
    for frame in frames:
        counts = {craft_of(frame): frame[2], 1 << 16 | frame[0] << 8 | frame[1] & 0xFE: frame[3]}
        number += any((count - last.get(whose, count)) & 255 == 1 for whose, count in counts.items())
        last.update(counts)
    return number


def crafts(frames: Sequence[bytes]) -> List[int]:         # of frames enough, of version 0, with counts that rise
    numbers = counter(craft_of(it) for it in frames if it[0] < 64 and (it[4] & 0x40 or it[4] & 0x18 == 0x18))
    return [craft for craft, number in numbers.most_common(20) if number >= max(2, 0.02 * len(frames))
            and risen([it for it in frames if craft_of(it) == craft]) >= 0.3 * (number - 1)]


def control(octets: bytes, known: Sequence[Tuple[int, int]]) -> Seen:
    """Where frames seem to lie: right ones, of one length and spacecraft, one after another."""
    places: Dict[Tuple[int, int], List[int]] = {}
    for at, length in sorted(known):
        places.setdefault((length, craft_of(octets, at)), []).append(at)
    return counter((there - here, there % (there - here)) for (length, _), own in places.items()
                   for here, there in zip(own, own[1:]) if SHORTEST <= length <= there - here <= APART)


def headers(octets: bytes, mask: bytes) -> Seen:
    """Where frames seem to lie: a header has the next count of an earlier one of its spacecraft, or virtual channel."""
    found: Seen = counter()
    places: Dict[int, List[int]] = {}
    for at in range(min(len(octets), HEADERS) - 4):
        if octets[at] ^ mask[0] > 63 or (octets[at + 4] ^ mask[4]) & 0x18 != 0x18 or len(found) > PAIRS:
            continue
        first, second, mc, vcc = map(xor, octets[at:at + 4], mask)
        for key in first << 16 | (second & 0xF0) << 8 | mc, 1 << 24 | first << 16 | (second & 0xFE) << 8 | vcc:
            found.update((at - place, at % (at - place)) for place in places.get(
                key - 1 if key & 255 else key + 255, ()) if SHORTEST <= at - place <= APART)
            places[key] = [*places.get(key, ()), at][-NEAR:]
    return found


def data_end(recording: Recording, units: Sequence[bytes]) -> int:
    """The most octets at the front of these units at which packets go on from frame to frame, else 0."""
    runs: List[List[bytes]] = []                          # from a frame in which a packet begins to the next one
    begun: Dict[int, List[bytes]] = {}
    for unit in units:
        channel, pointer = unit[0] << 8 | unit[1] & 0xFE, (unit[4] & 7) << 8 | unit[5]
        run = begun.get(channel, [])
        goes_on = run != [] and (unit[3] - run[-1][3]) & 255 == 1 and pointer != 2046 and unit[4] & 0xD8 == 0x18
        runs += [[*run, unit]] * (goes_on and pointer < 2046)
        begun[channel] = [unit] if pointer < 2046 else [*run, unit] * goes_on
    for end in range(min(map(len, units), default=0), SHORTEST - 1, -1) if len(runs) > 3 else ():
        recording.look_at_clock()
        if sum(joined(run, end) for run in runs[:4]) > 1 and sum(joined(it, end) for it in runs) >= 0.6 * len(runs):
            return end
    return 0


def joined(run: Sequence[bytes], end: int) -> bool:       # whether packets lie end to end, first to last
    first, last = ((unit[4] & 7) << 8 | unit[5] for unit in (run[0], run[-1]))
    return chained((b"".join(it[6:end - 4 * (it[1] & 1)] for it in run[:-1]) + run[-1][6:6 + last])[first:])


def chained(octets: bytes) -> bool:                       # whether they are packets end to end
    at = 0
    while at + 7 <= len(octets) and not octets[at] >> 5 and any(octets[at:at + 6]):
        at += 7 + (octets[at + 4] << 8 | octets[at + 5])
    return at == len(octets) > 0


def stated(octets: bytes, at: int, strict: bool = False) -> int:
    """The length that a TC frame here states, 0 where it isn't whole or, if strict, has other flags, version, spare."""
    length = ((octets[at + 2] & 3) << 8 | octets[at + 3]) + 1 if at + 5 <= len(octets) else 0
    odd = strict and length > 0 and (length == 5 or octets[at] & 0xCC > 0 or octets[at] & 0x30 == 0x10)
    return 0 if odd or not 5 <= length <= len(octets) - at else length


def tc_craft(octets: bytes, at: int = 0) -> int:
    return (octets[at] & 3) << 8 | octets[at + 1]


def tc_field(frames: Sequence[bytes]) -> Optional[bool]:
    """Whether TC frames have the error control field, or packets end with them; None if that isn't sure."""
    right, (bare, behind) = right_fields(frames), (sum(
        any(chained(it[at:len(it) - end]) for at in (5, 6)) for it in frames[:300]) for end in (0, 2))
    no = False if right <= max(1, 0.03 * len(frames)) and bare > max(1, 2 * behind) else None
    return True if right >= 2 and 2 * right >= len(frames) and bare <= behind + 1 else no
