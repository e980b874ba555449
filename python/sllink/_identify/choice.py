"""What a recording is, by the first sign that it has."""

import re
from binascii import crc_hqx
from collections import Counter
from itertools import islice, takewhile
from typing import Iterator, List, NamedTuple, Optional, Sequence, Tuple

from . import Identification, frames_of, quoted
from .signs import (APART, PAIRS, SECONDS, SHORTEST, TC_SEQUENCE, TM_SEQUENCE, Late, Recording, Seen, about, chained,
                    control, craft_of, crafts, data_end, fitting, headers, right_fields, right_frames, risen, stated,
                    tc_craft, tc_field, unmasked)

HEAD, BLOCK, WHOLE = 1 << 17, 1 << 20, 2 << 20            # octets of signs, TM frames, TC frames that are looked at
MARKER, START, TAIL = b"\x1a\xcf\xfc\x1d", b"\xeb\x90", b"\xc5" * 7 + b"\x79"        # of 131.0-B and of 231.0-B
CADUS, READS = "CADUs: sync markers (1ACFFC1D) before frames", "sllink reads TM and TC frames"
STOPPED = f"stopped after {SECONDS} s of the processor's time"
FILES = (                                                 # the command that makes octets of a file, and how it begins
    ("compressed by gzip", "gunzip < {} > {}", rb"\x1f\x8b"), ("compressed by bzip2", "bunzip2 < {} > {}", rb"BZh"),
    ("compressed by xz", "unxz < {} > {}", rb"\xfd7zXZ\0"), ("a zip archive", "unzip -p {} > {}", rb"PK\x03\x04"),
    ("compressed by zstd", "unzstd < {} > {}", rb"\x28\xb5\x2f\xfd"), ("empty", "", rb"\Z"),
    ("a capture of packets of a network (pcap)", "tshark -r {} -T fields -e udp.payload | xxd -r -p > {}",
     rb"\n\r\r\n|[\xd4\x4d][\xc3\x3c]\xb2\xa1|\xa1\xb2[\xc3\x3c][\xd4\x4d]"),
    ("hexadecimal digits", "xxd -r -p < {} > {}", rb"\s*[\da-fA-F][\da-fA-F\s]{7,}\Z"), ("text", "", rb"[\s -~]+\Z"))


def identification(name: str, file: int) -> Identification:
    """What the recording of this name is, by each sign in turn."""
    recording = Recording(name, file)
    head = recording.read(0, HEAD)
    for what, command, _ in (it for it in FILES if re.match(it[2], head)):
        bare = re.sub(r"\.(gz|bz2|xz|zst|zip)$", "", name)
        command = command.format(quoted(name), quoted(bare, ".octets" * (bare == name)))
        return Identification(what, commands=(command,)) if command else Identification(what, why=READS)
    why = "there are no sync markers, start sequences, error control fields or headers that go on"
    try:
        layout = by_markers(recording, head)
        found = None if layout else cltus(recording, head)
        known = [] if layout or found else list(islice(right_frames(head), PAIRS))
        layout = layout or by_distance(recording, head, control(head, known))
        found = None if layout else found or tc(recording, known, head, True)
        for mask in b"", TM_SEQUENCE:
            layout = layout or (None if found else by_distance(recording, head, headers(head, mask or bytes(5)), mask))
        found = tm(recording, head, layout) if layout else found or tc(recording, known, head, False) or other(head)
    except Late:
        found, why = None, STOPPED
    return found or Identification("unknown", why=why)


def other(head: bytes, distance: int = 0) -> Optional[Identification]:
    """Frames of AOS (version 1) and USLP (version 12) from the first octet on, by counts that rise or lengths."""
    for apart in range(distance or SHORTEST, (distance or APART) + 1):
        rows = [head[at:at + 6] for at in range(0, min(len(head), 32 * apart) - 5, apart)]
        if len(rows) > 4 and len({row[0] for row in rows}) == 1:
            version, rises = rows[0][0], sum((there[4] - here[4]) & 255 == 1 for here, there in zip(rows, rows[1:]))
            uslp = version >> 4 == 12 and all(distance or row[4] << 8 | row[5] == apart - 1 for row in rows)
            if uslp or version >> 6 == 1 and rises > 2:
                return Identification(f"{'USLP' if uslp else 'AOS'} transfer frames, {apart} octets apart", why=READS)
    return None


class Layout(NamedTuple):
    """How frames lie. With a length of 0 there are sync markers, and what is behind them isn't plain."""
    at: int                                               # the first place
    distance: int                                         # from one to the next
    marked: bool = False                                  # whether sync markers are before them
    mask: bytes = b""                                     # the sequence on them
    length: int = 0
    some: Sequence[int] = ()                              # of which spacecraft they are
    fecf: bool = False


def layout_of(recording: Recording, head: bytes, places: Sequence[int], it: Layout) -> Optional[Layout]:
    """The layout, with what frames at these places show: their length by the error control field, or else by their
    packets. None where that isn't sure, or they state their length, as space packets and TC frames do."""
    ends = ((at, at + it.distance - len(MARKER) * it.marked) for at in places)
    units = [unmasked(head[at:end], it.mask) for at, end in ends if end <= len(head)]
    length, some = fitting(units[:48]), crafts(units)
    own, fecf = [unit for unit in units if craft_of(unit) in some], length > 0
    if not fecf and len(own) >= max(5, 0.75 * len(units)) and risen(own) >= max(5, 0.3 * len(own)):
        length = data_end(recording, own[:500])
        some = [craft for craft in some if not length or length == data_end(
            recording, [unit[:length] for unit in own if craft_of(unit) == craft][:500])]
    others = sum(length in (7 + (unit[4] << 8 | unit[5]), stated(unit, 0, True)) for unit in units)
    return it._replace(length=length, some=some, fecf=fecf) if length and some and 2 * others < len(units) else None


def by_markers(recording: Recording, head: bytes) -> Optional[Layout]:
    """By sync markers at one distance, and frames behind them."""
    places = [it.end() for it in islice(re.finditer(re.escape(MARKER), head), PAIRS)]
    for distance, number in Counter(there - here for here, there in zip(places, places[1:])).most_common(1):
        if number >= max(2, len(places) // 4) and distance >= SHORTEST + len(MARKER):
            some = [Layout(places[0], distance, True, mask) for mask in (b"", TM_SEQUENCE)]
            return next(filter(None, (layout_of(recording, head, places, it) for it in some)), some[0])
    return None


def by_distance(recording: Recording, head: bytes, seen: Seen, mask: bytes = b"") -> Optional[Layout]:
    """By the distances, and the places in these, at which frames seem to lie."""
    found = []
    for distance, phase in sorted((it for it in seen if seen[it] > 1), key=lambda it: -seen[it] * it[0])[:8]:
        rows = {at: unmasked(head[at:at + 6], mask) for at in range(phase, len(head) - 6, distance)}
        some = crafts([*rows.values()])
        own = [at for at in rows if craft_of(rows[at]) in some]
        if len(own) > 2:
            layout = Layout(own[0], distance, mask=mask)
            found.append(layout_of(recording, head, range(own[0], own[-1] + 1, distance), layout))
    return max(filter(None, found), key=lambda it: it.fecf, default=None)


def pieces_of(recording: Recording, it: Layout) -> Tuple[List[range], int]:
    """The pieces in which frames lie, and for how many octets the time was enough. Where one goes on, each header is
    looked at; at both its ends, and between pieces, error control fields, or else three headers."""
    mask, length, fecf, apart = it.mask or bytes(5), it.length, it.fecf, it.distance
    own = {craft ^ craft_of(mask) for craft in it.some}   # as they stand
    right = crc_hqx(it.mask[:length], 0)                  # the register, with what the mask adds to it
    odd = {place: bytes(octet not in them for octet in range(256)) for place, them in (
        (0, {craft >> 4 for craft in own}), (1, {craft << 4 & 240 | low for craft in own for low in range(16)}),
        (4, {octet for octet in range(256) if (octet ^ mask[4]) & 0x58 >= 0x18}))}

    def sound(octets: bytes, at: int) -> bool:
        frame = octets[at:at + length]
        return len(frame) == length and craft_of(frame) in own and (crc_hqx(frame, 0xFFFF) == right if fecf else (
            not odd[4][frame[4]] and not (at and octets.startswith(frame[:4], max(0, at - apart)))))

    def plain(octets: bytes, at: int) -> int:             # how many headers aren't odd, and have new counts, from here
        columns = [octets[at + place:place + 1 - length:apart] for place in range(5)]
        first, second = (int.from_bytes(column, "big") for column in columns[2:4])
        new = (first ^ first >> 8 | second ^ second >> 8).to_bytes(len(columns[0]), "big")
        return min((new + b"\0").index(0, 1), *((columns[it].translate(odd[it]) + b"\1").index(1) for it in odd))

    sign, at, seen = re.compile(b"[%s]" % re.escape(bytes({craft >> 4 for craft in own}))), 0, 0
    found: List[range] = []
    while seen < recording.size and not recording.is_late():
        octets = recording.read(seen, BLOCK + 4 * apart)
        while (place := sign.search(octets, at)) and place.start() < BLOCK and not recording.is_late():
            on, at = place.start(), place.start() + 1
            goes_on = found and (seen + on - found[-1].start) % apart == 0
            if all(sound(octets, on + row * apart) for row in range(1 if fecf or goes_on else 3)):
                rows = range(on, len(octets), apart)[:max(1, plain(octets, on))]
                at = length + next(row for row in reversed(rows) if sound(octets, row))
                found.append(range(found.pop().start if goes_on else seen + on, seen + at))
        at, seen = max(at - BLOCK, 0), min(seen + BLOCK, recording.size)
    begin, end = (found[0].start, found.pop(0).stop) if found else (it.at, it.at)
    while begin >= it.distance and craft_of(unmasked(recording.read(begin - it.distance, 2), it.mask)) in it.some:
        begin -= it.distance                              # frames with bit errors
    return [range(begin, end), *found], seen - min(seen, BLOCK) * recording.is_late()


def tm(recording: Recording, head: bytes, it: Layout) -> Identification:      # what one of frames that lie so is
    if not it.length:
        found = other(head[it.at:], it.distance)
        return Identification(CADUS, why=found.what if found else "what is between them isn't plain, also derandomised")
    if it.marked:
        what, pieces, seen = CADUS, [range(recording.size)], recording.size
        places = (at.end() for at in re.finditer(re.escape(MARKER), head))
        lines = [f"sync markers {it.distance} octets apart, {'' if it.mask else 'not '}randomised"]
    else:
        what = f"{'randomised ' * bool(it.mask)}TM transfer frames of {it.length} octets"
        what += f", {it.distance - it.length} other octets between them" * (it.distance > it.length)
        pieces, seen = pieces_of(recording, it)
        lines = [f"octets looked at {seen} of {recording.size}"] * (seen < recording.size)
        places = (at for piece in pieces for at in piece[:BLOCK:it.distance])
    read = (recording.read(at, it.length) for at in islice(places, max(300, BLOCK // it.length)))
    frames = [unmasked(frame, it.mask) for frame in read if len(frame) == it.length]
    some, begin = crafts(frames) or it.some, pieces[0].start
    own = [frame for frame in frames if craft_of(frame) in some]
    opaque = sum(frame[4] > 63 for frame in own)
    lines += [*about(frames, craft_of, some, it.fecf, (recording.size - begin) // it.distance),
              f"operational control field frames {sum(frame[1] & 1 for frame in own)}",
              *[f"secondary header or synchronisation flag frames {opaque}, opaque"] * (20 * opaque > len(frames))]
    why = "less than half of it are such frames" * (2 * sum(map(len, pieces)) < seen - begin - 2 * it.distance)
    why = why if seen == recording.size else STOPPED * (len(pieces) < 2)
    lead, trail = 0, it.distance - it.length - len(MARKER) * it.marked
    begin, lead, trail = (0, begin, trail - begin) if begin <= trail else (begin, 0, trail)
    options = f" --marker {MARKER.hex()} --errors 3" * it.marked + f" --lead {lead}" * (lead > 0)
    options += f" --trail {trail}" * (trail > 0) + " --derandomise" * bool(it.mask)
    words = [["tm", "--scid", str(craft), "--tm-length", str(it.length), *["--tm-fecf"] * it.fecf] for craft in some]
    return frames_of(recording.name, what, lines, words, why, pieces, begin,
                     f"sllink-frames --length {it.length}{options}" * bool(options))


def cut(octets: bytes) -> Iterator[bytes]:                # by the lengths that frames state
    at = 0
    while length := stated(octets, at):
        yield octets[at:at + length]
        at += length


def tc(recording: Recording, known: Sequence[Tuple[int, int]], head: bytes, fecf: bool) -> Optional[Identification]:
    """TC frames: with error control fields, by right ones; else by five lengths that lead on, or three to the end."""
    octets = recording.read(0, WHOLE) if recording.size <= WHOLE else head
    some = [tc_craft(head, at) for at, length in known if stated(head, at, True) == length] if fecf else [
        tc_craft(head, at) for at in range(min(len(head), 1 << 16)) if (length := stated(head, at, True))
        and stated(head, at + length, True) and tc_craft(head, at + length) == tc_craft(head, at)]
    own = [craft for craft, number in Counter(some).most_common(1) if number > 1 + fecf]
    pieces = tc_pieces(recording, octets, own, fecf) if own else []
    sure = sum(end - begin for begin, end, rows in pieces if fecf or rows > 4 or rows > 2 and end == len(octets))
    frames = list(islice((it for begin, end, _ in pieces for it in cut(octets[begin:end])), 20_000))
    if len(frames) < 3 or 2 * sure <= len(octets) or tc_field(frames) is (not fecf):
        return None
    why = f"of TC frames above {WHOLE} octets the first are looked at alone" * (recording.size > WHOLE)
    return answer(recording.name, "TC transfer frames", [], frames, why, [range(*it[:2]) for it in pieces])


def tc_pieces(recording: Recording, octets: bytes, own: Sequence[int], fecf: bool) -> List[List[int]]:
    """Where pieces of these spacecraft's TC frames begin and end, and how many are sound, and right if asked, in each.
    One to which no lengths lead begins a piece, also within another, if it goes on to a third: none is left out."""
    sign = re.compile(b"|".join(re.escape(bytes([flags | it >> 8, it & 255])) for it in own for flags in (0, 32, 48)))
    found: List[List[int]] = []
    at, on = 0, -1
    while place := sign.search(octets, at):
        recording.look_at_clock()
        begin, at = place.start(), place.start() + 1
        end = begin + stated(octets, begin, True)
        apart = begin >= on or end in (on, len(octets)) or sign.match(octets, end)
        if end > begin and apart and not (fecf and crc_hqx(octets[begin:end], 0xFFFF)):
            while found and on < begin and (step := stated(octets, on)):
                on += step
            found += [[begin, begin, 0]] * (on != begin)
            on = found[-1][1] = end
            found[-1][2] += 1
    return found


def answer(name: str, what: str, lines: List[str], frames: Sequence[bytes], why: str = "",
           pieces: Sequence[range] = (range(0),), program: str = "") -> Identification:
    """What is known of frames, and the words with which the program reads them, for each spacecraft."""
    fecf, numbers = tc_field(frames), Counter(map(tc_craft, frames))
    main = [craft for craft, number in numbers.most_common(20) if number >= max(2, 0.05 * len(frames))] or [*numbers]
    why = why if fecf is not None else "it isn't plain whether error control fields end the frames, or packets do"
    return frames_of(name, what, lines + about(frames, tc_craft, main, fecf), [
        words_of(frames, craft, fecf is True) for craft in main], why, pieces, pieces[0].start, program)


def words_of(frames: Sequence[bytes], craft: int, fecf: bool) -> List[str]:
    """The words with which a spacecraft's frames are read: channels without segment headers, and initial V(R)."""
    sound = [it[:-2] if fecf else it for it in frames if tc_craft(it) == craft and stated(it, 0, True)
             and not (fecf and not right_fields([it]))]
    plain, starts = [], []
    for vc in sorted({frame[2] >> 2 for frame in sound}):
        own = [frame for frame in sound if frame[2] >> 2 == vc]
        units = [frame[5:] for frame in own if not frame[0] & 0x10]
        plain += [str(vc)] * (sum(map(chained, units)) > 4 * sum(chained(it[1:]) for it in units if it[:1] >= b"\xc0"))
        starts += [(vc, frame[4]) for frame in own if not frame[0] & 0x30][:1]
    words = ["tc", "--scid", str(craft), *["--tc-fecf"] * fecf, *["--plain", ",".join(plain)] * bool(plain)]
    return words + ["--vr-of", ",".join(f"{vc}:{start}" for vc, start in starts)] * any(start for _, start in starts)


def cltus(recording: Recording, head: bytes) -> Optional[Identification]:
    """Start sequences, and code blocks of right parity behind them."""
    units: List[bytes] = []
    end = covered = 0
    for place in re.finditer(re.escape(START), head):
        recording.look_at_clock()
        at = place.end()
        while at > end and head[at:at + 8] != TAIL and is_block(head[at:at + 8]):
            at += 8
        if at > place.end():
            end, covered = at, covered + at - place.start()
            units.append(b"".join(head[it:it + 7] for it in range(place.end(), at, 8)))
    if covered < max(16, len(head) // 8):
        return None
    for mask, program in (b"", "sllink-frames --cltu"), (TC_SEQUENCE, "sllink-frames --cltu --derandomise"):
        frames = [frame for unit in units for frame in takewhile(lambda it: it[0] < 64, cut(unmasked(unit, mask)))]
        if len(frames) >= 0.8 * len(units) and Counter(map(tc_craft, frames)).most_common(1)[0][1] > len(frames) // 2:
            lines = [f"start sequences (EB90) {len(units)}, {'' if mask else 'not '}randomised"]
            return answer(recording.name, "CLTUs: TC transfer frames in code blocks", lines, frames, program=program)
    return Identification("CLTUs", why="no TC frames are in them, also derandomised")


def is_block(octets: bytes) -> bool:
    """Whether these are a code block: seven octets and the inverted remainder of their division (231.0-B)."""
    number = int.from_bytes(octets, "big") >> 1 ^ 127
    for bit in range(62, 6, -1):
        number ^= 0b11000101 << bit - 7 if number >> bit & 1 else 0
    return len(octets) == 8 and number == 0
