"""Random cases for tests/model/compare: a command line and a recording, the same ones for the same seed and number.

A recording is a list of chunks, most of them frames. Most are passes as a station might have them: packets that run
through frames, series of segments, idle frames, and frames that are lost, repeated, damaged or out of order. The others
are long packets, frames whose fields are at an end of their range, each distance in a window, and octets of any value.
"""

import random
from binascii import crc_hqx
from bisect import bisect_left
from collections import namedtuple

from words import VERBS, limited, odd_words, options_of, refused_values, usual_words, words_of

# The words of a command line, a recording in chunks, and the lengths of the pieces in which a pipe gives it, or None.
Case = namedtuple("Case", "words chunks pieces")
LONGEST_PACKET = 65542
# One case in 157 tries every distance in a window, the next one another window, so 20,000 cases try all 127.
WINDOW_EVERY = 157
# One case in 151 has a packet or a series that is nearly as long as may be, one in 100 has up to 400 frames.
LONG_EVERY, MANY_EVERY = 151, 100
NOISE = random.Random("noise").getrandbits(8 << 17).to_bytes(1 << 17, "big")


# Packets.

def data(rng, length):
    """Octets for a packet's data field: of any values, of one value, or short packets, which nobody has to find."""
    style = rng.random()
    if style < 0.5:
        at = rng.randrange(1 << 15)
        return NOISE[at:at + length]
    if style < 0.7:
        return rng.choice((b"\0", b"\x55", b"\xff")) * length
    inner = bytes([0, rng.randrange(256), 0xC0, rng.randrange(4), 0, rng.randrange(4)])
    inner += NOISE[:inner[5] + 1]
    return (inner * (length // len(inner) + 1))[:length]


def packet(rng, length):
    """A packet of this length; about one in five is idle."""
    first = rng.choice((0, 1, 2, 300, 2046, rng.randrange(2048), rng.randrange(2048), rng.randrange(2048), 2047, 2047))
    if rng.random() < 0.5:
        first |= rng.randrange(4) << 11
    second = rng.choice((0xC000, rng.randrange(65536)))
    return (first << 32 | second << 16 | length - 7).to_bytes(6, "big") + data(rng, length - 6)


def corner_packet(rng, room):
    """A packet, or what looks like one, whose every field is at an end of its range; at most `room + 6` octets."""
    stated = rng.choice((0, 1, max(room - 8, 0), max(room - 7, 0), max(room - 6, 0), 65534, 65535))
    first = rng.choice((0, 0, 0, 0, 0, 1, 7)) << 13 | rng.choice((0, 1)) << 12 | rng.choice((0, 1)) << 11
    first |= rng.choice((0, 1, 2046, 2047))
    second = rng.choice((0, 1, 2, 3)) << 14 | rng.choice((0, 16383))
    header = (first << 32 | second << 16 | stated).to_bytes(6, "big")
    return header + rng.choice((b"\0", b"\xff")) * min(stated + 1, room)


def foreign(rng):
    """A few octets of another packet version."""
    return bytes([rng.randrange(1, 8) << 5 | rng.randrange(32)]) + data(rng, rng.choice((0, 1, 5, 6, 9, 20)))


def lengths(rng, room):
    """The least and the greatest length of a channel's packets, whose frames have data fields of `room` octets."""
    style = rng.randrange(6)
    if style == 0:
        return 7, 20
    if style == 1:
        return max(room - 3, 7), room + 3
    if style == 2:
        return 7, 3 * room + 7
    if style == 3:
        return 7, room
    if style == 4:                                        # 256 frames are a whole number of packets
        length = rng.choice([length for length in range(7, 4 * room) if 256 * room % length == 0])
        return length, length
    longest = min(rng.choice((10, 40, 300, 2500)) * room, LONGEST_PACKET)
    return longest // 2, longest


def rates(rng, count):
    """How often each of some things happens in a recording: mostly never, and in one of five recordings none does."""
    if rng.random() < 0.2:
        return [0] * count
    return [rng.choice((0, 0, 0, 0.03, 0.15)) for _ in range(count)]


def closed(frame, fecf):
    """The frame, with its error control field where frames have one."""
    return frame + crc_hqx(frame, 0xFFFF).to_bytes(2, "big") if fecf else frame


def flipped(rng, frame):
    """The frame with one to three wrong bits."""
    frame = bytearray(frame)
    for _ in range(rng.randint(1, 3)):
        frame[rng.randrange(len(frame))] ^= 1 << rng.randrange(8)
    return bytes(frame)


# TM.

def tm_frame(link, vc, counts, pointer, field, ocf=b"", flags=3 << 11, version=0, scid=None):
    """A TM frame. `counts` are the two frame counts, `flags` are those beside the pointer."""
    first = version << 14 | (link["scid"] if scid is None else scid) << 4 | vc << 1 | (len(ocf) > 0)
    header = first.to_bytes(2, "big") + bytes(count % 256 for count in counts) + (flags | pointer).to_bytes(2, "big")
    return closed(header + field + ocf, link["tm-fecf"])


def tm_space(link):
    """How many octets a data field has, where there is no operational control field."""
    return link["tm-length"] - 6 - 2 * link["tm-fecf"]


def control_word(rng):
    """An operational control field, of either type."""
    return rng.choice((b"\x01\0\0\0", b"\x80\0\0\0", b"\x7f\xff\xff\xff", rng.getrandbits(32).to_bytes(4, "big")))


class Downlink:
    """A virtual channel of a TM pass: its packets without an end, and its counts."""

    def __init__(self, rng, vc, room, flaws=0.0):
        self.rng, self.vc, self.flaws = rng, vc, flaws
        self.least, self.most = lengths(rng, room)
        self.octets, self.starts, self.count = bytearray(), [], rng.choice((0, 254, 255, rng.randrange(256)))
        # A recording begins anywhere in a packet.
        self.at = rng.choice((0, 0, 1, 5, rng.randrange(min(self.most, 300))))

    def grow(self):
        """One packet more."""
        self.starts.append(len(self.octets))
        one = packet(self.rng, self.rng.randint(self.least, self.most))
        if self.rng.random() < self.flaws:
            one = self.rng.choice((foreign(self.rng), one[:-1], one + b"\0", one[:4] + one[6:], one[:5]))
        self.octets += one

    def field(self, room):
        """The next data field, and its pointer."""
        while len(self.octets) < self.at + room:
            self.grow()
        begin, self.at = self.at, self.at + room
        place = bisect_left(self.starts, begin)
        starts = place < len(self.starts) and self.starts[place] < self.at
        return bytes(self.octets[begin:self.at]), self.starts[place] - begin if starts else 2047

    def lose(self, frames, room):
        """Some frames are lost."""
        self.at += frames * room
        self.count += frames


def some_lost(rng):
    """How many frames are lost in a row."""
    return rng.choice((1, 1, 1, 2, 3, 254, 255, 256, 256, 257, 511, 512, 513))


def wrong_pointer(rng, pointer, room):
    """A pointer that isn't the one of the frame's packets."""
    return rng.choice((0, 1, room - 1, room, room + 1, 2041, 2042, 2043, 2045, 2046, 2047, rng.randrange(2048),
                       (pointer + 1) % 2048, (pointer - 1) % 2048, rng.randrange(room)))


class TmFaults:
    """How often each fault comes in a TM pass, and what the frames have in common."""

    def __init__(self, rng):
        (self.flaws, self.lost, self.idle, self.opaque, self.pointers, self.counts, self.others, self.repeated,
         self.swapped, self.damaged) = rates(rng, 10)
        self.controlled = rng.choice((0, 0, 0.3, 1))
        self.ignored = rng.choice((3, 3, rng.randrange(8)))

    def frame(self, rng, link, channel, mc):
        """The next frame of a channel, perhaps one that isn't as it was sent."""
        ocf = control_word(rng) if rng.random() < self.controlled else b""
        room = tm_space(link) - len(ocf)
        flags, version, scid = self.ignored << 11, 0, None
        if rng.random() < self.lost:
            channel.lose(some_lost(rng), room)
        field, pointer = (data(rng, room), 2046) if rng.random() < self.idle else channel.field(room)
        if rng.random() < self.opaque:
            flags |= rng.choice((1, 2, 3)) << 14
            if rng.random() < 0.5:                        # one that takes no packets with it
                channel.at -= room if pointer != 2046 else 0
                pointer = rng.choice((2046, 2047, 2047))
        if rng.random() < self.pointers:
            pointer = wrong_pointer(rng, pointer, room)
        if rng.random() < self.counts:
            channel.count += rng.choice((1, -1, -2, 128, 255))
        if rng.random() < self.others:
            version, scid = rng.choice(((1, None), (2, None), (0, link["scid"] ^ 1), (0, rng.randrange(1024))))
        frame = tm_frame(link, channel.vc, (mc, channel.count), pointer, field, ocf, flags, version, scid)
        channel.count += 1
        return flipped(rng, frame) if rng.random() < self.damaged else frame


def tm_pass(rng, link, frames):
    """The frames of a TM pass."""
    faults = TmFaults(rng)
    vcs = rng.sample(range(8), rng.choice((1, 1, 1, 2, 3, 8)))
    channels = [Downlink(rng, vc, tm_space(link), faults.flaws) for vc in vcs]
    chunks, mc = [], rng.randrange(256)
    while len(chunks) < frames:
        mc += 1
        frame = faults.frame(rng, link, rng.choice(channels), mc)
        chunks += [frame] * (2 if rng.random() < faults.repeated else 1)
        if rng.random() < faults.swapped:
            chunks[-2:] = chunks[:-3:-1]
    return chunks


def tm_corners(rng, link, frames):
    """TM frames whose every field is at an end of its range."""
    chunks, count = [], rng.choice((0, 255))
    for _ in range(frames):
        ocf = control_word(rng) if rng.random() < 0.3 else b""
        room = tm_space(link) - len(ocf)
        field = b""
        while len(field) < room:
            field += corner_packet(rng, room)
        flags = rng.choice((0, 0, 0, 0, 0, 1, 2, 3)) << 14 | rng.choice((0, 7)) << 11
        count += rng.choice((1, 1, 1, 1, 0, 2, 255))
        counts, vc = (rng.choice((0, 255)), count), rng.choice((0, 7))
        pointer = rng.choice((0, 0, 0, 6, 7, room - 1, room, 2045, 2046, 2047, 2047))
        version, scid = rng.choice(((0, None),) * 8 + ((1, None), (3, None), (0, 0), (0, 1023)))
        chunks.append(tm_frame(link, vc, counts, pointer, field[:room], ocf, flags, version, scid))
    return chunks


def tm_long(rng, link):
    """A packet of the greatest length or nearly so: whole, cut, or without some 256 of its frames."""
    link["tm-length"] = rng.choice((32, 33, 2048, 2048, 2047))
    link["tm-fecf"] = link["tm-fecf"] and rng.random() < 0.1
    room = tm_space(link)
    channel = Downlink(rng, rng.randrange(8), room)
    channel.octets, channel.at = bytearray(data(rng, rng.choice((0, 1, room - 1)))), 0
    channel.starts = [len(channel.octets)]
    channel.octets += packet(rng, LONGEST_PACKET - rng.choice((0, 0, 1, 2, room, rng.randrange(1000))))
    channel.least, channel.most = 7, 2 * room
    kept = 36 if room > 2000 else rng.randrange(3, 20)
    lost_before = None if room > 2000 and rng.random() < 0.7 else rng.randrange(1, kept)
    chunks = []
    for place in range(kept):
        if place == lost_before:
            channel.lose(rng.choice((1, 255, 256, 256, 257, 2500)), room)
        field, pointer = channel.field(room)
        chunks.append(tm_frame(link, channel.vc, (place, channel.count), pointer, field))
        channel.count += 1
    return chunks[:rng.choice((kept, kept, 33, 32))]


def tm_hostile(rng, link, frames):
    """Frames with a likely header and data fields of anything."""
    space, count, chunks = tm_space(link), rng.randrange(256), []
    for _ in range(frames):
        field = b"".join(packet(rng, rng.randint(7, 30)) for _ in range(space // 7)) if rng.random() < 0.5 else b""
        field = (field + data(rng, space))[rng.randrange(9):][:space].ljust(space, b"\0")
        pointer = rng.choice((2047, 2047, 0, rng.randrange(space), wrong_pointer(rng, 0, space)))
        count += rng.random() < 0.9
        chunks.append(tm_frame(link, rng.randrange(2), (0, count), pointer, field))
    return chunks


def tm_recording(rng, link, number):
    """A TM recording in chunks; it may change the link."""
    if number % LONG_EVERY == 0:
        return tm_long(rng, link)
    if number % MANY_EVERY == 1:
        link["tm-length"] = rng.randint(32, 48)
        return tm_pass(rng, link, rng.randint(31, 400))
    style, frames = rng.random(), max(1, min(int(31 * rng.random()), 2500 // link["tm-length"]))
    if style < 0.75:
        return tm_pass(rng, link, frames)
    return tm_corners(rng, link, frames) if style < 0.88 else tm_hostile(rng, link, frames)


# TC.

AD, NO_TYPE, BD, BC = range(4)                            # by the bypass flag and the control command flag
MIDDLE, FIRST, LAST, WHOLE = range(4)                     # by the sequence flags
UNLOCK = b"\0"


def set_vr(value):
    """The control command Set V(R)."""
    return bytes([0x82, 0, value])


def tc_frame(link, kind, vc, ns, field, version=0, spare=0, scid=None, stated=None):
    """A TC frame. `kind` are its two flags, `stated` is its length where it states another one than it has."""
    length = 5 + len(field) + 2 * link["tc-fecf"] if stated is None else stated
    first = version << 14 | kind << 12 | spare << 10 | (link["scid"] if scid is None else scid)
    header = (first << 24 | vc << 18 | (length - 1) % 1024 << 8 | ns % 256).to_bytes(5, "big")
    return closed(header + field, link["tc-fecf"])


def tc_space(link):
    """How many octets the longest data field has that isn't too long."""
    return link["tc-length"] - 5 - 2 * link["tc-fecf"]


def start_of(link, vc):
    """The initial V(R) of a virtual channel."""
    return link["vr-of"].get(vc, link["vr"])


class Uplink:
    """A virtual channel of a TC pass: the segments that wait for each MAP, and FARM-1's state as the sender sees it."""

    def __init__(self, rng, link, vc):
        self.vc, self.plain = vc, vc in link["plain"]
        self.vr, self.locked, self.half = start_of(link, vc), False, link["window"] // 2
        self.waiting = {name: [] for name in rng.sample(range(64), rng.choice((1, 1, 2, 4, 30)))}

    def sends(self, distance):
        """A frame of type AD goes out, at this distance ahead of V(R)."""
        if not self.locked and distance == 0:
            self.vr = (self.vr + 1) % 256
        elif self.half <= distance < 256 - self.half:
            self.locked = True

    def commands(self, field):
        """A frame of type BC goes out."""
        if field == UNLOCK:
            self.locked = False
        elif not self.locked:
            self.vr = field[-1]

    def distance(self, rng):
        """A distance ahead of V(R), mostly one at an end of an area."""
        half = self.half
        return rng.choice((1, 2, half - 1, half, half + 1, 128, 255, 254, 255 - half, 256 - half, 257 - half,
                           rng.randrange(256))) % 256

    def unit(self, rng, most, flaws):
        """The next unit, of at most `most` octets."""
        if self.plain:
            return service_data_unit(rng, most) or b"\0"
        name = rng.choice(list(self.waiting))
        waiting = self.waiting[name]
        if not waiting:
            waiting += segments(rng, service_data_unit(rng, 5 * most), name, most - 1, flaws)
        return waiting.pop(0) if waiting else bytes([rng.randrange(4) << 6 | name])


def service_data_unit(rng, most):
    """Packets end to end, and now and then octets after them; at most `most` octets."""
    octets = b""
    for _ in range(rng.choice((0, 1, 1, 1, 1, 2, 3))):
        length = rng.choice((7, 8, rng.randint(7, 40), rng.randint(7, 40), rng.randint(7, 400)))
        octets += packet(rng, min(length, max(most, 7)))
    if rng.random() < 0.25:
        octets += rng.choice((foreign(rng), packet(rng, 12)[:rng.randint(1, 11)], corner_packet(rng, 8), data(rng, 9)))
    return octets[:most]


def segments(rng, octets, name, most, flaws):
    """Segments of at most `most` octets for a service data unit: some perhaps empty, one perhaps out of order."""
    cuts = [rng.choice((rng.randint(0, len(octets)), 0, len(octets))) for _ in range(rng.choice((0, 0, 0, 1, 2, 4)))]
    edges = sorted([0, *cuts, *range(most, len(octets), most), len(octets)])
    flags = [WHOLE] if len(edges) == 2 else [FIRST] + [MIDDLE] * (len(edges) - 3) + [LAST]
    parts = [bytes([flag << 6 | name]) + octets[begin:end] for flag, begin, end in zip(flags, edges, edges[1:])]
    if rng.random() < flaws:
        place = rng.randrange(len(parts))
        part = parts[place]
        parts[place:place + 1] = rng.choice((
            [], [part, part], [bytes([rng.randrange(256)]) + part[1:]],
            [bytes([rng.randrange(4) << 6 | name]) + part[1:]]))
    return parts


def odd_frame(rng, link, channel):
    """A frame that is skipped, or nearly."""
    unit, style = b"\xc0" + packet(rng, 7), rng.randrange(8)
    kind, field, others = AD, unit, {}
    if style == 0:
        others = {"version": rng.randint(1, 3)}
    elif style == 1:
        others = {"scid": rng.choice((link["scid"] ^ 1, 0, 1023, rng.randrange(1024)))}
    elif style == 2:
        kind, field = NO_TYPE, rng.choice((unit, UNLOCK, b""))
    elif style == 3:
        kind, field = rng.choice((AD, BD, BC)), b""
    elif style == 4:
        kind, field = BC, rng.choice((b"\1", b"\x82\0", b"\x82\1\5", b"\0\0", b"\x82\0\5\0", b"\x83\0\5", b"\0\0\0",
                                      b"\x80\0\1", rng.getrandbits(24).to_bytes(3, "big")))
    elif style == 5:
        field = data(rng, min(link["tc-length"], 1019 - 2 * link["tc-fecf"]))
    elif style == 6:
        kind, field = BD, data(rng, min(tc_space(link) + rng.choice((0, 1)), 1019 - 2 * link["tc-fecf"]))
    else:
        others = {"stated": rng.choice((1, 4, 5, 6, 7, 8, 1024))}
    return tc_frame(link, kind, channel.vc, channel.vr, field, **others)


class TcFaults:
    """How often each fault or command comes in a TC pass, and what the frames have in common."""

    def __init__(self, rng, link):
        (self.commands, self.odd, self.away, self.lost, self.bypassing, self.repeated, self.damaged,
         self.flaws) = rates(rng, 8)
        self.bypassing = self.bypassing if rng.random() < 0.9 else 0.9
        self.spare = rng.choice((0, 0, 3))
        self.most = min(tc_space(link) + rng.choice((0, 0, 0, 0, 1, 20)), 1019 - 2 * link["tc-fecf"])

    def frame(self, rng, link, channel):
        """The next frame of a channel, or None where it is lost."""
        if channel.locked and rng.random() < 0.4 or rng.random() < self.commands:
            field = UNLOCK if rng.random() < 0.6 else set_vr(rng.choice((channel.vr, 0, 255, rng.randrange(256))))
            channel.commands(field)
            return tc_frame(link, BC, channel.vc, rng.choice((0, 255)), field, spare=self.spare)
        if rng.random() < self.odd:
            return odd_frame(rng, link, channel)
        kind = BD if rng.random() < self.bypassing else AD
        distance = channel.distance(rng) if rng.random() < self.away else 0
        unit, ns = channel.unit(rng, self.most, self.flaws), channel.vr + distance
        if rng.random() < self.lost:
            return None
        if kind == AD:
            channel.sends(distance)
        return tc_frame(link, kind, channel.vc, ns, unit, spare=self.spare)


def tc_pass(rng, link, frames):
    """The frames of a TC pass."""
    vcs = {0, 1, 5, 62, 63, *link["plain"], *link["vr-of"]}
    channels = [Uplink(rng, link, vc) for vc in rng.sample(sorted(vcs), rng.choice((1, 1, 1, 2, 3, len(vcs))))]
    faults, chunks = TcFaults(rng, link), []
    while len(chunks) < frames:
        frame = faults.frame(rng, link, rng.choice(channels))
        if frame is None:
            continue
        if rng.random() < faults.damaged:
            frame = flipped(rng, frame)
        chunks += [frame] * (2 if rng.random() < faults.repeated else 1)
    return chunks


def tc_corners(rng, link, frames):
    """TC frames whose every field is at an end of its range."""
    chunks = []
    for _ in range(frames):
        kind = rng.choice((AD, AD, BD, BC, NO_TYPE))
        field = rng.choice((b"", b"\0", b"\xff", b"\x3f", b"\x40", b"\x7f", b"\x80", set_vr(0), set_vr(255),
                            rng.choice((b"\0", b"\xff", b"\xc0")) + corner_packet(rng, 16),
                            b"\xc0" + corner_packet(rng, 1), b"\xff" * tc_space(link)))
        version, scid = rng.choice(((0, None),) * 10 + ((1, None), (3, None), (0, 0), (0, 1023)))
        stated = rng.choice((None,) * 20 + (1, 4, 5, 7, 1024))
        vc, ns, spare = rng.choice((0, 63)), rng.choice((0, 0, 1, 127, 128, 254, 255)), rng.choice((0, 3))
        chunks.append(tc_frame(link, kind, vc, ns, field, version, spare, scid, stated))
    return chunks


def tc_long(rng, link):
    """A series of as many octets as a packet may have, or nearly so, or more."""
    link["tc-length"], link["plain"] = 1024, []
    link["tc-fecf"] = link["tc-fecf"] and rng.random() < 0.1
    room, vc, name = tc_space(link) - 1, rng.choice((0, 63)), rng.randrange(64)
    length = LONGEST_PACKET + rng.choice((-1, 0, 0, 0, 1, 2, room))
    octets = packet(rng, min(length, LONGEST_PACKET)) if rng.random() < 0.6 else service_data_unit(rng, length)
    octets = octets.ljust(length, b"\0")
    units = [bytes([MIDDLE << 6 | name]) + octets[edge:edge + room] for edge in range(0, length, room)]
    units[0] = bytes([FIRST << 6 | name]) + units[0][1:]
    before, end = units.pop(), bytes([LAST << 6 | name])
    units += rng.choice(([end + before[1:]], [before, end], [before, before[:1], end], [before],
                         [before, end + b"\0", end + b"\0"], [end + before[1:-1], end]))
    if rng.random() < 0.3:
        units.insert(rng.randrange(len(units)), bytes([WHOLE << 6 | name ^ 1]) + packet(rng, 9))
    return [tc_frame(link, AD, vc, start_of(link, vc) + place, unit) for place, unit in enumerate(units)]


def is_of_window(number):
    """Does the case of this number try every distance in a window?"""
    return number % WINDOW_EVERY == WINDOW_EVERY - 1


def tc_window(rng, link, number):
    """Every distance in one window, each from the open state."""
    link["window"], link["plain"] = 2 + number // WINDOW_EVERY * 2 % 254, []
    half, vc = link["window"] // 2, rng.randrange(64)
    vr, chunks = start_of(link, vc), []
    for distance in rng.sample(range(256), 256):
        unit = b"\xc0" + (packet(rng, 7) if rng.random() < 0.1 else b"")
        chunks.append(tc_frame(link, AD, vc, vr + distance, unit))
        vr += distance == 0
        if half <= distance < 256 - half:
            chunks.append(tc_frame(link, BC, vc, 0, UNLOCK))
    return chunks


def tc_hostile(rng, link, frames):
    """Frames that state lengths, and are otherwise of anything."""
    chunks = []
    for _ in range(frames):
        field = data(rng, rng.choice((0, 1, 2, 3, rng.randrange(60))))
        chunks.append(tc_frame(link, rng.choice((AD, AD, BD, BC)), rng.randrange(2), rng.randrange(4), field))
        if rng.random() < 0.05:
            chunks.append(data(rng, rng.randrange(30)))
    return chunks


def tc_recording(rng, link, number):
    """A TC recording in chunks; it may change the link."""
    if number % LONG_EVERY == 0:
        return tc_long(rng, link)
    if number % MANY_EVERY == 1:
        return tc_pass(rng, link, rng.randint(31, 400))
    style, frames = rng.random(), max(1, int(31 * rng.random()))
    if style < 0.75:
        return tc_pass(rng, link, frames)
    return tc_corners(rng, link, frames) if style < 0.88 else tc_hostile(rng, link, frames)


# The link, and what becomes of a recording.

def some_link(rng):
    """Managed parameters, by the names of their options. `vr-of` has V(R) by virtual channel."""
    length = rng.random()
    return {
        "scid": rng.choice((0, 1, 1023, rng.randrange(1024))),
        "tm-length": 32 if length < 0.2 else rng.randint(32, 64) if length < 0.8 else rng.choice(
            (1115, 2048, rng.randint(65, 300), rng.randint(65, 2048))),
        "tc-length": rng.choice((16, 17, 24, 1024, 1024, rng.randint(16, 60), rng.randint(16, 1024))),
        "tm-fecf": rng.random() < 0.3,
        "tc-fecf": rng.random() < 0.3,
        "window": rng.choice((2, 4, 10, 10, 254, 2 * rng.randint(1, 127))),
        "vr": rng.choice((0, 0, 0, 1, 127, 128, 254, 255, rng.randrange(256))),
        "vr-of": {vc: rng.choice((0, 255, rng.randrange(256))) for vc in some_vcs(rng)},
        "plain": some_vcs(rng),
        "limit": 1 << 30,
    }


def some_vcs(rng):
    """Virtual channels for a list, mostly none."""
    if rng.random() < 0.7:
        return []
    return sorted({rng.choice((0, 1, 5, 62, 63, rng.randrange(64))) for _ in range(rng.choice((1, 1, 2, 5)))})


def other_link(rng, link):
    """The link, with a parameter that isn't that of the recording."""
    name = rng.choice(("scid", "tm-length", "tc-length", "tm-fecf", "tc-fecf", "window", "vr", "plain"))
    return {**link, name: some_link(rng)[name]}


def harmed(rng, chunks):
    """The recording, perhaps cut short, or with a frame of another length."""
    style = rng.random()
    if not chunks or style > 0.3:
        return chunks
    if style < 0.2:
        return chunks[:-1] + [chunks[-1][:rng.choice((1, 2, 3, 4, 5, 6, rng.randint(0, len(chunks[-1]))))]]
    place = rng.randrange(len(chunks))
    chunk, at = chunks[place], rng.randint(0, len(chunks[place]))
    if style < 0.25:
        chunk = chunk[:at] + chunk[at + rng.randint(1, 5):]
    else:
        chunk = chunk[:at] + data(rng, rng.randint(1, 5)) + chunk[at:]
    return chunks[:place] + [chunk] + chunks[place + 1:]


def recording(rng, kind, link, number):
    """A recording in chunks, for this link, which it may change; now and then one of the other kind."""
    if is_of_window(number):
        return tc_window(rng, link, number)
    style = rng.random()
    if style < 0.02:
        return []
    if style < 0.04:
        return [data(rng, rng.randrange(300))]
    is_tm = (kind == b"tm") != (style < 0.05)
    return harmed(rng, (tm_recording if is_tm else tc_recording)(rng, link, number))


def some_pieces(rng, octets):
    """The lengths of the pieces in which a pipe gives a recording of `octets` octets."""
    sizes = rng.choice(((1,), (1, 3, 5, 7), (31, 33, 63, 65), (1, 127, 255, 257), (5, 1023, 4095)))
    if octets > 200 * len(sizes):
        sizes = (max(sizes), 511, 4095)
    pieces = []
    while octets > 0:
        pieces.append(min(rng.choice(sizes), octets))
        octets -= pieces[-1]
    return pieces


def case(seed, number, recordings=False):
    """The case of this seed and number. `recordings` leaves out what is refused, and recordings over the limit."""
    rng = random.Random(f"{seed} {number}")
    kind, verb, link = rng.choice((b"tm", b"tc")), rng.choice(VERBS), some_link(rng)
    chunks = recording(rng, kind, link, number)
    octets = sum(map(len, chunks))
    odd = rng.choices(("nothing", "link", "limit", "values", "words"), (74, 4, 8, 6, 8))[0]
    if is_of_window(number):
        kind, verb, odd = b"tc", rng.choice((b"show", b"check")), "nothing"
    if odd == "link":
        link = other_link(rng, link)
    options = options_of(rng, kind, link)
    if odd == "limit":
        options = limited(rng, options, octets, recordings)
    if odd == "values" and not recordings:
        options = refused_values(rng, options)
    words = usual_words(verb, kind, options) if recordings else words_of(rng, verb, kind, options)
    if odd == "words" and not recordings:
        words = odd_words(rng, words)
    return Case(words, chunks, some_pieces(rng, octets) if number % 2 else None)
