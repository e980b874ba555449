"""Random recordings for tests/identify and tests/library, each with what it is: the same ones for the same random
numbers. A recording has several virtual channels, packets that run through frames, idle frames and idle packets, lost
frames, frames with bit errors, and, where that is asked for, octets that are missing or too many."""

from binascii import crc_hqx
from collections import namedtuple

# What a recording is: kind, octets, spacecraft, length of the frames (of TC: the longest), whether they have an error
# control field, the virtual channels of TC frames without segment headers, the initial V(R) of each, how many frames
# were kept, and those frames that are whole.
Recording = namedtuple("Recording", "kind octets scid length fecf plain starts frames whole")


def write(name, octets):
    """Writes a file, and returns its name."""
    with open(name, "wb") as file:
        file.write(octets)
    return name


def packet(apid, count, data, kind=0):
    """A packet with these octets after its header."""
    return ((kind << 12 | apid).to_bytes(2, "big") + (3 << 14 | count % 16384).to_bytes(2, "big")
            + (len(data) - 1).to_bytes(2, "big") + data)


def data(random, length, style):
    """The octets of a packet after its header."""
    if style == "zeros":
        return bytes(length)
    if style == "fill":
        return b"\x55" * length
    if style == "ramp":
        first = random.randrange(256)
        return bytes((first + place) % 256 for place in range(length))
    return random.getrandbits(8 * length).to_bytes(length, "big")


class Source:
    """The packets of a virtual channel, without an end, taken by fields of frames. `apids` has the count of each."""

    def __init__(self, random, apids, lengths, style="noise", idle=0):
        self.random, self.apids, self.lengths, self.style, self.idle = random, apids, lengths, style, idle
        self.octets, self.starts = b"", []

    def packet(self):
        if self.idle and self.random.random() < self.idle:
            return packet(2047, 0, bytes(self.random.randint(1, 40)))
        apid = self.random.choice(list(self.apids))
        self.apids[apid] += 1
        return packet(apid, self.apids[apid] - 1, data(self.random, self.random.randint(*self.lengths), self.style))

    def field(self, room):
        """The next octets of the channel, and the pointer to the first packet that starts in them."""
        starts = self.starts
        while len(self.octets) < room:
            starts.append(len(self.octets))
            self.octets += self.packet()
        taken, self.octets = self.octets[:room], self.octets[room:]
        self.starts = [start - room for start in starts if start >= room]
        return taken, starts[0] if starts and starts[0] < room else 2047


def any_source(random, room):
    apids = {random.randrange(2047): random.randrange(16384) for _ in range(random.randint(1, 4))}
    style, shortest = random.choice(("zeros", "fill", "ramp", "noise")), random.choice((1, 10, 50))
    return Source(random, apids, (shortest, shortest + random.choice((0, 20, room, 3 * room))), style, 0.05)


def flipped(random, frame):
    """The frame with one to three wrong bits."""
    frame = bytearray(frame)
    for _ in range(random.randint(1, 3)):
        frame[random.randrange(len(frame))] ^= 1 << random.randrange(8)
    return bytes(frame)


def closed(frame, fecf):
    """The frame, with its error control field where it has one."""
    return frame + crc_hqx(frame, 0xFFFF).to_bytes(2, "big") if fecf else frame


def tm_frame(scid, vc, mc, vcc, first, field, fecf=False, word=b""):
    """A TM frame with these counts and this pointer, and with an operational control field where there is one."""
    header = (scid << 4 | vc << 1 | (word != b"")).to_bytes(2, "big") + bytes([mc % 256, vcc % 256])
    return closed(header + (0x1800 | first).to_bytes(2, "big") + field + word, fecf)


def tc_frame(scid, vc, ns, field, fecf=False, kind=0):
    """A TC frame: its kind is 0 for type AD, 2 for BD, 3 for BC."""
    last = 4 + len(field) + 2 * fecf
    header = (kind << 12 | scid).to_bytes(2, "big") + (vc << 10 | last).to_bytes(2, "big") + bytes([ns % 256])
    return closed(header + field, fecf)


def tm_frames(random, frames, scid, length, fecf, ocf, vcs):
    """TM frames of one spacecraft, as they were sent. `ocf` is the share of the channels that have a control field."""
    word = {vc: random.random() < ocf for vc in (*vcs, 7)}
    room = {vc: length - 6 - 4 * word[vc] - 2 * fecf for vc in word}
    sources = {vc: any_source(random, room[vc]) for vc in vcs}
    vccs = {vc: random.randrange(256) for vc in word}
    mc, weights, idle = random.randrange(256), [random.random() + 0.1 for _ in vcs], random.choice((0, 0.05, 0.3))
    for _ in range(frames):
        vc = 7 if random.random() < idle else random.choices(vcs, weights)[0]
        octets, first = (b"\x55" * room[7], 2046) if vc == 7 else sources[vc].field(room[vc])
        control = random.choice((b"\x01\x00\x00", b"\x01\x04\x08")) + bytes([mc // 8]) if word[vc] else b""
        yield tm_frame(scid, vc, mc, vccs[vc], first, octets, fecf, control)
        mc, vccs[vc] = (mc + 1) % 256, (vccs[vc] + 1) % 256


def tc_unit(random, count, longest, plain, apid, maps):
    """The data fields of one command: a packet, or two of them, in one unit or in segments."""
    packets = b"".join(
        packet(apid, count, data(random, random.randint(1, longest), random.choice(("zeros", "noise"))), 1)
        for _ in range(random.choice((1, 1, 1, 2))))
    if plain:
        return [packets]
    name = random.choice(maps)
    if random.random() < 0.8 or len(packets) < 12:
        return [bytes([3 << 6 | name]) + packets]
    cuts = [packets[:5], packets[5:9], packets[9:]]
    return [bytes([flags << 6 | name]) + part for flags, part in zip((1, 0, 2), cuts)]


def tc_frames(random, frames, scid, longest, fecf, vcs, plain, starts):
    """TC frames of one spacecraft, as they were sent. Now and then a frame comes a second time."""
    ns, waiting, count = dict(starts), [], 0
    apids = {vc: random.randrange(2047) for vc in vcs}
    maps = {vc: random.sample(range(64), random.randint(1, 3)) for vc in vcs}
    expedited = random.choice((0, 0.1, 0.9))

    for _ in range(frames):
        if not waiting:
            vc = random.choice(vcs)
            count += 1
            if random.random() < 0.05:
                data_field = b"\0" if random.random() < 0.7 else bytes([0x82, 0, ns[vc]])
                waiting = [tc_frame(scid, vc, 0, data_field, fecf, 3)]
            else:
                kind = 2 if random.random() < expedited else 0
                for field in tc_unit(random, count, longest, vc in plain, apids[vc], maps[vc]):
                    waiting.append(tc_frame(scid, vc, ns[vc] if kind == 0 else 0, field, fecf, kind))
                    ns[vc] = (ns[vc] + (kind == 0)) % 256
                if random.random() < 0.02:
                    waiting.append(waiting[-1])
        yield waiting.pop(0)


def recording(random, kind, frames=None, noise=None):
    """A random recording. `noise` is the share of the frames that are lost, and of those that have bit errors."""
    losses, errors = (noise, noise) if noise is not None else (random.choice((0, random.random() / 20)) for _ in "12")
    scid = random.choice((0, 1, 1023, *(random.randrange(1024) for _ in range(17))))
    fecf = random.random() < 0.5
    if kind == "tm":
        length = random.choice((random.randint(32, 2048), random.randint(32, 300), 223, 892, 1115, 1784))
        frames = frames or max(5, min(int(5 * 400 ** random.random()), 1000000 // length))
        ocf, plain, starts = random.choice((0, 0.5, 1)), (), {}
        sent = tm_frames(random, frames, scid, length, fecf, ocf, random.sample(range(7), random.randint(1, 4)))
    else:
        frames = frames or int(4 * 250 ** random.random())
        vcs = sorted(random.sample(range(64), random.randint(1, 3)))
        plain = [vc for vc in vcs if random.random() < 0.3]
        starts = {vc: random.choice((0, random.randrange(256))) for vc in vcs}
        longest = random.choice((20, 60, 200, 480))
        sent = tc_frames(random, frames, scid, longest, fecf, vcs, plain, starts)
    sent = [(frame, random.random() >= errors) for frame in sent if random.random() >= losses]
    kept = [frame if is_whole else flipped(random, frame) for frame, is_whole in sent]
    length = max(map(len, kept), default=0)
    whole = [frame for frame, is_whole in sent if is_whole]
    return Recording(kind, b"".join(kept), scid, length, fecf, tuple(plain), starts, len(kept), whole)
