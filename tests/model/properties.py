"""Properties of the program and of the model: what docs/normal-form.md, docs/tm.md and docs/tc.md say of normal forms,
of lost frames, and of frames that are repeated or out of order. Each function of ALL makes a `Try`, by a generator of
random numbers and the number of the case."""

from collections import namedtuple

import cases
from words import VERBS, options_of, usual_words

# What is tried, the words, the recordings in chunks, and a function of model, program, words and recordings. It gives a
# text that says what isn't so, or an empty one.
Try = namedtuple("Try", "what words recordings broken")


def octets_of(chunks):
    """A recording."""
    return b"".join(chunks)


def words_for(rng, verb, kind, link):
    """The words of a command line that isn't refused."""
    return usual_words(verb, kind, options_of(rng, kind, link))


def with_verb(words, verb):
    """The words with another verb."""
    return [verb] + words[1:]


def normal_form(program, words, octets):
    """The normal form of a recording."""
    return program.run(with_verb(words, b"normalise"), octets).output


def delivered(model, words, chunks):
    """The packets that a recording delivers, by the model, in lists."""
    return model.packets(words[1].decode(), words, octets_of(chunks))


def listed(program, words, octets):
    """The packets that the program lists, by channel: of TM the virtual channel, of TC 64 times this plus the MAP."""
    lists = {}
    for line in program.run(with_verb(words, b"packets"), octets).output.splitlines():
        word = line.split()
        channel = int(word[1]) if words[1] == b"tm" else 64 * int(word[1]) + int(word[3])
        lists.setdefault(channel, []).append(bytes.fromhex(word[-1].decode()))
    return lists


def is_idle(packet):
    """Is it an idle packet?"""
    return (packet[0] << 8 | packet[1]) % 2048 == 2047


def random_recording(rng, number):
    """A recording of any sort, with words that normalise it."""
    kind, link = rng.choice((b"tm", b"tc")), cases.some_link(rng)
    chunks = cases.recording(rng, kind, link, number)
    return words_for(rng, b"normalise", kind, link), chunks


# Twice is once, and any pieces.

def twice_is_once(rng, number):
    """The normal form is its own normal form, and delivers what its recording delivers."""
    def broken(model, program, words, chunks):
        form = normal_form(program, words, octets_of(chunks))
        if normal_form(program, words, form) != form:
            return "the normal form has another normal form"
        if delivered(model, words, [form]) != delivered(model, words, chunks):
            return "by the model the normal form delivers other packets than its recording"
        return ""
    words, chunks = random_recording(rng, number)
    return Try("normalised twice", words, [chunks], broken)


def any_pieces(rng, number):
    """In whatever pieces a recording comes, the answer is the same."""
    words, chunks = random_recording(rng, number)
    words, count = with_verb(words, rng.choice(VERBS)), len(octets_of(chunks))
    tries = [[1] * min(count, 200)] + [cases.some_pieces(rng, count) for _ in range(3)]

    def broken(_model, program, words, chunks):
        octets = octets_of(chunks)
        whole = program.run(words, octets)
        for pieces in tries:
            if program.run(words, octets, pieces) != whole:
                return f"another answer in pieces of {', '.join(map(str, pieces[:20]))} .. octets"
        return ""
    return Try("in any pieces", words, [chunks], broken)


# Equal exactly if.

def tm_recording_of(rng, link, lists):
    """A TM recording that delivers these packets, with idle packets, idle frames and counts as they come."""
    space, waiting, mc = cases.tm_space(link), [], rng.randrange(256)
    for vc, packets in lists.items():
        ocf = rng.choice((b"", b"", cases.control_word(rng)))
        waiting.append((vc, ocf, tm_fields_of(rng, packets, space - len(ocf))))
    counts, chunks = {vc: rng.randrange(256) for vc in lists}, []
    while waiting:
        vc, ocf, fields = rng.choice(waiting)
        if rng.random() < 0.1:
            pointer, field = 2046, b"\x55" * (space - len(ocf))
        elif fields:
            pointer, field = fields.pop(0)
        else:
            waiting.remove((vc, ocf, fields))
            continue
        chunks.append(cases.tm_frame(link, vc, (mc, counts[vc]), pointer, field, ocf))
        counts[vc], mc = counts[vc] + 1, mc + 1
    return chunks


def tm_fields_of(rng, packets, room):
    """Data fields that hold these packets, with their pointers."""
    octets, starts = bytearray(cases.data(rng, rng.choice((0, 0, 3, room, room + 2)))), []
    for packet in packets:
        for one in ([idle_packet(rng)] if rng.random() < 0.2 else []) + [packet]:
            starts.append(len(octets))
            octets += one
    starts.append(len(octets))
    octets += cases.packet(rng, 2 * room + 7)[:-len(octets) % room]
    fields = []
    for begin in range(0, len(octets), room):
        inside = [start - begin for start in starts if begin <= start < begin + room]
        fields.append((min(inside, default=2047), bytes(octets[begin:begin + room])))
    return fields


def idle_packet(rng):
    """An idle packet."""
    return bytes([rng.choice((7, 0x0F, 0x17, 0x1F)), 0xFF]) + cases.packet(rng, rng.randint(7, 20))[2:]


def tc_recording_of(rng, link, lists):
    """A TC recording that delivers these packets, by frames of types AD and BD, in series, with repeats."""
    waiting = [(channel // 64, tc_units_of(rng, link, channel, packets)) for channel, packets in lists.items()]
    ns, chunks = {vc: cases.start_of(link, vc) for vc, _ in waiting}, []
    while waiting:
        vc, units = rng.choice(waiting)
        if not units:
            waiting.remove((vc, units))
            continue
        kind = rng.choice((cases.AD, cases.AD, cases.AD, cases.BD))
        chunks.append(cases.tc_frame(link, kind, vc, ns[vc], units.pop(0), spare=rng.choice((0, 3))))
        ns[vc] += kind == cases.AD
        if kind == cases.AD and rng.random() < 0.1:
            chunks.append(chunks[-1])
        if rng.random() < 0.05:
            chunks.append(cases.tc_frame(link, cases.BC, vc, 0, cases.UNLOCK))
    return chunks


def tc_units_of(rng, link, channel, packets):
    """Units that hold these packets, a series or more."""
    room = cases.tc_space(link) - 1
    if channel // 64 in link["plain"]:
        return [packet + rng.choice((b"", b"\xff")) for packet in packets]
    units, octets = [], b""
    for place, packet in enumerate(packets):
        octets += (idle_packet(rng) if rng.random() < 0.2 else b"") + packet
        if place + 1 == len(packets) or rng.random() < 0.5:
            edges = sorted({0, *range(0, len(octets), rng.randint(max(room // 2, 1), room))}) + [len(octets)]
            parts = [octets[begin:end] for begin, end in zip(edges, edges[1:])]
            flags = [cases.FIRST] + [cases.MIDDLE] * (len(parts) - 2) + [cases.LAST]
            flags = [cases.WHOLE] if len(parts) == 1 else flags
            units += [bytes([flag << 6 | channel % 64]) + part for flag, part in zip(flags, parts)]
            octets = b""
    return units


def some_lists(rng, kind, link):
    """Packets that aren't idle, by channel."""
    if kind == b"tm":
        channels = rng.sample(range(8), rng.choice((1, 2, 3)))
    else:
        vcs = rng.sample((0, 1, 5, 63, *link["plain"][:1]), rng.choice((1, 2)))
        channels = {64 * vc + (0 if vc in link["plain"] else rng.choice((0, 1, 63))) for vc in vcs for _ in "12"}
    lists = {}
    for channel in sorted(channels):
        most = 10 if kind == b"tc" and channel // 64 in link["plain"] else rng.choice((12, 60))
        made = (cases.packet(rng, rng.randint(7, most)) for _ in range(rng.randint(1, 6)))
        lists[channel] = [packet for packet in made if not is_idle(packet)]
    return lists


def changed_lists(rng, lists):
    """The lists, or lists that differ from them in one packet or one octet."""
    lists = {channel: list(packets) for channel, packets in lists.items()}
    channel = rng.choice(list(lists))
    packets = lists[channel]
    if not packets:
        return lists
    place = rng.randrange(len(packets))
    packet, after = packets[place], packets[place + 1:place + 2]
    at = rng.choice((3, rng.randrange(6, len(packet))))
    changed = packet[:at] + bytes([packet[at] ^ 1 << rng.randrange(8)]) + packet[at + 1:]
    packets[place:place + 2] = rng.choice((
        [packet] + after, [packet] + after, [packet] + after, after, [packet, packet] + after, after + [packet],
        [changed] + after))
    return lists


def equal_exactly_if(rng, number):
    """Two normal forms are equal exactly if the two recordings deliver the same packets, by the model."""
    kind, link = rng.choice((b"tm", b"tc")), cases.some_link(rng)
    sound = rng.random() < 0.7
    lists = changed = {}
    if sound:
        link["tm-length"], link["tc-length"] = rng.choice((32, 40, 64)), max(link["tc-length"], 20)
        make = tm_recording_of if kind == b"tm" else tc_recording_of
        lists = some_lists(rng, kind, link)
        changed = changed_lists(rng, lists)
        first, second = make(rng, link, lists), make(rng, link, changed)
    else:
        first = cases.recording(rng, kind, link, number)
        second = list(first)
    lost = bool(second) and rng.random() < (0.3 if sound else 0.9)
    if lost:
        del second[rng.randrange(len(second))]

    def broken(model, program, words, first, second):
        same = delivered(model, words, first) == delivered(model, words, second)
        forms = [normal_form(program, words, octets_of(chunks)) for chunks in (first, second)]
        if (forms[0] == forms[1]) != same:
            return f"by the model the packets are {'the same' if same else 'not the same'}, the normal forms aren't so"
        return ""

    def broken_sound(model, program, words, *recordings):
        for chunks, wanted in zip(recordings, (lists, changed)):
            found = delivered(model, words, chunks)
            if {channel: found[channel] for channel in wanted} != wanted or sum(map(len, found)) != sum(
                    map(len, wanted.values())):
                return "by the model a recording delivers other packets than it was made of"
        return broken(model, program, words, *recordings)
    whole = sound and not lost
    return Try("the same packets", words_for(rng, b"normalise", kind, link), [first, second],
               broken_sound if whole else broken)


# Lost frames.

def loss_is_local(rng, _number):
    """Lost frames cost the packets that ran through them, and no others."""
    link = cases.some_link(rng)
    link["tm-length"] = rng.choice((32, 33, 48, 64))
    sent, merged = {}, []
    for vc in rng.sample(range(8), rng.choice((1, 1, 2))):
        sent[vc] = frames_sent(rng, link, vc, rng.choice((10, 30, 600)))
        merged.append([sent[vc].frames[place] for place in kept_places(rng, len(sent[vc].frames))])
    chunks = []
    while any(merged):
        chunks.append(rng.choice([frames for frames in merged if frames]).pop(0))

    def broken(model, program, words, chunks):
        wanted = {}
        for vc, channel in sent.items():
            places = [channel.places[chunk] for chunk in chunks if chunk in channel.places]
            if any(not 0 < after - before <= 256 for before, after in zip(places, places[1:])):
                return ""
            packets = [packet for packet in channel.kept(places) if not is_idle(packet)]
            if packets:
                wanted[vc] = packets
        by_model = {vc: packets for vc, packets in enumerate(delivered(model, words, chunks)) if packets}
        if by_model != wanted:
            return f"by the model the packets aren't the kept ones: {by_model} for {wanted}"
        found = listed(program, words, octets_of(chunks))
        return "" if found == wanted else f"the packets aren't the kept ones: {found} for {wanted}"
    return Try("loss is local", words_for(rng, b"packets", b"tm", link), [chunks], broken)


class Sent:
    """The frames of a virtual channel as they were sent, without a gap: the octets of the packets that each has, and
    where each frame and each packet begins and ends in these octets."""

    def __init__(self):
        self.frames, self.spans, self.places, self.packets = [], [], {}, []

    def add(self, frame, begin, end):
        """One frame more."""
        self.places[frame] = len(self.frames)
        self.frames.append(frame)
        self.spans.append((begin, end))

    def kept(self, places):
        """The packets all of whose frames are at these places."""
        packets, runs = [], []
        for place in places:
            begin, end = self.spans[place]
            if runs and runs[-1][2] + 1 == place:
                runs[-1][1:] = [end, place]
            else:
                runs.append([begin, end, place])
        for begin, end, _ in runs:
            packets += [packet for start, packet in self.packets if begin <= start and start + len(packet) <= end]
        return packets


def frames_sent(rng, link, vc, count):
    """The first `count` frames of a virtual channel."""
    room = cases.tm_space(link)
    channel, sent = cases.Downlink(rng, vc, room), Sent()
    idle = rng.choice((0, 0.2))
    for place in range(count):
        begin = channel.at
        pointer, field = (2046, b"\xaa" * room)
        if rng.random() >= idle:
            field, pointer = channel.field(room)
        # By the two counts no two of 65,536 frames are equal.
        sent.add(cases.tm_frame(link, vc, (place // 256, channel.count), pointer, field), begin, channel.at)
        channel.count += 1
    edges = [*channel.starts, len(channel.octets)]
    sent.packets = [(start, bytes(channel.octets[start:end])) for start, end in zip(edges, edges[1:])]
    return sent


def kept_places(rng, count):
    """Which of `count` frames are kept: fewer than 256 in a row are lost between two of them."""
    kept, place = [], rng.choice((0, 0, rng.randrange(count)))
    while place < count and len(kept) < 40:
        kept.append(place)
        place += 1 if rng.random() < 0.8 else rng.choice((2, 3, 255, 256, rng.randint(2, 256)))
    return kept


# Frames out of order.

def acceptance_is_in_order(rng, _number):
    """Of frames of type AD that are lost, repeated or out of order, FARM-1 accepts a prefix of those that were sent."""
    link, vc, count = cases.some_link(rng), rng.choice((0, 5, 63)), rng.choice((5, 20, 20, 300))
    uplink, start = cases.Uplink(rng, link, vc), cases.start_of(link, vc)
    units = [uplink.unit(rng, cases.tc_space(link), 0) for _ in range(count)]
    sent = [cases.tc_frame(link, cases.AD, vc, start + place, unit) for place, unit in enumerate(units)]
    arrived = frames_arrived(rng, link, uplink, sent)
    # Equal frames have N(S) that differ by 256 or a multiple of it. Then a frame has two numbers, and nothing is tried.
    numbers = {frame: place for place, frame in enumerate(sent)}

    def broken(model, program, words, chunks):
        if len(numbers) < count or any(chunk[0] & 0x20 == 0 and chunk not in numbers for chunk in chunks):
            return ""
        lines = program.run(words, octets_of(chunks)).output.split(b"\n")[:-1]
        if len(lines) != len(chunks):
            return "not a line for each frame"
        text = in_order(chunks, lines, numbers, start, link["window"] // 2)
        if text is not None or any(chunk[0] & 0x30 == 0x20 for chunk in chunks):
            return text or ""
        whole = delivered(model, words, sent)
        for lists in (dict(enumerate(delivered(model, words, chunks))), listed(program, words, octets_of(chunks))):
            if any(whole[channel][:len(packets)] != packets for channel, packets in lists.items()):
                return "the packets of a MAP aren't a prefix of those that were sent"
        return ""
    return Try("acceptance in order", words_for(rng, b"show", b"tc", link), [arrived], broken)


def frames_arrived(rng, link, uplink, sent):
    """The frames as they arrive: in half of the recordings all in the window, else less than 256 frames away from the
    expected one. Frames of type BD and Unlock come between them."""
    reach, others = uplink.half if rng.random() < 0.5 else 256, rng.choice((0, 0.1))
    unlock = cases.tc_frame(link, cases.BC, uplink.vc, 0, cases.UNLOCK)
    bypassing = cases.tc_frame(link, cases.BD, uplink.vc, 255, b"\xc0" + cases.packet(rng, 7))
    chunks, accepted = [], 0
    while len(chunks) < min(2 * len(sent), 120) and accepted < len(sent):
        if rng.random() < others or uplink.locked and rng.random() < 0.5:
            chunks.append(rng.choice((unlock, bypassing)))
            uplink.locked = uplink.locked and chunks[-1] != unlock
            continue
        least, past = accepted - min(reach, 255), accepted + reach
        place = rng.choice((accepted, accepted, accepted + 1, accepted - 1, rng.randrange(least, past)))
        if max(least, 0) <= place < min(past, len(sent)):
            chunks.append(sent[place])
            distance = (place - accepted) % 256
            accepted += distance == 0 and not uplink.locked
            uplink.sends(distance)
    return chunks


def in_order(chunks, lines, numbers, start, half):
    """What isn't so in the lines of these frames; an empty text where nothing is claimed; None where all is so."""
    accepted, in_window = 0, True
    for chunk, line in zip(chunks, lines):
        verdict, clcw = line.split()[-3], bytes.fromhex(line.split()[-1].decode())
        if chunk in numbers:
            ahead = numbers[chunk] - accepted
            if not -256 < ahead < 256:
                return ""
            in_window = in_window and -half <= ahead < half
            if verdict == b"accept" and ahead != 0:
                return f"{line}: the frame isn't the expected one"
            if in_window and ahead == 0 and verdict != b"accept":
                return f"{line}: the expected frame isn't accepted"
            accepted += verdict == b"accept"
        if clcw[3] != (start + accepted) % 256:
            return f"{line}: V(R) isn't {start} plus {accepted}"
        if in_window and clcw[2] & 0x20:
            return f"{line}: a lockout"
    return None


ALL = twice_is_once, any_pieces, equal_exactly_if, loss_is_local, acceptance_is_in_order
