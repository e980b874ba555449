"""A model of the program sllink, written from its pages alone: README, packets, tm, tc, cop, normal-form, listings. It
follows their definitions: fields are quotients, the error control field is the remainder of a division, FARM-1 is a
table, and packets are found by searching packet starts, runs and series. Quoted titles are sections of the pages."""

from __future__ import annotations

import os, re, sys
from functools import lru_cache
from typing import Dict, List, NamedTuple, NoReturn, Optional, Tuple

Fields = Dict[str, int]
Table = Dict[str, Tuple[int, int]]
Result = Tuple[int, bytes, Optional[bytes]]

class Decided(Exception):
    """The run is over, with its status, output and error line (None: no error output, or a text that isn't fixed)."""

# The managed parameters, and the limit. `starts` has the initial V(R) of each of the 64 virtual channels, and `plain`
# the virtual channels without segment headers.
Managed = NamedTuple("Managed", [
    ("scid", int), ("tm_length", int), ("tc_length", int), ("tm_fecf", bool), ("tc_fecf", bool), ("window", int),
    ("starts", List[int]), ("plain", List[int]), ("limit", int),
])

# ==== Headers: the first bit and the width of each field (packets.md "A packet", and the tables of the other pages)
PACKET_HEADER: Table = {
    "version": (0, 3), "type": (3, 1), "secondary": (4, 1), "apid": (5, 11),
    "flags": (16, 2), "count": (18, 14), "length": (32, 16),
}
TM_HEADER: Table = {
    "version": (0, 2), "spacecraft": (2, 10), "vc": (12, 3), "control": (15, 1), "mc": (16, 8), "vcc": (24, 8),
    "secondary": (32, 1), "sync": (33, 1), "order": (34, 1), "segment": (35, 2), "first": (37, 11),
}
TC_HEADER: Table = {
    "version": (0, 2), "bypass": (2, 1), "command": (3, 1), "spare": (4, 2), "spacecraft": (6, 10),
    "vc": (16, 6), "length": (22, 10), "ns": (32, 8),
}
SEGMENT_HEADER: Table = {"flags": (0, 2), "map": (2, 6)}
CONTROL_WORD: Table = {
    "word": (0, 1), "version": (1, 2), "status": (3, 3), "cop": (6, 2), "vc": (8, 6), "spare": (14, 2),
    "no_rf": (16, 1), "no_lock": (17, 1), "lockout": (18, 1), "wait": (19, 1), "retransmit": (20, 1),
    "farm_b": (21, 2), "spare_end": (23, 1), "report": (24, 8),
}

def field(header: bytes, bit: int, width: int) -> int:
    return int.from_bytes(header, "big") // 2 ** (8 * len(header) - bit - width) % 2**width

def read_header(header: bytes, table: Table) -> Fields:
    return {name: field(header, bit, width) for name, (bit, width) in table.items()}

def write_header(values: Fields, table: Table, count: int) -> bytes:
    """The header of so many octets that has these values; the other fields are 0."""
    header = 0
    for name, value in values.items():
        bit, width = table[name]
        header += value * 2 ** (8 * count - bit - width)
    return header.to_bytes(count, "big")

# ==== packets.md: space packets
LONGEST_PACKET, IDLE_APID = 65542, 2047

def packet_length(header: bytes) -> int:
    return 7 + field(header, *PACKET_HEADER["length"])

def front(octets: bytes, start: int = 0) -> str:
    """ "The front of octets", of those from `start` on."""
    header = bytes(octets[start : start + 6])
    if header and field(header[:1], *PACKET_HEADER["version"]) != 0:
        return "foreign"
    if len(header) == 6 and start + packet_length(header) <= len(octets):
        return "whole"
    return "incomplete"

def packet_at(octets: bytes, start: int = 0) -> bytes:
    """The packet that the octets from `start` on begin with; their front has to be whole."""
    length = packet_length(bytes(octets[start : start + 6]))
    return bytes(octets[start : start + length])

def longest_packets(octets: bytes) -> Tuple[List[bytes], int]:
    """The longest list of packets that the octets begin with, and the number of octets after them."""
    found: List[bytes] = []
    start = 0
    while front(octets, start) == "whole":
        found.append(packet_at(octets, start))
        start += len(found[-1])
    return found, len(octets) - start

def is_idle(packet: bytes) -> bool:
    return field(packet[:6], *PACKET_HEADER["apid"]) == IDLE_APID

# A delivered packet, idle ones included. `end` is the offset of the frame in which the packet (TM) or its series (TC)
# ends. The MAP is 0 for TM.
Delivered = NamedTuple("Delivered", [("end", int), ("vc", int), ("map", int), ("packet", bytes)])

# ==== tm.md "Frame error control field"
GENERATOR = 0b1_0001_0000_0010_0001

def remainder(dividend: int) -> int:
    """Of the division without carries by the generator, which has 17 bits."""
    while dividend.bit_length() > 16:
        dividend ^= GENERATOR << (dividend.bit_length() - 17)
    return dividend

@lru_cache(maxsize=4096)
def error_control(message: bytes) -> bytes:
    dividend = int.from_bytes(message, "big") * 2**16
    dividend ^= 0xFFFF * 2 ** (8 * len(message))  # the first sixteen bits of the list are inverted
    return remainder(dividend).to_bytes(2, "big")

def with_error_control(frame: bytes, managed: bool) -> bytes:
    return frame + error_control(frame) if managed else frame

def has_wrong_error_control(frame: bytes, managed: bool) -> bool:
    return managed and error_control(frame[:-2]) != frame[-2:]

# ==== tm.md: TM transfer frames
IDLE_POINTER, NO_START = 2046, 2047  # the pointers of an idle frame, and of a packet frame in which no packet starts

# A TM frame. One with a reason is skipped, and nothing else of it counts. The class is opaque, idle or packets.
# `control` is the operational control field, empty if there is none.
TmFrame = NamedTuple("TmFrame", [
    ("offset", int), ("reason", Optional[str]), ("header", Fields), ("frame_class", str), ("data", bytes),
    ("control", bytes),
])

def first_that_holds(lines: List[Tuple[str, bool]]) -> Optional[str]:
    return next((name for name, holds in lines if holds), None)

def tm_reason(header: Fields, octets: bytes, managed: Managed) -> Optional[str]:  # "Skipped frames"
    return first_that_holds([
        ("fecf", has_wrong_error_control(octets, managed.tm_fecf)),
        ("version", header["version"] != 0),
        ("spacecraft", header["spacecraft"] != managed.scid),
    ])

def tm_class(header: Fields, data: bytes) -> str:  # "Frame classes"
    return first_that_holds([
        ("opaque", header["secondary"] == 1 or header["sync"] == 1),
        ("idle", header["first"] == IDLE_POINTER),
        ("packets", header["first"] == NO_START),
        ("opaque", header["first"] >= len(data)),
        ("packets", True),
    ])

def tm_frame(offset: int, octets: bytes, managed: Managed) -> TmFrame:
    header = read_header(octets[:6], TM_HEADER)
    end = len(octets) - (2 if managed.tm_fecf else 0)
    data_end = end - (4 if header["control"] == 1 else 0)
    data, control = octets[6:data_end], octets[data_end:end]
    return TmFrame(offset, tm_reason(header, octets, managed), header, tm_class(header, data), data, control)

def tm_frames(octets: bytes, managed: Managed) -> Tuple[List[TmFrame], int]:
    """ "Recordings": the frames, and the offset of the remainder."""
    length = managed.tm_length
    offsets = [place * length for place in range(len(octets) // length)]
    frames = [tm_frame(offset, octets[offset : offset + length], managed) for offset in offsets]
    return frames, len(frames) * length

# ==== normal-form.md "TM recordings". A channel is the list of frames of a virtual channel, without the skipped ones;
# a place is a frame's number in its channel. A packet start is the place of a frame, and an offset in its data field.
Start = NamedTuple("Start", [("place", int), ("offset", int)])
# A packet (TM) or series of segments (TC) that is incomplete: its Start, or the place of its first segment; and the
# number of its octets so far.
Incomplete = NamedTuple("Incomplete", [("start", object), ("octets", int)])

def tm_channels(frames: List[TmFrame]) -> List[List[TmFrame]]:
    return [[one for one in frames if one.reason is None and one.header["vc"] == vc] for vc in range(8)]

def packet_data(frame: TmFrame) -> bytes:
    return frame.data if frame.frame_class == "packets" else b""

def expected_count(before: TmFrame) -> int:
    return (before.header["vcc"] + 1) % 256

def is_consecutive(before: TmFrame, frame: TmFrame) -> bool:
    return frame.header["vcc"] == expected_count(before)

def may_follow(channel: List[TmFrame], place: int) -> bool:
    """Whether the frame at this place, if there is one, is consecutive to the one before it, and not opaque."""
    if place == len(channel) or channel[place].frame_class == "opaque":
        return False
    return is_consecutive(channel[place - 1], channel[place])

def may_be_covered(frame: TmFrame) -> bool:
    """Whether the pointer agrees with a packet from an earlier frame that goes on to the end of the data field."""
    return frame.frame_class == "idle" or frame.header["first"] == NO_START

def packet_starts(frame: TmFrame) -> List[int]:
    """ "Packet starts": the offsets in the data field."""
    if frame.frame_class != "packets" or frame.header["first"] == NO_START:
        return []
    starts = [frame.header["first"]]
    while front(frame.data, starts[-1]) == "whole":
        end = starts[-1] + len(packet_at(frame.data, starts[-1]))
        if end == len(frame.data):
            break
        starts.append(end)
    return starts

def channel_starts(channel: List[TmFrame]) -> List[Start]:
    return [Start(place, offset) for place, frame in enumerate(channel) for offset in packet_starts(frame)]

def pointers_agree(run: List[TmFrame], left: int) -> bool:
    """Whether the pointers of the run's packet frames agree with a packet that has `left` octets in the run."""
    for frame in run:
        size = len(packet_data(frame))
        agreeing = NO_START if left >= size else left
        if frame.frame_class == "packets" and frame.header["first"] != agreeing:
            return False
        left -= size
    return True

def stretch(channel: List[TmFrame], start: Start) -> Tuple[bytes, List[int]]:
    """The octets from a packet start on, through frames that may be the run of its packet, until no more are needed;
    and how many they were after the frame of the start, and after each frame of the run."""
    octets = bytearray(channel[start.place].data[start.offset :])
    counts = [len(octets)]
    last = start.place
    while front(octets) == "incomplete" and may_follow(channel, last + 1):
        if last > start.place and not may_be_covered(channel[last]):
            break  # the packet would go past this frame, but the pointer doesn't agree
        last += 1
        octets += packet_data(channel[last])
        counts.append(len(octets))
    return bytes(octets), counts

def deliver(channel: List[TmFrame], start: Start) -> Optional[Tuple[bytes, int]]:
    """ "Delivery": the packet that this start and a run deliver, and the place of the frame in which it ends. Only one
    run can do so: the shortest with which the octets begin with a packet. A longer one doesn't end with it."""
    octets, counts = stretch(channel, start)
    if front(octets) != "whole":
        return None
    packet = packet_at(octets)
    last = start.place + len(counts) - 1
    run = channel[start.place + 1 : last + 1]
    return (packet, last) if pointers_agree(run, len(packet) - counts[0]) else None

def incomplete_packets(channel: List[TmFrame]) -> Dict[int, Incomplete]:
    """ "Incomplete packets": by place the one that is incomplete if the channel ends with the frame there."""
    found: Dict[int, Incomplete] = {}
    for start in channel_starts(channel):
        octets, counts = stretch(channel, start)
        last = start.place + len(counts) - 1
        if front(octets) != "incomplete" or (last > start.place and not may_be_covered(channel[last])):
            counts.pop()
        for later, count in enumerate(counts):
            found[start.place + later] = Incomplete(start, count)
    return found

def tm_delivered(frames: List[TmFrame]) -> List[Delivered]:
    """All delivered packets, in the order of the frames in which they end, and then of their starts."""
    found: List[Delivered] = []
    for vc, channel in enumerate(tm_channels(frames)):
        for delivered in [deliver(channel, start) for start in channel_starts(channel)]:
            if delivered is not None:
                found.append(Delivered(channel[delivered[1]].offset, vc, 0, delivered[0]))
    return sorted(found, key=lambda one: one.end)

# ==== listings.md "The listing of show tm" and "The listing of check tm"
def tm_class_words(frame: TmFrame) -> str:
    pointer = frame.header["first"]
    words = "none" if pointer == NO_START else f"first {pointer}"
    return words if frame.frame_class == "packets" else frame.frame_class

def control_words(control: bytes) -> str:
    """The words for the operational control field, with the space before them."""
    if control == b"":
        return ""
    word = read_header(control, CONTROL_WORD)
    if word["word"] == 1:
        return f" ocf {control.hex()}"
    flags = f"lockout {word['lockout']} wait {word['wait']} retransmit {word['retransmit']}"
    return f" clcw {control.hex()} vc {word['vc']} {flags} farmb {word['farm_b']} vr {word['report']}"

def tm_frame_line(frame: TmFrame) -> str:
    header = frame.header
    words = tm_class_words(frame) + control_words(frame.control)
    return f"{frame.offset} frame vc {header['vc']} mc {header['mc']} vcc {header['vcc']} {words}"

def skip_lines(frames: List) -> Dict[int, List[str]]:
    """The lines of the skipped frames of either kind, by the offset of the frame."""
    return {one.offset: [f"{one.offset} skip {one.reason}"] for one in frames if one.reason is not None}

def rest_lines(octets: bytes, rest: int) -> List[str]:
    return [f"{rest} rest {len(octets) - rest}"] if rest < len(octets) else []

def show_tm(octets: bytes, managed: Managed) -> List[str]:
    frames, rest = tm_frames(octets, managed)
    skipped = skip_lines(frames)
    lines = [line for frame in frames for line in skipped.get(frame.offset, [tm_frame_line(frame)])]
    return lines + rest_lines(octets, rest)

def is_dropped(channel: List[TmFrame], incomplete: Dict[int, Incomplete], place: int) -> bool:
    """Whether the frame at this place drops the packet that was incomplete before it."""
    if place - 1 not in incomplete:
        return False
    start = incomplete[place - 1].start
    if place in incomplete and incomplete[place].start == start:
        return False
    delivered = deliver(channel, start)
    return delivered is None or delivered[1] != place

def tm_anomalies(channel: List[TmFrame], incomplete: Dict[int, Incomplete]) -> Dict[int, List[str]]:
    """The lines of the frames of a channel, by the offset of the frame."""
    lines: Dict[int, List[str]] = {}
    for place, frame in enumerate(channel):
        vc, count = frame.header["vc"], frame.header["vcc"]
        own = lines.setdefault(frame.offset, [])
        if place > 0 and not is_consecutive(channel[place - 1], frame):
            own.append(f"{frame.offset} gap vc {vc} expected {expected_count(channel[place - 1])} found {count}")
        if is_dropped(channel, incomplete, place):
            own.append(f"{frame.offset} dropped vc {vc} octets {incomplete[place - 1].octets}")
        if frame.frame_class == "opaque":
            own.append(f"{frame.offset} opaque vc {vc}")
        if any(front(frame.data, start) == "foreign" for start in packet_starts(frame)):
            own.append(f"{frame.offset} foreign vc {vc}")
    return lines

def totals(reasons: List[Optional[str]], delivered: List[Delivered], lines: List[str]) -> str:
    """The last line of a listing of `check`; `reasons` has a reason or None for each frame."""
    skipped = len([reason for reason in reasons if reason is not None])
    idle = len([one for one in delivered if is_idle(one.packet)])
    packet_counts = f"packets {len(delivered) - idle} idle {idle}"
    return f"frames {len(reasons)} skipped {skipped} {packet_counts} anomalies {len(lines)}"

def check_tm(octets: bytes, managed: Managed) -> List[str]:
    frames, rest = tm_frames(octets, managed)
    by_offset = skip_lines(frames)
    open_lines: List[str] = []
    for vc, channel in enumerate(tm_channels(frames)):
        incomplete = incomplete_packets(channel)
        by_offset.update(tm_anomalies(channel, incomplete))
        last = incomplete.get(len(channel) - 1)
        if last is not None:
            open_lines.append(f"{len(octets)} open vc {vc} octets {last.octets}")
    lines = [line for frame in frames for line in by_offset[frame.offset]]
    lines += rest_lines(octets, rest) + open_lines
    return lines + [totals([frame.reason for frame in frames], tm_delivered(frames), lines)]

# ==== tc.md: TC transfer frames
TC_TYPES = {(0, 0): "ad", (1, 0): "bd", (1, 1): "bc", (0, 1): "none"}  # by bypass flag and control command flag

# A TC frame. One with a reason is skipped, and nothing else of it counts. The data field may be empty.
TcFrame = NamedTuple("TcFrame", [
    ("offset", int), ("reason", Optional[str]), ("header", Fields), ("frame_type", str), ("data", bytes),
])

def tc_type(header: Fields) -> str:
    return TC_TYPES[header["bypass"], header["command"]]

def tc_reason(header: Fields, octets: bytes, data: bytes, managed: Managed) -> Optional[str]:  # "Skipped frames"
    return first_that_holds([
        ("fecf", has_wrong_error_control(octets, managed.tc_fecf)),
        ("version", header["version"] != 0),
        ("spacecraft", header["spacecraft"] != managed.scid),
        ("long", len(octets) > managed.tc_length),
        ("kind", tc_type(header) == "none"),
        ("empty", data == b""),
        ("command", tc_type(header) == "bc" and data != b"\x00" and not (len(data) == 3 and data[:2] == b"\x82\x00")),
    ])

def tc_frame(offset: int, octets: bytes, managed: Managed) -> TcFrame:
    header = read_header(octets[:5], TC_HEADER)
    data = octets[5 : len(octets) - (2 if managed.tc_fecf else 0)]
    return TcFrame(offset, tc_reason(header, octets, data, managed), header, tc_type(header), data)

def tc_length_at(octets: bytes, offset: int, managed: Managed) -> Optional[int]:
    """ "Recordings": the length of the frame that begins at the offset, None if no frame begins there."""
    header = octets[offset : offset + 5]
    if len(header) < 5:
        return None
    stated = read_header(header, TC_HEADER)["length"] + 1
    least = 7 if managed.tc_fecf else 5
    return stated if stated >= least and offset + stated <= len(octets) else None

def tc_frames(octets: bytes, managed: Managed) -> Tuple[List[TcFrame], int]:
    """ "Recordings": the frames, and the offset of the remainder."""
    frames: List[TcFrame] = []
    offset = 0
    length = tc_length_at(octets, offset, managed)
    while length is not None:
        frames.append(tc_frame(offset, octets[offset : offset + length], managed))
        offset += length
        length = tc_length_at(octets, offset, managed)
    return frames, offset

# ==== cop.md: FARM-1 and the CLCW
# "Variables": V(R), the Lockout flag, the Retransmit flag, the FARM-B counter.
State = NamedTuple("State", [("vr", int), ("lockout", int), ("retransmit", int), ("farm_b", int)])

CHANGES = {  # of the variables; `value` is that of Set V(R)
    "V(R) + 1": lambda state, value: {"vr": (state.vr + 1) % 256},
    "V(R) value": lambda state, value: {"vr": value},
    "Retransmit 1": lambda state, value: {"retransmit": 1},
    "Retransmit 0": lambda state, value: {"retransmit": 0},
    "Lockout 1": lambda state, value: {"lockout": 1},
    "Lockout 0": lambda state, value: {"lockout": 0},
    "FARM-B + 1": lambda state, value: {"farm_b": (state.farm_b + 1) % 4},
}
EVENTS = {  # "Events": verdict and changes in the open state, and in the lockout state
    "expected": (("accept", ["V(R) + 1", "Retransmit 0"]), ("refused", [])),
    "positive part": (("early", ["Retransmit 1"]), ("refused", [])),
    "negative part": (("late", []), ("refused", [])),
    "lockout area": (("outside", ["Lockout 1"]), ("refused", [])),
    "type BD": (("accept", ["FARM-B + 1"]), ("accept", ["FARM-B + 1"])),
    "Unlock": (("command", ["FARM-B + 1", "Retransmit 0"]), ("command", ["FARM-B + 1", "Retransmit 0", "Lockout 0"])),
    "Set V(R)": (("command", ["FARM-B + 1", "Retransmit 0", "V(R) value"]), ("command", ["FARM-B + 1"])),
}

def area(ns: int, vr: int, window: int) -> str:  # "The sliding window"
    half = window // 2  # PW, and NW
    ahead = (ns - vr) % 256
    return first_that_holds([
        ("expected", ahead == 0),
        ("positive part", 1 <= ahead <= half - 1),
        ("negative part", 256 - half <= ahead <= 255),
        ("lockout area", True),
    ])

def event(frame: TcFrame, state: State, window: int) -> str:
    """The row of the table for a frame."""
    if frame.frame_type == "ad":
        return area(frame.header["ns"], state.vr, window)
    if frame.frame_type == "bd":
        return "type BD"
    return "Unlock" if len(frame.data) == 1 else "Set V(R)"

def farm_step(frame: TcFrame, state: State, window: int) -> Tuple[str, State]:
    """The verdict on a frame, and the state after it."""
    verdict, changes = EVENTS[event(frame, state, window)][state.lockout]
    for change in changes:
        state = state._replace(**CHANGES[change](state, frame.data[-1]))
    return verdict, state

def farm_control_word(vc: int, state: State) -> bytes:
    """ "The CLCW", with FARM-1's values."""
    flags = {"lockout": state.lockout, "retransmit": state.retransmit}
    return write_header({"cop": 1, "vc": vc, **flags, "farm_b": state.farm_b, "report": state.vr}, CONTROL_WORD, 4)

# A frame that isn't skipped, the verdict on it, and the state of its virtual channel's FARM-1 after it.
Taken = NamedTuple("Taken", [("frame", TcFrame), ("verdict", str), ("state", State)])

def taken_frames(frames: List[TcFrame], managed: Managed) -> List[Taken]:
    """ "One FARM-1 for each virtual channel" """
    states = [State(vr, 0, 0, 0) for vr in managed.starts]
    taken: List[Taken] = []
    for frame in frames:
        if frame.reason is None:
            vc = frame.header["vc"]
            verdict, states[vc] = farm_step(frame, states[vc], managed.window)
            taken.append(Taken(frame, verdict, states[vc]))
    return taken

# ==== normal-form.md "TC recordings". A place is a segment's number in the list of its virtual channel and MAP.
SEGMENT_FLAGS = {1: "first", 0: "middle", 2: "last", 3: "whole"}

# The segment in the unit of a frame of type AD or BD: the offset of the frame, and the octets without segment header.
Segment = NamedTuple("Segment", [("offset", int), ("vc", int), ("map", int), ("flags", str), ("octets", bytes)])

def segment_of(frame: TcFrame, managed: Managed) -> Segment:
    vc = frame.header["vc"]
    if vc in managed.plain:
        return Segment(frame.offset, vc, 0, "whole", frame.data)
    header = read_header(frame.data[:1], SEGMENT_HEADER)
    return Segment(frame.offset, vc, header["map"], SEGMENT_FLAGS[header["flags"]], frame.data[1:])

def segment_lists(taken: List[Taken], managed: Managed) -> Dict[Tuple[int, int], List[Segment]]:
    """ "Series of segments": by virtual channel and MAP, both rising, the list of segments if it isn't empty."""
    lists: Dict[Tuple[int, int], List[Segment]] = {}
    for segment in [segment_of(one.frame, managed) for one in taken if one.verdict == "accept"]:
        lists.setdefault((segment.vc, segment.map), []).append(segment)
    return dict(sorted(lists.items()))

def incomplete_series(segments: List[Segment]) -> Dict[int, Incomplete]:
    """ "Incomplete series": by place the one that is incomplete if the list ends with the segment there."""
    found: Dict[int, Incomplete] = {}
    for first in [place for place, segment in enumerate(segments) if segment.flags == "first"]:
        last = first
        total = len(segments[first].octets)
        while total <= LONGEST_PACKET:
            found[last] = Incomplete(first, total)
            last += 1
            if last == len(segments) or segments[last].flags != "middle":
                break
            total += len(segments[last].octets)
    return found

def passes_bound(before: Incomplete, segment: Segment) -> bool:
    return before.octets + len(segment.octets) > LONGEST_PACKET

def service_data_unit(segments: List[Segment], place: int, before: Optional[Incomplete]) -> Optional[bytes]:
    """That of the series that ends at this place, if one does; `before` is the series that is incomplete before."""
    segment = segments[place]
    if segment.flags == "whole":
        return segment.octets
    if segment.flags != "last" or before is None or passes_bound(before, segment):
        return None
    return b"".join(one.octets for one in segments[before.start : place + 1])

def tc_delivered(taken: List[Taken], managed: Managed) -> List[Delivered]:
    """All delivered packets, in the order of the frames that end their series, and then as they lie in the series."""
    found: List[Delivered] = []
    for (vc, map_identifier), segments in segment_lists(taken, managed).items():
        incomplete = incomplete_series(segments)
        for place, segment in enumerate(segments):
            unit = service_data_unit(segments, place, incomplete.get(place - 1))
            for packet in longest_packets(unit or b"")[0]:
                found.append(Delivered(segment.offset, vc, map_identifier, packet))
    return sorted(found, key=lambda one: one.end)

# ==== listings.md "The listing of show tc" and "The listing of check tc"
def content_words(frame: TcFrame, managed: Managed) -> str:
    if frame.frame_type == "bc":
        return "unlock" if len(frame.data) == 1 else f"setvr {frame.data[2]}"
    segment = segment_of(frame, managed)
    frame_type = f"ad {frame.header['ns']}" if frame.frame_type == "ad" else "bd"
    if segment.vc in managed.plain:
        return f"{frame_type} unit octets {len(segment.octets)}"
    return f"{frame_type} segment {segment.flags} map {segment.map} octets {len(segment.octets)}"

def show_tc(octets: bytes, managed: Managed) -> List[str]:
    frames, rest = tc_frames(octets, managed)
    by_offset = skip_lines(frames)
    for frame, verdict, state in taken_frames(frames, managed):
        vc = frame.header["vc"]
        words = f"{content_words(frame, managed)} {verdict} clcw {farm_control_word(vc, state).hex()}"
        by_offset[frame.offset] = [f"{frame.offset} frame vc {vc} {words}"]
    return [line for frame in frames for line in by_offset[frame.offset]] + rest_lines(octets, rest)

def segment_lines(segments: List[Segment], place: int, before: Optional[Incomplete]) -> List[str]:
    """The lines of an accepted segment; `before` is the series that is incomplete before it."""
    segment = segments[place]
    goes_on = segment.flags in ("middle", "last")
    channel = f"vc {segment.vc} map {segment.map}"
    lines: List[str] = []
    if goes_on and before is None:
        lines.append(f"{segment.offset} stray {channel}")
    if not goes_on and before is not None:
        lines.append(f"{segment.offset} dropped {channel} octets {before.octets}")
    if goes_on and before is not None and passes_bound(before, segment):
        lines.append(f"{segment.offset} long {channel}")
    tail = longest_packets(service_data_unit(segments, place, before) or b"")[1]
    if tail > 0:
        lines.append(f"{segment.offset} tail {channel} octets {tail}")
    return lines

def check_tc(octets: bytes, managed: Managed) -> List[str]:
    frames, rest = tc_frames(octets, managed)
    taken = taken_frames(frames, managed)
    by_offset = skip_lines(frames)
    for frame, verdict, _ in taken:
        discarded = f"{frame.offset} {verdict} vc {frame.header['vc']} ad {frame.header['ns']}"
        by_offset[frame.offset] = [] if verdict in ("accept", "command") else [discarded]
    open_lines: List[str] = []
    for (vc, map_identifier), segments in segment_lists(taken, managed).items():
        incomplete = incomplete_series(segments)
        for place, segment in enumerate(segments):
            by_offset[segment.offset] = segment_lines(segments, place, incomplete.get(place - 1))
        last = incomplete.get(len(segments) - 1)
        if last is not None:
            open_lines.append(f"{len(octets)} open vc {vc} map {map_identifier} octets {last.octets}")
    lines = [line for frame in frames for line in by_offset[frame.offset]]
    lines += rest_lines(octets, rest) + open_lines
    return lines + [totals([frame.reason for frame in frames], tc_delivered(taken, managed), lines)]

# ==== listings.md "The listing of packets"
def delivered_packets(kind: str, octets: bytes, managed: Managed) -> List[Delivered]:
    """The packets that a recording delivers, in the order of the listing, without the idle ones."""
    if kind == "tm":
        delivered = tm_delivered(tm_frames(octets, managed)[0])
    else:
        delivered = tc_delivered(taken_frames(tc_frames(octets, managed)[0], managed), managed)
    return [one for one in delivered if not is_idle(one.packet)]

def packet_line(kind: str, one: Delivered) -> str:
    channel = f"vc {one.vc}" if kind == "tm" else f"vc {one.vc} map {one.map}"
    header = read_header(one.packet[:6], PACKET_HEADER)
    fields = " ".join(f"{name} {header[name]}" for name in ("apid", "type", "secondary", "flags", "count"))
    return f"{channel} {fields} octets {len(one.packet)} {one.packet.hex()}"

# ==== normal-form.md "The TM normal form" and "The TC normal form"
def cut(octets: bytes, size: int) -> List[bytes]:
    """The octets in pieces of this size, the last one perhaps shorter."""
    return [octets[start : start + size] for start in range(0, len(octets), size)]

def filling(total: int, size: int) -> List[bytes]:
    """The least idle packet that fills up so many octets to a multiple of the size; none if they are a multiple."""
    if total % size == 0:
        return []
    length = next(length for length in range(7, 7 + size) if (total + length) % size == 0)
    return [write_header({"apid": IDLE_APID, "flags": 3, "length": length - 7}, PACKET_HEADER, 6) + bytes(length - 6)]

def first_starts(packets_of_channel: List[bytes], size: int) -> Dict[int, int]:
    """By the number of the data field: the least offset at which a packet starts in it, if one does."""
    found: Dict[int, int] = {}
    start = 0
    for packet in packets_of_channel:
        found.setdefault(start // size, start % size)
        start += len(packet)
    return found

def tm_form_frames(own: List[bytes], vc: int, frames_before: int, managed: Managed) -> List[bytes]:
    """The frames of a virtual channel with these packets; there are so many frames of other channels before it."""
    size = managed.tm_length - 6 - (2 if managed.tm_fecf else 0)
    filled = own + filling(sum(len(packet) for packet in own), size)
    starts = first_starts(filled, size)
    frames: List[bytes] = []
    for place, data in enumerate(cut(b"".join(filled), size)):
        counts = {"mc": (frames_before + place) % 256, "vcc": place % 256}
        values = {"spacecraft": managed.scid, "vc": vc, **counts, "segment": 3, "first": starts.get(place, NO_START)}
        frames.append(with_error_control(write_header(values, TM_HEADER, 6) + data, managed.tm_fecf))
    return frames

def normalise_tm(octets: bytes, managed: Managed) -> bytes:
    delivered = delivered_packets("tm", octets, managed)
    frames: List[bytes] = []
    for vc in range(8):
        frames += tm_form_frames([one.packet for one in delivered if one.vc == vc], vc, len(frames), managed)
    return b"".join(frames)

def tc_form_units(one: Delivered, managed: Managed) -> List[bytes]:
    """The data fields that carry a packet."""
    if one.vc in managed.plain:
        return [one.packet]
    pieces = cut(one.packet, managed.tc_length - 6 - (2 if managed.tc_fecf else 0))
    flags = [3] if len(pieces) == 1 else [1] + [0] * (len(pieces) - 2) + [2]
    headers = [write_header({"flags": flag, "map": one.map}, SEGMENT_HEADER, 1) for flag in flags]
    return [header + piece for header, piece in zip(headers, pieces)]

def tc_form_frame(unit: bytes, vc: int, ns: int, managed: Managed) -> bytes:
    """tc.md "Frames that are written": the one of type AD that carries a unit."""
    length = 5 + len(unit) + (2 if managed.tc_fecf else 0)
    values = {"spacecraft": managed.scid, "vc": vc, "length": length - 1, "ns": ns}
    return with_error_control(write_header(values, TC_HEADER, 5) + unit, managed.tc_fecf)

def normalise_tc(octets: bytes, managed: Managed) -> bytes:
    frames: List[bytes] = []
    ns = list(managed.starts)  # the next N(S) of each virtual channel
    for one in sorted(delivered_packets("tc", octets, managed), key=lambda one: (one.vc, one.map)):
        for unit in tc_form_units(one, managed):
            frames.append(tc_form_frame(unit, one.vc, ns[one.vc], managed))
            ns[one.vc] = (ns[one.vc] + 1) % 256
    return b"".join(frames)

# ==== listings.md "Options": the words of the command line
VERBS, KINDS = ("show", "check", "packets", "normalise"), ("tm", "tc")
FLAGS, LISTS = ("--tm-fecf", "--tc-fecf"), ("--vr-of", "--plain")
GREATEST = {  # of the options with a number the greatest one that the command line takes
    "--scid": 65535, "--tm-length": 65535, "--tc-length": 65535, "--window": 255, "--vr": 255, "--limit": 2**64 - 1,
}

Command = NamedTuple("Command", [("verb", str), ("kind", str), ("managed", Managed)])

def refuse() -> NoReturn:
    raise Decided(2, b"", None)

def answer_help() -> NoReturn:
    raise Decided(0, b"", None)

def asks_for_help(word: str) -> bool:  # any word that begins with -h does, whatever follows in it
    return word == "--help" or word.startswith("-h")

def is_like_option(word: str) -> bool:
    """Whether the word can be no value and, before `--`, no kind."""
    return word.startswith("-") and word != "-"

def number_value(name: str, text: str) -> int:
    if re.fullmatch("-0+", text) and name != "--limit":  # after an equals sign, as is_like_option holds
        return 0
    match = re.fullmatch("[+]?0*([0-9]{1,20})", text)
    if match is None or int(match.group(1)) > GREATEST[name]:
        refuse()
    return int(match.group(1))

def read_option(words: List[str], place: int, given: Dict[str, object]) -> int:
    """Reads the option at this place; the result is the place of its last word."""
    name, equals, text = words[place].partition("=")
    if name in given or name not in (*GREATEST, *LISTS, *FLAGS) or (name in FLAGS and equals):
        refuse()
    if name not in FLAGS and not equals:
        place += 1
        if place == len(words) or is_like_option(words[place]):
            refuse()
        text = words[place]
    given[name] = number_value(name, text) if name in GREATEST else text
    return place

def read_after_verb(words: List[str]) -> Tuple[str, Dict[str, object]]:
    """The kind, and the options that are given."""
    kind: Optional[str] = None
    given: Dict[str, object] = {}
    place = 0
    options_ended = False
    while place < len(words):
        word = words[place]
        if options_ended or not is_like_option(word):
            kind = word if kind is None and word in KINDS else refuse()
        elif asks_for_help(word):
            answer_help()
        elif word == "--":
            options_ended = True
        else:
            place = read_option(words, place, given)
        place += 1
    if kind is None or "--scid" not in given:
        refuse()
    return kind, given

def read_words(words: List[bytes]) -> Command:
    try:
        texts = [word.decode("utf-8") for word in words]
    except UnicodeDecodeError:
        raise Decided(2, b"", b"error: the command line is no UTF-8 text") from None
    first = texts[0] if texts else ""
    if first == "--version" or first.startswith("-V"):
        raise Decided(0, b"sllink 2.0.0\n", None)
    if asks_for_help(first) or texts in [["help"]] + [["help", word] for word in (*VERBS, "help")]:
        answer_help()
    if first not in VERBS:
        refuse()
    kind, given = read_after_verb(texts[1:])
    return Command(first, kind, managed_parameters(given))

# ==== listings.md "Options" and "Error lines": managed parameters
LISTED = "(?:0|[1-9][0-9]{0,2})"  # a number in a list; one of more digits is out of range anyway

def listed_items(text: Optional[str], item: str) -> Optional[List[List[int]]]:
    """The numbers of each item, none if there is no text; None if the text is not such a list in range."""
    if text is None:
        return []
    if re.fullmatch(f"{item}(,{item})*", text) is None:
        return None
    items = [[int(part) for part in one.split(":")] for one in text.split(",")]
    rising = all(before[0] < after[0] for before, after in zip(items, items[1:]))
    in_range = all(part <= greatest for one in items for part, greatest in zip(one, (63, 255)))
    return items if rising and in_range else None

def managed_parameters(given: Dict[str, object]) -> Managed:
    """The managed parameters; the first one that is out of range is named."""
    scid, tm_length, tc_length = given["--scid"], given.get("--tm-length", 1115), given.get("--tc-length", 1024)
    window, limit = given.get("--window", 10), given.get("--limit", 1073741824)
    plain = listed_items(given.get("--plain"), LISTED)
    starts = listed_items(given.get("--vr-of"), f"{LISTED}:{LISTED}")
    in_range = {
        "spacecraft": scid <= 1023, "tm length": 32 <= tm_length <= 2048, "tc length": 16 <= tc_length <= 1024,
        "window": window % 2 == 0 and window != 0, "limit": limit != 0,
        "plain": plain is not None, "start": starts is not None,
    }
    for name, good in in_range.items():
        if not good:
            raise Decided(2, b"", f"sllink: managed: {name}".encode())
    all_starts = [dict(starts).get(vc, given.get("--vr", 0)) for vc in range(64)]
    fecf = ("--tm-fecf" in given, "--tc-fecf" in given)
    return Managed(scid, tm_length, tc_length, *fecf, window, all_starts, [one[0] for one in plain], limit)

# ==== The runs
LISTINGS = {("show", "tm"): show_tm, ("show", "tc"): show_tc, ("check", "tm"): check_tm, ("check", "tc"): check_tc}

def result_of(command: Command, octets: bytes) -> Result:
    verb, kind, managed = command
    if len(octets) > managed.limit:
        return 3, b"", b"sllink: too long"
    if verb == "normalise":
        return 0, (normalise_tm if kind == "tm" else normalise_tc)(octets, managed), None
    if verb == "packets":
        lines = [packet_line(kind, one) for one in delivered_packets(kind, octets, managed)]
    else:
        lines = LISTINGS[verb, kind](octets, managed)
    return (1 if verb == "check" and len(lines) > 1 else 0), "".join(line + "\n" for line in lines).encode(), None

def run(words: List[bytes], octets: bytes) -> Result:
    """Exit status, standard output, and the error line without its line feed, where the pages fix it."""
    try:
        return result_of(read_words(words), octets)
    except Decided as decided:
        return decided.args

def packets(kind: str, words: List[bytes], octets: bytes) -> List[List[bytes]]:
    """The delivered packets that aren't idle, by virtual channel (TM), or by 64 times it plus the MAP (TC)."""
    lists: List[List[bytes]] = [[] for _ in range(8 if kind == "tm" else 4096)]
    for one in delivered_packets(kind, octets, read_words(words).managed):
        lists[one.vc if kind == "tm" else 64 * one.vc + one.map].append(one.packet)
    return lists

def main() -> None:
    try:
        command = read_words([os.fsencode(word) for word in sys.argv[1:]])
        status, output, error = result_of(command, sys.stdin.buffer.read())
    except Decided as decided:
        status, output, error = decided.args
    if status == 2 and error is None:
        error = b"error: the command line is refused"
    sys.stdout.buffer.write(output)
    sys.stdout.buffer.flush()
    sys.stderr.buffer.write(b"" if error is None else error + b"\n")
    sys.exit(status)

if __name__ == "__main__":
    main()
