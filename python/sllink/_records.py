"""The lines of the program's listings as values. Attributes have the names of the words in the lines, and str() gives
the line back. What a line doesn't have is None."""

from dataclasses import dataclass, fields
from typing import Any, Dict, Optional, Tuple, Union


class Line:
    """A line of a listing: the names of the fields, each with its value, where a class doesn't say it otherwise."""

    __slots__ = ()

    def __reduce__(self) -> Tuple[Any, ...]:
        # without this a frozen class with slots can't be pickled
        return type(self), tuple(getattr(self, it.name) for it in fields(self))

    def __str__(self) -> str:
        return named({it.name: getattr(self, it.name) for it in fields(self)})


def named(values: Dict[str, Any]) -> str:
    """Values after their names. One that is None is left out."""
    return " ".join(f"{name} {value}" for name, value in values.items() if value is not None)


@dataclass(frozen=True)
class Clcw(Line):
    """A Communications Link Control Word: its 32 bits, and the fields that the listing of TM frames has for it."""

    __slots__ = ("word", "vc", "lockout", "wait", "retransmit", "farmb", "vr")
    word: int
    vc: int
    lockout: bool
    wait: bool
    retransmit: bool
    farmb: int
    vr: int

    def __str__(self) -> str:
        return (f"clcw {self.word:08x} vc {self.vc} lockout {self.lockout:d} wait {self.wait:d}"
                f" retransmit {self.retransmit:d} farmb {self.farmb} vr {self.vr}")

    @staticmethod
    def of_word(word: int) -> "Clcw":
        """The fields of a CLCW by their positions."""
        return Clcw(word, word >> 18 & 63, bool(word >> 13 & 1), bool(word >> 12 & 1), bool(word >> 11 & 1),
                    word >> 9 & 3, word & 255)


@dataclass(frozen=True)
class Frame(Line):
    """A frame that isn't skipped: a TmFrame or a TcFrame."""

    __slots__ = ("offset", "vc")
    offset: int
    vc: int


@dataclass(frozen=True)
class TmFrame(Frame):
    """A TM frame. What it is: `first` (packets, of which the first starts at octet `first` of the data field), `none`
    (packets, of which none starts here), `idle` or `opaque`. Its operational control field, if it has one, is `ocf`,
    and `clcw` where that is a CLCW."""

    __slots__ = ("mc", "vcc", "what", "first", "ocf", "clcw")
    mc: int
    vcc: int
    what: str
    first: Optional[int]
    ocf: Optional[int]
    clcw: Optional[Clcw]

    def __str__(self) -> str:
        what = self.what if self.first is None else f"first {self.first}"
        word = f" {self.clcw}" if self.clcw else "" if self.ocf is None else f" ocf {self.ocf:08x}"
        return f"{self.offset} frame vc {self.vc} mc {self.mc} vcc {self.vcc} {what}{word}"


@dataclass(frozen=True)
class TcFrame(Frame):
    """A TC frame. What it is: `ad` (then `ns` is its N(S)), `bd`, `unlock` or `setvr` (then `setvr` is the value); of a
    unit with a segment header the flags are `segment` and the MAP is `map`. `verdict` is that of FARM-1, and `clcw`
    reports its state after the frame."""

    __slots__ = ("what", "ns", "setvr", "segment", "map", "octets", "verdict", "clcw")
    what: str
    ns: Optional[int]
    setvr: Optional[int]
    segment: Optional[str]
    map: Optional[int]
    octets: Optional[int]
    verdict: str
    clcw: Clcw

    def __str__(self) -> str:
        what = " ".join(str(it) for it in (self.what, self.ns, self.setvr) if it is not None)
        if self.octets is not None:
            what += " unit" if self.segment is None else f" segment {self.segment} map {self.map}"
            what += f" octets {self.octets}"
        return f"{self.offset} frame vc {self.vc} {what} {self.verdict} clcw {self.clcw.word:08x}"


@dataclass(frozen=True)
class Skip(Line):
    """A frame that is skipped, and why."""

    __slots__ = ("offset", "reason")
    offset: int
    reason: str

    def __str__(self) -> str:
        return f"{self.offset} skip {self.reason}"


@dataclass(frozen=True)
class Remainder(Line):
    """The octets after the last frame."""

    __slots__ = ("offset", "octets")
    offset: int
    octets: int

    def __str__(self) -> str:
        return f"{self.offset} rest {self.octets}"


@dataclass(frozen=True)
class Anomaly(Line):
    """An anomaly: its word, such as `gap`, and the numbers of its line. `reason` is that of a `skip`."""

    __slots__ = ("offset", "word", "vc", "map", "reason", "expected", "found", "ns", "octets")
    offset: int
    word: str
    vc: Optional[int]
    map: Optional[int]
    reason: Optional[str]
    expected: Optional[int]
    found: Optional[int]
    ns: Optional[int]
    octets: Optional[int]

    def __str__(self) -> str:
        if self.word in ("skip", "rest"):
            return f"{self.offset} {self.word} {self.octets if self.reason is None else self.reason}"
        words = named({"vc": self.vc, "map": self.map, "expected": self.expected, "found": self.found, "ad": self.ns,
                       "octets": self.octets})
        return f"{self.offset} {self.word} {words}"


@dataclass(frozen=True)
class Totals(Line):
    """The last line of `check`."""

    __slots__ = ("frames", "skipped", "packets", "idle", "anomalies")
    frames: int
    skipped: int
    packets: int
    idle: int
    anomalies: int


@dataclass(frozen=True)
class StationTotals(Line):
    """What sllink-frames counts in a station's file. `status` is 1 where a marker was wrong, a code block was refused,
    or octets went astray behind the first unit, and else 0; the line doesn't have it."""

    __slots__ = ("frames", "wrong_markers", "skipped_octets", "refused_blocks", "cut_octets", "status")
    frames: int
    wrong_markers: int
    skipped_octets: int
    refused_blocks: int
    cut_octets: int
    status: int

    def __str__(self) -> str:
        return super().__str__().replace("_", "-").rpartition(" status")[0]


@dataclass(frozen=True)
class MergeSide(Line):
    """One of two recordings that sllink-merge merged: its whole frames, those that only it has, those that are left out,
    by the reason, the octets after the last whole frame, and its packets."""

    __slots__ = ("frames", "only_here", "skipped", "repeats", "left_out", "rest", "packets")
    frames: int
    only_here: int
    skipped: int
    repeats: int
    left_out: int
    rest: int
    packets: int

    def __str__(self) -> str:
        return super().__str__().replace("_", "-")


@dataclass(frozen=True)
class MergeTurn(Line):
    """Two recordings that sllink-merge merged, and what they became: frames, those that both have, packets, stretches in
    the likeliest order, those whose order is a guess, those of which frames of one are left out, and choices among
    equal idle frames. The line has the last seven."""

    __slots__ = ("first", "second", "frames", "in_both", "packets", "outages", "open", "undecided", "idle")
    first: MergeSide
    second: MergeSide
    frames: int
    in_both: int
    packets: int
    outages: int
    open: int
    undecided: int
    idle: int

    def __str__(self) -> str:
        values = {it.name.replace("_", "-"): getattr(self, it.name) for it in fields(self)[2:]}
        return f"merge: {named(values)}"


@dataclass(frozen=True)
class Merge(Line):
    """What sllink-merge says of its merge: a turn for the first two recordings, and one for each further one. `status` is
    1 where frames are left out whose place isn't known, or the order of some is a guess, and else 0. The line is that of
    the last turn."""

    __slots__ = ("turns", "status")
    turns: Tuple[MergeTurn, ...]
    status: int

    def __str__(self) -> str:
        return str(self.turns[-1])

    @property
    def frames(self) -> int:
        """How many frames were written."""
        return self.turns[-1].frames

    @property
    def packets(self) -> int:
        """How many packets they deliver."""
        return self.turns[-1].packets


@dataclass(frozen=True)
class Packet(Line):
    """A packet: its virtual channel, its MAP (None in TM), the fields of its primary header, and all its octets."""

    __slots__ = ("vc", "map", "apid", "type", "secondary", "flags", "count", "octets")
    vc: int
    map: Optional[int]
    apid: int
    type: int
    secondary: int
    flags: int
    count: int
    octets: bytes

    def __str__(self) -> str:
        channel = f"vc {self.vc}" if self.map is None else f"vc {self.vc} map {self.map}"
        return (f"{channel} apid {self.apid} type {self.type} secondary {self.secondary} flags {self.flags}"
                f" count {self.count} octets {len(self.octets)} {self.octets.hex()}")


@dataclass(frozen=True)
class Count(Line):
    """Of the packets of one virtual channel, MAP and APID: how many they are, their octets, and how often the packet
    sequence count isn't the one that comes next."""

    __slots__ = ("vc", "map", "apid", "packets", "octets", "jumps")
    vc: int
    map: Optional[int]
    apid: int
    packets: int
    octets: int
    jumps: int


@dataclass(frozen=True)
class Run(Line):
    """Packets of one virtual channel, MAP (None in TM) and APID that only one of two recordings has: `side` is `<` for
    the first recording and `>` for the second one. Their packet sequence counts follow each other, `counts` are the
    first and the last one, and `packets` is their number."""

    __slots__ = ("side", "vc", "map", "apid", "counts", "packets")
    side: str
    vc: int
    map: Optional[int]
    apid: int
    counts: Tuple[int, int]
    packets: int

    def __str__(self) -> str:
        channel = f"vc {self.vc}" if self.map is None else f"vc {self.vc} map {self.map}"
        counts = "..".join(map(str, self.counts[:self.packets]))
        return f"{self.side} {channel} apid {self.apid} counts {counts} packets {self.packets}"


def frame_of(kind: str, line: str) -> Union[TmFrame, TcFrame, Skip, Remainder]:
    """A line of `show`."""
    words = line.split()
    offset, what = int(words[0]), words[1]
    if what == "skip":
        return Skip(offset, words[2])
    if what == "rest":
        return Remainder(offset, int(words[2]))
    vc = int(words[3])
    if kind == "tm":
        # OFFSET frame vc V mc M vcc C CLASS [POINTER] [ocf DIGITS | clcw DIGITS ..]
        first = int(words[9]) if words[8] == "first" else None
        at = 9 if first is None else 10
        ocf = int(words[at + 1], 16) if len(words) > at else None
        clcw = Clcw.of_word(ocf) if ocf is not None and words[at] == "clcw" else None
        return TmFrame(offset, vc, int(words[5]), int(words[7]), words[8], first, ocf, clcw)
    # OFFSET frame vc V WHAT [NUMBER] [unit octets N | segment FLAGS map M octets N] VERDICT clcw DIGITS
    what = words[4]
    number = int(words[5]) if what in ("ad", "setvr") else None
    segment, map_id = (words[-8], int(words[-6])) if "segment" in words else (None, None)
    octets = int(words[-4]) if words[-5] == "octets" else None
    return TcFrame(offset, vc, what, number if what == "ad" else None, number if what == "setvr" else None, segment,
                   map_id, octets, words[-3], Clcw.of_word(int(words[-1], 16)))


def anomaly_of(line: str) -> Union[Anomaly, Totals]:
    """A line of `check`: an Anomaly, or the Totals."""
    first, word, *words = line.split()
    if first == "frames":
        return Totals(int(word), *map(int, words[1::2]))
    if word == "skip":
        return Anomaly(int(first), word, None, None, words[0], None, None, None, None)
    of = {"octets": int(words[0])} if word == "rest" else dict(zip(words[::2], map(int, words[1::2])))
    return Anomaly(int(first), word, of.get("vc"), of.get("map"), None, of.get("expected"), of.get("found"),
                   of.get("ad"), of.get("octets"))


def run_of(line: str) -> Run:
    """A line of sllink-compare, of packets that only one recording has."""
    side, *words = line.split()
    of = dict(zip(words[::2], words[1::2]))
    first, _, last = of["counts"].partition("..")
    return Run(side, int(of["vc"]), int(of["map"]) if "map" in of else None, int(of["apid"]),
               (int(first), int(last or first)), int(of["packets"]))


def packet_of(line: str) -> Packet:
    """A line of `packets`."""
    words = line.split()
    map_id = int(words[3]) if words[2] == "map" else None
    apid, kind, secondary, flags, count = map(int, words[-12:-3:2])
    return Packet(int(words[1]), map_id, apid, kind, secondary, flags, count, bytes.fromhex(words[-1]))
