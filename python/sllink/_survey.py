"""What `show`, `check` and `packets` have for a recording, added up for a page, its picture and a command.

Of a long recording no line is kept but the first ones of `check`, so a survey takes no more memory for it than for a
short one, but for each APID that has packets.
"""

import os
import re
from collections import defaultdict
from functools import lru_cache
from typing import Counter, Dict, Iterator, List, NamedTuple, Optional, Sequence, Tuple

from ._check_words import CELLED
from ._counts import tallied
from ._program import blocks, output_of
from .tool import Refused, State, shown

BINS = 480                                                # stretches of a picture, in which frames are counted
SPOTS, MARKED = 960, 120                                  # those in which anomalies are counted; of a long recording
MOST_CELLS = 480                                          # with more frames in a picture their lines aren't kept
MOST_LINES = 200                                          # lines of `check` that are kept
MOST_LOCKOUTS = 100                                       # lockouts that are kept
ABOUT = 3                                                 # lines that are kept of the anomalies of one stretch
NOT_READ = 64                                             # the row of skipped frames
FLAGS = {"Lockout flag": 1 << 13, "Retransmit flag": 1 << 11}   # of the CLCW
FLAGGED = sum(FLAGS.values())

# A line of `check`: its word, and the reason or the channel. OFFSET skip REASON | OFFSET WORD vc V .. | OFFSET rest N
CHECKED = re.compile(rb"\d+ (\w+ (?:vc )?\w+)[^\n]*\n")
GAP = re.compile(rb" gap (vc \d+) expected (\d+) found (\d+)\n")
REST = re.compile(rb"(\d+) rest (\d+)\n")
# OFFSET frame vc V mc M vcc C CLASS [POINTER] [clcw DIGITS ..]
SHOWN_TM = re.compile(rb" frame vc (\d) mc \d+ vcc \d+ (\w+)")
CLCW = re.compile(rb" frame vc (\d)[^\n]* clcw (\w+) ")
SHOWN_TC = re.compile(rb" frame ([^\n]*)\n")
OFFSET_TC = re.compile(rb"(\d+) frame [^\n]*\n")
MOST_KNOWN = 1 << 14                                      # lines of `show tc` that are kept without their offsets


class Cell(NamedTuple):
    """A frame of a short recording, and the flags of FARM-1 after it; or what is left after the last one."""

    row: int
    what: str
    words: str
    start: int
    line: str
    flags: int = 0


def cell_of(kind: str, line: str) -> Cell:
    """A line of `show` as a cell."""
    words = line.split(" ", 9)
    start, what = int(words[0]), words[1]
    if what != "frame":
        return Cell(NOT_READ, what, words[2], start, line)
    if kind == "tm":
        return Cell(int(words[3]), words[8], words[7], start, line)
    it, said = Command.of(line.partition(" frame ")[2]), words[4]
    said = f"{said} {it.number}" if said in ("ad", "setvr") else said
    return Cell(it.row, it.what, said, start, line, it.flags)


class Command(NamedTuple):
    """A TC frame, without its offset: its channel, what FARM-1 makes of it (`bypass` for an accepted one of type BD),
    its N(S) or V(R), the CLCW after it, and the flags in that."""

    row: int
    what: str
    number: str
    digits: str
    flags: int

    @staticmethod
    def of(line: str) -> "Command":
        """What follows the offset in a line: frame vc V CONTENT [NUMBER] .. VERDICT clcw DIGITS"""
        words = line.split()
        what = "bypass" if words[2] == "bd" and words[-3] == "accept" else words[-3]
        return Command(int(words[1]), what, words[3], words[-1], int(words[-1], 16) & FLAGGED)


class Mark:
    """Anomalies of one kind in one stretch of a channel: how many, the frames lost in them, the first lines."""

    __slots__ = ("offset", "number", "lost", "lines")

    def __init__(self, offset: int = 0) -> None:
        self.offset, self.number, self.lost = offset, 0, 0
        self.lines: List[str] = []


class Lockout:
    """A lockout of FARM-1: where it begins and ends, and the frames of type AD that are refused in it."""

    __slots__ = ("vc", "start", "number", "end", "refused")

    def __init__(self, vc: int, start: int, number: str) -> None:
        self.vc, self.start, self.number, self.refused = vc, start, number, 0
        self.end: Optional[int] = None


class Reports:
    """The CLCWs that a TM channel carries on a TC channel: how many, how many with a flag, the first and the last."""

    __slots__ = ("number", "flags", "first", "last")
    BITS = {"Lockout": 13, "Wait": 12, "Retransmit": 11, "No RF Available": 15, "No Bit Lock": 14}

    def __init__(self, word: int) -> None:
        self.number, self.first, self.last = 0, word, word
        self.flags: Dict[int, int] = defaultdict(int)     # by the flags that are set

    def having(self, flag: str) -> int:
        """How many have this flag set."""
        return sum(number for flags, number in self.flags.items() if flags >> self.BITS[flag] & 1)


class Survey:
    """What the listings have for a recording, in a picture of its octets, or of more of them: so many before it, and
    `span` in all."""

    def __init__(self, kind: str, recording: str, options: Sequence[str], state: State, before: int = 0,
                 span: int = 0) -> None:
        self.state = state
        self.kind, self.recording, self.options = kind, recording, list(options)
        self.name = shown(os.path.basename(recording))
        self.size = self.state.size
        self.before = before
        self.span = max(span, self.size, 1)               # a recording that grows may be empty at first
        self.frames = self.skipped = self.packets = self.idle = 0
        self.anomalies: Counter[str] = Counter()        # lines of `check` by their words
        self.reasons: Counter[str] = Counter()          # skipped frames by the reason
        self.first_lines: List[str] = []
        self.marks: Dict[Tuple[int, str], Dict[int, Mark]] = defaultdict(dict)
        self.of_255 = 0                                   # gaps of 255 frames
        self.rest: Optional[Tuple[int, int]] = None       # offset and octets of the remainder
        self.cells: List[Cell] = []                       # of a short recording, in which each frame has one
        self.bins: Dict[Tuple[int, str], List[int]] = defaultdict(lambda: [0] * BINS)   # frames by row and class
        self.bars: Dict[Tuple[int, str], List[List[int]]] = defaultdict(list)   # where a flag of FARM-1 is set
        self.farms: Dict[int, str] = {}                   # the last CLCW of FARM-1 by channel
        self.lockouts: List[Lockout] = []
        self.reports: Dict[Tuple[int, int], Reports] = {}
        self._locked: Dict[int, Lockout] = {}             # those that are kept and haven't ended, by channel
        self._flags: Dict[int, int] = {}                  # those of FARM-1 that are set, by channel
        self._until = 0                                   # the offset up to which `bars` are
        self._known = lru_cache(MOST_KNOWN)(self._command)    # the same lines come often
        self._show()
        self.is_short = sum(cell.what != "rest" for cell in self.cells) * self.span <= MOST_CELLS * self.size
        if self.is_short:
            self._follow_cells()
        else:
            self.cells.clear()
        self._check()
        try:
            with output_of("packets", kind, recording, options) as listing:
                self.tallies = tallied(listing)
        except ValueError:
            raise Refused(f"{shown(recording)}: sllink: what it says of packets is no line of them") from None
        self.state.require_unchanged()

    def rows(self) -> List[int]:
        """The virtual channels that have frames, and NOT_READ after them where frames are skipped."""
        return sorted({row for row, _ in self.bins} | {row for row, _ in self.marks})

    def of_row(self, row: int) -> Dict[str, int]:
        """The frames of a row by their classes."""
        return {what: sum(numbers) for (of, what), numbers in self.bins.items() if of == row}

    def lost(self) -> Dict[int, int]:
        """The frames lost in the gaps of each channel that has some, modulo 256 at each gap."""
        return {row: sum(mark.lost for mark in marks.values()) for (row, what), marks in self.marks.items()
                if what == "gap"}

    def offset_of(self, stretch: int) -> int:
        """Where a stretch of the picture begins in the recording."""
        return min(max(stretch * self.span // BINS - self.before, 0), self.size)

    def _divided(self, block: bytes, stretches: int) -> Iterator[Tuple[int, bytes]]:
        """The lines of a block by the stretch in which their offsets lie. Offsets don't fall."""
        start = 0
        while start < len(block):
            stretch = min((self.before + offset_at(block, start)) * stretches // self.span, stretches - 1)
            end = len(block)
            if stretch < stretches - 1:
                end = line_from(block, start, -(-(stretch + 1) * self.span // stretches) - self.before)
            yield stretch, block[start:end]
            start = end

    def _check(self) -> None:
        for block in blocks("check", self.kind, self.recording, self.options):
            last = block.rfind(b"\n", 0, -1) + 1
            if block.startswith(b"frames ", last):
                self.frames, self.skipped, self.packets, self.idle = map(int, block[last:].split()[1:8:2])
                block = block[:last]
            if len(self.first_lines) < MOST_LINES:
                self.first_lines += block.decode().splitlines()[:MOST_LINES - len(self.first_lines)]
            for spot, piece in self._divided(block, SPOTS if self.is_short else MARKED):
                self._anomalies(spot, piece)

    def _anomalies(self, spot: int, piece: bytes) -> None:
        """Adds lines of `check` that lie in one stretch."""
        found = CHECKED.findall(piece)
        wanted: Dict[bytes, Mark] = {}
        for key, times in Counter(found).items():
            what, *_, of = key.decode().split()
            self.anomalies[what] += times
            if what == "skip":
                self.reasons[of] += times
            elif what == "rest":
                offset, octets = REST.findall(piece)[-1]
                self.rest = int(offset), int(octets)
            elif what not in CELLED:
                mark = self.marks[int(of), what].setdefault(spot, Mark())
                mark.number += times
                if len(mark.lines) < ABOUT:
                    wanted[key] = mark
        if wanted:
            keep_lines(wanted, found, piece)
        gaps = GAP.findall(piece) if b" gap " in piece else []
        for (channel, expected, count), times in Counter(gaps).items():
            row, lost = int(channel[3:]), (int(count) - int(expected)) % 256
            self.marks[row, "gap"][spot].lost += lost * times
            self.of_255 += (lost == 255) * times

    def _show(self) -> None:
        add = self._add_tm if self.kind == "tm" else self._add_tc
        for block in blocks("show", self.kind, self.recording, self.options):
            few = block.split(b"\n", MOST_CELLS + 2 - len(self.cells))[:-1]     # one more than a short one has
            self.cells += [cell_of(self.kind, line.decode()) for line in few]
            for stretch, piece in self._divided(block, BINS):
                skipped = piece.count(b" skip ")
                if skipped:
                    self.bins[NOT_READ, "skip"][stretch] += skipped
                add(stretch, piece)
        self._raise(self._flags, self._until, self.size)

    def _add_tm(self, stretch: int, piece: bytes) -> None:
        """Adds lines of `show tm` that lie in one stretch."""
        for (row, what), times in Counter(SHOWN_TM.findall(piece)).items():
            self.bins[int(row), what.decode()][stretch] += times
        words = CLCW.findall(piece) if b" clcw " in piece else []
        for (row, digits), times in Counter(words).items():
            word = int(digits, 16)
            key = int(row), word >> 18 & 63
            it = self.reports.get(key) or self.reports.setdefault(key, Reports(word))
            it.number += times
            it.flags[word & 0xF800] += times
        for row, digits in reversed([*dict.fromkeys(reversed(words))]):    # in the order of their last ones
            word = int(digits, 16)
            self.reports[int(row), word >> 18 & 63].last = word

    def _add_tc(self, stretch: int, piece: bytes) -> None:
        """Adds lines of `show tc` that lie in one stretch."""
        known, now, found = self._known, self._flags, SHOWN_TC.findall(piece)
        start, end = (self.offset_of(at) for at in (stretch, stretch + 1))
        self._raise(now, self._until, start)
        seen: Dict[int, int] = {}                         # flags that are set somewhere in it, by channel
        refused: List[Tuple[int, int]] = []
        changes = False                                   # of lockouts that are kept
        for line, times in Counter(found).items():
            it, numbers = known(line)
            numbers[stretch] += times
            seen[it.row] = seen.get(it.row, 0) | it.flags
            if it.what == "outside":
                changes = changes or len(self.lockouts) < MOST_LOCKOUTS
            elif it.row in self._locked:
                changes = changes or not it.flags & FLAGS["Lockout flag"]
                refused += [(it.row, times)] * (it.what == "refused")
        self._raise({**now, **seen}, start, end)
        self._until = end
        if changes:
            self._follow([known(line)[0] for line in found], piece)
        else:
            for row, times in refused:
                self._locked[row].refused += times
        for line in reversed(found):
            it, _ = known(line)
            if it.row in seen:
                del seen[it.row]
                self.farms[it.row], now[it.row] = it.digits, it.flags
                if not seen:
                    break

    def _command(self, line: bytes) -> Tuple[Command, List[int]]:
        """A TC frame by its line without the offset, and the numbers of frames of its row and class."""
        command = Command.of(line.decode())
        return command, self.bins[command.row, command.what]

    def _follow(self, commands: Sequence[Command], piece: bytes) -> None:
        """Follows the lockouts that are kept, frame by frame."""
        for it, start in zip(commands, OFFSET_TC.findall(piece)):
            if it.what == "outside" and len(self.lockouts) < MOST_LOCKOUTS:
                self._locked[it.row] = Lockout(it.row, int(start), it.number)
                self.lockouts.append(self._locked[it.row])
            elif it.row in self._locked:
                if it.what == "refused":
                    self._locked[it.row].refused += 1
                elif not it.flags & FLAGS["Lockout flag"]:
                    self._locked.pop(it.row).end = int(start)

    def _follow_cells(self) -> None:
        """Follows the flags of FARM-1 of a short recording, frame by frame."""
        self.bars.clear()
        now: Dict[int, int] = {}
        for cell, end in zip(self.cells, [*(cell.start for cell in self.cells[1:]), self.size]):
            now[cell.row] = cell.flags
            self._raise(now, cell.start, end)

    def _raise(self, flags: Dict[int, int], start: int, end: int) -> None:
        """Adds the octets between two offsets to those where these flags are set."""
        for row, those in flags.items() if start < end else ():
            for flag in (flag for flag, bit in FLAGS.items() if those & bit):
                bars = self.bars[row, flag]
                if bars and bars[-1][1] >= start:
                    bars[-1][1] = end
                else:
                    bars.append([start, end])


def offset_at(block: bytes, start: int) -> int:
    """The offset with which a line begins."""
    return int(block[start:block.index(b" ", start)])


def line_from(block: bytes, low: int, offset: int) -> int:
    """Where the first line stands, from a line on, that has this offset or a greater one."""
    high = len(block)
    while low < high:
        middle = block.rfind(b"\n", low, (low + high) // 2) + 1 or low
        if offset_at(block, middle) < offset:
            low = block.index(b"\n", middle) + 1
        else:
            high = middle
    return low


def keep_lines(wanted: Dict[bytes, Mark], found: Sequence[bytes], piece: bytes) -> None:
    """Keeps the first lines of marks. `found` has the word and the channel of each line."""
    for key, line in zip(found, piece.split(b"\n")):
        if key in wanted:
            mark = wanted[key]
            if not mark.lines:
                mark.offset = offset_at(line, 0)
            mark.lines.append(line.decode())
            if len(mark.lines) == ABOUT:
                del wanted[key]
                if not wanted:
                    break
