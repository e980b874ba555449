"""What the module is for: frames, anomalies and packets of a recording, and normal forms."""

import errno
import io
import os
import re
from contextlib import ExitStack, closing
from itertools import chain, zip_longest
from typing import Any, BinaryIO, ContextManager, Generator, Iterator, List, Literal, Optional, Union, overload

from ._difference import SAME, compared
from ._fault import SllinkError
from ._library import Library, Recording
from ._options import Words, words_of
from ._program import Child, Path, Program, find_beside, lines, output_of
from ._records import Anomaly, Packet, Remainder, Run, Skip, StationTotals, TcFrame, TmFrame, Totals
from ._records import anomaly_of, frame_of, packet_of

Output = Union[str, bytes, "os.PathLike[str]", BinaryIO]


@overload
def frames(kind: Literal["tm"], recording: Recording, options: Words, *,
           program: Program = None) -> Generator[Union[TmFrame, Skip, Remainder], None, None]: ...


@overload
def frames(kind: Literal["tc"], recording: Recording, options: Words, *,
           program: Program = None) -> Generator[Union[TcFrame, Skip, Remainder], None, None]: ...


@overload
def frames(kind: str, recording: Recording, options: Words, *,
           program: Program = None) -> Generator[Union[TmFrame, TcFrame, Skip, Remainder], None, None]: ...


def frames(kind: str, recording: Recording, options: Words, *, program: Program = None) -> Any:
    """The frames of a recording in their order, those that are skipped too, and what is left after the last one."""
    with closing(lines("show", kind, recording, options, program=program)) as listing:
        for line in listing:
            yield frame_of(kind, line)


class Anomalies(Iterator[Anomaly], ContextManager["Anomalies"]):
    """The anomalies of a recording in their order. `totals` reads on to the end, if that isn't reached, and gives the
    totals."""

    def __init__(self, kind: str, recording: Recording, options: Words, program: Program = None) -> None:
        self._lines: Any = lines("check", kind, recording, options, program=program)
        self._totals: Optional[Totals] = None

    def __next__(self) -> Anomaly:
        for line in self._lines:
            it = anomaly_of(line)
            if isinstance(it, Anomaly):
                return it
            self._totals = it
        raise StopIteration

    @property
    def totals(self) -> Totals:
        """The last line of `check`."""
        for _ in self:
            pass
        if self._totals is None:
            raise SllinkError(3, "sllink: the totals are missing")
        return self._totals

    def close(self) -> None:
        """Ends the program where it is."""
        self._lines.close()

    def __exit__(self, *_: Any) -> None:
        self.close()


def anomalies(kind: str, recording: Recording, options: Words, *, program: Program = None) -> Anomalies:
    """The anomalies of a recording, and its totals."""
    return Anomalies(kind, recording, options, program)


def packets(kind: str, recording: Recording, options: Words, *,
            program: Program = None) -> Generator[Packet, None, None]:
    """The packets that the frames of a recording deliver, idle ones left out."""
    with closing(lines("packets", kind, recording, options, program=program)) as listing:
        for line in listing:
            yield packet_of(line)


def normal_form(kind: str, recording: Recording, output: Output, options: Words, *, program: Program = None) -> None:
    """Writes the normal form of a recording into a file, which is made anew, or to a binary file object. Where the
    program refuses something or stops while it reads, nothing is written, and a file that is there stays as it is."""
    require_output(output)
    with output_of("normalise", kind, recording, options, program) as form:
        write_parts(form, output)


def station_frames(recording: Recording, output: Output, *, length: Optional[int] = None, marker: bytes = b"",
                   errors: int = 0, lead: int = 0, trail: int = 0, cltu: bool = False, derandomise: bool = False,
                   program: Path = None) -> StationTotals:
    """Writes the frames of a station's file, by the program sllink-frames, whose options these are: `cltu`, or a `length`
    and what stands around each frame. They go into a file, which is made anew, or to a binary file object. Where the
    program refuses an option nothing is written, and at a fault the beginning is. The program is the one that is named,
    else $SLLINK_FRAMES, else the one beside sllink."""
    require_output(output)
    options = {"length": length, "marker": marker.hex() or None, "errors": errors or None, "lead": lead or None,
               "trail": trail or None}
    words = [f"--{name}={value}" for name, value in options.items() if value is not None]
    words += ["--cltu"] * cltu + ["--derandomise"] * derandomise
    name = "sllink-frames"
    with closing(Child(name, find_beside(name, program), words, recording, (0, 1))) as child:
        write_parts(child.parts(), output)
    numbers = re.fullmatch(rb"frames (\d+) wrong-markers (\d+) skipped-octets (\d+) refused-blocks (\d+) "
                           rb"cut-octets (\d+)\n", child.said)
    if not numbers:
        raise SllinkError(3, f"{name}: the counts are missing")
    return StationTotals(*map(int, numbers.groups()), child.status)


def require_output(output: Output) -> None:
    if isinstance(output, int):
        raise TypeError(f"what is written goes to a path or a binary file object: {output!r}")


def write_parts(parts: Iterator[bytes], output: Output) -> None:
    """Writes what comes; nothing where it ends with a fault before the first part."""
    first = next(parts, b"")
    with ExitStack() as opened:
        file: Any = output if hasattr(output, "write") else opened.enter_context(open(output, "wb"))
        for octets in chain([first], parts):
            _write(octets, file)


def _write(octets: bytes, file: BinaryIO) -> None:
    left = memoryview(octets)
    while left:
        written = file.write(left)                           # a raw file may take a part of them
        if written is None and isinstance(file, io.RawIOBase):
            raise BlockingIOError(errno.EAGAIN, "takes nothing more yet")
        left = left[len(left) if written is None else written:]


def same_packets(kind: str, a: Recording, b: Recording, options: Words, b_options: Optional[Words] = None, *,
                 program: Program = None) -> bool:
    """Whether two recordings deliver the same packets on each virtual channel, and MAP, in the same order, idle ones
    left out. Whether the options fit the recordings isn't looked at: one that is read with wrong options may deliver
    nothing, or something else. So look at its anomalies first, or ask sllink-compare.

    Read with the same options, the normal forms are compared, octet by octet. Where the second one has options of its
    own, sllink-compare has the answer, or of a library its lines of packets, since a normal form depends on the options
    too.
    """
    if b_options is not None and words_of(b_options) != words_of(options):
        if isinstance(program, Library):
            one, other = (_by_channel(program.text("packets", kind, *it)) for it in ((a, options), (b, b_options)))
            return one == other
        with compared(kind, (a, b), (options, b_options), find_beside("sllink-compare", None, program)) as (answer, _):
            return answer == SAME
    if isinstance(program, Library):
        return program.same_packets(kind, a, b, options)
    with output_of("normalise", kind, a, options, program) as here, \
            output_of("normalise", kind, b, options, program) as there:
        return all(it == its for it, its in zip_longest(here, there))


def _by_channel(listing: bytes) -> List[bytes]:
    """The lines of `packets`, in the order of each channel."""
    return sorted(listing.splitlines(), key=lambda line: line.partition(b" apid ")[0])


def difference(kind: str, a: Recording, b: Recording, options: Words, b_options: Optional[Words] = None, *,
               program: Path = None) -> Generator[Run, None, None]:
    """The packets that only one of two recordings has, in runs of the packet sequence count, as sllink-compare lists
    them; nothing where both have the same packets, in whatever order. Whether the options fit the recordings isn't
    looked at. The program is the one that is named, else $SLLINK_COMPARE, else the one beside sllink.

    Both are read before the first run comes. A recording that is no file goes through a temporary one.
    """
    if isinstance(program, Library):
        raise TypeError("a library has no call for what only one recording has")
    with compared(kind, (a, b), (options, options if b_options is None else b_options), program) as (_, runs):
        yield from runs
