"""Where two recordings of a pass belong together: at the first frame that both have, or else at the first packet."""

import mmap
import re
from hashlib import blake2b
from itertools import islice
from typing import Dict, Iterator, Sequence, Tuple

from ._program import blocks, output_of
from .tool import about

MOST = 1 << 16                                            # frames, and packets, of a recording that are looked at
TRIED = 16                                                # packets that are looked for in the octets of both
# A line of `show`: its offset, and whether it is of a TM frame of packets, or of a TC frame of type AD or BD.
SHOWN = re.compile(rb"(\d+) (frame vc \d+ (?:mc \d+ vcc \d+ (?:first|none)|ad|bd)\b)?[^\n]*\n")


def first_of_both(kind: str, paths: Sequence[str], options: Sequence[Sequence[str]]) -> Tuple[int, int]:
    """The offsets of what both have, in the order of the second one; 0 and 0 where nothing is found."""
    seen: Dict[bytes, int] = {}
    for offset, octets in islice(_frames(kind, paths[0], options[0]), MOST):
        seen.setdefault(_digest(octets), offset)
    for offset, octets in islice(_frames(kind, paths[1], options[1]), MOST):
        there = seen.get(_digest(octets))
        if there is not None:
            return there, offset
    seen = dict.fromkeys(map(_digest, islice(_packets(kind, paths[0], options[0]), MOST)), 0)
    both = (line for line in islice(_packets(kind, paths[1], options[1]), MOST) if _digest(line) in seen)
    for line in islice(both, TRIED):
        found = [_place(path, bytes.fromhex(line.split()[-1].decode())) for path in paths]
        if min(found) >= 0:                               # it isn't where a packet lies in several frames
            return found[0], found[1]
    return 0, 0


def _frames(kind: str, path: str, options: Sequence[str]) -> Iterator[Tuple[int, bytes]]:
    """Frames that carry packets, by their offsets, without the error control field."""
    cut = -2 if f"--{kind}-fecf" in options else None
    before = -1                                           # the offset of one that hasn't ended yet
    with about(path), open(path, "rb") as file:
        for block in blocks("show", kind, path, options):
            for offset, wanted in SHOWN.findall(block):
                if before >= 0:
                    file.seek(before)
                    yield before, file.read(int(offset) - before)[:cut]
                before = int(offset) if wanted else -1
        if before >= 0:
            file.seek(before)
            yield before, file.read()[:cut]


def _packets(kind: str, path: str, options: Sequence[str]) -> Iterator[bytes]:
    """The lines of `packets`."""
    with about(path), output_of("packets", kind, path, options) as listing:
        yield from listing


def _digest(octets: bytes) -> bytes:
    return blake2b(octets, digest_size=8).digest()


def _place(path: str, octets: bytes) -> int:
    """Where these octets are first, or -1."""
    with open(path, "rb") as file, mmap.mmap(file.fileno(), 0, access=mmap.ACCESS_READ) as found:
        return found.find(octets)
