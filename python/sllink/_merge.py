"""Recordings of one pass merged by the program sllink-merge."""

import os
import re
from contextlib import ExitStack, closing
from itertools import zip_longest
from typing import Iterable, List

from ._difference import path_of
from ._fault import SllinkError
from ._library import Recording
from ._options import Words, words_of
from ._program import Child, Path, find_beside
from ._read import Output, require_output, write_parts
from ._records import Merge, MergeSide, MergeTurn

NAME = "sllink-merge"
SIDE = re.compile(rb"(?:.*): frames (\d+) only-here (\d+) skipped (\d+) repeats (\d+) left-out (\d+) rest (\d+) packets (\d+)")
MERGED = re.compile(rb"merge: frames (\d+) in-both (\d+) packets (\d+) outages (\d+) open (\d+) undecided (\d+) idle (\d+)")


def merge(kind: str, recordings: Iterable[Recording], output: Output, options: Words, *, program: Path = None) -> Merge:
    """Merges recordings of one pass, frame by frame, by the program sllink-merge, and writes the merge into a file, which
    is made anew, or to a binary file object. Where the program finds no merge or refuses something nothing is written,
    and a file that is there stays as it is. What is no file is copied into a temporary one first. The program is the one
    that is named, else $SLLINK_MERGE, else the one beside sllink."""
    require_output(output)
    with ExitStack() as kept:
        paths = [path_of(recording, kept) for recording in recordings]
        words = [kind, *words_of(options), *paths]
        child = Child(NAME, find_beside(NAME, program), words, os.devnull, (0, 1))
        write_parts(kept.enter_context(closing(child)).parts(), output)
        return Merge(tuple(_turns_of(child.said)), child.status)


def _turns_of(said: bytes) -> List[MergeTurn]:
    """The turns, of three lines each."""
    lines = said.splitlines()
    turns = []
    for first, second, merged in zip_longest(*[iter(lines)] * 3, fillvalue=b""):
        sides = SIDE.fullmatch(first), SIDE.fullmatch(second)
        found = MERGED.fullmatch(merged)
        if not (sides[0] and sides[1] and found):
            raise SllinkError(3, f"{NAME}: the counts are missing")
        one, other = (MergeSide(*map(int, it.groups())) for it in sides if it)
        turns.append(MergeTurn(one, other, *map(int, found.groups())))
    if not turns:
        raise SllinkError(3, f"{NAME}: the counts are missing")
    return turns
