"""Two recordings compared by the program sllink-compare."""

import contextlib
import os
import stat
import tempfile
from itertools import islice
from typing import Any, Dict, Iterator, List, Sequence, Tuple

from ._check_words import CHECK_WORDS
from ._counts import Key
from ._fault import SllinkError
from ._library import Recording, next_of, require_open
from ._options import Words, words_of
from ._program import CHUNK, Child, Path, find_beside, require_words
from ._records import Run, run_of

NAME = "sllink-compare"
ALLOWED = ",".join([*CHECK_WORDS, "options", "nothing", "most"])     # all that it asks
MOST_RUNS = 200                                           # that are kept of what one recording lacks
SAME, REORDERED, DIFFERENT = b"same packets\n", b"same packets in another order\n", b"different packets: "


@contextlib.contextmanager
def compared(kind: str, recordings: Sequence[Recording], options: Sequence[Words],
             program: Path = None) -> Iterator[Tuple[bytes, Iterator[Run]]]:
    """How two recordings compare, each with its options: SAME, REORDERED or DIFFERENT, and the runs of what only one of
    them has."""
    own = [_text_of(words_of(words)) for words in options]
    with contextlib.ExitStack() as kept:
        paths = [path_of(recording, kept) for recording in recordings]
        words = [kind, *paths, f"--a-options={own[0]}", f"--b-options={own[1]}", f"--allow={ALLOWED}"]
        child = Child(NAME, find_beside(NAME, program), words, os.devnull, (0, 1))
        lines = kept.enter_context(contextlib.closing(child)).lines()
        said = next(islice(lines, 2, None), b"")             # after the totals of both
        answer = next((it for it in (SAME, REORDERED) if it == said), DIFFERENT)
        if not said.startswith(answer):
            raise SllinkError(3, f"{NAME}: the answer is missing")
        yield answer, (run_of(line.decode("ascii")) for line in lines)


def _text_of(words: Sequence[str]) -> str:
    """The words of the options of one recording, as the program cuts them at spaces."""
    require_words(NAME, words)
    for word in words:
        if word.split() != [word]:
            raise SllinkError(2, f"{NAME}: {word!r}: an option has no spaces")
    return " ".join(words)


def path_of(recording: Recording, kept: contextlib.ExitStack) -> str:
    """A path by which the program can open a recording: its own, if it is a file; else that of a temporary file, which
    gets what the recording has from where it stands on."""
    source: Any = require_open(recording)
    if not hasattr(source, "read"):
        source = kept.enter_context(open(source, "rb", buffering=0, closefd=not isinstance(source, int)))
        if not isinstance(recording, int) and stat.S_ISREG(os.fstat(source.fileno()).st_mode) and os.fstat(
                source.fileno()).st_size:
            path = os.path.abspath(os.fsdecode(recording))   # type: ignore[arg-type]
            if path.isprintable():
                return path
            link = os.path.join(kept.enter_context(tempfile.TemporaryDirectory(prefix="sllink-")), "recording")
            os.symlink(path, link)                           # as of what is no UTF-8, which the program refuses
            return link
    file = kept.enter_context(tempfile.NamedTemporaryFile(prefix="sllink-"))
    for octets in iter(lambda: next_of(source, CHUNK), b""):
        file.write(octets)
    file.flush()
    return file.name


class Missing:
    """The packets that another recording lacks, and the first runs of these, of how many."""

    def __init__(self) -> None:
        self.packets = self.number = 0
        self.runs: List[Run] = []


class Lacks:
    """What each of two recordings has that the other one lacks, as sllink-compare lists it."""

    def __init__(self, kind: str, recordings: Sequence[str], options: Sequence[Sequence[str]]) -> None:
        self.only = Missing(), Missing()
        self.each: Dict[Key, List[int]] = {}              # packets that only one has, and those that only the other has
        with compared(kind, recordings, options) as (answer, runs):
            self.same, self.reordered = answer == SAME, answer == REORDERED
            for run in runs:
                side, key = "<>".index(run.side), (run.vc, -1 if run.map is None else run.map, run.apid)
                its = self.only[side]
                its.packets += run.packets
                its.number += 1
                its.runs += [run] * (len(its.runs) < MOST_RUNS)
                self.each.setdefault(key, [0, 0])[side] += run.packets
