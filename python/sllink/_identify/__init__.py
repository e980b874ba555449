"""What a recording is, and how the program reads it, found out by what its octets show."""

import errno
import os
import shlex
import stat
from dataclasses import dataclass
from typing import List, Optional, Sequence, Tuple, Union

from .._options import Options, options_of


@dataclass(frozen=True)
class Identification:
    """What a recording is. str() gives the lines of sllink-identify, without the recording's name. `what` says it in
    some words, and `lines` what was found. If that is plain, `commands` are a shell's command lines: they write its
    frames, if need be, and check them, for each spacecraft, or unpack it; else `why` says why there are none. Where the
    program reads it as it is, `words` are kind and options, as in `tm --scid 1 --tm-length 1115`."""

    what: str
    lines: Tuple[str, ...] = ()
    words: Tuple[str, ...] = ()
    commands: Tuple[str, ...] = ()
    why: Optional[str] = None

    @property
    def kind(self) -> Optional[str]:
        """`tm` or `tc`, where the program reads the recording as it is."""
        return self.words[0] if self.words else None

    @property
    def options(self) -> Optional[Options]:
        """The options with which it reads it."""
        return options_of(self.words[1:]) if self.words else None

    def __str__(self) -> str:
        return "\n".join([self.what, *self.lines, *(self.commands if self.why is None else [f"can't say: {self.why}"])])


def identify(recording: Union[str, bytes, "os.PathLike[str]", "os.PathLike[bytes]"]) -> Identification:
    """Says what the recording of this path is. No program is run. OSError: it can't be read, or is no file."""
    from .choice import identification                    # pylint: disable=import-outside-toplevel
    name = os.fsdecode(recording)
    # a pipe that nobody writes into isn't waited for
    with open(name, "rb", buffering=0, opener=lambda path, flags: os.open(path, flags | os.O_NONBLOCK)) as file:
        about = os.fstat(file.fileno())
        if not stat.S_ISREG(about.st_mode) or not about.st_size and file.read(1):
            raise OSError(errno.ESPIPE, "is no file with a size", name)
        return identification(name, file.fileno())


def commands_of_both(one: Identification, other: Identification) -> List[str]:
    """The command lines that merge two recordings, if they are TM frames of one format, and compare them, by those that
    check them; or why there are none."""
    checks = [line[13:].partition(" < ") for it in (one, other) for line in it.commands if line[:13] == "sllink check "]
    if len(checks) != 2 or checks[0][0].split()[:3] != checks[1][0].split()[:3]:
        return ["can't say: these aren't two recordings of one spacecraft that sllink reads"]
    (first, _, one_name), (second, _, other_name) = checks
    (kind, *options), files = first.split(), f"{first[:2]} {one_name} {other_name}"
    merges = [f"sllink-merge {files} {' '.join(options)} > both.tm"] * (kind == "tm" and first == second)
    if first != second:
        options[2:] = [f"--{side}-options '{' '.join(it.split()[3:])}'" for side, it in (("a", first), ("b", second))]
    return [*merges, f"sllink-compare {files} {' '.join(options)}"]


def quoted(name: str, ending: str = "") -> str:
    """A name, with an ending, as bash has it: no option, and without what a terminal mustn't get."""
    name = "./" * name.startswith("-") + name + ending
    return shlex.quote(name) if name.isprintable() else "$'" + "".join(
        chr(it) if 32 <= it < 127 and it not in b"'\\" else f"\\{it:03o}" for it in os.fsencode(name)) + "'"


def frames_of(name: str, what: str, lines: List[str], words: Sequence[List[str]], why: str,
              pieces: Sequence[range] = (), begin: int = 0, program: str = "") -> Identification:
    """What is known of frames: the words with which each spacecraft's are read, or why there are none; the pieces in
    which they lie; where they begin, and the program that writes them, if they aren't all of a file."""
    if len(pieces) > 1:
        lines += [f"piece at {it.start} octets {len(it)}" for it in pieces[:20]]
        lines += [f"later pieces {len(pieces) - 20}"] * (len(pieces) > 20)
        why = why or f"frames shift: octets are missing, or too many, between {len(pieces)} pieces"
    if why:
        return Identification(what, tuple(lines), why=why)
    writes = [f"tail -c +{begin + 1}"] * (begin > 0) + [program] * bool(program)
    writes[:1] = [f"{it} {quoted(name)}" for it in writes[:1]]
    commands = [f"{' | '.join(writes)} > {quoted(name, '.frames')}"] * bool(writes)
    commands += [f"sllink check {' '.join(it)} < {quoted(name, '.frames' * bool(writes))}" for it in words]
    return Identification(what, tuple(lines), () if writes else tuple(words[0]), tuple(commands))
