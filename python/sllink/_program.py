"""The programs as children: where they are, what they are given, and what they say."""

import contextlib
import os
import re
import shutil
import subprocess
import threading
from typing import Any, BinaryIO, Callable, Generator, Iterator, List, Optional, Sequence, Set, Tuple, Union

from ._fault import SllinkError, explained
from ._library import HERE, Library, Recording, next_of, require_open
from ._options import ASKS, Words, words_of

BUILT = os.path.normpath(os.path.join(HERE, "../../crates/sllink/out/sllink"))
INSTALLED = os.path.normpath(os.path.join(HERE, "../../../../bin/sllink"))
MOST_SAID = 65536                                            # octets that are kept of what the program says
MOST_VERSION = 64                                            # more than the version has
CHUNK = 1 << 16                                              # octets that are read from a pipe at once
BLOCK = 3 << 20                                              # octets of lines that are read together
VERSION = rb"%s \d+(\.\d+)*\n"                               # what a program answers to --version
TOTALS = re.compile(rb"frames \d+ skipped \d+ packets \d+ idle \d+ anomalies \d+\n")   # the last line of `check`

Path = Optional[Union[str, "os.PathLike[str]"]]
Program = Union[Path, Library]


def find_program(program: Path = None) -> str:
    """The program that is named, else $SLLINK, else sllink on the PATH, else the one that is installed with this module
    or built in its repository."""
    if program is not None:
        return os.fspath(program)
    there = [it for it in (INSTALLED, BUILT) if os.path.exists(it)]
    return os.environ.get("SLLINK") or shutil.which("sllink") or [*there, "sllink"][0]


def variable(name: str) -> str:
    """The variable that says where a program is."""
    return name.upper().replace("-", "_")


def find_beside(name: str, program: Path = None, sllink: Path = None) -> str:
    """A program beside sllink: the one that is named, else that of its variable, as $SLLINK_FRAMES, else the one in the
    folder of sllink, else the one that is installed with this module or built in its repository."""
    if program is not None:
        return os.fspath(program)
    crate = name.replace("-", "_")
    there = [os.path.join(os.path.dirname(it), name) for it in (shutil.which(find_program(sllink)), INSTALLED) if it]
    there.append(BUILT.replace("sllink/out/sllink", f"{crate}/out/{crate}"))
    return os.environ.get(variable(name)) or next(filter(os.path.exists, there), name)


_known: Set[Tuple[Any, ...]] = set()                         # programs that have answered with their names


def _started(name: str, command: List[str], **pipes: Any) -> Any:
    try:
        return subprocess.Popen(command, **pipes)            # pylint: disable=consider-using-with
    except (FileNotFoundError, NotADirectoryError, PermissionError):
        raise SllinkError(
            127, f"{command[0]}: there is no such program; ${variable(name)} says where it is") from None


def require_program(name: str, program: str) -> None:
    """Asks a program for its version at its first use, and refuses one that doesn't answer with this name. What another
    program says of a recording, or leaves unsaid, might look like an answer."""
    key: Tuple[Any, ...] = ()
    with contextlib.suppress(OSError):                       # starting it says why
        it = os.stat(shutil.which(program) or program)
        key = name, it.st_dev, it.st_ino, it.st_size, it.st_mtime_ns
    if key in _known:
        return
    with _started(name, [program, "--version"], stdin=subprocess.DEVNULL, stdout=subprocess.PIPE,
                  stderr=subprocess.DEVNULL) as child:
        try:
            said = child.stdout.read(MOST_VERSION)
            answered = len(said) < MOST_VERSION and child.wait() == 0 and re.fullmatch(VERSION % name.encode(), said)
        finally:
            child.kill()
    if not answered:
        where = f"${variable(name)} says where {name} is"
        raise SllinkError(127, f"{program}: isn't {name}, by its answer to --version; {where}")
    _known.add(key)


def require_words(name: str, words: Sequence[str]) -> None:
    """Refuses words that aren't such, or by which a program reads no recording."""
    for word in words:
        if not isinstance(word, str):
            raise TypeError(f"{word!r} is no word of a command line")
        if "\0" in word:
            raise SllinkError(2, f"{name}: {word!r}: no word has an octet 0")
        if ASKS(word):
            raise SllinkError(2, f"{name}: {word} is no option for a recording")


class Child:
    """A running program, whose standard output is `output`; `good` are the statuses at which it has done all that it was
    asked for. After the end `status` is its own, and `said` the beginning of what it said."""

    def __init__(self, name: str, program: str, words: List[str], recording: Recording,
                 good: Tuple[int, ...] = (0,)) -> None:
        require_words(name, words)
        require_program(name, program)
        self._name, self._good, self.status = name, good, 0
        self.said = self.last = b""
        self._fault: Optional[BaseException] = None          # of reading the recording
        recording = require_open(recording)
        source: Any = recording
        with contextlib.ExitStack() as opened:
            if hasattr(recording, "read"):
                source = subprocess.PIPE
            elif not isinstance(recording, int):
                source = opened.enter_context(open(source, "rb", buffering=0))
            self._child = _started(name, [program, *words], stdin=source, stdout=subprocess.PIPE, stderr=subprocess.PIPE,
                                   bufsize=CHUNK)
        self.output: BinaryIO = self._child.stdout
        if self._child.stdin:
            self._beside(self._feed, recording)
        self._listener = self._beside(self._listen)

    def _beside(self, target: Callable[..., None], *arguments: Any) -> threading.Thread:
        """A thread that does something beside the program."""
        thread = threading.Thread(target=target, args=arguments, daemon=True)
        try:
            thread.start()
        except RuntimeError as error:                        # there is no memory for it
            self.close()
            raise MemoryError(str(error)) from None
        return thread

    def _feed(self, recording: Any) -> None:
        """Writes the recording to the program, as it comes."""
        pipe = self._child.stdin
        try:
            for octets in iter(lambda: next_of(recording, CHUNK), b""):
                pipe.write(octets)
                pipe.flush()
        except BrokenPipeError:
            pass                                             # the program has ended, and its status says why
        except BaseException as fault:                       # pylint: disable=broad-except
            self._fault = fault
            self._child.kill()
        finally:
            with contextlib.suppress(OSError):
                pipe.close()

    def _listen(self) -> None:
        """Reads all that the program says, so that it never waits, and keeps the beginning."""
        try:
            with self._child.stderr as pipe:
                while octets := pipe.read1(1 << 16):
                    self.said += octets[:MOST_SAID - len(self.said)]
        except MemoryError as fault:
            self._fault = fault
            self._child.kill()

    def parts(self) -> Iterator[bytes]:
        """The output in parts, all but the last one of CHUNK octets, and then the end."""
        yield from iter(lambda: self.output.read(CHUNK), b"")
        self.end()

    def lines(self) -> Iterator[bytes]:
        """The lines of the output, and then the end. The last one is `last`, also where it is cut off."""
        for self.last in self.output:
            if self.last.endswith(b"\n"):                    # else the status says why
                yield self.last
        self.end()

    def end(self) -> None:
        """After the end of the output: raises where the program didn't come to the end of the recording."""
        self.status = status = self._child.wait()
        self._listener.join(10)
        self.output.close()
        if self._fault is not None:
            raise self._fault
        if status not in self._good:
            first, *rest = (" ".join(it.split()) for it in self.said.decode(errors="backslashreplace").split("\n\n"))
            reason = "; ".join([first, *(part for part in rest if part.startswith("tip: "))])
            reason = explained(re.sub(f"^(error: )?({self._name}: )?(--[ab]-options: )?", "", reason))
            raise SllinkError(status, f"{self._name}: {reason or 'status ' + str(status)}")

    def close(self) -> None:
        """Ends the program where it is."""
        self._child.kill()
        self._child.wait()
        self.output.close()


def _listing(verb: str, kind: str, recording: Recording, options: Words, program: Path = None) -> Child:
    """sllink, as it reads a recording."""
    words = [verb, kind, *words_of(options)]
    return Child("sllink", find_program(program), words, recording, (0, 1) if verb == "check" else (0,))


def _require_totals(verb: str, last: bytes) -> None:
    """The last line of `check`."""
    if verb == "check" and not TOTALS.fullmatch(last):
        raise SllinkError(3, "sllink: the totals are missing")


def lines(verb: str, kind: str, recording: Recording, options: Words, *,
          program: Program = None) -> Generator[str, None, None]:
    """The lines of a listing, without their line feeds, as they come; of a library all at once."""
    if verb == "normalise":
        raise SllinkError(2, "sllink: a normal form has no lines")
    if isinstance(program, Library):
        yield from program.text(verb, kind, recording, options).decode("ascii").splitlines()
        return
    with contextlib.closing(_listing(verb, kind, recording, options, program)) as child:
        for line in child.lines():
            yield line[:-1].decode("ascii")
        _require_totals(verb, child.last)


@contextlib.contextmanager
def output_of(verb: str, kind: str, recording: Recording, options: Words,
              program: Program = None) -> Iterator[Iterator[bytes]]:
    """A normal form in parts, or the lines of `packets`, of which there are many; of a library all at once."""
    if isinstance(program, Library):
        text = program.text(verb, kind, recording, options)
        yield iter([text] if verb == "normalise" else text.splitlines(keepends=True))
        return
    with contextlib.closing(_listing(verb, kind, recording, options, program)) as child:
        yield child.parts() if verb == "normalise" else child.lines()


def blocks(verb: str, kind: str, recording: Recording, options: Words) -> Iterator[bytes]:
    """The lines of a listing, with their line feeds, many of them together."""
    with contextlib.closing(_listing(verb, kind, recording, options)) as child:
        block = b""
        for block in iter(lambda: child.output.read(BLOCK) + child.output.readline(), b""):
            yield block[:block.rfind(b"\n") + 1]             # a rest is cut off, and the status says why
        child.end()
        _require_totals(verb, block[block.rfind(b"\n", 0, -1) + 1:])
