"""What the tools share: how they begin and end, and how they name things in a line.

A tool's `main(words)` returns its status. It raises Refused with the reason where it can't do what is asked.
"""

import contextlib
import errno
import os
import resource
import signal
import stat
import subprocess
import sys
import time
from collections import deque
from typing import Any, Callable, Dict, Iterable, Iterator, List, NoReturn, Optional, Tuple

from . import __version__
from ._fault import SllinkError, shown as shown              # pylint: disable=useless-import-alias
from ._options import ASKS, NAMES

# All that ends a process, but SIGKILL and faults of its own; two of them come of limits on processor time.
STOPS = signal.valid_signals() - {
    signal.SIGKILL, signal.SIGSTOP, signal.SIGTSTP, signal.SIGTTIN, signal.SIGTTOU, signal.SIGCONT, signal.SIGCHLD,
    signal.SIGURG, signal.SIGWINCH, signal.SIGSEGV, signal.SIGBUS, signal.SIGFPE, signal.SIGILL}
SPARE = 0.5                                               # seconds of processor time to end in, before SIGKILL


class Refused(Exception):
    """Why the tool can't do what is asked, in a line; its status is 2."""


def require_file(path: str) -> None:
    """Refuses what can't be read; what is no file, as a pipe; and files of the system, which have octets and no size:
    some of them never end."""
    try:
        mode, size = os.stat(path).st_mode, os.stat(path).st_size
    except (OSError, ValueError) as error:
        raise Refused(f"{shown(path)}: {reason_of(error)}") from None
    if stat.S_ISDIR(mode):
        raise Refused(f"{shown(path)}: is a folder")
    if not stat.S_ISREG(mode):
        raise Refused(f"{shown(path)}: is no file that can be read more than once")
    if not os.access(path, os.R_OK):
        raise Refused(f"{shown(path)}: can't be read: {os.strerror(errno.EACCES)}")
    if not size:
        with contextlib.suppress(OSError), open(os.open(path, os.O_RDONLY | os.O_NONBLOCK), "rb", buffering=0) as file:
            if file.read(1) != b"":
                raise Refused(f"{shown(path)}: is no file with a size, but one of the system")


def reason_of(error: BaseException) -> str:
    """The cause of a fault, in words."""
    if isinstance(error, FileNotFoundError):
        return "there is no such file"
    if isinstance(error, IsADirectoryError):
        return "is a folder"
    return getattr(error, "strerror", None) or str(error)


class State:
    """Which file a recording is, and when it changed, before it is read, for what reads it more than once."""

    def __init__(self, recording: str) -> None:
        require_file(recording)
        self.recording, self._file = recording, os.stat(recording)
        self.size = self._file.st_size

    def require_unchanged(self) -> None:
        """Refuses a recording that is another file now, has another size, or was written since."""
        now, before = os.stat(self.recording), self._file
        if now.st_size != self.size or now.st_mtime_ns != before.st_mtime_ns or now.st_ctime_ns != before.st_ctime_ns \
                or not os.path.samestat(now, before):
            raise Refused(f"{shown(self.recording)}: has changed while it was read")


def is_option(word: str, own: Iterable[str] = ()) -> bool:
    """Whether a word is an option of the program or of a tool, which may have its value."""
    return word.partition("=")[0] in {*NAMES, *own}


def require_name(word: str) -> None:
    """Refuses a recording whose name begins like an option."""
    if word.startswith("-"):
        raise Refused(f"{word}: is no option; a recording of this name is ./{word}")


@contextlib.contextmanager
def about(recording: str) -> Iterator[None]:
    """Says of which recording the program says something, but where it refuses options."""
    try:
        yield
    except SllinkError as error:
        if error.status in (2, 127):
            raise
        raise Refused(f"{shown(recording)}: {error.text}") from None


def identified(recording: str) -> str:
    """What the sllink-identify beside this tool says of a recording, in some words; nothing where it can't be asked."""
    what, *lines = _identify(recording) or ["", ""]
    if lines[-1].startswith("sllink check ") and not any(">" in line for line in lines):
        what += f", read with {lines[-1][13:].partition(' < ')[0]}"
    telling = ("secondary header ", "can't say: ")
    return "; ".join([what, *(line.replace("can't say: frames shift", "frames shift") for line in lines
                              if line.startswith(telling))])


def _identify(recording: str) -> List[str]:
    """The lines of the sllink-identify that lies beside this tool, without the name; none where it can't be asked."""
    beside = os.path.join(os.path.dirname(os.path.realpath(sys.argv[0])), "sllink-identify")
    try:
        asked = subprocess.run([beside, "--", recording], stdin=subprocess.DEVNULL, stdout=subprocess.PIPE,
                               stderr=subprocess.DEVNULL, check=False)
    except OSError:
        return []
    lines = os.fsdecode(asked.stdout)[len(shown(recording)) + 2:].splitlines()
    return lines if asked.returncode in (0, 1) and len(lines) > 1 else []


def divided(words: List[str], valued: Dict[str, str]) -> Tuple[List[str], Dict[str, List[str]]]:
    """The words without a tool's options that have a value, and the values of these; `valued` has what each wants."""
    # not by argparse, which refuses `--a-options --tm-fecf`, as a value begins with a dash there
    others: List[str] = []
    own: Dict[str, List[str]] = {name: [] for name in valued}
    rest = deque(words)
    while rest:
        name, equals, value = (word := rest.popleft()).partition("=")
        if name not in valued:
            others.append(word)
        elif equals or rest:
            own[name].append(value if equals else rest.popleft())
        else:
            raise Refused(f"{name} wants {valued[name]}")
    return others, own


def own_options(name: str, texts: List[str]) -> List[str]:
    """The words of the options that an option of a tool has for one recording: its texts, split at spaces."""
    words = [word for text in texts for word in text.split(" ") if word]
    for asked in filter(ASKS, words):
        raise Refused(f"{name}: {asked} is no option for a recording")
    return words


def complain(name: str, text: str) -> None:
    """A line on the standard error. That it can't be written changes nothing."""
    with contextlib.suppress(OSError):
        print(f"{name}: {shown(text)}", file=sys.stderr, flush=True)


class Stopped(SystemExit):
    """A signal, its code, stops the tool."""


def run(name: str, main: Callable[[List[str]], int], text: Optional[str]) -> NoReturn:
    """Runs a tool, or prints its help, the text, or its version, and ends with its status. It is 2, with a line on the
    standard error, where it is refused or at a fault; 2 and no line where whoever reads its output goes away, or a
    signal stops it."""
    try:
        for number in STOPS:
            if signal.getsignal(number) != signal.SIG_IGN:   # as nohup has it
                signal.signal(number, _stop)
        _, hard = resource.getrlimit(resource.RLIMIT_CPU)
        if 0 <= hard < 1 << 31:                              # seconds, and then SIGKILL would come
            signal.setitimer(signal.ITIMER_PROF, max(hard - SPARE - time.process_time(), SPARE / 10))
        status = _status(name, main, text or "")
        sys.stdout.flush()
    except (OSError, Stopped) as why:
        status = 2
        if isinstance(why, Stopped) and why.code in (signal.SIGPROF, signal.SIGXCPU):
            complain(name, "there is not enough processor time")
        # what can't be written any more, or isn't wanted, isn't tried again as Python ends, which nothing breaks off
        for number in STOPS:
            signal.signal(number, signal.SIG_IGN)
        os.dup2(os.open(os.devnull, os.O_WRONLY), 1)
    sys.exit(status)


def _status(name: str, main: Callable[[List[str]], int], text: str) -> int:
    try:
        _streams(name)
        words = sys.argv[1:]
        asked = words[:words.index("--")] if "--" in words else words      # a word after -- is a name
        status = 0
        if "-h" in asked or "--help" in asked:
            print(text.strip())
        elif "-V" in asked or "--version" in asked:
            print(f"{name} {__version__}")
        else:
            status = main(words)
        sys.stdout.flush()
        return status
    except BrokenPipeError:
        return 2
    except (MemoryError, OSError) as error:
        if isinstance(error, MemoryError) or error.errno == errno.ENOMEM:
            said = "there is not enough memory"
        elif error.errno in (errno.EMFILE, errno.ENFILE):
            said = "there are too many open files"
        else:
            said = f"{'output' if error.filename is None else shown(error.filename)}: {reason_of(error)}"
    except (Refused, SllinkError) as reason:
        said = str(reason)
    except Exception as error:                               # pylint: disable=broad-except
        # a fault of the tool itself; its status mustn't be 1, which may be an answer
        said = f"{type(error).__name__}: {error}"
    complain(name, said)
    return 2


def _streams(name: str) -> None:
    """Streams that are closed: without a standard output there is nothing to do, the others are /dev/null."""
    # pylint: disable=consider-using-with
    sys.stdin = sys.stdin or open(os.devnull)                # as the descriptor that is free
    sys.stderr = sys.stderr or open(os.devnull, "w")
    if sys.stdout is None:
        complain(name, f"output: {os.strerror(errno.EBADF)}")
        sys.exit(2)
    # with escapes for letters that its encoding lacks, and a buffer, also with PYTHONUNBUFFERED: else a write that
    # takes a part of the octets would go for a whole one
    sys.stdout = open(1, "w", encoding=sys.stdout.encoding, errors="backslashreplace", closefd=False)


def _stop(which: int, _: Any) -> NoReturn:
    # a second signal mustn't break off what the first one ends. It isn't SIG_IGN yet: of a signal that has come already
    # Python would say that it is ignored
    for number in STOPS:
        signal.signal(number, lambda *_: None)
    raise Stopped(which)
