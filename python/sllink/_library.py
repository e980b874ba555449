"""The library libsllink.so, which reads recordings in this process."""

import errno
import os
import select
from dataclasses import replace
from functools import partial
from typing import Any, BinaryIO, Optional, Union

from ._fault import SllinkError, explained
from ._options import Options, Words

HERE = os.path.dirname(os.path.realpath(__file__))
BUILT = os.path.normpath(os.path.join(HERE, "../../out/libsllink.so"))
INSTALLED = os.path.normpath(os.path.join(HERE, "../../../../lib/libsllink.so.1"))

Recording = Union[str, bytes, "os.PathLike[str]", "os.PathLike[bytes]", int, BinaryIO]

DONE = 0
FAULTS = {6: "too long", 7: "memory"}


class Library:
    """libsllink.so in place of the program: as the keyword `program` of what reads recordings, but for `difference`.

        library = sllink.Library()
        same = sllink.same_packets("tm", "one.tm", "other.tm", options, program=library)

    The answers are those of the program, but whole: a recording is read to its end before the first line comes, and
    nothing comes before a fault. Recording and listing are in memory. Options are an Options. Several threads may use
    one Library at the same time.

    The library is the one of the path, else $SLLINK_LIBRARY, else the one that is installed with this module or built
    in its repository. OSError: it isn't there, or is no library.
    """

    def __init__(self, path: Optional[Union[str, "os.PathLike[str]"]] = None) -> None:
        self.path = os.fspath(path) if path is not None else (
            os.environ.get("SLLINK_LIBRARY") or (INSTALLED if os.path.exists(INSTALLED) else BUILT))
        from . import _calls                                 # pylint: disable=import-outside-toplevel
        self._as_c: Any = _calls                             # for ctypes, which not everybody wants
        self._calls: Any = _calls.loaded(self.path)

    def text(self, verb: str, kind: str, recording: Recording, options: Words) -> bytes:
        """What the program writes for a recording."""
        answer, text = self._as_c.text_of(self._call(verb, kind, options), octets_of(recording))
        _require(answer)
        return bytes(text)

    def same_packets(self, kind: str, a: Recording, b: Recording, options: Words) -> bool:
        """Whether two recordings deliver the same packets."""
        answer, same = self._as_c.same_of(self._call("same_packets", kind, options), octets_of(a), octets_of(b))
        _require(answer)
        return bool(same)

    def _call(self, verb: str, kind: str, options: Words) -> Any:
        """A call that has its options."""
        call = getattr(self._calls, f"sllink_{verb}_{kind}", None)
        if call is None or call.argtypes is None:
            raise SllinkError(2, f"sllink: {verb} {kind}: there is no such call")
        if not isinstance(options, Options):
            raise TypeError("the options of a library are an Options")
        # options are refused again where their mapping has changed
        return partial(call, self._as_c.managed_of(replace(options)))


def _require(answer: int) -> None:
    """Raises what the program would say in place of a text."""
    if answer != DONE:
        raise SllinkError(3, f"sllink: {explained(FAULTS.get(answer, f'answer {answer} of the library'))}")


def octets_of(recording: Recording) -> bytes:
    """All octets of a recording, from where it stands on."""
    source: Any = recording
    if not hasattr(source, "read"):
        require_open(source)
        with open(source, "rb", closefd=not isinstance(source, int)) as file:
            return octets_of(file)
    return b"".join(memoryview(part).tobytes() for part in iter(lambda: next_of(source), b""))


def require_open(recording: Recording) -> Recording:
    """The recording, or a file object for a descriptor that doesn't block: the program wouldn't wait for it. OSError: a
    descriptor isn't open, as one below 0, which calls take for something else. TypeError: it is True or False."""
    if isinstance(recording, bool):
        raise TypeError(f"a recording is a path, a file descriptor or a file object, and not {recording}")
    if isinstance(recording, int):
        os.fstat(recording if recording < 1 << 31 else -1)
        if not os.get_blocking(recording):
            return open(recording, "rb", buffering=0, closefd=False)
    return recording


def next_of(source: Any, *size: int) -> bytes:
    """What comes next of a file object, of at most a size where there is one; b"" at its end alone. One that doesn't
    block is waited for. BlockingIOError: it can't be, as it has no file descriptor."""
    try:
        octets: Optional[bytes] = source.read1(*size) if size and hasattr(source, "read1") else None
        while not octets:                                    # read1 may have b"" where nothing is there yet
            octets = source.read(*size)
            if octets is not None:
                return octets or b""
            waiting = select.poll()
            try:
                waiting.register(source, select.POLLIN)
            except (TypeError, OSError):
                raise BlockingIOError(errno.EAGAIN, "has nothing yet, and no descriptor to wait for") from None
            waiting.poll()
    except StopIteration as fault:                           # which iter() would take for the end
        raise RuntimeError("read() raised StopIteration") from fault
    return octets
