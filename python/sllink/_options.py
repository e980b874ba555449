"""The options of the program."""

import operator
import re
from dataclasses import dataclass, field, fields
from typing import Any, Dict, List, Mapping, Sequence, Tuple, Union

from ._fault import CHANNELS, NUMBERS, TAKEN, SllinkError

FLAGS = ("tm_fecf", "tc_fecf")
ASKS = re.compile("-[hV]|--(help|version)$").match           # words by which the program reads no recording


@dataclass(frozen=True)
class Options:
    """The managed parameters of a recording, with the names and the defaults of the program's options.

    SllinkError, with status 2: an option isn't one that the program takes. Numbers are integers, flags True or False.
    """

    scid: int
    tm_length: int = 1115
    tc_length: int = 1024
    tm_fecf: bool = False
    tc_fecf: bool = False
    window: int = 10
    vr: int = 0
    vr_of: Mapping[int, int] = field(default_factory=dict, hash=False)
    plain: Sequence[int] = ()
    limit: int = 1073741824

    def __post_init__(self) -> None:
        for it in fields(self):
            value = getattr(self, it.name)
            try:
                object.__setattr__(self, it.name, _taken(it.name, value))
            except (TypeError, ValueError):
                takes = TAKEN.get(f"--{it.name.replace('_', '-')}", "True or False").partition(", rising")[0]
                takes = takes.replace("a decimal number", "an integer").replace("decimal number", "integer")
                raise SllinkError(2, f"sllink: {it.name}={_shown(value)}; {it.name} takes {takes}") from None

    def words(self) -> List[str]:
        """The words of the command line that say the same."""
        words = [f"--{name.replace('_', '-')}={getattr(self, name)}" for name in NUMBERS]
        words += [f"--{name.replace('_', '-')}" for name in FLAGS if getattr(self, name)]
        if self.vr_of:
            words.append("--vr-of=" + ",".join(f"{vc}:{vr}" for vc, vr in sorted(self.vr_of.items())))
        if self.plain:
            words.append("--plain=" + ",".join(map(str, sorted(set(self.plain)))))
        return words


def _taken(name: str, value: Any) -> Any:
    """The value of an option, if the program takes it. TypeError or ValueError: it doesn't."""
    if name in FLAGS:
        if not isinstance(value, bool):
            raise TypeError
        return value
    if name in ("vr_of", "plain"):
        if isinstance(value, (str, bytes, bytearray)) or name == "plain" and isinstance(value, Mapping):
            raise TypeError
        items = [*(dict(value).items() if hasattr(value, "keys") else value)]
        taken: Any = tuple(_integer(vc, CHANNELS) for vc in items) if name == "plain" else {
            _integer(vc, CHANNELS): _integer(vr, NUMBERS["vr"]) for vc, vr in items}
        if len({*taken}) < len(items):                       # a channel comes twice
            raise ValueError
        return taken
    number = _integer(value, NUMBERS[name])
    if name == "window" and number % 2:
        raise ValueError
    return number


def _shown(value: Any) -> str:
    """A value as Python writes it, if it does."""
    try:
        return repr(value)
    except ValueError:
        return "an integer that is too long to be written"


def _integer(value: Any, taken: Tuple[int, int]) -> int:
    """An integer in this range. A truth value is none."""
    number = operator.index(value)
    if isinstance(value, bool) or not taken[0] <= number <= taken[1]:
        raise ValueError
    return number


NAMES = {f"--{it.name.replace('_', '-')}" for it in fields(Options)}
Words = Union[Options, Sequence[str]]


def options_of(words: Words) -> Options:
    """Options as they stand on a command line that the program takes."""
    if isinstance(words, Options):
        return words
    found: Dict[str, Any] = {"scid": 0}
    rest = iter(words)
    for word in rest:
        option, equals, value = word.partition("=")
        name = option[2:].replace("-", "_")
        value = value if equals or name in FLAGS else next(rest, "")
        if name in FLAGS:
            found[name] = True
        elif name in NUMBERS:
            found[name] = int(value)
        elif name == "vr_of":
            found[name] = {int(vc): int(vr) for vc, _, vr in (it.partition(":") for it in value.split(","))}
        elif name == "plain":
            found[name] = list(map(int, value.split(",")))
    return Options(**found)


def words_of(options: Words) -> List[str]:
    if isinstance(options, Options):
        return options.words()
    if isinstance(options, (str, bytes)):
        raise TypeError("options are an Options or a sequence of words, no text")
    return list(options)
