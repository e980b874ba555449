"""Why a recording isn't read."""

import os
import re
from typing import Union

# The numbers that options of the program take, and virtual channels; and what each option takes, in words.
NUMBERS = {"scid": (0, 1023), "tm_length": (32, 2048), "tc_length": (16, 1024), "window": (2, 254), "vr": (0, 255),
           "limit": (1, (1 << 64) - 1)}
CHANNELS = (0, 63)
TAKEN = {f"--{name.replace('_', '-')}": f"a decimal number from {least} to {most}"
         for name, (least, most) in NUMBERS.items()}
TAKEN["--window"] = TAKEN["--window"].replace("a ", "an even ")
TAKEN["--plain"] = "virtual channels from {} to {}, rising, as in 5,6".format(*CHANNELS)
TAKEN["--vr-of"] = "virtual channels from {} to {}, each with its V(R) from {} to {}, rising, as in 0:12,5:57".format(
    *CHANNELS, *NUMBERS["vr"])
MANAGED = {"spacecraft": "--scid", "start": "--vr-of"}      # of the others the word is the option's name


def shown(name: Union[str, bytes]) -> str:
    """A name as it stands in a line: what is no printable text is escaped."""
    # an octet that is no text is a letter as \udcff
    letters = [it if it.isprintable() else ascii(it)[1:-1].replace("\\udc", "\\x") for it in os.fsdecode(name)]
    return "".join(letters) or "''"


class SllinkError(Exception):
    """The program refused something or stopped, or it isn't there.

    `status` is the status of the program: 2 where it refused something, 3 at a fault, also where `check` ends without
    totals, and 127 where there is no such program, or it isn't sllink; below 0 it is the number of the signal that
    ended it. `text` says why, in one line, where what isn't printable is escaped. A library has the same statuses and
    reasons. Options have status 2 where the program would refuse them.
    """

    def __init__(self, status: int, text: str) -> None:
        super().__init__(status, shown(text))
        self.status, self.text = status, shown(text)

    def __str__(self) -> str:
        return self.text


def explained(reason: str) -> str:
    """What the program says, and after it what the option takes that it refuses."""
    if reason == "too long":
        return f"{reason}; the recording has more octets than --limit"
    found = re.match(r"managed: (.+)|invalid value .* for '(--[a-z-]+)", reason)
    option = (found[2] or MANAGED.get(found[1], f"--{found[1].replace(' ', '-')}")) if found else ""
    return f"{reason}; {option} takes {TAKEN[option]}" if option in TAKEN else reason
