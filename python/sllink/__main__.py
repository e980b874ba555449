"""Counts the packets and octets of each channel and APID, and how often the packet sequence count isn't the one that
comes next.

    python3 -m sllink tm|tc RECORDING --scid N [OPTION..]

The options are those of sllink. Status: 0; 1 with one line on the standard error that asks whether the options are right,
where its listings say that they may be wrong; 2 with one line where the recording can't be read, or not more than once,
or changes meanwhile, or sllink refuses something or stops.

The program is $SLLINK, else `sllink` on the PATH, else the one installed with this module or built in the repository.
"""

from typing import List

from ._counts import counted
from ._questions import SILENT, questions
from ._survey import Survey
from .tool import Refused, State, about, complain, is_option, require_name, run, shown

NAME = "python3 -m sllink"


def main(words: List[str]) -> int:
    if len(words) < 2 or words[0] not in ("tm", "tc") or is_option(words[1]):
        raise Refused(f"usage: {NAME} tm|tc RECORDING --scid N [OPTION..]")
    kind, recording, *options = words
    require_name(recording)
    with about(recording):
        found = Survey(kind, recording, options, State(recording))
    for count in counted(found.tallies):
        print(count)
    asked = questions(found) or [SILENT] * (not found.packets)
    if asked:
        complain(NAME, f"{shown(recording)}: {' '.join(asked)}")
    return 1 if asked else 0


if __name__ == "__main__":
    run(NAME, main, __doc__)
