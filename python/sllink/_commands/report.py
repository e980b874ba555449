"""Writes a page of a pass, or of two recordings and what each of them lacks. It is one HTML file without a
script, of at most 3 MB.

    sllink-report tm|tc A [B] --scid N [OPTION..] [--a-options TEXT] [--b-options TEXT] > PAGE.html

A and B are recordings, and OPTION are options of sllink for both.

    --a-options TEXT  Options of sllink for A alone, in TEXT, which is split at spaces
    --b-options TEXT  Options of sllink for B alone
    -h, --help        Print help
    -V, --version     Print the version

The page has, of each recording: a sentence on it, with a question where an option may be wrong; its picture; its
virtual channels, with gaps and missing counts; of an uplink what FARM-1 makes of the frames, and its state at the end;
its packets by APID; how many lines of each word `check` has, and the first 200 of them; its totals, its octets and
their SHA-256.

The picture has a row for each virtual channel, over the octets of the recording. A cell is a frame. Its colour is the
class of a TM frame, and in it stands the virtual channel frame count; or its colour is what FARM-1 makes of a TC frame,
and in it stands N(S) or the command. Skipped frames, and the octets after the last frame, have a row of their own.
Above a row there are marks for gaps, dropped packets and what else `check` has for the channel; beside the mark of a
gap stands how many frames are lost. At the end of a row stands the sum of its lost frames, and what is incomplete at
the end. Below a row there are bars where the Lockout flag or the Retransmit flag of FARM-1 is set. With more than 480
frames a cell is several of them, divided by what they are; the fullest cell of a row has the whole height of the row. A
browser shows the lines of `show` and `check`, or their numbers, where the mouse is.

Of two recordings it has the pictures one under the other, so that the first frame or packet that both have stands at
one place, and the packets that each lacks and the other has: by APID, and in runs of the sequence count, as `vc 0 apid
100 counts 193..199 packets 7`, the first 200 of each. They are those that sllink-compare lists.

Status: 0 where a page is written, whatever it says; 2 with one line on the standard error, and no page or the beginning
of one. Where whoever reads the output goes away, or SIGINT, SIGTERM or SIGHUP stops the tool, the status is 2 without a
line. A recording is read more than once, so it has to be a file. A name that begins with `-` is given as ./-NAME.

Example: two stations, of which the second strips the error control field:

    sllink-report tm a.tm b.tm --scid 1 --a-options --tm-fecf \\
        --b-options '--tm-length 1113' > both.html

The program is $SLLINK, else `sllink` on the PATH, else the one installed with this tool or built in the repository.
"""

import sys
from itertools import takewhile
from typing import List

from .._report import report_of_one, report_of_two
from ..tool import Refused, divided, is_option, own_options, require_file, require_name

OWN = ("--a-options", "--b-options")


def main(words: List[str]) -> int:
    recordings = list(takewhile(lambda word: not is_option(word, OWN), words[1:]))
    for recording in recordings:
        require_name(recording)
    if not 1 <= len(recordings) <= 2 or words[0] not in ("tm", "tc"):
        raise Refused("usage: sllink-report tm|tc A [B] --scid N [OPTION..] > PAGE.html; --help says more")
    for recording in recordings:
        require_file(recording)
    options, given = divided(words[1 + len(recordings):], dict.fromkeys(OWN, "options of sllink"))
    own = [own_options(name, given[name]) for name in OWN]
    if len(recordings) == 2:
        written = report_of_two(words[0], recordings, [[*options, *its] for its in own])
    elif any(own):
        raise Refused(f"{' and '.join(OWN)} are for two recordings")
    else:
        written = report_of_one(words[0], recordings[0], options)
    sys.stdout.buffer.write(written.encode(errors="replace"))
    return 0
