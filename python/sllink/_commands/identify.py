"""Says what a recording is, and how sllink reads it.

    sllink-identify [--options] RECORDING
    sllink-identify RECORDING RECORDING

    --options      Write only the words that sllink takes, as in tm --scid 1 --tm-length 1115
    -h, --help     Print help
    -V, --version  Print the version

The first line says what it is, and the last ones are commands of a shell: sllink-frames writes the frames into a file
beside it, where they aren't all of it, and sllink check reads them. Of two recordings, the last line compares them, the
one before it merges TM frames of one format. Where signs aren't plain, or frames shift, it is "can't say:", and why.

Status: 0 there are commands, with --options words; 1 there are none; 2 the recording can't be read, with a line on the
standard error. It has to be a file; one whose name begins with a dash is ./-NAME, or comes after --. Nothing else is
run or written. Where whoever reads the output goes away, or a signal stops the tool, the status is 2 without a line.

Example: sllink packets $(sllink-identify --options pass.tm) < pass.tm
"""

import os
import sys
from typing import List

from .._identify import commands_of_both, identify
from ..tool import Refused, require_name, shown


def main(words: List[str]) -> int:
    # not by argparse, which has lines of its own for a name that begins with a dash, and takes --opt for --options
    end = words.index("--") if "--" in words else len(words)
    alone, names = "--options" in words[:end], [word for word in words[:end] if word != "--options"]
    for name in names:
        require_name(name)
    names += words[end + 1:]
    if not 1 <= len(names) <= 2 - alone:
        raise Refused("one recording is wanted, or two without --options; usage: sllink-identify [--options] RECORDING")
    found = [identify(name) for name in names]
    lines = [" ".join(found[0].words)] if alone else [f"{shown(name)}: {it}" for name, it in zip(names, found)]
    lines += commands_of_both(*found) if len(found) > 1 else []
    sys.stdout.buffer.write(os.fsencode("".join(f"{line}\n" for line in lines if line)))
    return 0 if all(it.words if alone else it.commands for it in found) and not lines[-1].startswith("can't say") else 1
