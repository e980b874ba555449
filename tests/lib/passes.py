"""Writes a recording of a pass to the standard output: the same octets for the same words.

    python3 tests/lib/passes.py tm|tc [--frames N] [--channels N] [WORD..] > PASS

TM frames have 1115 octets and are to be read with --scid 679 --tm-fecf, TC frames with --scid 679 --tc-fecf, where no
word says otherwise. Packets of 60 to 180 octets of several APIDs come on each channel, most on channel 0, and idle
frames on the last one. Each fourth TM frame has a CLCW. An uplink has lockouts, frames that come twice, and series of
segments. Another station that saw the same pass has the same words but for --station, --lose, --run, --errors and
--begin. --help has all words.
"""

import argparse
import random
import sys
from functools import partial

import recordings
from coding import MARKER, TC, TM, mixed

# Each word with its value where it is left out.
WORDS = (
    ("frames", 150, "how many frames"),
    ("channels", 3, "how many virtual channels"),
    ("seed", 1, "what the pass is"),
    ("lose", 0.0, "frames lost of 1000, in runs of --run frames, by the seed --station"),
    ("run", 1, "frames that are lost in a row"),
    ("station", 1, "which frames are lost, and have a bit error"),
    ("errors", 0.0, "frames with a bit error of 1000"),
    ("begin", 0, "the frames before this one are lost"),
    ("octets", 120, "octets of a packet, about"),
    ("scid", 679, "the spacecraft"),
    ("length", 1115, "octets of a TM frame"),
    ("no-field", False, "frames have no error control field"),
    ("secondary", False, "TM frames have the secondary header flag"),
    ("randomised", False, "each frame is randomised, as for the link"),
    ("marked", False, "each frame comes after a sync marker"),
)


def downlink(words):
    rng, fecf, vcs = random.Random(words.seed), not words.no_field, range(words.channels)
    lengths = words.octets // 2 - 6, words.octets * 3 // 2 - 6
    sources = [recordings.Source(rng, {100 * (vc + 1) + n: 0 for n in range(3)}, lengths) for vc in vcs]
    weights = [8] + [1 + vc % 2 for vc in vcs[1:]]
    accepted, counts = 0, [0] * words.channels
    for mc in range(words.frames):
        vc = rng.choices(vcs, weights)[0]
        accepted += rng.random() < 0.02
        word = bytes([1, 0, 0x20 if 300 <= mc % 4000 < 420 else 0, accepted % 256]) if mc % 4 == 0 else b""
        room = words.length - 6 - len(word) - 2 * fecf
        field, first = (b"\x55" * room, 2046) if vc == words.channels - 1 > 0 else sources[vc].field(room)
        yield recordings.tm_frame(words.scid, vc, mc, counts[vc], first | words.secondary << 15, field, fecf, word)
        counts[vc] += 1


def uplink(words):
    rng, frame = random.Random(words.seed), partial(recordings.tc_frame, words.scid, fecf=not words.no_field)
    sent = [0] * words.channels
    counts = [0] * words.channels
    number = 0
    while number < words.frames:
        vc = rng.randrange(words.channels)
        what = rng.random()
        octets = recordings.packet(10 + vc, counts[vc], recordings.data(rng, rng.randint(10, 200), "noise"), 1)
        counts[vc] += 1
        if what < 0.04:                                   # outside, some that are refused, and the way out
            frames = [frame(vc, sent[vc] + 100 + n, b"\xc0" + octets) for n in range(rng.randint(1, 12))]
            frames += [frame(vc, 0, data, kind=3) for data in (b"\0", bytes([0x82, 0, sent[vc] % 256]))]
        elif what < 0.1:
            frames = [frame(vc, 0, b"\xc1" + octets, kind=2)]
        elif what < 0.2:                                  # in three segments
            third = len(octets) // 3
            parts = b"\x42" + octets[:third], b"\x02" + octets[third:2 * third], b"\x82" + octets[2 * third:]
            frames = [frame(vc, sent[vc] + n, part) for n, part in enumerate(parts)]
            sent[vc] += 3
        elif what < 0.25 and sent[vc]:                    # one that comes again, and one that comes early
            frames = [frame(vc, sent[vc] - 1, b"\xc0" + octets), frame(vc, sent[vc] + 2, b"\xc0" + octets)]
        else:
            frames = [frame(vc, sent[vc], b"\xc0" + octets)]
            sent[vc] += 1
        number += len(frames)
        yield from frames


def received(frames, words):
    """The frames that the station has."""
    rng = random.Random(f"{words.station} {words.seed}")
    lost = 0
    for number, frame in enumerate(frames):
        if rng.random() * 1000 < words.lose / words.run:
            lost = words.run
        error = rng.random() * 1000 < words.errors
        if number < words.begin or lost:
            lost -= lost > 0
            continue
        if error:
            at = rng.randrange(len(frame))
            frame = frame[:at] + bytes([frame[at] ^ 1 << rng.randrange(8)]) + frame[at + 1:]
        yield frame


def recorded(line=None):
    """The frames as they stand in the station's recording, by the words of the command line, or of a list."""
    parser = argparse.ArgumentParser(description="Writes a recording of a pass.")
    parser.add_argument("kind", choices=("tm", "tc"))
    for name, value, what in WORDS:
        way = {"action": "store_true"} if value is False else {"type": type(value), "default": value}
        parser.add_argument(f"--{name}", help=what, **way)
    words = parser.parse_args(line)
    frames, table = (downlink, TM) if words.kind == "tm" else (uplink, TC)
    for frame in received(frames(words), words):
        yield MARKER * words.marked + (mixed(frame, table) if words.randomised else frame)


if __name__ == "__main__":
    sys.stdout.buffer.writelines(recorded())
