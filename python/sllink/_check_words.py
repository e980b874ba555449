"""The words of `check`: what each means, how a picture shows it, and what many such lines ask about the options."""

from typing import Dict, NamedTuple


class Word(NamedTuple):
    """A word: what it means; the colours of its mark in a picture, also where the page is dark, or of its cell; its
    words in the legend; the path of its mark round the origin; what many such lines ask, where they make an option
    doubtful; whether it mostly comes of a wrong option; and what it means of TC, where that is something else."""

    meaning: str
    colour: str
    dark: str
    words: str
    path: str = ""
    asks: str = ""
    mostly: bool = False
    meaning_tc: str = ""


class Reason(NamedTuple):
    """A reason for which frames are skipped: what it means, and the question where most frames are skipped for it."""

    meaning: str = ""
    asks: str = "Most frames are skipped. Are the options right?"


TRIANGLE, CROSS, DIAMOND = "M-5-5H5L0 5Z", "M-4-4L4 4M-4 4L4-4", "M0-5L5 0L0 5L-5 0Z"
SQUARE, CIRCLE, ARROW = "M-4-4H4V4H-4Z", "M-4 0a4 4 0 1 0 8 0a4 4 0 1 0-8 0Z", "M-4-5L5 0L-4 5Z"

# In the order in which sllink-compare counts them.
CHECK_WORDS: Dict[str, Word] = {
    "skip": Word("frame skipped", "#7d1128", "#e05c7a", "skipped"),
    "gap": Word("the frame count isn't the one that comes next on the channel", "#d00000", "#ff7a6b",
                "gap in the frame counts, larger the more are missing", TRIANGLE),
    "dropped": Word("incomplete packet dropped", "#d00000", "#ff7a6b", "incomplete packet or series dropped", CROSS,
                    meaning_tc="incomplete series of segments dropped"),
    "opaque": Word(
        "frame whose data field isn't read: secondary header, other data than packets, pointer past the end",
        "#e69f00", "", "opaque", asks="Many frames are opaque, so their data fields aren't read. Do the "
        "frames have a secondary header, or other data than packets?"),
    "foreign": Word(
        "octets at a packet start that are of another packet version", "#7a3fa0", "#c9a2f0", "another packet version",
        DIAMOND, "Octets at packet starts are of another packet version. Do the frames have an error control field, "
        "which the options leave out?", mostly=True),
    "rest": Word("octets after the last whole frame", "", "", "octets after the last frame"),
    "open": Word("packet or series that is incomplete at the end", "#222222", "#e8eaed", "incomplete at the end",
                 ARROW),
    "early": Word("frame of type AD discarded: N(S) is ahead, within the window", "#f0e442", "", "early"),
    "late": Word("frame of type AD discarded: N(S) is behind, within the window", "#e69f00", "", "late"),
    "outside": Word("frame of type AD discarded: N(S) is outside the window, and lockout begins", "#d55e00", "",
                    "outside, lockout begins"),
    "refused": Word("frame of type AD discarded in lockout", "#cc79a7", "", "refused in lockout"),
    "stray": Word(
        "segment that continues or ends no series", "#7a3fa0", "#c9a2f0", "segment out of sequence", DIAMOND,
        "Many segments are out of sequence. Has the channel no segment headers, so that --plain has to name it?"),
    "long": Word("series of segments given up: it is longer than a packet can be", "#7a3fa0", "#c9a2f0",
                 "series too long", SQUARE),
    "tail": Word(
        "octets after the packets of a service data unit", "#b35900", "#f0a35e", "octets after the packets of a unit",
        CIRCLE,
        "Many units have octets after their packets. Is --tc-fecf right, and does --plain name the right channels?"),
}
# What a picture shows by marks, of which `open` stands at the end of a row; and by cells, with their colours and words.
MARKS = {word: it for word, it in sorted(CHECK_WORDS.items(), key=lambda it: it[0] == "open") if it.path}
CELLED = {word: (it.colour, it.words) for word, it in CHECK_WORDS.items() if not it.path}

REASONS: Dict[str, Reason] = {
    "fecf": Reason(
        "its frame error control field is wrong",
        "Most frames have a wrong frame error control field. Do they have this field, and is their length right?"),
    "version": Reason(
        "its transfer frame version number isn't 0", "Most frames have another version than 0. Is their length right?"),
    "spacecraft": Reason(
        "it is of another spacecraft", "Most frames are of another spacecraft. Is --scid right, and their length?"),
    "long": Reason("it is longer than --tc-length", "Most frames are longer than --tc-length. Is it right?"),
    "kind": Reason("bypass flag 0 with control command flag 1"),
    "empty": Reason("it has no data field"),
    "command": Reason("its data field is no control command"),
}


def meaning_of(line: str, kind: str) -> str:
    """What a word means, or of `skip` the word and the reason. A word that isn't known has no meaning."""
    word, _, reason = line.partition(" ")
    if word not in CHECK_WORDS:
        return ""
    it = CHECK_WORDS[word]
    meaning = it.meaning_tc if kind == "tc" and it.meaning_tc else it.meaning
    return f"{meaning}: {REASONS.get(reason, Reason()).meaning}" if reason else meaning
