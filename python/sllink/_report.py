"""A page of a pass: of one recording, or of two and what each of them lacks."""

import hashlib
from typing import Counter, List, Sequence, Tuple

from ._align import first_of_both
from ._check_words import meaning_of
from ._counts import Key
from ._difference import MOST_RUNS, Lacks, Missing
from ._page import Table, facts, figure, folded, heading, listing, page, paragraph, verdict
from ._picture import Picture
from ._questions import questions
from ._survey import MOST_LINES, MOST_LOCKOUTS, NOT_READ, Reports, Survey
from ._verdict import listed, lost_frames, missing_counts, number_of, said, said_of_two
from .tool import State, about, shown

JUMPS = "A jump is a packet sequence count that isn't the one that comes next, modulo 16384. Idle packets are left out."
SEVERAL = (" Some APIDs come on more than one channel or MAP. Where their counts go on from one to another, there are "
           "jumps though no packet is missing.")
MISSING = ("Missing counts are known by the virtual channel frame counts, modulo 256 at each gap, and none are known "
           "before the first frame and after the last one. The picture has them beside the marks of gaps.")

MOST_CLCWS = 12                                           # pairs of channels that are all shown


class Recording(Survey):
    """All that a page has of a recording."""

    def __init__(self, kind: str, path: str, options: Sequence[str], state: State, before: int = 0,
                 span: int = 0) -> None:
        with about(path):
            super().__init__(kind, path, options, state, before, span)
        digest = hashlib.sha256()
        with open(path, "rb") as file:
            for octets in iter(lambda: file.read(1 << 16), b""):
                digest.update(octets)
        self.digest = digest.hexdigest()
        self.asked = questions(self)
        state.require_unchanged()


def report_of_one(kind: str, path: str, options: Sequence[str]) -> str:
    it = Recording(kind, path, options, State(path))
    return page(f"{it.name}: {number_of(it.frames, 'frame')}, {number_of(it.packets, 'packet')}", [
        "<header>", heading(1, it.name), read_as(it), "</header>",
        verdict(said(it), it.asked, not it.anomalies), facts(facts_of(it)),
        heading(2, "Picture"), pictured(it, "rest"), *tables(it, 2)])


def report_of_two(kind: str, paths: Sequence[str], options: Sequence[Sequence[str]]) -> str:
    states = [State(path) for path in paths]
    # The pictures have one axis: what both have first stands at one place in both.
    at = first_of_both(kind, paths, options)
    before = [max(at) - it for it in at]
    span = max(it + state.size for it, state in zip(before, states))
    one, other = (Recording(kind, *its, span) for its in zip(paths, options, states, before))
    lacks = Lacks(kind, paths, options)
    if one.name == other.name:                            # they get their paths as names, or else their places
        one.name, other.name = map(shown, paths)
    if one.name == other.name:
        one.name, other.name = f"{one.name} (first)", f"{other.name} (second)"
    asked = [f"{it.name}: {question}" for it in (one, other) for question in it.asked]
    alike = options[0] == options[1]
    parts = ["<header>", heading(1, f"{one.name} and {other.name}"), read_as(one) if alike else "", "</header>",
             verdict(said_of_two(one, other, lacks), asked, lacks.same),
             heading(2, "Pictures")]
    for number, it in enumerate((one, other)):
        parts += [heading(3, it.name), "" if alike else read_as(it), paragraph(said(it)), pictured(it, f"rest{number}")]
    parts += lacked(one, other, lacks)
    for it in one, other:
        parts += [heading(2, it.name), facts(facts_of(it)), *tables(it, 3)]
    return page(f"{one.name} and {other.name}", filter(None, parts))


def read_as(it: Recording) -> str:
    return paragraph("Read as " + " ".join([it.kind, *map(shown, it.options)]), "read")


def facts_of(it: Recording) -> List[Tuple[str, str]]:
    totals = [f"{it.frames:,} frames", f"{it.skipped:,} skipped", *[f"{lost_frames(it):,} lost"] * (it.kind == "tm"),
              f"{it.packets:,} packets", f"{it.idle:,} idle packets", f"{sum(it.anomalies.values()):,} anomalies"]
    return [("Totals", ", ".join(totals)), ("Octets", f"{it.size:,}"), ("SHA-256", it.digest)]


def pictured(it: Recording, ident: str) -> str:
    picture = Picture(it, ident)
    drawn = figure(f"Picture of {it.name}", picture.draw(), picture.keys())
    return drawn + (paragraph(picture.note(), "note") if picture.note() else "")


def tables(survey: Survey, level: int) -> List[str]:
    parts = [heading(level, "Channels")]
    if survey.frames == survey.skipped:
        parts.append(paragraph("No frame is read."))
    elif survey.kind == "tm":
        parts += channels_tm(survey)
        parts += [heading(level, "CLCWs in the downlink"), *clcws(survey)] if survey.reports else []
    else:
        parts += [channels_tc(survey), heading(level, "FARM-1 at the end of the uplink"), farms(survey),
                  *lockouts(survey)]
    parts += [heading(level, "Packets"), *packets(survey)]
    return parts + [heading(level, "What check reports"), *checked(survey)]


def kinds_of(survey: Survey) -> List[Tuple[int, Counter[str]]]:
    """The virtual channels, each with its frames by what they are."""
    return [(vc, Counter(survey.of_row(vc))) for vc in survey.rows() if vc != NOT_READ]


def channels_tm(survey: Survey) -> List[str]:
    lost = survey.lost()
    rows = [[vc, sum(kinds.values()), lost.get(vc, 0), marked(survey, vc, "gap"), marked(survey, vc, "dropped"),
             kinds["first"] + kinds["none"], kinds["idle"], kinds["opaque"], marked(survey, vc, "open")]
            for vc, kinds in kinds_of(survey)]
    parts = [Table("Channels", ["Virtual channel", "Frames", "!Counts missing", "Gaps", "!Packets dropped",
                                "With packets", "Only idle data", "Opaque", "Incomplete at the end"],
                   rows).summed().html()]
    if lost:
        parts.append(paragraph(MISSING + damaged_said(survey), "note"))
    if survey.of_255:
        words = "1 gap is" if survey.of_255 == 1 else f"{survey.of_255:,} gaps are"
        parts.append(paragraph(f"{words} of 255 frames: either these were lost, or the frame before came once more.",
                               "note"))
    return parts


def damaged_said(survey: Survey) -> str:
    """What frames with a wrong error control field have to do with missing counts."""
    damaged = survey.reasons["fecf"]
    if not damaged:
        return ""
    skipped = "the one frame" if damaged == 1 else f"the {damaged:,} frames"
    return (f" The frames lost are these {missing_counts(survey):,}, less {skipped} skipped for the error control "
            "field, but not fewer than none. On which channel a skipped frame was isn't known.")


def marked(survey: Survey, row: int, what: str) -> int:
    """How many lines of a word `check` has for a channel."""
    return sum(mark.number for mark in survey.marks.get((row, what), {}).values())


def channels_tc(survey: Survey) -> str:
    heads = {"accept": "Accepted, type AD", "bypass": "Accepted, type BD", "command": "Commands", "early": "!Early",
             "late": "!Late", "outside": "!Outside", "refused": "!Refused"}
    rows = [[vc, sum(kinds.values()), *(kinds[what] for what in heads)] for vc, kinds in kinds_of(survey)]
    return Table("Channels", ["Virtual channel", "Frames", *heads.values()], rows).summed().html()


def farms(survey: Survey) -> str:
    """The state of each FARM-1 at the end."""
    words = [(vc, digits, int(digits, 16)) for vc, digits in sorted(survey.farms.items())]
    return Table("FARM-1", ["Virtual channel", "#V(R)", "!Lockout flag", "!Retransmit flag", "#FARM-B counter", "CLCW",
                            "!Lockouts"],
                 [[vc, word & 255, word >> 13 & 1, word >> 11 & 1, word >> 9 & 3, digits,
                   survey.of_row(vc).get("outside", 0)] for vc, digits, word in words]).html()


def lockouts(survey: Survey) -> List[str]:
    if not survey.lockouts:
        return []
    table = Table("Lockouts", ["Virtual channel", "#Begins at offset", "by N(S)", "#Ends at offset", "Frames refused"],
                  [[it.vc, it.start, it.number, "not ended" if it.end is None else it.end, it.refused]
                   for it in survey.lockouts])
    return [folded(first_of(MOST_LOCKOUTS, survey.anomalies["outside"], "lockout"), table.html())]


def first_of(most: int, number: int, what: str) -> str:
    """How many there are, of which at most so many are shown."""
    return (f"The first {most:,} of " if number > most else "") + number_of(number, what)


def clcws(survey: Survey) -> List[str]:
    """The CLCWs that a downlink carries. Of many channels those whose flags aren't those of most, and all at wish."""
    reports = sorted(survey.reports.items())
    if len(reports) <= MOST_CLCWS:
        return [clcws_of(reports).html()]
    flags = [tuple(filter(it.having, it.BITS)) for _, it in reports]
    usual, number = Counter(flags).most_common(1)[0]
    others = sorted((it for it, its in zip(reports, flags) if its != usual), key=lambda it: -it[1].number)
    table = clcws_of(sorted(others[:MOST_CLCWS]))
    table.left = len(others[MOST_CLCWS:])
    what = f"{listed(usual)} set at times" if usual else "no flag set"
    words = f"Of {len(reports)} pairs of channels, {number} have {what}."
    words += f" The others{' with the most CLCWs' if table.left else ''}:" if others else ""
    return [paragraph(words), *[table.html()] * bool(others), folded(f"All {len(reports)}", clcws_of(reports).html())]


def clcws_of(reports: Sequence[Tuple[Tuple[int, int], Reports]]) -> Table:
    return Table("CLCWs", ["Virtual channel", "#of TC channel", "CLCWs", "#First V(R)", "#Last V(R)",
                           *(f"!{name}" for name in Reports.BITS)],
                 [[vc, link_vc, it.number, it.first & 255, it.last & 255, *map(it.having, it.BITS)]
                  for (vc, link_vc), it in reports])


def packets(survey: Survey) -> List[str]:
    if not survey.tallies:
        return [paragraph("No packet is delivered.")]
    with_map = survey.kind == "tc"
    table = Table("Packets", ["Virtual channel", *["#MAP"] * with_map, "#APID", "Packets", "!Jumps",
                              "!Missing by the counts", "Octets", "#First count", "#Last count"],
                  [[*columns(key, with_map), it.packets, it.jumps, it.missing, it.octets, it.first, it.last]
                   for key, it in sorted(survey.tallies.items())]).summed()
    several = len({apid for _, _, apid in survey.tallies}) < len(survey.tallies)
    return [table.html(), paragraph(JUMPS + SEVERAL * several, "note")]


def columns(key: Key, with_map: bool) -> List[int]:
    vc, map_id, apid = key
    return [vc, map_id, apid] if with_map else [vc, apid]


def checked(survey: Survey) -> List[str]:
    number = sum(survey.anomalies.values())
    if not number:
        return [paragraph("Nothing: no anomaly.")]
    lines = {f"skip {reason}": times for reason, times in survey.reasons.items()}
    lines.update((what, times) for what, times in survey.anomalies.items() if what != "skip")
    table = Table("Lines of check", ["<Line", "Number", "<Meaning"],
                  [[what, times, meaning_of(what, survey.kind)]
                   for what, times in sorted(lines.items(), key=lambda it: -it[1])])
    return [table.html(), folded(first_of(MOST_LINES, number, "line"), listing(survey.first_lines))]


def lacked(one: Recording, other: Recording, lacks: Lacks) -> List[str]:
    parts = [heading(2, "What each recording lacks")]
    if lacks.same or lacks.reordered:
        order = "another" if lacks.reordered else "the same"
        return parts + [paragraph(f"Nothing: both have the same packets on each channel, in {order} order."
                                  if one.packets else "Neither has a packet.")]
    parts.append(differing(one, other, lacks).html())
    return parts + runs(one, lacks.only[1]) + runs(other, lacks.only[0])


def differing(one: Recording, other: Recording, lacks: Lacks) -> Table:
    """The APIDs where one recording lacks packets."""
    with_map = one.kind == "tc"
    names = one.name, other.name
    return Table("APIDs with missing packets",
                 ["Virtual channel", *["#MAP"] * with_map, "#APID", *(f"Packets in {name}" for name in names),
                  *(f"!Lacked by {name}" for name in names)],
                 [[*columns(key, with_map), *(packets_of(it, key) for it in (one, other)), there, here]
                  for key, (here, there) in sorted(lacks.each.items())])


def packets_of(survey: Survey, key: Key) -> int:
    """How many packets of an APID there are."""
    return survey.tallies[key].packets if key in survey.tallies else 0


def runs(it: Recording, missing: Missing) -> List[str]:
    """The packets that a recording lacks, in runs of the other one's sequence count."""
    if not missing.number:
        return [paragraph(f"{it.name} lacks no packet of the other.")]
    words = f"{it.name} lacks {number_of(missing.packets, 'packet')}"
    words += f", in {number_of(missing.number, 'run')} of the sequence count"
    if missing.number > MOST_RUNS:
        words += f"; the first {MOST_RUNS:,} of them"
    return [heading(3, words), listing(str(run)[2:] for run in missing.runs)]
