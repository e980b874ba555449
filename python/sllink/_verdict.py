"""What is said of a pass in a sentence."""

from typing import List, Sequence

from ._difference import Lacks
from ._survey import Survey


def number_of(number: int, what: str) -> str:
    return f"{number:,} {what}" if number == 1 else f"{number:,} {what}s"


def listed(items: Sequence[object]) -> str:
    """1, 2 and 3."""
    words = [str(item) for item in items]
    return " and ".join([*filter(None, [", ".join(words[:-1])]), *words[-1:]])


def channels(numbers: Sequence[int]) -> str:
    """Virtual channels by their rising numbers."""
    first, last = numbers[0], numbers[-1]
    if len(numbers) > 2 and last - first == len(numbers) - 1:
        return f"virtual channels {first} to {last}"
    return f"virtual channel{'s' if len(numbers) > 1 else ''} {listed(numbers)}"


def said(survey: Survey) -> str:
    """A recording in a sentence."""
    if not survey.frames:
        return f"No whole frame: the recording has {number_of(survey.size, 'octet')}." if survey.size else \
            "The recording is empty."
    parts = [frames_said(survey)]
    if survey.frames > survey.skipped:
        parts += [losses_said(survey)] if survey.kind == "tm" else farm_said(survey)
    parts.append(f"{number_of(survey.packets, 'packet')} delivered" if survey.packets else "no packet delivered")
    return "; ".join(parts) + "."


def frames_said(survey: Survey) -> str:
    if not survey.skipped:
        return f"All {survey.frames:,} frames read" if survey.frames > 1 else "The one frame read"
    reasons = ", ".join(f"{reason} {number:,}" if len(survey.reasons) > 1 else reason
                        for reason, number in survey.reasons.most_common())
    if survey.skipped == survey.frames:
        return f"All {survey.frames:,} frames skipped ({reasons})" if survey.frames > 1 else "The one frame skipped"
    read = survey.frames - survey.skipped
    return f"{read:,} of {survey.frames:,} frames read, {survey.skipped:,} skipped ({reasons})"


def losses_said(survey: Survey) -> str:
    """How many frames are lost, and where."""
    missing, damaged = missing_counts(survey), survey.reasons["fecf"]
    if not missing:
        return "no gap in the frame counts"
    lost, on = number_of(lost_frames(survey), "frame"), channels(sorted(survey.lost()))
    if not damaged:
        return f"{lost} lost on {on}"
    return (f"{lost} lost ({number_of(missing, 'count')} missing on {on}, less {number_of(damaged, 'skipped frame')}, "
            "whose channel isn't known)")


def missing_counts(survey: Survey) -> int:
    return sum(survey.lost().values())


def lost_frames(survey: Survey) -> int:
    """How many frames are lost: the missing counts, less the frames that are skipped for their error control field."""
    return max(0, missing_counts(survey) - survey.reasons["fecf"])


def farm_said(survey: Survey) -> List[str]:
    """What FARM-1 made of the frames."""
    verdicts = {what: sum(survey.of_row(row).get(what, 0) for row in survey.rows())
                for what in ("accept", "early", "late", "outside", "refused")}
    sent, accepted = sum(verdicts.values()), verdicts.pop("accept")
    if not sent:
        return ["no frame of type AD"]
    discarded = ", ".join(f"{what} {number:,}" for what, number in verdicts.items() if number)
    parts = [f"FARM-1 accepted {accepted:,} of {sent:,} frames of type AD ({discarded})" if discarded else
             f"FARM-1 accepted {f'all {sent:,} frames' if sent > 1 else 'the one frame'} of type AD"]
    locked = [vc for vc, digits in sorted(survey.farms.items()) if int(digits, 16) >> 13 & 1]
    return parts + ([f"lockout at the end on {channels(locked)}"] if locked else [])


def said_of_two(one: Survey, other: Survey, lacks: Lacks) -> str:
    here, there = one.packets, other.packets
    if not here + there:
        return "Neither recording delivers a packet."
    if lacks.same:
        return f"Both recordings deliver the same {number_of(here, 'packet')}."
    if lacks.reordered:
        return f"Both recordings deliver the same {number_of(here, 'packet')}, in another order."
    return ("The recordings deliver different packets: "
            f"{one.name} lacks {some(lacks.only[1].packets)} of the {there:,} in {other.name}, and "
            f"{other.name} lacks {some(lacks.only[0].packets)} of the {here:,} in {one.name}.")


def some(number: int) -> str:
    return f"{number:,}" if number else "none"
