"""The questions about the options of a recording, by totals, lines of `check` and verdicts of FARM-1: what a page and
the module's command ask."""

from typing import TYPE_CHECKING, List

from ._check_words import CHECK_WORDS, REASONS, Reason
from .tool import identified

if TYPE_CHECKING:
    from ._survey import Survey

ALONE = {
    "tm": "Does the recording hold TM frames alone, with sync markers, parity and randomisation taken off?",
    "tc": "Does the recording hold TC frames alone, with CLTUs and randomisation taken off?",
}
REST = {"tm": "Is --tm-length right?", "tc": "Is --tc-fecf right?"}
SILENT = "No packet is delivered. Are the options right?"
DISCARDED = ("FARM-1 discards most frames of type AD. Does the recording begin in mid-pass, and does --vr-of name the "
             "V(R) of that moment for each virtual channel?")


def questions(survey: "Survey") -> List[str]:
    """What to ask where the options may be wrong for the recording."""
    asked = []
    if 2 * survey.skipped > survey.frames:
        reason = survey.reasons.most_common(1)[0][0]
        asked.append(f"{REASONS.get(reason, Reason()).asks} {ALONE[survey.kind]}")
    if survey.rest and survey.rest[1] * 2 > survey.size:
        asked.append(f"Most octets come after the last whole frame. {REST[survey.kind]} {ALONE[survey.kind]}")
    # What lines of `check` ask, if there are many; of a downlink any that mostly come of a wrong option.
    read = survey.frames - survey.skipped
    many = [word for word, it in CHECK_WORDS.items() if it.asks and survey.anomalies[word] * 4 > read > 0]
    many.sort(key=lambda word: not CHECK_WORDS[word].mostly)
    asked += [CHECK_WORDS[word].asks for word in many]
    asked += [it.asks for word, it in CHECK_WORDS.items()
              if it.mostly and survey.anomalies[word] and survey.kind == "tm" and word not in many]
    accepted = sum(sum(numbers) for (_, what), numbers in survey.bins.items() if what == "accept")
    if survey.kind == "tc" and survey.anomalies["outside"] + survey.anomalies["refused"] > accepted:
        asked.append(DISCARDED)
    if read > 0 and not survey.packets and not asked:
        asked.append(SILENT)
    if asked:
        said = identified(survey.recording)
        asked[-1] += f" sllink-identify says: {said}." if said else " sllink-identify says what a recording is."
    return asked
