"""Draws what a survey has of a recording: its virtual channels over the octets of the recording, one row each."""

from collections import defaultdict
from typing import Dict, List, NamedTuple, Sequence, Set, Tuple
from xml.sax.saxutils import escape, quoteattr

from ._check_words import CELLED, MARKS
from ._survey import ABOUT, BINS, FLAGS, MARKED, NOT_READ, Mark, Survey

WIDTH, LEFT, RIGHT = 1100, 120, 996                       # of the picture; where its rows begin and end
CELL, MARK, BAR, SPACE = 26, 14, 6, 16                    # heights: of a cell, a mark, a bar, between rows
FULL = 10                                                 # frames that a cell of several has at least, as a rule
WIDEST = 12                                               # stretches that are taken together for that, at most
FEW = 120                                                 # frames of a row whose stretches aren't taken together
MOST = 1_100_000                                          # octets of the rows; what is drawn is coarser until they fit
THINNEST = 3                                              # of what has to be seen
LEAST = 0.3                                               # of the height of a cell that has frames

# What a cell may be, from the bottom of a cell of several frames to its top: its colour and its words in the legend.
CELLS = {
    "first": ("#0072b2", "packets, one starts here"),
    "none": ("#5b9fcf", "packets, none starts here"),
    "idle": ("#7d848d", "only idle data"),
    "opaque": CELLED["opaque"],
    "accept": ("#009e73", "accept, type AD"),
    "bypass": ("#66c2a5", "accept, type BD"),
    "command": ("#0072b2", "command"),
    **{word: CELLED[word] for word in ("early", "late", "outside", "refused", "skip", "rest")},
}
DARK = {"first", "accept", "command", "outside", "skip"}  # on these, words are white
FLAG_COLOURS = {"Lockout flag": "#d00000", "Retransmit flag": "#b8a000"}

STYLE = "".join([
    ".pass{font-family:DejaVu Sans,Verdana,Arial,sans-serif}.pass text{white-space:pre;fill:#111}",
    ".pass .soft{fill:#555}.pass .page{fill:#fff}.pass .row{fill:#f1f3f5}.pass .line{stroke:#c3c8cd;fill:none}",
    ".pass .axis{stroke:#111}.pass .on-dark{fill:#fff}.pass .on-light{fill:#000}.pass .lost{fill:#d00000}",
    *(f".pass .c-{what}{{fill:{colour}}}" for what, (colour, _) in CELLS.items() if colour),
    *(f".pass .m-{what}{{fill:{look.colour}}}" for what, look in MARKS.items()),
    f".pass path.m-dropped{{fill:none;stroke:{MARKS['dropped'].colour};stroke-width:2}}",
    *(f".pass .f-{flag.split()[0]}{{fill:{colour}}}" for flag, colour in FLAG_COLOURS.items()),
    ".pass .rest-back{fill:#fff}.pass .rest-line{fill:#6b6b6b}",
])


def width(words: str, size: float) -> float:
    """About how wide words are."""
    return sum(0.4 if letter in "fijlrt ,.:()" else 0.95 if letter in "mwMW" else 0.65 for letter in words) * size


def text(x: float, y: float, words: str, *, anchor: str = "start", size: int = 12, weight: str = "",
         kind: str = "") -> str:
    more = (f' class="{kind}"' if kind else "") + (f' text-anchor="{anchor}"' if anchor != "start" else "")
    more += f' font-weight="{weight}"' if weight else ""
    return f'<text x="{x:.1f}" y="{y:.1f}" font-size="{size}"{more}>{escape(words)}</text>'


def box(x: float, y: float, wide: float, high: float, kind: str) -> str:
    return f'<rect x="{x:.1f}" y="{y:.1f}" width="{wide:.1f}" height="{high:.1f}" class="{kind}"/>'


class Sign(NamedTuple):
    """A mark as it is drawn: where, the words beside it, the lines that it stands for, and the counts missing in it."""

    x: float
    words: str = ""
    about: str = ""
    lost: int = 0


class Picture:
    """A picture of a survey. Pictures on one page want an `ident` each."""

    def __init__(self, survey: Survey, ident: str) -> None:
        self.survey, self.ident = survey, ident
        self.used: Set[str] = set()
        self.coarse = 1                                   # stretches in which marks are joined

    def draw(self) -> str:
        rows, end = self._rows(8)
        return self._document([*rows, *self._axis(end)], end + 28)

    def _rows(self, top: int) -> Tuple[List[str], int]:
        """The rows, coarser where they would be too many octets."""
        rows, parts, y, octets = self.survey.rows(), [], top, 0
        if self.survey.rest and NOT_READ not in rows:
            rows.append(NOT_READ)
        for row in rows:
            drawn, y = self._row(row, y)
            parts += drawn
            octets += sum(map(len, drawn))
            if octets > MOST and not self.survey.is_short:
                self.coarse *= 2
                return self._rows(top)
        return parts, y

    def x(self, offset: float) -> float:
        return LEFT + (RIGHT - LEFT) * min(self.survey.before + offset, self.survey.span) / self.survey.span

    def _row(self, row: int, y: int) -> Tuple[List[str], int]:
        survey = self.survey
        found = [what for what in MARKS if (row, what) in survey.marks]
        levels = [what for what in found if what != "open"]
        flags = [flag for flag in FLAGS if (row, flag) in survey.bars]
        self.used |= set(found) | set(flags) | set(survey.of_row(row))
        y += MARK * len(levels)
        parts = [box(self.x(0), y, self.x(survey.size) - self.x(0), CELL, "row"),
                 f'<path class="line" d="M{LEFT} {y + CELL + 0.5}H{RIGHT}"/>']
        for level, what in enumerate(levels):
            parts += self._marks(row, what, y - MARK * (len(levels) - level) + MARK / 2 - 1)
        parts += self._short_cells(row, y) if survey.is_short else self._long_cells(row, y)
        if row == NOT_READ and survey.rest:
            parts.append(self._rest(y))
        for level, flag in enumerate(flags):
            parts += self._bars(row, flag, y + CELL + 2 + BAR * level)
        return parts + self._label(row, y) + self._end(row, y), y + CELL + BAR * len(flags) + SPACE

    def _label(self, row: int, y: int) -> List[str]:
        frames = sum(self.survey.of_row(row).values())
        name = f"vc {row}"
        if row == NOT_READ:
            name = ", ".join(["skipped"] * (frames > 0) + ["rest"] * (self.survey.rest is not None))
        below = f"{frames:,} {'frame' if frames == 1 else 'frames'}" if frames else ""
        return [text(LEFT - 10, y + (11 if below else 17), name, anchor="end", weight="bold"),
                *[text(LEFT - 10, y + 23, below, anchor="end", size=10, kind="soft")] * bool(below)]

    def _end(self, row: int, y: int) -> List[str]:
        """What stands at the end of a row: the sum of the missing counts, and what is incomplete."""
        lost, opened = self.survey.lost().get(row), self.survey.marks.get((row, "open"))
        middle = y + CELL / 2
        parts = []
        if lost is not None:
            parts.append(text(RIGHT + 8, middle + (-2 if opened else 4), f"{lost:,} missing", size=11,
                              weight="bold", kind="lost"))
        if opened:
            y_open = middle + (0 if lost is None else 8)
            mark = next(iter(opened.values()))
            words = f"{mark.lines[0].split()[-1]} octets" if mark.number == 1 else f"{mark.number} times"
            parts += sign("open", Sign(RIGHT + 12, words, "\n".join(mark.lines)), y_open)
        return parts

    def _short_cells(self, row: int, y: int) -> List[str]:
        """A cell for each frame of a row."""
        parts, cells = [], self.survey.cells
        for cell, end in zip(cells, [*(cell.start for cell in cells[1:]), self.survey.size]):
            if cell.row != row or cell.what == "rest":
                continue
            x, words = self.x(cell.start), ""
            wide = max(self.x(end) - x, THINNEST if cell.what == "skip" else 1)
            if width(cell.words, 9) + 1 < wide:
                kind = "on-dark" if cell.what in DARK else "on-light"
                words = text(x + wide / 2, y + 17, cell.words, anchor="middle", size=9, kind=kind)
            parts.append(f"<g><title>{escape(cell.line)}</title>"
                         f"{box(x, y, wide - (1 if wide > 4 else 0), CELL, 'c-' + cell.what)}{words}</g>")
        return parts

    def _long_cells(self, row: int, y: int) -> List[str]:
        """Cells of several frames. The fullest cell of the row has the whole height."""
        kinds = {what: numbers for (of, what), numbers in self.survey.bins.items() if of == row}
        joined = stretches_for(sum(sum(numbers) for numbers in kinds.values())) * self.coarse
        cells: Dict[int, Dict[str, int]] = defaultdict(lambda: defaultdict(int))
        for what in (what for what in CELLS if what in kinds):
            for stretch, number in enumerate(kinds[what]):
                if number:
                    cells[stretch // joined][what] += number
        most = max((sum(cell.values()) for cell in cells.values()), default=1)
        return [self._long_cell(row, place * joined, joined, cell, most, y) for place, cell in sorted(cells.items())]

    def _long_cell(self, row: int, stretch: int, joined: int, cell: Dict[str, int], most: int, y: float) -> str:
        start, end = (self.survey.offset_of(at) for at in (stretch, stretch + joined))
        x, number, top = self.x(start), sum(cell.values()), y + CELL
        wide = max(self.x(end) - x, THINNEST if joined == 1 else 1) - (1 if joined > 2 else 0)
        height = CELL * (1 if row == NOT_READ else LEAST + (1 - LEAST) * number / most)
        parts = []
        for what, frames in cell.items():
            top -= height * frames / number
            parts.append(box(x, top, wide, height * frames / number, "c-" + what))
        words = ", ".join(f"{CELLS[what][1]}: {frames}" for what, frames in cell.items())
        return f"<g><title>octets from {start:.0f} to {end:.0f}: {escape(words)}</title>{''.join(parts)}</g>"

    def _rest(self, y: int) -> str:
        offset, octets = self.survey.rest or (0, 0)
        self.used.add("rest")
        right = self.x(offset + octets)
        x = min(self.x(offset), right - THINNEST)
        swatch = f'<rect x="{x:.2f}" y="{y}" width="{right - x:.2f}" height="{CELL}" fill="url(#{self.ident})"/>'
        return f"<g><title>{offset} rest {octets}</title>{swatch}</g>"

    def _bars(self, row: int, flag: str, y: float) -> List[str]:
        joined: List[List[int]] = []
        near = 2 * (self.coarse - 1) * self.survey.span // BINS
        for start, end in self.survey.bars[row, flag]:
            if joined and start - joined[-1][1] < near:
                joined[-1][1] = end
            else:
                joined.append([start, end])
        return [f"<g><title>{flag}: octets from {start} to {end}</title>"
                f"{box(self.x(start), y, max(self.x(end) - self.x(start), 1), BAR - 2, 'f-' + flag.split()[0])}</g>"
                for start, end in joined]

    def _marks(self, row: int, what: str, y: float) -> List[str]:
        marks = [self._sign(what, mark) for mark in self._joined(self.survey.marks[row, what])]
        follow = [mark.x for mark in marks[1:]] + [float(WIDTH)]
        free = [mark.x + 10 + width(mark.words, 10) < following - 10 for mark, following in zip(marks, follow)]
        if what == "gap":
            words = sums_beside(marks, follow)
        else:
            words = [mark.words if all(free) and self.survey.is_short else "" for mark in marks]
        return [part for mark, said in zip(marks, words) for part in sign(what, mark._replace(words=said), y)]

    def _joined(self, marks: Dict[int, Mark]) -> List[Mark]:
        """The marks of a row, of a long recording one to a stretch, with fewer lines where stretches are long."""
        if self.survey.is_short:
            return [marks[spot] for spot in sorted(marks)]
        joined: Dict[int, Mark] = {}
        long = self.survey.span * self.coarse
        for spot in sorted(marks):
            mark, place = marks[spot], spot // self.coarse
            into = joined.setdefault(place, Mark((2 * place + 1) * long // (2 * MARKED) - self.survey.before))
            into.number += mark.number
            into.lost += mark.lost
            into.lines += mark.lines[:max(0, ABOUT // self.coarse - len(into.lines))]
        return list(joined.values())

    def _sign(self, what: str, mark: Mark) -> Sign:
        left = mark.number - len(mark.lines)
        more = [f"and {left:,} more" if mark.lines else f"lines: {left:,}"] if left else []
        words = ""
        if what == "gap":
            more.append(f"counts missing: {mark.lost}")
        elif mark.number == 1 and mark.lines:
            last = mark.lines[0].split()
            words = f"{last[-1]} octets" if "octets" in last else " ".join(last[4:])
        x = self.x(mark.offset) + (5 if self.survey.is_short else 0)
        return Sign(x, words, "\n".join(mark.lines + more), mark.lost)

    def _axis(self, y: int) -> List[str]:
        step = 1
        while self.survey.span / step > 12:
            step = step * 2 if str(step)[0] in "15" else step * 5 // 2
        parts = [f'<path class="axis" d="M{LEFT} {y}H{RIGHT}"/>']
        for offset in range(0, self.survey.span - self.survey.before + 1, step):
            x, words = self.x(offset), f"{offset:,}"
            parts.append(f'<path class="axis" d="M{x:.1f} {y}v5"/>')
            x = min(x, WIDTH - 4 - width(words, 10) / 2)
            parts.append(text(x, y + 18, words, anchor="middle", size=10))
        return parts + [text(LEFT - 10, y + 18, "offset", anchor="end", size=10)]

    def keys(self) -> List[Tuple[str, List[str]]]:
        """What the legend of a picture that is drawn has: words, and the swatch before them."""
        reasons = ", ".join(f"{reason} {number}" for reason, number in self.survey.reasons.most_common())
        items = []
        for what in (what for what in CELLS if what in self.used):
            words = CELLS[what][1] + (f": {reasons}" if what == "skip" and reasons else "")
            items.append((words, [f'<rect y="-9" width="16" height="11" fill="url(#{self.ident})"/>' if what == "rest"
                                  else box(0, -9, 16, 11, "c-" + what)]))
        items += [(MARKS[what].words, sign(what, Sign(8), -4)) for what in MARKS if what in self.used]
        return items + [(flag, [box(0, -6, 16, BAR - 2, "f-" + flag.split()[0])]) for flag in FLAGS
                        if flag in self.used]

    def note(self) -> str:
        """What the cells of a long recording are."""
        return "" if self.survey.is_short else ("A cell is several frames, divided by what they are; in each row the "
                                                "cell with the most of them has the whole height.")

    def _document(self, parts: Sequence[str], height: int) -> str:
        about = f"Virtual channels of {self.survey.name} over its octets"
        head = [
            f'<svg xmlns="http://www.w3.org/2000/svg" viewBox="0 0 {WIDTH} {height}" width="{WIDTH}" height="{height}"'
            f' class="pass" role="img" aria-label={quoteattr(about)}>',
            f'<defs><pattern id="{self.ident}" width="6" height="6" patternUnits="userSpaceOnUse"'
            ' patternTransform="rotate(45)"><rect class="rest-back" width="6" height="6"/>'
            '<rect class="rest-line" width="2" height="6"/></pattern></defs>',
            '<rect class="page" width="100%" height="100%"/>',
        ]
        return "\n".join([*head, *parts, "</svg>\n"])


def sums_beside(marks: Sequence[Sign], follow: Sequence[float]) -> List[str]:
    """The counts missing, beside marks of gaps: of each mark, or of several where there is no room between them. The sum
    of all of them stands at the end of the row already."""
    words, summed = [], 0
    for mark, following in zip(marks, follow):
        summed += mark.lost
        fits = mark.x + 10 + width(f"{summed} missing", 10) < following - 10
        words.append(f"{summed} missing" if fits else "")
        summed = 0 if fits else summed
    return words if len(words) == 1 or any(words[:-1]) else [""] * len(words)


def stretches_for(frames: int) -> int:
    """How many stretches a cell of a row has, by the number of its frames. A few frames have a stretch each."""
    widths = [it for it in range(2, WIDEST + 1) if BINS % it == 0]
    return 1 if frames <= FEW else next((it for it in widths if frames >= FULL * BINS // it), WIDEST)


def sign(what: str, mark: Sign, y: float) -> List[str]:
    """A mark, and its words beside it."""
    scale = f" scale({min(0.7 + 0.13 * mark.lost.bit_length(), 1.6):.2f})" if mark.lost else ""
    path = f'<path class="m-{what}" d="{MARKS[what].path}" transform="translate({mark.x:.1f} {y:.1f}){scale}"/>'
    parts = [f"<g><title>{escape(mark.about)}</title>{path}</g>" if mark.about else path]
    if mark.words:
        parts.append(text(mark.x + 10, y + 4, mark.words, size=10, kind="m-" + what))
    return parts
