"""Parts of a page in HTML: what is shown is escaped here, and nowhere else."""

from html import escape
from typing import Iterable, Optional, Sequence, Tuple, Union

from ._check_words import CHECK_WORDS
from ._picture import STYLE

Value = Union[str, int]
MOST_ROWS = 300                                           # of a table; of the others there is the number

LOOK = """
:root{color-scheme:light dark;--page:#fff;--ink:#16191d;--soft:#59636e;--line:#d3d9df;--shade:#f3f5f7;--good:#1a7f37;
--mixed:#bf7900;--bad:#b42318;--code:#f3f5f7}
@media(prefers-color-scheme:dark){:root{--page:#14171a;--ink:#e8eaed;--soft:#a3adb8;--line:#363d45;--shade:#1f242a;
--good:#57c979;--mixed:#e0a82e;--bad:#ff8a7a;--code:#1f242a}}
*{box-sizing:border-box}
body{margin:0;background:var(--page);color:var(--ink);
font:16px/1.5 system-ui,-apple-system,"Segoe UI",Roboto,"DejaVu Sans",sans-serif}
main{max-width:1180px;margin:0 auto;padding:2rem 1.25rem 3rem}
h1{font-size:1.75rem;line-height:1.25;margin:0 0 .25rem;overflow-wrap:anywhere}
h2{font-size:1.25rem;margin:2rem 0 .5rem;padding-top:1rem;border-top:1px solid var(--line);overflow-wrap:anywhere}
h3{font-size:1rem;margin:1.5rem 0 .25rem;overflow-wrap:anywhere}
p,dl,pre,figure{margin:.5rem 0}
p,summary{overflow-wrap:anywhere}
.read{color:var(--soft)}
code,pre{font-family:ui-monospace,"DejaVu Sans Mono",Menlo,Consolas,monospace;font-size:.875rem}
.verdict{font-size:1.125rem;margin:1.25rem 0;padding:.75rem 1rem;background:var(--shade);
border-left:5px solid var(--soft)}
.verdict.good{border-color:var(--good)}.verdict.mixed{border-color:var(--mixed)}.verdict.bad{border-color:var(--bad)}
.verdict p{margin:0}.verdict p+p{margin-top:.5rem;font-size:1rem}
.scroll{overflow-x:auto;max-width:100%}
.scroll:focus-visible{outline:2px solid var(--ink);outline-offset:2px}
table{border-collapse:collapse;font-variant-numeric:tabular-nums;font-size:.9375rem;margin:.5rem 0}
th,td{padding:.3rem .6rem;text-align:right;border-bottom:1px solid var(--line);white-space:nowrap}
th.words,td.words{text-align:left}
td.long{white-space:normal;min-width:15rem}
th:first-child{padding-left:0;text-align:left}
th[scope=row]{position:sticky;left:0;background:var(--page)}
thead th{font-weight:600;color:var(--soft);white-space:normal;vertical-align:bottom;min-width:4rem;max-width:16rem;
overflow-wrap:break-word;line-height:1.25}
tbody th{font-weight:600}
tfoot th,tfoot td{font-weight:600;border-bottom:0}
td.nil{color:var(--soft)}td.bad{color:var(--bad);font-weight:600}
.note{color:var(--soft);font-size:.9375rem}
dl.facts{display:grid;grid-template-columns:max-content 1fr;gap:.125rem 1rem}
dl.facts dt{color:var(--soft)}dl.facts dd{margin:0;overflow-wrap:anywhere}
pre{background:var(--code);padding:.75rem 1rem;overflow-x:auto;max-height:28rem}
summary{cursor:pointer}
svg.pass{display:block;width:100%;height:auto;min-width:860px}main .pass .page{fill:none}
figcaption{display:flex;flex-wrap:wrap;gap:.25rem 1.25rem;font-size:.8125rem}
figcaption span{display:flex;gap:.375rem}figcaption svg{flex:none;margin-top:.125rem}
@media(max-width:40rem){main{padding:1.25rem .875rem 2rem}h1{font-size:1.375rem}dl.facts{grid-template-columns:1fr}
dl.facts dd{margin-bottom:.375rem}.verdict{font-size:1rem}}
@media print{.scroll{overflow:visible}svg.pass{min-width:0}pre{max-height:none;white-space:pre-wrap}}
"""

# The picture where the page is dark.
DARK = "".join(["""
@media screen and (prefers-color-scheme:dark){.pass text{fill:#e8eaed}.pass .soft{fill:#a3adb8}
.pass .row{fill:#23282e}.pass .line{stroke:#4b545e}.pass .axis{stroke:#a3adb8}.pass .on-dark{fill:#fff}
.pass .on-light{fill:#000}.pass .lost,.pass .f-Lockout{fill:#ff7a6b}
""", *(f".pass .{'m' if it.path else 'c'}-{what}{{fill:{it.dark}}}" for what, it in CHECK_WORDS.items() if it.dark),
     f"""
.pass path.m-dropped{{fill:none;stroke:{CHECK_WORDS["dropped"].dark}}}.pass .c-none{{fill:#b5dcf5}}
.pass .c-first,.pass .c-command{{fill:#1f7fc4}}.pass .rest-back{{fill:#14171a}}.pass .rest-line{{fill:#a3adb8}}}}
"""])


def page(title: str, parts: Iterable[str]) -> str:
    head = ['<!doctype html>', '<html lang="en">', '<head>', '<meta charset="utf-8">',
            '<meta name="viewport" content="width=device-width, initial-scale=1">',
            f"<title>{escape(title)}</title>", f"<style>{STYLE}{LOOK}{DARK}</style>", "</head>", "<body>", "<main>"]
    return "\n".join([*head, *parts, "</main>", "</body>", "</html>", ""])


def heading(level: int, words: str) -> str:
    return f"<h{level}>{escape(words)}</h{level}>"


def paragraph(words: str, kind: str = "") -> str:
    return f'<p class="{kind}">{escape(words)}</p>' if kind else f"<p>{escape(words)}</p>"


def verdict(sentence: str, asked: Sequence[str], good: bool) -> str:
    """What is to be read first: a sentence, and questions after it."""
    words = "".join(paragraph(it) for it in [sentence, *asked])
    return f'<div class="verdict {"bad" if asked else "good" if good else "mixed"}">{words}</div>'


def facts(pairs: Iterable[Sequence[str]]) -> str:
    words = "".join(f"<dt>{escape(name)}</dt><dd>{escape(value)}</dd>" for name, value in pairs)
    return f'<dl class="facts">{words}</dl>'


def scrolled(what: str, inner: str) -> str:
    """What may be wider than the page."""
    return f'<div class="scroll" role="region" tabindex="0" aria-label="{escape(what)}">{inner}</div>'


def figure(what: str, svg: str, keys: Iterable[Tuple[str, Sequence[str]]]) -> str:
    """A picture, and below it a legend, words with a swatch before each, which isn't scrolled."""
    sign = '<svg role="img" aria-label="its sign" width="18" height="18" viewBox="-1 -13 18 18">'
    words = "".join(f"<span>{sign}{''.join(swatch)}</svg>{escape(name)}</span>" for name, swatch in keys)
    return f'<figure>{scrolled(what, svg)}<figcaption class="pass">{words}</figcaption></figure>'


class Table:
    """A table: its name, the heads of its columns, its rows. Numbers under a head with a ! before it stand out where
    they aren't 0, those under one with a # aren't amounts, and a column under one with a < is aligned to the left."""

    def __init__(self, name: str, heads: Sequence[str], rows: Iterable[Sequence[Optional[Value]]]) -> None:
        self.name, self.rows = name, list(rows)
        self.marks = [head[0] if head[0] in "!#<" else "" for head in heads]
        self.heads = [head[len(mark):] for head, mark in zip(heads, self.marks)]
        self.sums: Optional[Sequence[Optional[Value]]] = None
        self.left = 0                                     # rows that are left out, as far as they are known

    def summed(self) -> "Table":
        """With a last row that has the sums of its amounts."""
        columns = zip(self.marks[1:], list(zip(*self.rows))[1:])
        self.sums = ["all", *(None if mark == "#" else sum(it for it in values if isinstance(it, int))
                              for mark, values in columns)]
        return self

    def html(self) -> str:
        """The table as HTML, and under it how many rows are left out."""
        head = "".join(f'<th scope="col"{self._class(at, None)}>{escape(name)}</th>'
                       for at, name in enumerate(self.heads))
        body = "".join(map(self._row, self.rows[:MOST_ROWS]))
        foot = f"<tfoot>{self._row(self.sums)}</tfoot>" if self.sums and len(self.rows) > 1 else ""
        left = self.left + max(0, len(self.rows) - MOST_ROWS)
        more = paragraph(f"and {left:,} more", "note") if left else ""
        return scrolled(self.name, f"<table><thead><tr>{head}</tr></thead><tbody>{body}</tbody>{foot}</table>") + more

    def _row(self, row: Sequence[Optional[Value]]) -> str:
        cells = [f"<td{self._class(at, value)}>{cell(value, self.marks[at])}</td>" for at, value in enumerate(row)]
        cells[0] = f'<th scope="row"{self._class(0, None)}>' + cell(row[0], "#") + "</th>"
        return f"<tr>{''.join(cells)}</tr>"

    def _class(self, at: int, value: Optional[Value]) -> str:
        mark = self.marks[at]
        kinds = ["words"] * (mark == "<") + ["long"] * (isinstance(value, str) and len(value) > 24)
        if value == 0 and mark != "#":
            kinds.append("nil")
        elif value is not None and mark == "!":
            kinds.append("bad")
        return f' class="{" ".join(kinds)}"' if kinds else ""


def cell(value: Optional[Value], mark: str) -> str:
    return "" if value is None else f"{value:,}" if isinstance(value, int) and mark != "#" else escape(str(value))


def listing(lines: Iterable[str]) -> str:
    return '<pre tabindex="0">' + escape("\n".join(lines)) + "</pre>"


def folded(summary: str, inner: str) -> str:
    """What is shown where it is asked for."""
    return f"<details><summary>{escape(summary)}</summary>{inner}</details>"
