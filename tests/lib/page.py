"""Looks at a page of HTML on the standard input, and prints its text without pictures: a line for each heading,
paragraph, line of a listing and row of a table, with single spaces between its cells.

    python3 tests/lib/page.py < PAGE.html > TEXT

Status: 0; 1 where the page isn't well formed, has a script or wants something from elsewhere, or lacks what its readers
need: a language, a title, one heading, heads of tables with a scope, words for a picture. The last lines on the
standard error say so.
"""

import re
import sys
from xml.etree import ElementTree

START = '<!doctype html>\n<html lang="en">'
IN_LINE = {"td", "th", "dt", "dd", "b", "code", "a"}


def wrong(it):
    """What is wrong with an element."""
    tag = it.tag
    if tag == "th" and it.get("scope") not in ("col", "row"):
        yield "a head of a table without a scope"
    if tag == "svg" and (it.get("role") != "img" or not it.get("aria-label")):
        yield "a picture without words"
    if tag in ("script", "link", "img", "iframe", "object"):
        yield f"an element {tag}"
    if tag == "style" and re.search(r"url\((?!#)|@import", it.text):
        yield "a style from elsewhere"
    for name, value in it.attrib.items():
        if name.startswith("on") or name in ("src", "href") or "url(" in value.replace("url(#", ""):
            yield f"an attribute {name}={value}"


def text_of(it):
    """The text of an element, but for pictures and styles."""
    parts = [it.text, *(part for of in it for part in (text_of(of), of.tail))]
    inner = "" if it.tag in ("svg", "style") else "".join(filter(None, parts))
    return ("" if it.tag in IN_LINE else "\n") + inner + (" " if it.tag in IN_LINE - {"dd"} else "\n")


def main():
    words = sys.stdin.buffer.read().decode()
    complaints = [] if words.startswith(START) else ["no document type or language"]
    words = re.sub(r' xmlns="[^"]*"', "", words.partition("\n")[2])   # which would stand before names in a picture
    page = ElementTree.fromstring(re.sub(r"(<meta [^>]*)>", r"\1/>", words))
    seen, ids = [it.tag for it in page.iter()], [it.get("id") for it in page.iter() if it.get("id")]
    complaints += [said for it in page.iter() for said in wrong(it)]
    complaints += [f"no {tag}" for tag in ("title", "main", "body") if tag not in seen]
    complaints += ["not one h1"] * (seen.count("h1") != 1)
    complaints += ["an id twice"] * (len(ids) != len(set(ids)))
    print("\n".join(filter(None, map(str.strip, text_of(page).split("\n")))))
    for complaint in complaints:
        print(complaint, file=sys.stderr)
    return 1 if complaints else 0


if __name__ == "__main__":
    sys.exit(main())
