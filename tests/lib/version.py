#!/usr/bin/env python3
"""The version, which stands in several places.

    tests/lib/version.py            prints each place, and the version that stands there
    tests/lib/version.py VERSION    sets it in all of them but CHANGELOG.md, whose first section has it as its heading

Status: 0; 1 where a place has no version, or two of them differ. After a change of it all is proved and built again, as
the contract of `run` has it.
"""
import re
import sys
from pathlib import Path

ROOT = Path(__file__).resolve().parents[2]
VERSION = r"(\d+\.\d+\.\d+)"
BY_HAND = "CHANGELOG.md"
PLACES = {                                                # in each file all that stand between such words
    BY_HAND: r"(?s)\A.*?^## @$",
    "crates/sl_link/specs/Program/Answer.antt": r'^version_line = codes "sllink @\\n"$',
    "crates/sl_link/src/program.rt": r'^const VERSION_LINE: &str = "sllink @\\n";$',
    "crates/sl_link/src/program/command_line.rt": '^const VERSION: &str = "@";$',
    "crates/sl_link_tests/src/command_line.rt": r'"sllink @\\n"',
    "crates/sllink_*/src/command_line.rt": '^const VERSION: &str = "@";$',
    "crates/sllink_*/src/main.rt": r'^const VERSION_LINE: &str = "sllink-\w+ @\\n";$',
    "docs/listings.md": "^ *sllink @$",
    "docs/tools.md": r"sllink[-_]@[-_]",
    "include/sllink.pc": "^Version: @$",
    "python/pyproject.toml": '^version = "@"$',
    "python/sllink/__init__.py": '^__version__ = "@"$',
    "tests/model/compare": r'^VERSION = b"sllink @\\n"$',
    "tests/model/model.py": r'b"sllink @\\n"',
}


def main(wanted=None):
    found, wrong = set(), False
    for place, words in PLACES.items():
        pattern = re.compile(words.replace("@", VERSION), re.M)
        for path in sorted(ROOT.glob(place)):
            text = path.read_text("utf-8")
            if wanted and place != BY_HAND:
                text = pattern.sub(lambda it: it[0].replace(it[1], wanted), text)
                path.write_text(text, "utf-8")
            here = set(pattern.findall(text))
            print(path.relative_to(ROOT), *sorted(here))
            wrong = wrong or not here
            found |= here
    return int(wrong or len(found) != 1)


if __name__ == "__main__":
    sys.exit(main(*sys.argv[1:]))
