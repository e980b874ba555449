"""What the scripts of tests/ share: each counts what it tries, names what fails, and what is skipped because something
isn't there, and closes with a line `N passed, M failed, K skipped`. The program is crates/sllink/out/sllink where none is
named. Status: 0 where none failed, 1 where one did, 2 where there is no program. common.bash has the same for bash.

    python3 tests/lib/counts.py COMMAND..

runs commands, each by a shell, one after another, and closes with one line over all of their last lines.
"""

import os
import re
import signal
import subprocess
import sys
from collections import Counter
from concurrent.futures import ThreadPoolExecutor
from typing import Any, Dict, List, Sequence, Tuple

HERE = os.path.dirname(os.path.realpath(__file__))
ROOT = os.path.dirname(os.path.dirname(HERE))
LINE = re.compile(r"(\d+) passed, (\d+) failed(?:, (\d+) skipped)?\n?")
counted: "Counter[str]" = Counter()                        # tried, failed, skipped
fails = False
# A shell in the background has its commands ignore SIGINT; those that are tried here don't.
if signal.getsignal(signal.SIGINT) == signal.SIG_IGN:
    signal.signal(signal.SIGINT, signal.default_int_handler)


def begin() -> None:
    """What is complained of from here on is of the next one that is tried, which then fails, once."""
    global fails
    fails = False
    counted["tried"] += 1


def complain(what: str) -> None:
    global fails
    counted["tried"] = counted["tried"] or 1
    counted["failed"] += not fails
    fails = True
    print(f"FAILED: {what}", flush=True)


def ok(that: object, what: str) -> None:
    """One that is tried."""
    begin()
    if not that:
        complain(what)


def skip(what: str) -> None:
    counted["skipped"] += 1
    print(f"skipped: {what}", flush=True)


def finish() -> int:
    """The last line, and the status."""
    print(f"{counted['tried'] - counted['failed']} passed, {counted['failed']} failed, {counted['skipped']} skipped")
    return 1 if counted["failed"] else 0


def ran(*words: str, **streams: Any) -> Tuple[int, bytes, str]:
    """Status, output and errors of a command."""
    done = subprocess.run(words, stdout=subprocess.PIPE, stderr=subprocess.PIPE, check=False, **streams)
    return done.returncode, done.stdout, os.fsdecode(done.stderr)


def program_of(words: Sequence[str]) -> str:
    """The program that is the first of the words, if there are any."""
    program = os.path.realpath(words[0] if words else f"{ROOT}/crates/sllink/out/sllink")
    if not os.path.isfile(program) or not os.access(program, os.X_OK):
        print(f"tests/{os.path.basename(sys.argv[0])}: {program}: there is no such program", file=sys.stderr)
        sys.exit(2)
    return program


def beside() -> Dict[str, str]:
    """The programs beside it: those that $SLLINK_FRAMES and the like name, or that stand in their crates."""
    with open(f"{ROOT}/Makefile", encoding="utf-8") as it:
        crates = re.findall("(?m)^PROGRAMS = (.*)", it.read())[0].split()
    return {crate.upper(): os.path.realpath(os.environ.get(crate.upper()) or f"{ROOT}/crates/{crate}/out/{crate}")
            for crate in crates}


def add(what: str, status: int, lines: List[str]) -> None:
    """Adds what a command has counted, which has to close with the line."""
    found = LINE.fullmatch(lines[-1] if lines else "")
    passed, failed, skipped = (int(number or 0) for number in found.groups()) if found else (0, 0, 0)
    counted.update(tried=passed + failed, failed=failed, skipped=skipped)
    if not found or status and not failed:
        ok(False, f"{what}: it ended with status {status}{'' if found else ', and without such a line'}")


def run_all(commands: Sequence[List[str]], jobs: int = 1) -> None:
    """Runs commands, so many at a time, and shows what each prints: as it comes, or, of several, when it has ended."""
    def run(command: List[str]) -> Tuple[int, List[str]]:
        lines: List[str] = []
        with subprocess.Popen(command, stdin=subprocess.DEVNULL, stdout=subprocess.PIPE, text=True,
                              stderr=subprocess.STDOUT if jobs > 1 else None, errors="replace") as it:
            for line in it.stdout or ():
                lines.append(line)
                print(line * (jobs == 1), end="", flush=True)
        if jobs > 1:
            what = " ".join(os.path.relpath(word, ROOT) if word.startswith(ROOT) else word for word in command)
            print(f"{what}\n{''.join(lines)}", end="", flush=True)
        return it.returncode, lines

    with ThreadPoolExecutor(jobs) as pool:
        for command, (status, lines) in zip(commands, pool.map(run, commands)):
            add(" ".join(command), status, lines)


if __name__ == "__main__":
    run_all([["sh", "-c", word] for word in sys.argv[1:]])
    sys.exit(finish())
