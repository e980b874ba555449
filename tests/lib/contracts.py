#!/usr/bin/env python3
"""Quotes what the crates promise, so that a change of a promise is a change of a page.

    python3 tests/lib/contracts.py [FOLDER [ROOT]]

writes docs/contracts/CRATE.md, which tests/reading compares, and takes away those of crates that are gone: the public
types, traits and calls of each crate of crates.txt (of a program the calls between its modules, and those of main),
module by module, each call with its clauses. Comments, line breaks in clauses and what is private are left out. With a
FOLDER it writes FOLDER/CRATE.md in their place, which also have those definitions of specs/ that the clauses cite,
directly or through others. ROOT is the repository, or a state of it, as `git archive COMMIT | tar x -C ROOT` writes it.
"""

import re
import sys
from functools import lru_cache
from pathlib import Path
from typing import Dict, Iterator, List, NamedTuple, Optional, Set, Tuple

ROOT = Path(__file__).resolve().parents[2]
PAGES = ROOT / "docs/contracts"
ABOUT = """`make contracts` writes this page: the public types and calls of the crate, of a program those of its
files, with the clauses in `src/`, but for comments and line breaks. The crates' `specs/` define the words, and
[proofs.md](../proofs.md) says which clause carries which promise. `x.old` and `x.entry` are what `x` was at the call,
`x.new` is what it is at the return, `x.now` the value of what isn't changed; `result` is the answer.
"""
Name = Tuple[str, str, str]                                # a crate, a file of its specs/ as Io.Lines, a name there
LITERAL = r'b?"(?:\\.|[^"\\])*"|b?\'(?:\\[^\']+|[^\\\'\n])\''
PASSED_OVER = r"//[^\n]*|/\*.*?\*/|#\[cfg\(test\)\]\s*mod \w+;|#!?\[[^]]*\]"
HEAD = re.compile(r"\s*(pub(?:\([^)]*\))?\s+)?(?:const\s+(?=fn)|unsafe\s+|final\s+|(extern)\s+)*"
                  r"(fn|struct|enum|trait|impl|mod|macro_rules!|(?:ghost\s+)?use|ghost|const|static|type)\b")
TYPE = re.compile(r"(\w+)\s*(?:<(?:[^<>]|<[^<>]*>)*>)?\s*(?:where\b.*)?$", re.S)
CLAUSE = re.compile(r"(?<=\s)(requires\*?|ensures\*?|ghost)(\s+\w+)?:?\s*\{")
WORD = re.compile(r"[^\W\d][\w'-]*(?:\.[^\W\d][\w'-]*)?")
IMPORT = re.compile(r"use Rattle\.(\w+)\.specs\.([\w.]+?)(?:\.\{([^}]*)\}| as (\w+)|(?=;|\s*$))", re.M)
MODIFIED = re.compile(r"\s*((?:(?:pub|abbrev|unfoldable|record|data)\s+)*)([^\s:({]*)")


class Item(NamedTuple):
    kind: str
    public: bool
    name: str                                              # of an `impl` that of its type
    start: int
    brace: int                                             # where its braces begin, or the semicolon at its end
    end: int


def imports_of(text: str) -> Dict[str, Name]:
    """What a file imports, by what it is called there; a whole file of definitions has an empty name."""
    return {other or name or alias or module.split(".")[-1]: (crate, module, name)
            for crate, module, words, alias in IMPORT.findall(text)
            for name, _, other in (word.partition(" as ") for word in re.split(r",\s*", words.strip(" ,")))}


class Source:
    """A file of src/. Its shape has blanks for literals, comments and attributes, so that each brace is one."""

    def __init__(self, text: str) -> None:
        self.text = text
        self.shape = re.sub(f"{LITERAL}|{PASSED_OVER}", lambda m: re.sub(r"\S", " ", m[0]), text, flags=re.S)

    def quote(self, start: int, end: int) -> str:
        text = re.sub(f"({LITERAL})|{PASSED_OVER}", lambda m: m[1] or " ", self.text[start:end], flags=re.S)
        return re.sub(r"(?<=[(\[]) |,? (?=[)\]])", "", " ".join(text.split()))

    def after(self, at: int) -> int:
        """The place after the bracket that is opened here is closed."""
        depth = 0
        for at in range(at, len(self.shape)):
            depth += (self.shape[at] in "([{") - (self.shape[at] in ")]}")
            if not depth:
                break
        return at + 1

    def until(self, at: int, stops: str) -> int:
        """The next of these marks outside brackets and clauses."""
        while self.shape[at] not in stops:
            clause = CLAUSE.match(self.shape, at)
            at = self.after(clause.end() - 1) if clause else self.after(at) if self.shape[at] in "([{" else at + 1
        return at

    def items(self, at: int, stop: int) -> Iterator[Item]:
        while head := HEAD.match(self.shape, at, stop):
            brace = self.until(head.end(), "{;" if re.match("fn|struct|enum|trait|impl|mod|macro", head[3]) else ";")
            at = self.after(brace) if self.shape[brace] == "{" else brace + 1
            rest = self.shape[head.end():brace]
            name = TYPE.search(rest) if head[3] == "impl" else re.search(r"([^\W\d]\w*)", rest)
            public = (head[1] or "").strip() == "pub"
            yield Item(head[2] or head[3], public, name[1] if name else "", head.start(3), brace, at)
        if self.shape[at:stop].strip():
            sys.exit(f"what begins here? {self.shape[at:stop].strip()[:60]}")

    def lines(self, item: Item, cited: Set[str], indent: str = "") -> Iterator[str]:
        """What is quoted of an item and of those in it. The words of clauses are added to those cited."""
        whole = item.kind not in ("fn", "extern", "struct", "trait", "impl")
        clauses = [] if whole else list(CLAUSE.finditer(self.shape, item.start, item.brace))
        line = self.quote(item.start, clauses[0].start() if clauses else item.end if whole else item.brace)
        yield indent + line.rstrip(";")
        if whole:
            cited.update(WORD.findall(line))
        for clause in clauses:
            body = self.quote(clause.end(), self.after(clause.end() - 1) - 1)
            cited.update(WORD.findall(body))
            yield f"{indent}  {clause[1]}{' ' + clause[2].strip() if clause[2] else ''}: {body}"
        if item.kind in ("trait", "impl"):
            for part in self.items(item.brace + 1, item.end - 1):
                if "use" not in part.kind and (part.public or item.kind == "trait" or " for " in line):
                    yield from self.lines(part, cited, indent + "  ")
        elif item.kind == "struct":
            fields = re.split(r", (?=(?:pub |ghost )?\w+:)", self.quote(item.brace + 1, item.end - 1).strip(","))
            for field in filter(re.compile("pub |ghost ").match, fields):
                cited.update(WORD.findall(field))
                yield f"{indent}  {field}"


class Specs:
    """A file of specs/: its definitions, and in which of them a name is. A `module _` is one definition."""

    def __init__(self, path: Path) -> None:
        self.names: Dict[str, str] = {}
        self.all: Dict[str, Tuple[int, List[str]]] = {}    # where it stands, and its lines
        self.imports = imports_of(path.read_text())
        comments, now, kind = [], "", ""                   # type: List[str], str, str
        for number, line in enumerate(filter(str.strip, path.read_text().splitlines())):
            modifiers, name = MODIFIED.match(line).groups()  # type: ignore
            if line.startswith("--") or line[0] != " " and name in ("use", "mod"):
                comments, now = (comments + [line]) * line.startswith("--"), ""
            elif line[0] != " " and (modifiers or name not in ("unfolding", now)):
                now, kind = line if name == "module" else name, modifiers
                self.all[now] = (number, comments + [line])
                self.names[name], comments = now, []
            else:
                self.all[now][1].append(line)
                kind = modifiers if modifiers.strip() not in ("", "pub") else kind
                if kind == modifiers or "data" in kind and f"{name} :" in line:
                    self.names.setdefault(name, now)


class Repository:
    def __init__(self, root: Path) -> None:
        self.crates = root / "crates"
        self.names = re.findall(r"^(\w+).*:", (root / "crates.txt").read_text(), re.M)
        self.wanted: Dict[Name, Tuple[int, List[str]]] = {}

    @lru_cache(maxsize=None)
    def specs(self, crate: str, module: str) -> Optional[Specs]:
        path = self.crates / crate / "specs" / (module.replace(".", "/") + ".antt")
        return Specs(path) if path.exists() else None

    def cite(self, word: str, imports: Dict[str, Name]) -> None:
        """The definition of a word of a file is wanted, and what it cites."""
        front, _, back = word.partition(".")
        if front in imports:
            crate, module, name = imports[front]
            name = name or back
            file, library = self.specs(crate, module), self.specs(crate, "Lib")
            if file and name in file.names:
                here = (crate, module, file.names[name])
                own = {other: (crate, module, other) for other in file.names}
                if here not in self.wanted:
                    self.wanted[here] = file.all[here[2]]
                    for other in WORD.findall("\n".join(line.split("--")[0] for line in file.all[here[2]][1])):
                        self.cite(other, {**file.imports, **own})
            elif file:                                     # handed on by another file, or by another crate
                self.cite(name, file.imports)
            elif library and module in library.imports:
                self.cite(name, {name: (*library.imports[module][:2], name)})

    def calls(self, crate: str) -> Iterator[str]:
        root = "lib" if (self.crates / crate / "src/lib.rt").exists() else "main"
        modules = []                                       # type: List[Tuple[List[str], bool, Source, List[Item]]]
        paths = [([], True)]                               # type: List[Tuple[List[str], bool]]
        for path, public in paths:
            file = self.crates / crate / "src" / ("/".join(path or [root]) + ".rt")
            source = Source(file.read_text() if file.exists() else "")
            items = list(source.items(0, len(source.text)))
            paths += [(path + [item.name], root == "main" or public and item.public) for item in items
                      if item.kind == "mod"]
            modules.append((path, public, source, items))
        modules.sort(key=lambda module: module[0])
        onward = {(path.split("::")[-1], name) for _, public, source, _ in modules if public
                  for path, names in re.findall(r"^pub use ([\w:]+)::(.*?);", source.shape, re.M | re.S)
                  for name in re.findall(r"\w+", names)}
        types = {item.name for path, public, _, items in modules for item in items
                 if root == "lib" and item.public and (public or (path[-1], item.name) in onward)}
        for path, public, source, items in modules:
            cited: Set[str] = set()
            quoted = [list(source.lines(item, cited)) for item in items if item.kind == "extern"
                      or item.kind == "impl" and item.name in types
                      or root == "main" and item.kind == "fn" and (item.public or not path)
                      or root == "lib" and item.public and item.kind not in ("use", "mod")
                      and (public or (path[-1], item.name) in onward)]
            lines = [line for its in quoted if its[1:] or root == "lib" and its[0][:4] != "impl" for line in its]
            for word in cited:
                self.cite(word, imports_of(source.text))
            if lines:
                yield "\n".join([f"## {'::'.join([crate, *path])}", "", "```text", *lines, "```\n"])

    def definitions(self, crate: str) -> Iterator[str]:
        for module in sorted({module for its, module, _ in self.wanted if its == crate}):
            mine = sorted(one for name, one in self.wanted.items() if name[:2] == (crate, module))
            text = "\n\n".join("\n".join(one[1]) for one in mine)
            yield f"## specs/{module.replace('.', '/')}.antt\n\n```antt\n{text}\n```\n"


def pages(root: Path = ROOT, cited: bool = False) -> Dict[str, str]:
    """The page of each crate that has calls, by its name: with what clauses cite, or as docs/contracts/ has it."""
    whole = Repository(root)
    calls = {crate: list(whole.calls(crate)) for crate in whole.names}
    return {f"{crate}.md": "\n".join([f"# {crate}\n", *calls[crate], *whole.definitions(crate)] if cited else
                                     [f"# {crate}\n", ABOUT, *calls[crate]]) for crate in filter(calls.get, calls)}


if __name__ == "__main__":
    if len(sys.argv) > 3:
        sys.exit(__doc__)
    asked = [Path(it) for it in sys.argv[1:]]
    folder, root = asked + [PAGES, ROOT][len(asked):]
    made = pages(root, cited=bool(asked))
    folder.mkdir(parents=True, exist_ok=True)
    for gone in () if asked else {*folder.glob("*.md")} - {folder / name for name in made}:
        gone.unlink()
    for name, text in made.items():
        (folder / name).write_text(text)
