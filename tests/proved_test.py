#!/usr/bin/env python3
"""proved_test [PAGE]: every file, theorem, definition, function and edit that docs/PROVED.md names exists.

What counts as a name:
- a link: each [label] outside code has a line '[label]: target' at the page's end, and each target, also of [text](target), is a file; each such line is used;
- a word in backquotes with a slash: crate/label, without a dot in it, is a must-fail edit, and so is looked for as crates/CRATE/must-fail/LABEL.edit; any other is a file or
  folder, from the repository's top or from crates/, where * stands for anything;
- crate::name, or crate::Type::name, is a public function of that crate's src; tirnavoy_name, or _name for short, is one of include/tirnavoy.h;
- Name.antt is a file of some crate; a crate's name is that crate;
- in a table, any other word in backquotes is a definition or a theorem of an antt file, or a function or a type of a Rattle file. Where a column's head is one of NAMING, it is declared in
  one of the files that its row names ('there': that the row above names), if there are any; in other columns, in any file of crates/;
- outside tables only words with a hyphen, an underscore or an inner capital count as such names: others may be a keyword, or what a program prints.
What rt makes in crates/*/out is no file of a crate.
A code with a space in it is an expression or a command, and is not looked at."""
import pathlib
import re
import sys

TOP = pathlib.Path(__file__).resolve().parent.parent
NAMING = ("definition", "theorem", "uniqueness", "word")
WORDS = ("pub", "requires", "ensures")
# a signature or a type at the left margin, or a public one inside a section
ANTT = re.compile(r"^(?: +(?=.*\bpub ))?(?:(?:abbrev|unfoldable) +)?(?:pub +)?(?:(?:record|data) +(\S+)|([^\s:(){}]+) +:)", re.M)
RATTLE = re.compile(r"\b(?:fn|struct|enum|type|const) +(\w+)")
CODE = re.compile(r"`([^`]+)`")


def declared(path):
    text = path.read_text(encoding="utf-8")
    if path.suffix == ".rt":
        return set(RATTLE.findall(text))
    return {a or b for a, b in ANTT.findall(text)}


def own(paths):
    """the paths that are not in a crate's out/"""
    return [path for path in paths if path.relative_to(TOP).parts[2:3] != ("out",)]


NAMES = {path: declared(path) for path in own(TOP.glob("crates/**/*")) if path.suffix in (".rt", ".antt")}
CRATES = {path.name for path in TOP.glob("crates/*")}
HEADER = (TOP / "include" / "tirnavoy.h").read_text(encoding="utf-8")


class Page:
    def __init__(self, path):
        self.path, self.passed, self.failed = path, 0, []
        self.text = path.read_text(encoding="utf-8")
        self.labels = dict(re.findall(r"^\[([^\]]+)\]: *(\S+)$", self.text, re.M))
        self.used, self.row, self.head, self.above = set(), 0, [], []

    def expect(self, right, name, why):
        if right:
            self.passed += 1
        else:
            self.failed.append(f"{self.path.name}, line {self.row}: {name} {why}")

    def target(self, link):
        """the file that a link leads to"""
        path = (TOP / "docs" / link.split("#")[0]).resolve()
        self.expect(link.startswith("http") or path.exists(), link, "is no file")
        return path

    def links(self, text):
        """the files that a text links to"""
        plain, files = CODE.sub("", text), []
        for _, inline, label in re.findall(r"\[([^\]]*)\](?:\(([^)]*)\)|\[([^\]]*)\])?", plain):
            if inline:
                files.append(self.target(inline))
                continue
            label = label or _
            self.used.add(label)
            self.expect(label in self.labels, f"[{label}]", "has no line with its target")
            if label in self.labels:
                files.append(self.target(self.labels[label]))
        return files

    def files(self, word):
        """the files that a word in backquotes names, or None where it is no file"""
        if "/" in word and ("." in word or word.split("/")[0] not in CRATES or word.split("/")[1] in ("src", "specs", "proofs")):
            return own([*TOP.glob(word), *(TOP / "crates").glob(word)])
        if word.endswith(".antt"):
            return own((TOP / "crates").glob(f"**/{word}"))
        return None

    def plain_name(self, word, files, table):
        """a word that is no file"""
        if "/" in word:
            crate, label = word.split("/", 1)
            self.expect((TOP / "crates" / crate / "must-fail" / f"{label}.edit").is_file(), word, "is no must-fail edit")
        elif "::" in word:
            crate, *_, name = word.split("::")
            sources = (path.read_text(encoding="utf-8") for path in (TOP / "crates" / crate / "src").glob("*.rt"))
            self.expect(any(re.search(rf'\bpub (extern "C" )?fn {re.escape(name)}\b', text) for text in sources), word, "is no public function")
        elif word.startswith(("tirnavoy_", "_")) and "-" not in word:
            name = word if word.startswith("t") else f"tirnavoy{word}"
            self.expect(re.search(rf"\b{name}\(", HEADER), word, "is not in include/tirnavoy.h")
        elif "*" in word:
            self.expect(any((TOP / "crates").glob(word)), word, "fits no crate")
        elif word in CRATES:
            self.passed += 1
        elif word not in WORDS and (table or re.search(r"[-_]|[a-z][A-Z]", word)):
            places = [path for path in NAMES if not files or any(file in (path, *path.parents) for file in files)]
            named = ", ".join(str(file.relative_to(TOP)) for file in files) or "any file of crates/"
            self.expect(any(word in NAMES[path] for path in places), f"`{word}`", f"is not declared in {named}")

    def part(self, text, files, table):
        for word in CODE.findall(text):
            if " " in word:
                continue
            found = self.files(word)
            if found is None:
                self.plain_name(word, files, table)
            else:
                self.expect(found, f"`{word}`", "is no file or folder")

    def table_row(self, line):
        cells = [cell.strip() for cell in line.strip().strip("|").split("|")]
        if not self.head:
            self.head = cells
        elif not set(line) <= set("|-: "):
            files = self.links(line) + [path for word in CODE.findall(line) if " " not in word for path in self.files(word) or []]
            files = [path for path in files if TOP / "crates" in path.parents]
            if re.search(r"\bthere\b", line) and not files:
                files = self.above
            self.above = files
            for head, cell in zip(self.head, cells):
                self.part(cell, files if head in NAMING else [], True)

    def read(self):
        for self.row, line in enumerate(self.text.splitlines(), 1):
            if line.startswith("|"):
                self.table_row(line)
                continue
            self.head = []
            if not re.match(r"\[[^\]]+\]: ", line):
                self.links(line)
                self.part(line, [], False)
        for label in self.labels:
            self.expect(label in self.used, f"[{label}]", "is not used on the page")


def main():
    path = pathlib.Path(sys.argv[1]) if len(sys.argv) > 1 else TOP / "docs" / "PROVED.md"
    if not path.is_file():
        sys.exit(f"proved_test: {path} is no file")
    page = Page(path)
    page.read()
    for failure in page.failed:
        print(f"FAILED {failure}", file=sys.stderr)
    print(f"{page.passed} passed, {len(page.failed)} failed")
    sys.exit(1 if page.failed or page.passed == 0 else 0)


if __name__ == "__main__":
    main()
