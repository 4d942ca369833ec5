#!/usr/bin/env python3
"""tools/show: what it draws for the examples is what is stored beside them, it says where the program's lines cannot be the answer, and wrong input gets a sentence and a status.

Its last line is 'N passed, M failed'.
"""
import pathlib
import shutil
import subprocess
import sys
import tempfile

from session_test import EXAMPLE, entry, head, nearest, record, sky, tables

ROOT = pathlib.Path(__file__).resolve().parent.parent
SHOW = ROOT / "tools" / "show"
EXAMPLES = ROOT / "examples"

FIELD = "head 1 8\nentry 7 0x1\n"
# a session, the lines of a program that may be wrong, a line that is drawn, and the words on standard error
PROGRAMS = [
    ("nearest 1 0x3", "stars 1\n3 near 1 1 1\n0 7 1\n", "  entry 0, star 7, distance 1: 0x0000000000000001", ""),
    # numbers that a later program may add are shown
    ("nearest 1 0x3", "stars 1\n3 near 1 1 1 5\n0 7 1 6\n", "  1 answer, 1 bucket opened, 1 entry tested, then 5", ""),
    ("nearest 1 0x3", "stars 1\n3 near 1 1 1 5\n0 7 1 6\n", "  entry 0, star 7, distance 1, then 6: 0x0000000000000001", ""),
    ("verdict 2 0 0x3", "stars 1\n3 match 7 1\n", "  match: star 7 at distance 1", ""),
    ("verdict 2 9 0x3", "stars 1\n3 unsure 7 8 1 4 5\n", "  unsure: star 7 at distance 1 and star 8 at distance 4, a gap below g = 9, then 5", ""),
    ("verdict 0 0 0x3", "stars 1\n3 none\n", "  none: no entry within the reach t = 0", ""),
    # a distance that is not the number of cells, and answers that are none
    ("nearest 1 0x3", "stars 1\n3 near 1 1 1\n0 7 2\n", "    0 # q . . . . . .    0 # . . . . . . .", "1 cell differs in the last drawing, but the program printed distance 2"),
    ("within 3 0x0", "stars 1\n3 within 1 1 1\n0 7 0\n", "    0 . . . . . . . .    0 f . . . . . . .", "1 cell differs in the last drawing, but the program printed distance 0"),
    ("nearest 1 0x3", "stars 1\n3 near 1 1 1\n1 7 1\n", "record 3, line 3: nearest 1 0x0000000000000003", "the program printed '1 7 1', but the session has no entry 1 with star 7"),
    ("nearest 1 0x3", "stars 1\n3 near 1 1 1\n0 8 1\n", "", "the program printed '0 8 1', but the session has no entry 0 with star 8"),
    ("nearest 1 0x3", "stars 1\n3 near 1 1\n0 7 1\n", "", "the program printed '3 near 1 1'"),
    ("nearest 1 0x3", "stars 1\n3 near 1 1 1\n0 7 one\n", "", "the program printed '0 7 one'"),
    ("nearest 1 0x3", "stars 1\n3 near 1 1 1\n", "", "the program printed too few lines"),
    ("nearest 1 0x3", "stars 1\n4 near 1 1 1\n0 7 1\n", "", "record 3 is 'nearest', but the program printed '4 near 1 1 1'"),
    ("nearest 1 0x3", "stars 1\n3 match 7 1\n", "", "record 3 is 'nearest', but the program printed '3 match 7 1'"),
    ("nearest 1 0x3", "stars 1\n\n", "", "record 3 is 'nearest', but the program printed ''"),
    ("nearest 1 0x3", "stars 1\n3 near 0 1 1\n4 none\n", "  0 answers, 1 bucket opened, 1 entry tested", "the program printed '4 none' after all answers"),
    ("nearest 1 0x3", "", "", "the program printed nothing"),
    ("", "", "", "the program printed nothing"),
    ("", "stars many\n", "", "the program printed 'stars many'"),
    ("", "stars 1\nbad 9\n", "1 entry in the catalogue", "the program printed 'bad 9' after all answers"),
    ("sky degrees 0,0", "stars 1\n3 code 10\n", "", "the program printed '3 code 10'"),
    ("sky degrees 0,0", "stars 1\n3 code 0000001000000000\n", "  code 0x0000001000000000", ""),
    ("sky degrees 0,0", "stars 1\n3 refused 99\n", "  refused 99: not a refusal of a session", ""),
]
# each refusal with words of document 01's table
REFUSED = {1: "w or m", 2: "65,536", 3: "starts", 4: "r, t or g", 5: "marks", 6: "answers", 7: "bucket", 8: "4,096", 9: "infinite or not a number", 10: "outside the field"}


def show(*words, tool=SHOW, data=b""):
    ran = subprocess.run([tool, *words], input=data, capture_output=True, timeout=600)
    return ran.returncode, ran.stdout.decode(), ran.stderr.decode()


def stored():
    for name in ("catalogue-a", "my-sky"):
        yield name, show(EXAMPLES / f"{name}.txt") == (0, (EXAMPLES / f"{name}.drawing").read_text(), "")
    lines = subprocess.run(f"{ROOT}/tools/records {EXAMPLES}/my-sky.txt | {ROOT}/session", shell=True, capture_output=True).stdout.decode()
    yield "the lines of my-sky", lines == (EXAMPLES / "my-sky.lines").read_text()
    # records are drawn as text is, but for the lines of the text
    text = (EXAMPLES / "catalogue-a.drawing").read_text()
    for line in (8, 9, 10):
        text = text.replace(f"record {line - 1}, line {line}:", f"record {line - 1}:")
    yield "records", show(EXAMPLES / "catalogue-a.records") == (0, text, "") == show("-", data=EXAMPLE)


def wide():
    """A code of 128 bits is two grids. Query bits 0 and 65, field bits 0, 63 and 127: three cells differ."""
    status, drawn, _ = show("-", data=head(2) + entry(5, 2**127 + 2**63 + 1, 2) + nearest(1, 2**65 + 1, 2))
    grids = [line for line in drawn.splitlines() if line.startswith("    ")]
    empty = [f"    {row} . . . . . . . .    {row} . . . . . . . ." for row in range(8)]
    columns = "      0 1 2 3 4 5 6 7      0 1 2 3 4 5 6 7"
    expected = ["      query, word 0        field, word 0", "    7 . . . . . . . .    7 . . . . . . . f", *empty[6:0:-1], "    0 # . . . . . . .    0 # . . . . . . .", columns]
    expected += ["      query, word 1        field, word 1", "    7 . . . . . . . .    7 . . . . . . . f", *empty[6:0:-1], "    0 . q . . . . . .    0 . . . . . . . .", columns]
    yield f"two words: {drawn}", status == 0 and grids == expected and "entry 0, star 5, distance 3: 0x80000000000000008000000000000001" in drawn


def sessions():
    """Sessions that end with a bad record, that are empty, or that are no sessions."""
    for name, data, end in (
        ("in text", b"head 1 8\nsky degrees\n\nraw 9 00 # on purpose\nsky degrees\n", "\nrecord 3, line 4 is bad, and the session ends there: raw 9 00\n"),
        ("in records", head() + sky(1, []) + record(9, b"\0") + sky(1, []), "\nrecord 3 is bad, and the session ends there: raw 9 00\n"),
        ("first", entry(1, 2), "\nrecord 1 is bad, and the session ends there: raw 2 010000000200000000000000\n"),
        ("cut short", head() + entry(1, 2)[:7], "\nrecord 2 is bad, and the session ends there: bytes 0c000200010000\n"),
    ):
        status, drawn, said = show("-", data=data)
        yield f"bad {name}: {drawn}", status == 1 and drawn.endswith(end) and said == ""
    yield "empty", show("-") == (0, "the session is empty\n", "")
    status, drawn, said = show("-", data=tables(2, 18) + entry(10, 2**18 - 1, 2) + nearest(1, 0, 2))
    yield f"a head by tables: {drawn}", (status, said) == (0, "") and "1 answer, 26 buckets opened, 1 entry tested" in drawn and "distance 18" in drawn
    yield "a lone head", show("-", data=b"head 1 8") == (0, "0 entries in the catalogue\n", "")
    yield "wrong text", show("-", data=b"head 1 8\nnearest 1 3") == (1, "", "show: line 2: expected a code, which is written 0x and hex digits, and not '3'; did you mean 0x3?\n")
    yield "no text", show("-", data=b"\xff\xfe") == (1, "", "show: the file is not text (UTF-8)\n")


def show_with(folder, question, script):
    """What is drawn in a folder in which the session program is a script."""
    program = folder / "session"
    program.write_text(f"#!/bin/sh\n{script}")
    program.chmod(0o755)
    return show("-", tool=folder / "tools" / "show", data=(FIELD + question).encode())


def programs():
    """Other session programs, in a folder whose name has a space."""
    with tempfile.TemporaryDirectory(prefix="a folder ") as name:
        folder = pathlib.Path(name)
        (folder / "tools").mkdir()
        for tool in ("show", "records"):
            shutil.copy(ROOT / "tools" / tool, folder / "tools")
        yield "no program", show("-", tool=folder / "tools" / "show", data=FIELD.encode()) == (1, "", f"show: {folder}/session cannot be run: No such file or directory\n")
        for question, lines, drawn, said in PROGRAMS:
            status, out, err = show_with(folder, question, f"cat << 'end'\n{lines}end\n")
            good = (0, "") if not said else (1, f"show: WRONG: {said}\n")
            yield f"{lines!r}: {out}{err}", (status, err) == good and drawn in ["", *out.splitlines()]
        for number, words in REFUSED.items():
            status, out, _ = show_with(folder, "sky degrees", f"echo stars 1; echo 3 refused {number}\n")
            yield f"refusal {number}: {out}", status == 0 and f"  refused {number}: " in out and words in out
        yield "a program that fails", show_with(folder, "sky degrees", "echo stars 1; exit 3\n") == (1, "", "show: the session program ended with status 3\n")


def command_lines():
    cases = {
        "$T": (2, "show: a file is needed; tools/show --help says what is taken\n"),
        "$T a b": (2, "show: one file, and not 2; tools/show --help says what is taken\n"),
        "$T --text a": (2, "show: option --text not recognized; tools/show --help says what is taken\n"),
        "$T --help | grep -q '^usage: tools/show FILE'": (0, ""),
        "$T no/such.txt": (1, "show: no/such.txt cannot be read: No such file or directory\n"),
        "$T docs": (1, "show: docs cannot be read: Is a directory\n"),
        "$T examples/my-sky.txt > /dev/full": (1, "show: standard output cannot be written: No space left on device\n"),
        "$T examples/my-sky.txt >&-": (1, "show: standard output cannot be written: Bad file descriptor\n"),
    }
    for command, expected in cases.items():
        ran = subprocess.run(["bash", "-c", f"T={SHOW}; {command}"], capture_output=True, timeout=600, cwd=ROOT)
        yield f"{command}: {ran}", (ran.returncode, ran.stderr.decode()) == expected
    with tempfile.TemporaryDirectory() as folder:
        link = pathlib.Path(folder) / "show"
        link.symlink_to(SHOW)
        yield "through a link", show(EXAMPLES / "my-sky.txt", tool=link)[0] == 0


def main():
    results = [case for cases in (stored, wide, sessions, programs, command_lines) for case in cases()]
    failed = [name for name, passed in results if not passed]
    for name in failed:
        print(f"FAILED {name}", file=sys.stderr)
    print(f"{len(results) - len(failed)} passed, {len(failed)} failed")
    sys.exit(1 if failed else 0)


if __name__ == "__main__":
    main()
