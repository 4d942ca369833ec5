#!/usr/bin/env python3
"""tools/records, both ways: what a person writes becomes the bytes of document 01, any bytes come back as they were, a wrong line gets its number and what was expected, and nothing is lost in silence.

Its last line is 'N passed, M failed'.
"""
import importlib.machinery
import pathlib
import random
import subprocess
import sys
import tempfile
import types

from reference import transcript
from session_test import EXAMPLE, bad_records, limits, random_input, skies

HERE = pathlib.Path(__file__).resolve().parent
ROOT = HERE.parent
TOOL = ROOT / "tools" / "records"
RECORDS = types.ModuleType("records")
importlib.machinery.SourceFileLoader("records", str(TOOL)).exec_module(RECORDS)

HEAD = "02 00 01 00 01 08"
# a text, and its bytes by document 01: the body's length, the kind, the body, all little-endian
GOOD = {
    "": "",
    "# nothing\n\n": "",
    "head 1 8": HEAD,
    "Tables 1 16\nsky degrees": "02 00 07 00 01 10  01 00 06 00 01",
    "tables 2 18\nentry 1 0xabc": "02 00 07 00 02 12  14 00 02 00 01 00 00 00 BC 0A 00 00 00 00 00 00 00 00 00 00 00 00 00 00",
    "head 2 8\nentry 1 0xabc": "02 00 01 00 02 08  14 00 02 00 01 00 00 00 BC 0A 00 00 00 00 00 00 00 00 00 00 00 00 00 00",
    "head 1 8\nentry 4294967295 0xffffffffffffffff": HEAD + "0C 00 02 00 FF FF FF FF FF FF FF FF FF FF FF FF",
    "head 1 8\nnearest 2 0x3  # record 7 of the example": HEAD + "0A 00 03 00 02 00 03 00 00 00 00 00 00 00",
    "head 1 8\nwithin 65 0xFf": HEAD + "0A 00 04 00 41 00 FF 00 00 00 00 00 00 00",
    "head 1 8\nverdict 4 3 0x0123456789abcdef": HEAD + "0C 00 05 00 04 00 03 00 EF CD AB 89 67 45 23 01",
    "head 1 8\nsky degrees": HEAD + "01 00 06 00 01",
    "head 1 8\nsky radians 1,-0.5": HEAD + "11 00 06 00 02 00 00 00 00 00 00 F0 3F 00 00 00 00 00 00 E0 BF",
    "head 1 8\nsky degrees +2e0,.5 1.,0x4000000000000000": HEAD + "21 00 06 00 01 00 00 00 00 00 00 00 40 00 00 00 00 00 00 E0 3F 00 00 00 00 00 00 F0 3F 00 00 00 00 00 00 00 40",
    "head 1 8\nsky degrees inf,-INF 0x7ff8000000c0ffee,-0.0": HEAD
    + "21 00 06 00 01 00 00 00 00 00 00 F0 7F 00 00 00 00 00 00 F0 FF EE FF C0 00 00 00 F8 7F 00 00 00 00 00 00 00 80",
    "\ufeffHEAD\t1 8\r\n\tNearest  1\t0XA \r\nSky DEGREES\r\n": HEAD + "0A 00 03 00 01 00 0A 00 00 00 00 00 00 00  01 00 06 00 01",
    "head 1 8\rsky degrees\r": HEAD + "01 00 06 00 01",
    # wrong records on purpose: neither the lines nor what comes after them are held to the order
    "raw 9 0108\nhead 1 8\ntables 1 8\nentry 1 0x2": "02 00 09 00 01 08" + HEAD + "02 00 07 00 01 08" + "0C 00 02 00 01 00 00 00 02 00 00 00 00 00 00 00",
    "raw 1 0208\nentry 1 0x20000000000000001": "02 00 01 00 02 08  14 00 02 00 01 00 00 00 01 00 00 00 00 00 00 00 02 00 00 00 00 00 00 00",
    "raw 7 020B\nentry 1 0x20000000000000001": "02 00 07 00 02 0B  14 00 02 00 01 00 00 00 01 00 00 00 00 00 00 00 02 00 00 00 00 00 00 00",
    "head 1 8\nsky degrees\nraw 0\nentry 1 0x2\nbytes 0A00": HEAD + "01 00 06 00 01  00 00 00 00  0C 00 02 00 01 00 00 00 02 00 00 00 00 00 00 00  0A 00",
    "bytes 0200\nentry 1 0x2": "02 00  0C 00 02 00 01 00 00 00 02 00 00 00 00 00 00 00",
}

NUMBER = "a whole number in decimal digits (no sign, no leading zero), and not"
CODE = "expected a code, which is written 0x and hex digits, and not"
ANGLE = "expected an angle, as -1.25, inf, nan, or 0x and 16 hex digits for the bits of an f64, and not"
NAMES = "expected head, tables, entry, nearest, within, verdict or sky (or raw, bytes), and not"
COMMAS = "; spaces stand between words, and no commas"
# a text, and all lines on standard error, each without the tool's name
WRONG = {
    # words
    "haed 1 8\nentry 1 0x2": [f"line 1: {NAMES} 'haed'; did you mean head?"],
    "head 1 8\n\nnear 1 0x3 # a comment": [f"line 3: {NAMES} 'near'; did you mean nearest?"],
    "stars 1": [f"line 1: {NAMES} 'stars'"],
    "head 1": ["line 1: expected 'head' with w and s, as in 'head 1 8', and not 'head 1'"],
    "head 1 8\nwithin 1": ["line 2: expected 'within' with r and a code, as in 'within 1 0x3', and not 'within 1'"],
    "head 1 8\nverdict 4 0x3": ["line 2: expected 'verdict' with t, g and a code, as in 'verdict 4 3 0x3', and not 'verdict 4 0x3'"],
    "head 1 8\nsky": ["line 2: expected 'sky' with degrees or radians and then across,up for each star, as in 'sky degrees 0.5,-1.25 2,3', and not 'sky'"],
    # order and limits: what the session would call bad
    "\n# no head\nentry 1 0x2\nentry 2 0x2\nhead 1 8\nnearest 1 0x3": ["line 3: expected head first, as in 'head 1 8', and not 'entry'"],
    "sky degrees 1,2": ["line 1: expected head first, as in 'head 1 8', and not 'sky'"],
    "head 1 8\nnearest 1 0x3\nhead 2 8\nentry 1 0x10000000000000000": ["line 3: expected one head only, and not 'head': the head stands in line 1"],
    "head 1 8\ntables 1 8\n": ["line 2: expected one head only, and not 'tables': the head stands in line 1"],
    "\ntables 1 8\nhead 1 8\n": ["line 3: expected one head only, and not 'head': the head stands in line 2"],
    "head 4 8\nentry 1 0x10000000000000000": ["line 1: expected w, which is 1 or 2 (codes of 64 or 128 bits), and not '4'"],
    "head 01 8": ["line 1: expected w, which is 1 or 2 (codes of 64 or 128 bits), and not '01'"],
    "head 1 16": ["line 1: expected s, which is 8, and not '16'"],
    "tables 1": ["line 1: expected 'tables' with w and m, as in 'tables 2 18', and not 'tables 1'"],
    "tables 4 32": ["line 1: expected w, which is 1 or 2 (codes of 64 or 128 bits), and not '4'"],
    **{f"tables 1 {m}": [f"line 1: expected m, which is from 8 to 16 where w is 1, and not '{m}'"] for m in ("7", "17", "08", "x", "264")},
    **{f"tables 2 {m}": [f"line 1: expected m, which is from 16 to 32 where w is 2, and not '{m}'"] for m in ("11", "15", "33")},
    "head 1 8\nentry 1 0x2\nwithin 1 0x3\nsky degrees\nentry 2 0x2\nentry 3 0x3": ["line 5: expected a question, and not 'entry': entries come before the first question, which is in line 3"],
    "head 1 8\n" + "entry 1 0x2\n" * 515: ["line 514: expected at most 512 entries, and not 'entry' for the 513th time"],
    "head 1 8\n" + "sky degrees\n" * 65536: ["line 65536: expected at most 65,535 records, and not 'sky' as record 65,536"],
    "head 1 8\nsky degrees" + 512 * " 1,2" + " 3,4": ["line 2: expected at most 512 stars, and not '3,4' as the 513th"],
    # numbers
    "head 1 8\nentry 1_000 0x3\nentry 010 0x3\nentry +5 0x3\nentry 0x10 0x3\nentry -1 0x3": [
        f"line {line}: expected a star, {NUMBER} '{word}'" for line, word in enumerate(["1_000", "010", "+5", "0x10", "-1"], 2)
    ],
    "head 1 8\nnearest 00 0x3\nwithin 1.0 0x3\nverdict 1 x 0x3": [f"line 2: expected k, {NUMBER} '00'", f"line 3: expected r, {NUMBER} '1.0'", f"line 4: expected g, {NUMBER} 'x'"],
    "head 1 8\nentry 4294967296 0x3": ["line 2: expected a star from 0 to 4294967295, and not '4294967296'"],
    "head 1 8\nnearest 65536 0x3": ["line 2: expected k from 0 to 65535, and not '65536'"],
    "head 1 8\nnearest " + 9999 * "9" + " 0x3": ["line 2: expected k from 0 to 65535, and not '" + 57 * "9" + "...'"],
    # codes
    "head 1 8\nnearest 1 00000000000000ff": [f"line 2: {CODE} '00000000000000ff'; did you mean 0x00000000000000ff?"],
    "head 1 8\nnearest 1 0000000000000003": [f"line 2: {CODE} '0000000000000003'; did you mean 0x0000000000000003?"],
    "head 1 8\nnearest 1 255": [f"line 2: {CODE} '255'; did you mean 0x255, or 0xff, which is 255 in decimal?"],
    "head 1 8\nnearest 1 0x\nnearest 1 0xg\nnearest 1 0x1_0\nnearest 1 18446744073709551615": [
        f"line {line}: {CODE} '{word}'" for line, word in enumerate(["0x", "0xg", "0x1_0", "18446744073709551615"], 2)
    ],
    "head 1 8\nentry 1 0x10000000000000000": ["line 2: expected a code of 64 bits, at most 16 hex digits, and not '0x10000000000000000' with 17 digits, 68 bits"],
    "head 2 8\nentry 1 0x" + 33 * "0": ["line 2: expected a code of 128 bits, at most 32 hex digits, and not '0x" + 33 * "0" + "' with 33 digits, 132 bits"],
    # skies
    "head 1 8\nsky degress 1,2": ["line 2: expected 'sky degrees' or 'sky radians', and not 'degress'; did you mean degrees?"],
    "head 1 8\nsky 1,2": ["line 2: expected 'sky degrees' or 'sky radians', and not '1,2'"],
    "head 1 8\nsky degrees 1;2\nsky degrees 0.5, 1\nsky degrees 0,5,1,5": [
        f"line {line}: expected across,up: two angles with one comma between them and no space, and not '{word}'" for line, word in enumerate(["1;2", "0.5,", "0,5,1,5"], 2)
    ],
    "head 1 8\nsky degrees 1_0.5,2\nsky degrees 1,infinity\nsky degrees 1,+-inf\nsky degrees 0x10,1\nsky degrees 1,.\nsky degrees 1e,1": [
        f"line {line}: {ANGLE} '{word}'" for line, word in enumerate(["1_0.5", "infinity", "+-inf", "0x10", ".", "1e"], 2)
    ],
    "head 1 8\nsky degrees 1,1e309": ["line 2: expected an angle that an f64 can hold, or inf, and not '1e309'"],
    "head 1 8\nsky degrees " + 999999 * "1" + "x,1": [f"line 2: {ANGLE} '" + 57 * "1" + "...'"],
    # commas, and signs of a word processor
    "head 1 8\nentry 10, 0xff\nentry 10,0xff": [f"line 2: expected a star, {NUMBER} '10,'{COMMAS}", f"line 3: expected 'entry' with a star and a code, as in 'entry 10 0x00ff', and not 'entry 10,0xff'{COMMAS}"],
    "head,1,8": [f"line 1: {NAMES} 'head,1,8'; did you mean head?{COMMAS}"],
    "head 1 8\nsky degrees \u22121.25,2": ["line 2: expected plain ASCII, and not the character U+2212 (MINUS SIGN) in '\u22121.25,2'"],
    "head 1 8\nentry 1\u00a00x3 # 1\u00a0x": ["line 2: expected plain ASCII, and not the character U+00A0 (NO-BREAK SPACE) in '1\u00a00x3'"],
    "head 1 8\nsky degrees\f": ["line 2: expected plain ASCII, and not the character U+000C (a control character) in 'degrees\f'"],
    # wrong records on purpose still have to be bytes
    "raw 3 0": ["line 1: expected pairs of hex digits, and not '0'"],
    "raw 65536": ["line 1: expected a kind from 0 to 65535, and not '65536'"],
    "raw 6 " + 65536 * "00": ["line 1: expected a body of at most 65,535 bytes, and not of 65,536"],
    "bytes": ["line 1: expected 'bytes' with hex digits, as in 'bytes 0a00', and not 'bytes'"],
    # many wrong lines
    "head 1 8\n" + 14 * "x\n": [f"line {line}: {NAMES} 'x'" for line in range(2, 12)] + ["and 4 more wrong lines"],
    "head 1 8\0": ["the file is not text (UTF-8); for record bytes say --text"],
}
# a text, and for each record the line that made it; bytes may hold several records, or swallow the next line
PLACES = {
    "": "",
    "# a comment\nhead 1 8\n\nentry 1 0x2\nsky degrees": "2\n4\n5\n",
    "head 1 8\nbytes 0000000000000000\nsky degrees": "1\n2\n2\n3\n",
    "head 1 8\nbytes 0500\nsky degrees\nsky degrees": "1\n2\n4\n",
    "head 1 8\nbytes 0100": "1\n2\n",
}


def tool(data, *words):
    return subprocess.run([TOOL, *words], input=data, capture_output=True, timeout=60)


def shell(command):
    """The status and the error lines of a command line, with $T for the tool."""
    ran = subprocess.run(["bash", "-c", f"T={TOOL}; {command}"], capture_output=True, timeout=60, cwd=ROOT)
    return ran.returncode, ran.stderr.decode()


def texts():
    yield "the example's bytes", tool((ROOT / "examples" / "catalogue-a.txt").read_bytes()).stdout == EXAMPLE
    for text, expected in GOOD.items():
        answer = tool(text.encode())
        yield f"{text!r}: {answer}", (answer.returncode, answer.stdout, answer.stderr) == (0, bytes.fromhex(expected), b"")


def wrong_texts():
    for text, expected in WRONG.items():
        answer = tool(text.encode())
        lines = "".join(f"records: {line}\n" for line in expected)
        yield f"{text[:60]!r}: {answer.stderr.decode()}", (answer.returncode, answer.stdout, answer.stderr.decode()) == (1, b"", lines)
    answer = tool(b"\xff\xfeh\0")
    yield "UTF-16", (answer.returncode, answer.stdout) == (1, b"") and b"not text" in answer.stderr


def round_trips():
    """Bytes come back as they were, and are written without raw and bytes lines exactly where a session has no bad record."""
    rng = random.Random(6)
    inputs = [*bad_records(), *limits(), *skies()] + [(f"random {i}", random_input(rng)) for i in range(60)]
    for name, data in inputs:
        if len(data) < 20000 and not name.startswith("the example cut"):
            lines = RECORDS.lines_of(data)
            yield name, b"".join(made for _, made in RECORDS.parts_of("\n".join(lines))) == data
            on_purpose = any(line.startswith(("raw", "bytes")) for line in lines)
            yield f"{name}: what is bad", on_purpose == (b"bad" in transcript(data))


def random_texts():
    """A text that is taken, and has no raw or bytes line, has no bad record: sessions with lines exchanged, left out, doubled and damaged."""
    rng, taken, refused = random.Random(7), 0, 0
    words = ["0", "1", "2", "8", "9", "512", "65535", "65536", "0x3", "0x" + 17 * "1", "inf", "1,2", "degrees", *RECORDS.KINDS]
    for number in range(300):
        lines = [line for line in RECORDS.lines_of(random_input(rng)) if not line.startswith(("raw", "bytes"))]
        for _ in range(rng.randrange(3) if lines else 0):
            at, to = rng.randrange(len(lines)), rng.randrange(len(lines))
            damaged = lines[at].split()
            damaged[rng.randrange(len(damaged))] = rng.choice(words)
            lines[at : at + 1] = rng.choice([[], [lines[at]] * 2, [lines[to]], [" ".join(damaged)]])
            if not lines:
                break
        try:
            data = b"".join(made for _, made in RECORDS.parts_of("\n".join(lines)))
            taken += 1
            yield f"random text {number}: {lines}", b"bad" not in transcript(data)
        except RECORDS.WrongText:
            refused += 1
    yield f"{taken} texts taken, {refused} refused", taken > 50 and refused > 50


def places():
    with tempfile.TemporaryDirectory() as folder:
        file = pathlib.Path(folder) / "places of it"
        for text, expected in PLACES.items():
            answer = tool(text.encode(), "--places", file)
            yield f"places of {text!r}", answer.returncode == 0 and file.read_text() == expected and answer.stdout == tool(text.encode()).stdout
        answer = tool(b"head 1 8", "--places", folder)
        yield f"places into a folder: {answer}", (answer.returncode, answer.stdout) == (1, b"") and answer.stderr.decode() == f"records: {folder} cannot be written: Is a directory\n"


def command_lines():
    example = "examples/catalogue-a.txt"
    cases = {
        f"$T {example} > /dev/full": (1, "records: standard output cannot be written: No space left on device\n"),
        f"$T --text {example} > /dev/full": (1, "records: standard output cannot be written: No space left on device\n"),
        f"$T {example} >&-": (1, "records: standard output cannot be written: Bad file descriptor\n"),
        "$T --help > /dev/full": (1, "records: standard output cannot be written: No space left on device\n"),
        "$T <&-": (1, "records: standard input cannot be read: Bad file descriptor\n"),
        "$T no/such.txt": (1, "records: no/such.txt cannot be read: No such file or directory\n"),
        "$T docs": (1, "records: docs cannot be read: Is a directory\n"),
        "echo x | $T 2>&- | wc -c | grep -qx 0": (0, ""),
        "(echo head 1 8; yes sky degrees | head -n 65000) | $T | true; exit ${PIPESTATUS[1]}": (141, ""),
        "$T --helo": (2, "records: option --helo not recognized; tools/records --help says what is taken\n"),
        "$T --places": (2, "records: option --places requires argument; tools/records --help says what is taken\n"),
        "$T --places x --text y": (2, "records: --places is for text, and --text for records: one of them\n"),
        "$T a b": (2, "records: one file, and not 2; tools/records --help says what is taken\n"),
        "$T --help | grep -q '^usage: tools/records'": (0, ""),
        f"$T - < {example} | cmp - examples/catalogue-a.records": (0, ""),
        "$T --text examples/catalogue-a.records | $T | cmp - examples/catalogue-a.records": (0, ""),
    }
    for command, expected in cases.items():
        answer = shell(command)
        yield f"{command}: {answer}", answer == expected


def main():
    results = [case for cases in (texts, wrong_texts, round_trips, random_texts, places, command_lines) for case in cases()]
    failed = [name for name, passed in results if not passed]
    for name in failed:
        print(f"FAILED {name}", file=sys.stderr)
    print(f"{len(results) - len(failed)} passed, {len(failed)} failed")
    sys.exit(1 if failed else 0)


if __name__ == "__main__":
    main()
