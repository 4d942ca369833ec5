#!/usr/bin/env python3
"""tools/crates and tools/landing on a small repository: the graph, a page out of date, a note in which everything is known, and wrong words. tests/statements on
another: what it says of a generic function's theorem, true and with false premises. And docs/DEVELOP.md's sample of a wrong version is an edit of this repository."""
import pathlib
import re
import shutil
import subprocess
import sys
import tempfile
import textwrap

TOP = pathlib.Path(__file__).resolve().parent.parent
PAGE = "before\n<!-- crates.txt, drawn by tools/crates -->\n<!-- end of crates.txt -->\nafter\n"
DRAWN = """
    layer  crate           proved again with it  stands on
        0  low                                2
        1  middle                             1  low
        2  high                               0  middle
"""
SPEC = """-- A comment. Assumes nothing.
use Rattle.std.specs.Prelude.{ℕ, ◌+◌}

abbrev pub stays : ℕ → ℕ
stays k = k

abbrev pub moves : ℕ → ℕ
moves k =
    k + 1

module _ (k : ℕ) where
  pub record Goes : Type 0 where
    pub field : ℕ

  abbrev pub inside : ℕ
  inside = k
"""
SOURCE = """ghost use Rattle.std.specs.Prelude.{◌≡◌};

#[derive(Clone, Copy)]
pub enum Kind {
    One,
}

pub struct Pair(u32, u32);

impl Pair {
    // its first
    pub fn first(self) -> u32
        ensures { result ≡ self.0 }
    {
        self.0
    }
}

fn plain(x: u32) -> u32 {
    x
}

fn nothing() {}
"""
LAW = """pub a-theorem : (k : ℕ) → stays k ≡ k
a-theorem k = refl

helper : ℕ
helper = 0
"""
BEFORE = {
    "crates.txt": "# each crate uses only those above it\nlow:\nmiddle: low io\nhigh staticlib: middle low\n",
    "docs/DEVELOP.md": PAGE,
    "docs/PROVED.md": "`a-theorem` (Laws)\n",
    "crates/low/specs/Defs.antt": SPEC,
    "crates/low/src/lib.rt": SOURCE,
    "crates/low/proofs/Laws.antt": LAW,
    "crates/low/proofs/plain/Answers.antt": "use x\npub returns : T\nreturns c = a\n",
    "crates/low/proofs/plain/Invariants.antt": "use x\npub measure : T\nmeasure = a\n",
    "crates/low/proofs/Pair/first/Answers.antt": "use x\npub returns : T\nreturns c = a\n",
    "crates/low/must-fail/wrong.edit": "old: a\n",
}
# comments, layout and imports change too, which does not count
AFTER = {
    "crates/low/specs/Defs.antt": SPEC.replace("-- A comment", "-- Another").replace("◌+◌}", "◌+◌, ◌*◌}").replace("k + 1", "k + 2").replace("  pub record Goes : Type 0 where\n    pub field : ℕ\n", "")
    .replace("abbrev pub stays : ℕ → ℕ\nstays k = k\n", ""),
    "crates/low/specs/Other.antt": "abbrev pub stays : ℕ → ℕ\nstays k =\n    k\n\nabbrev pub comes : ℕ\ncomes = 3\n",
    "crates/low/src/lib.rt": SOURCE.replace("≡ self.0", "≡ self.1").replace("    x\n", "    x + 0\n").replace("One,", "One,\n    Two,"),
    "crates/low/proofs/Laws.antt": LAW.replace("refl", "search"),
    "crates/low/proofs/plain/Answers.antt": "use y\npub returns : T\nreturns c = a\n",
    "crates/low/proofs/Pair/first/Answers.antt": "use x\npub returns : T\nreturns c = b\n",
    "crates/low/must-fail/worse.edit": "old: b\n",
    "crates/low/out/rlib/lang/antt/Laws.antt": LAW.replace("a-theorem", "what-rt-makes"),
}
NOTE = [
    "- Definitions and types moved (2): low/Defs: `moves`; low/lib: `Kind` (why: ..)",
    "- Definitions and types new (1): low/Other: `comes`",
    "- Definitions and types gone (1): low/Defs: `Goes`",
    "- Definitions and types that stayed: 3, 1 of them in another file.",
    "- Contracts moved (1): `low::Pair::first` (why: ..)",
    "- Contracts that stayed: 2.",
    "- Theorems named in docs/PROVED.md that stayed: 1.",
    "- Must-fail edits new (1): `low/worse`",
    "- Functions' proofs moved (1): `low::Pair::first` (why: ..)",
    "- Functions' proofs that stayed: 1.",
    "- Laws moved (1): low/Laws: `a-theorem` (why: ..)",
    "- Laws that stayed: 1.",
    "- Code of the 3 functions that are in both: 1 changed: `low::plain`.",
    "From nothing, before and after: `low` 3 to 5 s; the other 1 crates 7 to 7 s; the whole `rt ci` 61 to .. s.",
    "<!-- for the table in README.md: | [..](..) | +1 | 2/1 | 2/0 | 61/.. s | -->",
]
WHOLE = "rt: low proved\nrt: high proved\nrt: ok; handles allowed: none; every proof and must-fail edit was done in this run\n2 passed, 0 failed\nreal\t1m1.2s\n"
# a function with a type and its laws, and one with none
STATED = """use denote.RattleType.{RattleType}
use denote.Param.Laws.{Laws, IsCopy}
use mir.Syntax.{Dict}
use Rattle.std.specs.declared.clone.Clone as Clone
use Rattle.low.specs.declared.Zero as Zero
use Rattle.theory.specs.Statements.{Determined}
use Rattle.low.specs.contracts.wiped as wiped
use Rattle.low.proofs.wiped.Reads as wiped_reads
use Rattle.low.specs.contracts.one as one
use Rattle.low.proofs.one.Reads as one_reads

pub wiped-Determined : (T : RattleType) (l : Laws T) (k : IsCopy T) (Z : Zero.Ghosts T.Denot) (z : Dict) (C : Clone.Ghosts T.Denot) (c : Dict)
    → Determined (wiped.ended T Z z C c) (wiped_reads.Post T l k Z z C c)
wiped-Determined T l k Z z C c = search

pub one-Determined : Determined one.ended one_reads.Post
one-Determined = search
"""
FILES = {
    "docs/PROVED.md": "\n## Public functions\n\n| `low::wiped` | `wiped-Determined`, `low/proofs/Determined.antt` |\n| `low::one` | `one-Determined`, `low/proofs/Determined.antt` |\n",
    "crates/low/src/lib.rt": "pub trait Zero: Copy {\n}\n\npub fn wiped<T: Zero>(list: &mut [T])\n{\n}\n\npub fn one<'a>(list: &'a [u32]) -> u32\n{\n}\n",
    "crates/low/proofs/Lib.antt": "pub mod Determined\n",
    "crates/low/proofs/Determined.antt": STATED,
}
# each is true no more, or of something else
FALSE = [
    ("wiped-Determined : ", "wiped-Determined : (no : ⊥) "),
    ("(c : Dict)\n", "(c : Dict) (e : 0 ≡ 1)\n"),
    ("(c : Dict)\n", "(c : Dict) (O : Ord.Ghosts T.Denot)\n"),
    ("(T : RattleType) ", "(T : RattleType) (U : RattleType) "),
    ("(l : Laws T) ", "(l : Laws T) (more : Laws T) "),
    ("(k : IsCopy T) ", "(k : IsCopy T) {no : ⊥} "),
    ("(z : Dict)", "(c : Dict)"),
    ("ended T Z z C c", "ended T Z z C z"),
    ("Post T l k Z z C c", "Post T l k Z c C z"),
    ("    → Determined", "    → ⊥ → Determined"),
    ("Z z C c)\nwiped", "Z z C c) → ⊥\nwiped"),
    ("low.specs.declared.Zero", "low.specs.declared.Other"),
    ("denote.Param.Laws", "Rattle.low.proofs.Laws"),
    ("one-Determined : ", "one-Determined : (no : ⊥) → "),
    ("one_reads.Post\none", "one_reads.Post\n\n    → ⊥\none"),
]
cases, failed = 0, []


def expect(right, name):
    global cases
    cases += 1
    if not right:
        failed.append(name)


def write(top, files):
    for name, text in files.items():
        (top / name).parent.mkdir(parents=True, exist_ok=True)
        (top / name).write_text(text, encoding="utf-8")


def run(top, tool, *words):
    return subprocess.run([sys.executable, top / "tools" / tool, *words], capture_output=True, text=True, timeout=60)


def refused(top, sentence, tool, *words):
    answer = run(top, tool, *words)
    expect(answer.returncode != 0 and sentence in answer.stderr and "Traceback" not in answer.stderr, f"{tool} {' '.join(words)}: {answer.stderr!r}, expected {sentence!r}")


def alone(name, seconds, *kept):
    """what `time rt ci NAME` prints"""
    lines = [f"rt: {crate} is kept: an earlier run on this machine proved the same files over the same libraries" for crate in kept]
    lines += [f"rt: {name} proved"] * (name not in kept)
    return "\n".join([*lines, f"rt: {name} and the crates below passed, and that is kept. This is not the gate: run rt ci with no names", f"real\t0m{seconds}.2s\n"])


def crates(top):
    refused(top, "is not what crates.txt says", "crates", "--check")
    expect(run(top, "crates").returncode == 0 and DRAWN in (top / "docs/DEVELOP.md").read_text(encoding="utf-8"), "the graph")
    expect(run(top, "crates", "--check").returncode == 0, "a page that is up to date")
    for line, sentence in {"more: high": "is not what", "more: most": "line 5: more uses most, which is neither", "low:": "line 5: low is listed twice", "more": "line 5: expected NAME", "more static: low": "line 5: expected NAME"}.items():
        (top / "crates.txt").write_text(BEFORE["crates.txt"] + line + "\n", encoding="utf-8")
        refused(top, sentence, "crates", "--check")
    write(top, {"crates.txt": BEFORE["crates.txt"], "docs/DEVELOP.md": "no marks\n"})
    refused(top, "does not have the two marks", "crates")
    refused(top, "usage", "crates", "--chek")


def landing(top):
    write(top, AFTER)
    write(top, {"old.log": alone("low", 3) + alone("high", 7, "low") + WHOLE, "new.log": alone("low", 5) + alone("high", 7, "low"), "stale.log": alone("low", 3, "low"), "whole.log": WHOLE})
    logs = [str(top / name) for name in ("old.log", "new.log", "stale.log")]
    note = run(top, "landing", "HEAD", "--before", logs[0], "--after", logs[1]).stdout
    for line in NOTE:
        expect(line in note.splitlines(), f"the note without: {line}")
    expect(note.count("\n") <= 40, "a note of 40 lines")
    refused(top, "'nowhere' is no commit", "landing", "nowhere")
    refused(top, "required: BASE", "landing")
    refused(top, "come together", "landing", "HEAD", "--before", logs[0])
    refused(top, "is not from nothing", "landing", "HEAD", "--before", logs[2], "--after", logs[1])
    whole = run(top, "landing", "HEAD", "--before", str(top / "whole.log"), "--after", logs[0]).stdout
    expect("From nothing, before and after: `low` .. to 3 s; the other 1 crates .. to 7 s; the whole `rt ci` 61 to 61 s." in whole.splitlines(), "a log of the whole alone")
    refused(top, "No such file", "landing", "HEAD", "--before", logs[0], "--after", str(top / "none.log"))


def statements(top):
    """a theorem is over the types and laws of its function's generics, and nothing else"""

    def passes(right, name):
        answer = subprocess.run([sys.executable, top / "tests/statements"], capture_output=True, text=True, timeout=60)
        expect((answer.returncode == 0) == right and answer.stdout.endswith(" failed\n"), f"statements: {name}: {answer.stdout}{answer.stderr}")

    write(top, FILES)
    passes(True, "a true page")
    for old, new in FALSE:
        expect(old in STATED, f"statements: {old!r} stands nowhere")
        write(top, {"crates/low/proofs/Determined.antt": STATED.replace(old, new, 1)})
        passes(False, f"{old!r}, then {new!r}")
    write(top, FILES)
    for generics in ("<T: Ord>", "<T: Zero, U: Zero>", "<T>", "<const N: usize>", "<F: Fn(u8) -> u8>", "<\n    T: Zero,\n>", ""):
        write(top, {"crates/low/src/lib.rt": FILES["crates/low/src/lib.rt"].replace("<T: Zero>", generics)})
        passes(False, f"generics {generics!r}")


def sample():
    """the page's sample of a wrong version is the edit that it names, and is of what stands there today"""
    page = (TOP / "docs/DEVELOP.md").read_text(encoding="utf-8")
    shown = re.search(r"`(crates/\w+)/(must-fail/\w+\.edit)`:\n\n((?: {4}.*\n)+)", page)
    crate, edit, text = (TOP / shown[1], shown[2], textwrap.dedent(shown[3])) if shown else (TOP, "", "")
    expect((crate / edit).is_file() and (crate / edit).read_text(encoding="utf-8") == text, f"DEVELOP.md: its sample is not {edit}")
    file, old = (re.search(rf"^{word}: (.*)$", text, re.M) for word in ("file", "old"))
    expect(file and old and (crate / file[1]).read_text(encoding="utf-8").count(old[1]) == 1, f"DEVELOP.md: the sample {edit} fits no line")


def main():
    sample()
    with tempfile.TemporaryDirectory() as folder:
        top = pathlib.Path(folder)
        (top / "tests").mkdir()
        shutil.copy(TOP / "tests/statements", top / "tests")
        statements(top)
    with tempfile.TemporaryDirectory() as folder:
        top = pathlib.Path(folder)
        write(top, BEFORE)
        (top / "tools").mkdir()
        for tool in ("crates", "landing"):
            shutil.copy(TOP / "tools" / tool, top / "tools")
        for words in (["init", "-q"], ["add", "-A"], ["-c", "user.name=test", "-c", "user.email=test@localhost", "commit", "-qm", "before"]):
            subprocess.run(["git", "-C", folder, *words], check=True, capture_output=True)
        crates(top)
        landing(top)
    for name in failed:
        print(f"FAILED {name}", file=sys.stderr)
    print(f"{cases - len(failed)} passed, {len(failed)} failed")
    sys.exit(1 if failed else 0)


if __name__ == "__main__":
    main()
