#!/usr/bin/env python3
"""Holds what the prover says of each must-fail edit to the fact that the edit says it breaks.

    python3 tests/refusals.py LOG [CRATE/EDIT..]

LOG is what 'rt ci' printed. An edit's first line is '# refused by FACT: what is wrong', and FACT is one of

    the contract of F    the function F is not proved, and not only because a function that it calls is not
    the law L            the proof of the law L has an error of its own
    the statement S      the theorem of the crate whose type is the statement S is not proved

Of an edit 'rt ci' prints the first error, or that only names are gone, or that a limit left it without a verdict; the last two
show nothing. Where the first error is at another place than FACT, as in a law before it, the edit is tried here once more, in a
copy of the repository, and what 'rt check' says of the crate has to have the fact. So is one that leaves a goal of F open, where
F has answers: if one of them names what the edit took away, the goal may be open for its name alone. An edit that was not tried
or not refused, one that shows nothing, and one whose fact is not there are printed. The last line counts them.
"""

import pathlib
import re
import shutil
import subprocess
import sys
import tempfile

ROOT = pathlib.Path(__file__).resolve().parent.parent
FIRST = re.compile(r"# refused by the (contract of|law|statement) ([^\s:]+): .")
TOLD = re.compile(r"rt: must-fail (\w+)/(\S+)\.edit: (refused, as it must be(?: \(only[^)]*\))?)(?:: (.*))?$", re.MULTILINE)
ERROR = re.compile(r"(?:\./)?(?:specs|proofs)/\S+?:\d+:\d+: error: `([^`]+)`")
NOTE = re.compile(r"note: (src/\S+?):(\d+):(\d+): ")
PROOF = re.compile(r"(?:\./)?proofs/(?:\S+/)?\+?(\w+)/(?:Answers|Invariants)\.antt:")
FUNCTION = re.compile(r"fn (?:\S+::)?(\w+): (?:not proved$|no proof: (?!it calls))")
WAITS = re.compile(r"error: \d+ declarations? that depends? on `[^`]*`, which was \w[\w ]*, (?:was|were) not checked: (.*)")
PAIR = re.compile(r"^(file|old|new): ?(.*)$", re.MULTILINE)


def theorems(crate, statement):
    """The names in the crate's proofs whose type is the statement."""
    typed = re.compile(rf"^(?:pub )?(\S+) : {re.escape(statement)}$", re.MULTILINE)
    return {name for file in crate.glob("proofs/**/*.antt") for name in typed.findall(file.read_text())}


def function_at(file, line, column):
    """The function of a source file that a place is in; at a line's first column a function with its attributes begins."""
    begins = re.compile(r"\s*(?:pub(?:\(crate\))? )?(?:extern \"C\" )?fn (\w+)")
    lines = file.read_text().splitlines()
    found = [begins.match(text) for text in (lines[line - 1 :] if column == 1 else lines[:line])]
    names = [match[1] for match in found if match]
    return (names[0] if column == 1 else names[-1]) if names else None


def first_place(crate, said):
    """The function, or the law, in which the first error of an edit's check is."""
    note, proof, error = NOTE.match(said), PROOF.match(said), ERROR.match(said)
    if note:
        return function_at(crate / note[1], int(note[2]), int(note[3]))
    return proof[1] if proof else error[1] if error else None


def facts(kind, text):
    """The functions that are not proved, or the laws and theorems with an error, in all that a check says of a crate."""
    if kind == "contract of":
        return {found[1] for found in map(FUNCTION.match, text.splitlines()) if found}
    found = set(ERROR.findall(text))
    if kind == "statement":
        found |= {name.strip() for names in WAITS.findall(text) for name in re.split(r",| and ", names)}
    return found


def is_renamed(name, text):
    """Whether a proof file of a function names what is not there, in all that a check says."""
    return bool(re.search(rf"proofs/(?:\S+/)?\+?{name}/\w+\.antt:\d+:\d+: error: .*(?:has no field|can be named from here|is not in scope)", text))


def applied(edit, crate):
    """Applies an edit to a copy of its crate; gives the texts that stood there before."""
    before, path, old = {}, None, None
    for word, text in PAIR.findall(edit.read_text()):
        if word == "file":
            path = crate / text.strip()
            before.setdefault(path, path.read_text())
        elif word == "old":
            old = text
        else:
            path.write_text(path.read_text().replace(old, text))
    return before


class Copy:
    """A copy of the repository, made at the first edit that is tried in it."""

    def __init__(self):
        self.root = None

    def check(self, edit):
        """What 'rt check' says of the edit's crate with the edit."""
        if not self.root:
            self.root = pathlib.Path(tempfile.mkdtemp())
            shutil.copytree(ROOT / "crates", self.root / "crates")
            shutil.copy(ROOT / "crates.txt", self.root)
            subprocess.run(["git", "init", "-q", "."], cwd=self.root, check=True)
        crate = self.root / "crates" / edit.parent.parent.name
        before = applied(edit, crate)
        try:
            return subprocess.run(["rt", "check"], cwd=crate, stdout=subprocess.PIPE, stderr=subprocess.STDOUT, text=True, errors="replace").stdout
        finally:
            for path, text in before.items():
                path.write_text(text)

    def remove(self):
        if self.root:
            shutil.rmtree(self.root, ignore_errors=True)


def fault(edit, how, said, copy):
    """What is wrong with an edit, or None where it is refused at the fact that it names."""
    crate = edit.parent.parent
    head = FIRST.match(edit.read_text())
    if not head:
        return "its first line names no fact that refuses it"
    if how != "refused, as it must be":
        return how
    kind, name = head.groups()
    wanted = theorems(crate, name) if kind == "statement" else {name}
    if not wanted:
        return f"no theorem has the type {name}"
    if first_place(crate, said) in wanted:
        answered = said.startswith("note: ") and any(file.parent.name.lstrip("+") == name for file in crate.glob("proofs/**/Answers.antt"))
        return "a goal is open, and an answer names what is gone" if answered and is_renamed(name, copy.check(edit)) else None
    found = facts(kind, copy.check(edit))
    return None if wanted & found else f"nothing says that the {kind} {name} falls, but {', '.join(sorted(found)) or 'nothing'}"


def main():
    told = {(found[1], found[2]): (found[3], found[4] or "") for found in TOLD.finditer(pathlib.Path(sys.argv[1]).read_text(errors="replace"))}
    edits = sorted(ROOT.glob("crates/*/must-fail/*.edit"))
    if sys.argv[2:]:
        edits = [edit for edit in edits if f"{edit.parent.parent.name}/{edit.stem}" in sys.argv[2:]]
    faults, copy = 0, Copy()
    try:
        for edit in edits:
            key = (edit.parent.parent.name, edit.stem)
            wrong = fault(edit, *told.get(key, ("it was not refused", "")), copy)
            if wrong:
                faults += 1
                print(f"{key[0]}/{key[1]}: {wrong}", flush=True)
    finally:
        copy.remove()
    print(f"{len(edits)} must-fail edits, {len(edits) - faults} refused at the fact that they name")
    return 0 if edits and not faults else 1


if __name__ == "__main__":
    sys.exit(main())
