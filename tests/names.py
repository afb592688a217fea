#!/usr/bin/env python3
"""Holds the docs to the files: what they name in backquotes is there, and docs/PROMISES.md names every must-fail edit.

    python3 tests/names.py

Looked up are paths, edits ('crate/name', or 'name' alone where no other crate has one of that name), and words that look
like a name of the code: with a capital inside, a hyphen, an underscore, '::' or '.'. Other words in backquotes are passed
over. Where a link's text is a name in backquotes, or several, and it leads to a file of Rattle, the file has each of them;
where it is 'proof', it leads to the proof of a function that the row names; and a row that names a limit has its number. The
last line counts what is not there.
"""

import re
import sys

sys.dont_write_bytecode = True  # the next line leaves no file here
import pages

ROOT = pages.ROOT
PAGES = [ROOT / "README.md", ROOT / "examples/README.md", *sorted((ROOT / "docs").rglob("*.md"))]
SOURCES = ["crates/*/src/**/*", "crates/*/specs/**/*", "crates/*/proofs/**/*", "include/*", "wrapper/src/*", "wrapper/tests/*",
           "second/src/*", "second/tests/**/*", "tests/*", "tests/*/*", "tests/*/src/**/*", "examples/**/*"]
WORD = re.compile(r"[^\W\d][\w'-]*", re.UNICODE)
NAME = re.compile(r"[A-Za-z][\w-]*(?:(?:::|\.)[A-Za-z][\w-]*)*")


def files():
    return {path for pattern in SOURCES for path in ROOT.glob(pattern) if path.is_file() and "target" not in path.parts}


def looks_like_code(name):
    return bool(re.search(r"[a-z][A-Z]|[A-Z][a-z]+[A-Z]|[A-Za-z]-[A-Za-z]|_|::|\w\.\w", name))


def spans(page):
    """What a page has in backquotes, with the line that it begins in; code blocks are left out."""
    kept, code = [], False
    for line in page.read_text().splitlines():
        fence = line.startswith("```")
        code ^= fence
        kept.append("" if code or fence or line.startswith("    ") else line)
    text = "\n".join(kept)
    for found in re.finditer(r"`([^`]+)`", text):
        yield text.count("\n", 0, found.start()) + 1, re.sub(r"\s+", " ", found[1])


def linked(page):
    """The names that links of a page promise in files of Rattle, each with the file that the link leads to."""
    for found in re.finditer(r"\[(`[^\]]*`)\]\(([^()#\s]+\.(?:antt|rt))\)", page.read_text()):
        for name in re.findall(r"`([^`]+)`", found[1]):
            yield found[0], re.split(r"::|\.", name)[-1], page.parent / found[2]


def rows(page):
    """What is wrong in the rows of a page's tables: a proof of a function that is not named, a limit with another number."""
    limits = dict(re.findall(r"^(most\w+) = ([\d_]+)$", (ROOT / "crates/rules/specs/Limits.antt").read_text(), re.MULTILINE))
    for row in filter(lambda line: line.startswith("|"), page.read_text().splitlines()):
        names = {re.split(r"::|\.", name)[-1] for name in re.findall(r"`([^`]+)`", row)}
        for proved in re.findall(r"\[proof\]\(\S*/\+?(\w+)/(?:Answers|Invariants)\.antt\)", row):
            if proved not in names:
                yield f"the row with the proof of {proved} does not name it"
        for limit in names & set(limits):
            if f"{int(limits[limit]):,}" not in re.findall(r"[\d,]*\d", row):
                yield f"the row with {limit} has not its number"


def there(path):
    """Whether a path is one of the repository, of a crate, or made by a build; a file of antt may lack its ending."""
    return path.startswith("target") or any(any(ROOT.glob(where + path + end)) for where in ("", "crates/*/") for end in ("", ".antt"))


def main():
    edits = {(path.parts[-3] if path.parts[-2] == "must-fail" else path.parts[-4], path.stem)
             for path in ROOT.glob("crates/*/must-fail/**/*.edit")}
    labels = {label for _, label in edits}
    sources = files()
    words = {word for path in sources for word in WORD.findall(path.read_text(errors="replace"))}
    words |= {path.stem for path in sources} | {path.name for path in sources} | {path.name for path in (ROOT / "crates").iterdir()}
    missing = pages.Faults()

    def tell(page, number, name):
        missing.tell(page, number, f"`{name}` is not there")

    for page in PAGES:
        for number, span in spans(page):
            pair = re.fullmatch(r"(\w+)/(\w+)", span)
            if pair and (ROOT / "crates" / pair[1]).is_dir():
                if pair.groups() not in edits and not (ROOT / span).exists():
                    tell(page, number, span)
            elif re.fullmatch(r"[\w-]+(/[\w*-][\w.*-]*)+/?", span):
                if not there(span.rstrip("/")):
                    tell(page, number, span)
            elif NAME.fullmatch(span) and looks_like_code(span):
                if any(part not in words and part not in labels for part in re.split(r"::|\.", span)):
                    tell(page, number, span)

        for link, name, path in linked(page):
            if not path.is_file() or name not in [*WORD.findall(path.read_text()), path.stem]:
                missing.tell(page, 0, f"{link}: the file has no {name}")
        for wrong in rows(page):
            missing.tell(page, 0, wrong)

    named = {span for _, span in spans(ROOT / "docs/PROMISES.md")}
    alone = [label for _, label in edits]
    for crate, label in sorted(edits):
        if f"{crate}/{label}" not in named and not (label in named and alone.count(label) == 1):
            missing.tell(ROOT / "docs/PROMISES.md", 0, f"the edit {crate}/{label} is not named")
    return missing.status(f"{len(PAGES)} pages and {len(edits)} edits, {missing.count} names that are not there")


if __name__ == "__main__":
    sys.exit(main())
