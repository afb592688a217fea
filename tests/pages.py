#!/usr/bin/env python3
"""Holds the pages to each other: short lines, links that lead somewhere, and docs that a reader comes to from README.md.

    python3 tests/pages.py

Over every page (*.md) that git tracks. A line has at most 100 characters, in a code block too, except a table's and one that is
a link and nothing else. A relative link, of an image too, leads to a file or folder that git tracks, and an anchor to a heading
of its page. Backquotes pair within a paragraph, and code blocks have fences, so that no link hides. Every page under docs/ is
reached from README.md, link by link. The last line counts pages, links and faults.
"""

import pathlib
import re
import subprocess
import sys
import urllib.parse

ROOT = pathlib.Path(__file__).resolve().parent.parent
WIDTH = 100
FENCE = re.compile(r"\s*(`{3,}|~{3,})\s*([^`]*?)\s*")
SPAN = re.compile(r"(`+)(?!`)(?:(?!\n\n).)+?(?<!`)\1(?!`)", re.DOTALL)  # a paragraph ends it
LINKS = [re.compile(r"\]\(\s*<?([^()<>\s]*)>?(?:\s+\"[^\"]*\")?\s*\)"),  # [text](path) and ![text](path)
         re.compile(r"^ {0,3}\[[^\]]+\]:\s*<?([^<>\s]+)", re.MULTILINE),  # [name]: path
         re.compile(r"<(?:img|source|a)\s[^>]*?\b(?:src|srcset|href)\s*=\s*[\"']([^\"'\s]*)", re.DOTALL)]
ALONE = re.compile(r"\s*(?:[-*>] |\d+\. )?\S*(?:\]\(|://|src=|href=)\S*")  # no space to break it at
HEADING = re.compile(r" {0,3}#{1,6}\s+(.*?)\s*#*\s*")


class Faults:
    """Counts what is wrong, and prints each with its page and, where it is known, its line."""

    def __init__(self):
        self.count = 0

    def tell(self, page, number, what):
        self.count += 1
        print(f"{page.relative_to(ROOT) if page.is_relative_to(ROOT) else page}:{f'{number}:' if number else ''} {what}")

    def status(self, summary):
        """The last line, and the status to end with."""
        print(summary)
        return 1 if self.count else 0


def parts(text):
    """The lines of prose, as (number, line), and the fenced blocks, as (number, what it is said to be, lines, closed)."""
    prose, blocks, fence = [], [], None
    for number, line in enumerate(text.splitlines(), 1):
        found = FENCE.fullmatch(line)
        if fence:
            if found and not found[2] and found[1].startswith(fence):
                blocks[-1] = (*blocks[-1][:3], True)
                fence = None
            else:
                blocks[-1][2].append(line)
        elif found:
            fence = found[1]
            blocks.append((number, found[2], [], False))
        else:
            prose.append((number, line))
    return prose, blocks


def hidden(prose):
    """Where a link could hide: paragraphs, or rows of a table, with a backquote too many, and blocks that are only indented."""
    number, odd, before = 0, False, ""
    for number, line in [*prose, (0, "")]:
        if odd and (not line.strip() or line.startswith("|") or not number):
            yield at, "the paragraph that ends here has a backquote too many"
            odd = False
        if line.startswith("    ") and not before.strip():
            yield number, "a code block needs a fence"
        odd ^= line.count("`") % 2 == 1
        at, before = number, line


def read(page):
    return parts(page.read_text(encoding="utf-8"))


def anchors(page):
    """The anchors of a page's headings, as GitHub makes them."""
    names = []
    for _, line in read(page)[0]:
        found = HEADING.fullmatch(line)
        if found:
            title = re.sub(r"!?\[([^\]]*)\]\([^)]*\)", r"\1", found[1]).lower()
            names.append(re.sub(r"[^\w\- ]", "", title).replace(" ", "-"))
    return {f"{name}-{names[:at].count(name)}" if name in names[:at] else name for at, name in enumerate(names)}


def links(prose):
    """The relative links of a page's prose, with the line that they end in; what stands in backquotes is no link."""
    lines = dict(prose)
    text = "\n".join(lines.get(number, "") for number in range(1, max(lines, default=0) + 1))
    text = SPAN.sub(lambda span: "\n" * span[0].count("\n"), text)
    for pattern in LINKS:
        for found in pattern.finditer(text):
            if not re.match(r"[a-z][a-z0-9+.-]*:|//", found[1]):
                yield text.count("\n", 0, found.end()) + 1, found[1]
        text = pattern.sub(lambda link: "\n" * link[0].count("\n"), text)
    for found in re.finditer(r"\]\(|\]\[", text):  # a link that is written in another way
        yield text.count("\n", 0, found.end()) + 1, ""


def leads(page, link, files):
    """The file that a link leads to and what is wrong with it, None where nothing is; a folder's page is its README.md."""
    path, _, anchor = urllib.parse.unquote(link).partition("#")
    to = (page.parent / path).resolve() if path else page
    if not link or to not in files:
        return to, "leads to nothing that git tracks"
    if to / "README.md" in files:
        to = to / "README.md"
    if anchor and (to.suffix != ".md" or anchor not in anchors(to)):
        return to, f"has the anchor of no heading of {to.relative_to(ROOT)}"
    return to, None


def reached(graph):
    """The pages that links lead to from README.md on, itself included."""
    seen, ahead = set(), [ROOT / "README.md"]
    while ahead:
        page = ahead.pop()
        if page not in seen:
            seen.add(page)
            ahead += graph.get(page, [])
    return seen


def tracked():
    """The files that git tracks and that are there; in a copy that git does not know, all that no build made."""
    try:
        listed = subprocess.run(["git", "ls-files", "-z"], cwd=ROOT, capture_output=True).stdout.decode().split("\0")
    except OSError:
        listed = []
    found = [ROOT / name for name in listed if name]
    if not found:
        found = [path for path in ROOT.rglob("*") if not {".git", "target"} & set(path.relative_to(ROOT).parts)]
    return sorted(path for path in found if path.is_file())


def main():
    kept = tracked()
    pages = [path for path in kept if path.suffix == ".md"]
    files = {place for path in kept for place in (path, *path.parents) if place.is_relative_to(ROOT)}
    graph, count, faults = {}, 0, Faults()
    for page in pages:
        prose, blocks = read(page)
        code = [(number + at, line) for number, _, lines, _ in blocks for at, line in enumerate(lines, 1)]
        short = [(number, line) for number, line in prose if not line.lstrip().startswith("|") and not ALONE.fullmatch(line)]
        for number, line in short + code:
            if len(line) > WIDTH:
                faults.tell(page, number, f"the line has {len(line)} characters, more than {WIDTH}")
        for number, what in hidden(prose):
            faults.tell(page, number, what)
        for number, _, _, closed in blocks:
            if not closed:
                faults.tell(page, number, "the code block has no end")
        graph[page] = []
        for number, link in links(prose):
            count += 1
            to, wrong = leads(page, link, files)
            graph[page].append(to)
            if wrong:
                faults.tell(page, number, f"the link '{link}' {wrong}")
    seen = reached(graph)
    for page in pages:
        if page.is_relative_to(ROOT / "docs") and page not in seen:
            faults.tell(page, 1, "no link leads here from README.md")
    if not count:
        faults.tell(ROOT / "README.md", 1, "no page has a link")
    return faults.status(f"{len(pages)} pages, {count} links, {faults.count} faults")


if __name__ == "__main__":
    sys.exit(main())
