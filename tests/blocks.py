#!/usr/bin/env python3
"""Holds the code blocks of README.md, examples/README.md and docs/*.md to what they say.

    python3 tests/blocks.py [PAGE..]

After its fence a block says what it is:

    c         a file of C: it compiles with include/, without a warning
    rust      a file of Rust, a program where it has a 'fn main' and else a library: it passes cargo check over wrapper/
    rattle    a whole function, its comment too, as it stands in one file of crates/*/src: code that is proved
    csv       a run file: the next block says 'printed'
    printed   what the bench prints for the csv before it, or for FILE where the block before it is sh and ends in 'bench < FILE';
              a line '..' stands for one line or more
    sh        commands, which are not run: each path with a slash is there, from the repository's folder, or in a folder
              target; what rt and target/bin are asked for is one of rt's verbs and a listed crate
    text      anything else; a sum= in it is that of toolchain.txt

The last line counts the blocks and the faults; without PAGE it is a fault where no page has a block of c, rust, rattle or
csv. The bench is target/bin/bench.
"""

import collections
import functools
import os
import pathlib
import re
import shlex
import subprocess
import sys
import tempfile
import textwrap

sys.dont_write_bytecode = True  # the next line leaves no file here
import pages

ROOT = pages.ROOT
KINDS = ["c", "rust", "rattle", "csv", "printed", "sh", "text"]
WANTED = ["c", "rust", "rattle", "csv"]
VERBS = ["check", "ci", "dev", "doc", "fmt", "must-fail", "staticlib", "version"]
MANIFEST = """[package]
name = "block"
version = "0.1.0"
edition = "2021"

[dependencies]
piszczalin = {{ path = "{}" }}

[workspace]
"""
MAIN = re.compile(r"^(?:pub )?fn main\s*\(", re.MULTILINE)
FED = re.compile(r"\bbench\s*<\s*([^\s#]+)")


def run(command, folder=ROOT, **words):
    return subprocess.run(command, cwd=folder, stdout=subprocess.PIPE, stderr=subprocess.STDOUT, timeout=600, **words)


def refusal(done, what):
    """What a command that failed has said, None where it did not fail."""
    return None if done.returncode == 0 else f"{what}\n{done.stdout.decode(errors='replace').rstrip()}"


def compiles(code):
    """What the C compiler has against a block."""
    with tempfile.TemporaryDirectory() as folder:
        file = pathlib.Path(folder, "block.c")
        file.write_text(code)
        command = ["bash", "tests/cc", "-Werror", "-pedantic", "-Iinclude", "-c", str(file), "-o", str(file.with_suffix(".o"))]
        return refusal(run(command), "it does not compile:")


def checks(code):
    """What cargo has against a block, as the only file of a crate that depends on the wrapper."""
    with tempfile.TemporaryDirectory() as folder:
        crate = pathlib.Path(folder)
        (crate / "src").mkdir()
        (crate / "Cargo.toml").write_text(MANIFEST.format(ROOT / "wrapper"))
        (crate / "src" / ("main.rs" if MAIN.search(code) else "lib.rs")).write_text(code)
        words = {**os.environ, "CARGO_TARGET_DIR": str(ROOT / "target/blocks")}
        return refusal(run(["cargo", "check", "--quiet", "--offline"], crate, env=words), "cargo check refuses it:")


@functools.cache
def sources():
    """The lines of each file of code in Rattle, without the blank ones."""
    files = [path.read_text(encoding="utf-8").splitlines() for path in ROOT.glob("crates/*/src/**/*.rt")]
    return [[line.rstrip() for line in file if line.strip()] for file in files]


def flush(lines):
    """Lines without the indentation that they share."""
    return textwrap.dedent("\n".join(lines)).split("\n")


def stands(code):
    """What is wrong with a block of Rattle: that no file has its lines, one after the other."""
    block = flush(line.rstrip() for line in code.splitlines() if line.strip())
    if not re.match(r"//|(?:pub(?:\(crate\))? )?fn ", block[0]) or block[-1] != "}" or code.count("{") != code.count("}"):
        return "it is not a whole function"
    for file in sources():
        if any(block == flush(file[at:at + len(block)]) for at in range(len(file) - len(block) + 1)):
            return None
    return "no file of crates/*/src has these lines"


def prints(text, printed):
    """What is wrong with lines that the bench is said to print for a run file."""
    if not (ROOT / "target/bin/bench").exists():
        return "target/bin/bench is not there; bash tests/make bench makes it"
    done = run(["bash", "tests/emulated", "target/bin/bench"], input=text)
    line = {"..": r"(?:[^\r\n]*\r\n)+"}
    shown = "".join(line.get(said, re.escape(said) + r"\r\n") for said in printed.splitlines())
    if done.returncode == 0 and re.fullmatch(shown, done.stdout.decode(errors="replace")):
        return None
    return "the bench prints\n" + done.stdout.decode(errors="replace").replace("\r\n", "\n").rstrip()


def shows(code, kind, before):
    """What is wrong with a block of printed lines after a block of some kind."""
    if kind == "csv":
        return prints(before.encode(), code)
    found = FED.search(before.rstrip().split("\n")[-1]) if kind == "sh" else None
    if not found:
        return "the block before it is no csv, and no sh that ends in 'bench < FILE'"
    file = ROOT / found[1]
    return prints(file.read_bytes(), code) if file.is_file() else f"{found[1]} is not there"


def there(path):
    """Whether a path that a command names is there, or is made by a build; '*' stands for any name."""
    if "target" in path.split("/") or path == "/dev/null":
        return True
    return path[0] not in "/~" and ".." not in path.split("/") and any(ROOT.glob(path))


def names(code):
    """What is wrong with commands: that they name files that are not there."""
    words = shlex.shlex(code.replace("\\\n", " "), posix=True, punctuation_chars=True)
    words.whitespace_split = True
    try:
        bare = [re.sub(r"^-[A-Z]|^-*\w[\w-]*=", "", word) for word in words]  # -Ipath, --name=path, NAME=path
    except ValueError as wrong:
        return f"these are no commands: {wrong}"
    paths = [re.sub(r"^(?:\$PWD|\.)/", "", word) for word in bare if "/" in word and "://" not in word]
    lost = [path for path in paths if not there(path)]
    crates = set(re.findall(r"^(\w+):", (ROOT / "crates.txt").read_text(), re.MULTILINE))
    lost += [path for path in paths if path.startswith("target/bin/") and path.removeprefix("target/bin/") not in crates]
    for verb, crate in re.findall(r"^rt +(\S+)(?: +(\w\S*))?", re.sub(r" *#.*", "", code), re.MULTILINE):
        lost += [f"rt {verb} {crate}".strip()] if verb not in VERBS or crate and crate not in crates else []
    return f"not there: {', '.join(lost)}" if lost else None


def sums(code):
    """What is wrong with a text: the sum of another logic than that of toolchain.txt."""
    other = [found for found in re.findall(r"\bsum=(\w+)", code) if found not in (ROOT / "toolchain.txt").read_text().split()]
    return f"toolchain.txt has another sum than {', '.join(other)}" if other else None


def fault(code, kind, before, after):
    """What is wrong with a block that stands between two others, each a kind and its text; None where nothing is."""
    if kind not in KINDS:
        return "say what the block is: " + ", ".join(KINDS)
    if not code.strip():
        return "the block is empty"
    if kind == "csv" and after[0] != "printed":
        return "no block after it shows what the bench prints"
    if kind == "printed":
        return shows(code, *before)
    judge = {"c": compiles, "rust": checks, "rattle": stands, "sh": names, "text": sums}.get(kind)
    return judge(code) if judge else None


def main():
    given = [pathlib.Path(name).resolve() for name in sys.argv[1:]]
    counts, faults = collections.Counter(), pages.Faults()
    for page in given or [ROOT / "README.md", ROOT / "examples/README.md", *sorted((ROOT / "docs").glob("*.md"))]:
        found = pages.read(page)[1]
        blocks = [("", ""), *((kind, textwrap.dedent("\n".join(lines)) + "\n") for _, kind, lines, _ in found), ("", "")]
        for at, (number, kind, _, _) in enumerate(found, 1):
            counts[kind] += 1
            said = fault(blocks[at][1], kind, blocks[at - 1], blocks[at + 1])
            if said:
                faults.tell(page, number, f"{kind or 'a block'}: {said}")
    for kind in [] if given else WANTED:
        if not counts[kind]:
            faults.tell(ROOT / "docs", 0, f"no page has a block that says '{kind}'")
    return faults.status(f"code blocks: {', '.join(f'{counts[kind]} {kind}' for kind in KINDS)}; {faults.count} faults")


if __name__ == "__main__":
    sys.exit(main())
