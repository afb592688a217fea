#!/usr/bin/env python3
"""Brings the repository's own definitions and lemmas to the spelling of today's Rattle.

    python3 tools/spell_names.py --make    writes tools/spelling.tsv: each name declared in specs/ and proofs/ that changes
    python3 tools/spell_names.py           rewrites the crates, docs/ and README.md by that table, the edits aside
    python3 tools/spell_names.py FILE..    rewrites these files alone

Run it once: a second run would turn new names again. Rows of names that the kit's script had turned before serve docs/ alone.

Words are in snake case: `greatOf` is `great_of`. A dash stays only between the names of two definitions, as in `length-insert`;
a plain word follows an underscore, as in `cut_only`. A lemma that would get the name of a definition ends in `_lem`.
Names that a check makes (the goals of a function's proof) are no names of the repository and stay.
"""

import collections
import pathlib
import re
import sys

ROOT = pathlib.Path(__file__).resolve().parent.parent
TABLE = ROOT / "tools/spelling.tsv"
DECLARED = re.compile(
    r"^(\s*)((?:pub |abbrev |unfoldable |record |data )*)([^\s(){}.;,:]+)((?: +[({][^:]*:[^)}]*[)}])*)\s*:\s"
)
WORD = re.compile(r"[^\s(){}.;,@\"«»:`\\\[\]|]+")
NAMES = {
    "length", "take", "drop", "set", "get_or", "map", "append", "zero", "suc", "add", "sub", "mul", "div", "mod", "min", "max",
    "every", "total", "and", "or", "true", "false", "cons", "nil", "mem", "insert", "lcm", "gcd", "up_to", "load", "deadline",
    "releases", "ext", "mapped",
}


# fields of a record that would be called like a definition
FIELDS = {"speeds-rise": "speeds_do_rise", "volts-never-fall": "volts_do_not_fall"}


def snake(part):
    """A part of a name without dashes, in snake case where it begins with a small letter."""
    if not part[:1].islower() or not re.search(r"[A-Z]", part):
        return part
    return re.sub(r"(?<=[a-z0-9'])([A-Z])", lambda m: "_" + m[1].lower(), part)


def declared():
    """The names that the repository's own antt files declare, but for those in the folder of a function's proof."""
    found = collections.OrderedDict()
    for crate in sorted((ROOT / "crates").iterdir()):
        for file in sorted(crate.glob("specs/**/*.antt")) + sorted(crate.glob("proofs/*.antt")):
            for line in file.read_text().splitlines():
                match = DECLARED.match(line)
                if match and not line.lstrip().startswith("--"):
                    found.setdefault(match[3], []).append((str(file.relative_to(ROOT)), match[2]))
    return found


def make():
    names = declared()
    rows = {}
    for name in names:
        parts = [snake(part) for part in name.split("-")]
        new = parts[0]
        for before, part in zip(parts, parts[1:]):
            new += ("-" if before in NAMES and part in NAMES else "_") + part
        if new != name:
            rows[name] = new
    camel = {rows[name] for name in rows if "-" not in name}
    taken = camel | {name for name in names if "-" not in name}
    for name in names:
        if "-" in name and rows.get(name, name) in taken:
            rows[name] += "_lem"
        elif name in camel:
            rows[name] = name + "_lem"
    rows.update((name, new) for name, new in FIELDS.items() if name in names)
    TABLE.write_text("".join(f"{old}\t{new}\n" for old, new in sorted(rows.items())))
    back = collections.defaultdict(set)
    for name in names:
        back[rows.get(name, name)].add(name)
    for new, olds in sorted(back.items()):
        if len(olds) > 1:
            print(f"fall together: {new}: {', '.join(sorted(olds))}: {sorted({w for o in olds for w, _ in names[o]})}")


def turn(text, rows, fields, plain):
    """The text with each whole word of the table in its new spelling. Behind a dot only a field or a part of a path turns."""

    def one(match):
        word = match[0]
        if word not in rows:
            return word
        before = text[text.rfind("\n", 0, match.start()) + 1 : match.start()]
        if "-" in word and re.search(r"--|//|^#", before) and not re.match(r"# refused by the \w+ $", before):
            return word  # a word of a comment
        if before.endswith("."):
            path = re.search(r"[^\s(){};,@\"`]*$", before)[0]
            if not (path.startswith("Rattle.") or word in fields or re.search(r"(^|\.)[A-Z]\w*\.$", path)):
                return word
        return rows[word]

    return WORD.sub(one, text) if not plain else re.sub(r"`[^`\n]+`", lambda m: WORD.sub(lambda w: rows.get(w[0], w[0]), m[0]), text)


def main():
    if sys.argv[1:] == ["--make"]:
        return make()
    rows = dict(line.split("\t") for line in TABLE.read_text().splitlines())
    fields = {name for name, places in declared().items() if any("pub " == kind for _, kind in places)}
    fields |= set(rows)  # a field of a record that is not public
    files = [pathlib.Path(name) for name in sys.argv[1:]]
    if not files:
        files = [f for f in (ROOT / "crates").rglob("*") if f.suffix in (".antt", ".rt") and "out" not in f.parts]
        files += list((ROOT / "docs").glob("*.md")) + [ROOT / "README.md"]
    for file in files:
        text = file.read_text()
        names = rows
        if file.suffix == ".rt":
            names = {o: n for o, n in rows.items() if "-" in o or re.search("[A-Z]", o)}
        if "proofs" in file.parts and file.parent.name != "proofs":
            # the goals of a function keep their names: only what the file brings in by `use`, and what is spelled in camel case
            used = set(re.findall(r"[^\s(){}.;,]+", " ".join(re.findall(r"^use Rattle\.[^\n]*", text, re.M))))
            names = {o: n for o, n in rows.items() if o in used or "-" not in o}
        new = turn(text, names, fields, file.suffix == ".md")
        if file.suffix == ".antt":
            new = re.sub(r"`[^`\n]+`", lambda m: WORD.sub(lambda w: rows.get(w[0], w[0]), m[0]), new)
        if new != text:
            file.write_text(new)
    return 0


if __name__ == "__main__":
    sys.exit(main())
