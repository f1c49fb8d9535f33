#!/usr/bin/env python3
"""Brings the repository's own names to today's spelling, once, after port.py: definitions, lemmas, fields and constructors in snake case.

A name in camel case or with hyphens that the repository declares becomes snake case, in .antt files, in clauses and `ghost use` lines of .rt files, and
between backticks in comments. Where a definition and a law of it would fall together, the law gets `_lem` (NAMED has the others). Names that only a proof of a function
declares, and names that the prover makes, stay."""
import collections
import glob
import os
import re
import sys

TOKEN = re.compile(r"(?<![\w'-])[A-Za-z_][\w']*(?:-[\w'][\w']*)*")

# fall together otherwise, or are no words: old name, new name
NAMED = {
    "each-getD": "each_get_or",
    "each-getD-or": "each_get_or_default",
    "in-range": "in_range",
    "began-at": "began_entry",
    "returned-at": "returned_entry",
    "served-in": "served_turn",
    "inQueue": "InQueue",
    "secondP": "second_p",
}
# in these files alone: names that port.py has turned, or that are a word elsewhere
IN_FILES = [
    ("crates/bench_file/**", "after_read", "after_read_lem"),
    ("crates/bench_writer/proofs/Converting.antt", "as_first", "as_first_lem"),
    ("crates/cc_lines/**", "as_said", "as_said_lem"),
    ("crates/dsm_lines/**", "as_said", "as_said_lem"),
    ("crates/invariant/proofs/**", "at_turn", "at_turn_lem"),
    ("crates/claims/proofs/Counted.antt", "counts_of", "counts_of_lem"),
    ("crates/step/proofs/Entering.antt", "entered_by", "entered_by_lem"),
    ("crates/runner/proofs/Running.antt", "entered_by", "entered_by_lem"),
    ("crates/dsm_claims/proofs/Meets.antt", "last_line", "last_line_lem"),
    ("crates/step/proofs/Entering.antt", "more_of", "more_of_lem"),
    ("crates/machine/proofs/Locations.antt", "node_at", "node_at_lem"),
    ("crates/page/proofs/Telling.antt", "row_told", "row_told_lem"),
    ("crates/claims/proofs/Meets.antt", "stands_at", "stands_at_lem"),
    ("crates/bench_file/specs/Examples.antt", "P", "first_p"),
    ("crates/bench_writer/specs/Examples.antt", "P", "first_p"),
    ("crates/bench_writer/proofs/Laying.antt", "Rest", "rest_part"),
    ("crates/bench_writer/proofs/Laying.antt", "Row", "row_part"),
    ("crates/bench_file/proofs/Passes.antt", "Left", "left_to"),
    ("crates/dsm_invariant/proofs/**", "in_turn", "HasTurn"),
]

# names of local values and of modules, and names that stand on a line alone where they are declared
LOCAL = """a-after answer-fits behind-up-to below-n by-line-applied copyPlace does-row dsm-marked-runs example-answers example-null example-pages example-sizes
examples-listed facts-off facts-on had-not here-21 in-ret knows-it last-served Leaves-none leaves-some no-capacity no-counter noSecond noThird none-behind
not-now not-one of-2 of-3 place-held pred-first q-off q-on same-capacity same-h same-n second-version tail-fits was-out x_Fits y-fits""".split()
MODULES = """ccBridge ccEffect ccLayers ccLines ccMeets ccNumbers ccRefusal ccTable ccTheorem dsmEffect dsmLayers dsmLines dsmLinesSaid dsmNumbers dsmRefusal
dsmRows dsmTable dsmTheorem dsmThreads""".split()


def code(text):
    return re.sub(r"--.*", "", text)


def snake(name):
    return re.sub(r"([a-z0-9])([A-Z])", r"\1_\2", name.replace("-", "_")).lower()


def declared(path, text):
    """Each name that a file declares, with what it is: def, lemma, field, inner."""
    inside = None
    for line in code(text).split("\n"):
        indent = len(line) - len(line.lstrip())
        if re.match(r"\s*(pub )?(record|data) ", line):
            inside = indent
        elif line.strip() and inside is not None and indent <= inside:
            inside = None
        m = re.match(r"\s*((?:(?:pub|abbrev|unfoldable)\s+)*)([A-Za-z][^\s:(){}.]*(?:\s+[A-Za-z][^\s:(){}.]*)*)\s*:\s", line)
        if m and m[2].split()[0] not in ("use", "let", "elim", "in", "module", "mod"):
            kind = "field" if inside is not None and indent > inside else "def" if m[1].strip() not in ("", "pub") else "inner" if indent else "lemma"
            for name in m[2].split():
                yield name, kind
        m = re.match(r"\s*(?:pub )?(?:record|data)\s+([^\s:(){}]+)", line)
        if m:
            yield m[1], "def"
        m = re.match(r"\s*(?:pub )?ruleset\s+(\S+)", line)
        if m:
            yield m[1], "lemma"


def text_before(m):
    return m.string[: m.start()]


def parts(line, antt):
    """A line's code and its comment."""
    for m in re.finditer("--" if antt else "//", line):
        if antt or line[: m.start()].count('"') % 2 == 0:
            return line[: m.start()], line[m.start() :]
    return line, ""


def main():
    texts = {}
    for path in sorted(glob.glob("crates/**/*.antt", recursive=True) + glob.glob("crates/**/*.rt", recursive=True)):
        with open(path, encoding="utf-8") as f:
            texts[path] = f.read()
    kinds, seen = collections.defaultdict(set), collections.defaultdict(set)
    for path, text in texts.items():
        if not path.endswith(".antt"):
            continue
        for name, kind in declared(path, text):
            if not path.endswith("/Proof.antt"):
                kinds[name].add(kind)
        for name in set(TOKEN.findall(code(text))):
            seen[name].add(path)
    old = {n for n in kinds if n[0].islower() and ("-" in n or re.search(r"[a-z0-9][A-Z]", n))}
    turned = {n: NAMED.get(n, snake(n)) for n in old}
    words = collections.defaultdict(set)
    for n in set(kinds) | old:
        if n[0].islower():
            words[snake(n)].add(n)
    for word, names in words.items():
        definition = [n for n in names if "def" in kinds[n]]
        if len(names) == 1 or not definition:
            continue
        for n in names - set(definition):
            both = any(seen[n] & seen[d] for d in definition)
            if n in old and n not in NAMED and (both or "lemma" in kinds[n]):
                turned[n] = word + "_lem"
    turned.update({n: snake(n) for n in LOCAL})
    turned["x_Fits"], turned["example-pages"] = "x_fits", "example_pages_lem"
    turned.update({n: n[0].upper() + n[1:] for n in MODULES})
    alone = collections.defaultdict(dict)
    for folder, n, new in IN_FILES:
        for path in glob.glob(folder, recursive=True):
            if path in texts:
                alone[path][n] = new

    for path, text in texts.items():
        antt, own = path.endswith(".antt"), alone[path]

        def swap(m):
            return own[m[0]] if m[0] in own and not text_before(m).endswith("proofs.") else turned.get(m[0], m[0])

        def camel(m):
            return turned.get(m[0], m[0]) if "-" not in m[0] else m[0]

        lines = []
        for line in text.split("\n"):
            front, back = parts(line, antt)
            clause = antt or re.match(r"\s*(ghost use|ghost |requires|ensures|\})", front)
            lines.append(TOKEN.sub(swap if clause else camel, front) + re.sub(r"`[^`\n]*`", lambda m: TOKEN.sub(swap, m[0]), back))
        texts[path] = "\n".join(lines)
    for path, text in texts.items():
        with open(path, "w", encoding="utf-8") as f:
            f.write(text)
    if "--names" in sys.argv:
        for n in sorted(turned):
            print(n, turned[n])


if __name__ == "__main__":
    os.chdir(os.path.join(os.path.dirname(os.path.realpath(__file__)), ".."))
    main()
