#!/usr/bin/env python3
"""Brings the names of definitions and lemmas to snake case, once, after the kit's port.py.

usage: port-names.py [--dry]     at the top of the repository

A name is turned where a file of specs/ or proofs/ of this repository declares it (a signature, a field, a `let`, a parameter) and where it has a dash or a capital inside: five-at and
fiveAt become five_at. Types keep their capitals. A name that a file imports from the kit stays as it is in that file, and so does what the check generates (the goals in a Proof.antt).
Must-fail edits, the pages and the scripts that name a turned name in backticks follow. With --dry nothing is written, and names that would fall together in one file are listed.
"""

import collections
import glob
import re
import sys

TOKEN = re.compile(r"[^\s(){}.;,@\"«»\[\]\\|`]+")
COMMENT = re.compile(r"--[^\n]*")
SIGNATURE = re.compile(r"^[ ]*(?:(?:abbrev|unfoldable|pub|let|where|in|record|module)\s+)*([^\s:(){}.,;λ]+)\s+(?::|=)\s", re.M)
GOAL = re.compile(r"^(?:pub )?(?:abbrev )?([^\s:(){}.,;λ]+) : (?:tie\.|\{M : Type 1\})", re.M)


def snake(name):
    if "-" not in name and not re.match(r"[a-z][A-Za-z0-9]*[a-z0-9][A-Z]", name):
        return name
    name = re.sub(r"(?<=\w)-(?=\w)", "_", name)
    if name[0].islower():
        name = re.sub(r"(?<=[a-z0-9])([A-Z])", lambda m: "_" + m.group(1).lower(), name)
    return name


def kit_imports(text):
    found = set()
    for m in re.finditer(r"^\s*(?:pub )?use (\S+?)\.\{([^}]*)\}", text, re.M):
        if not own(m.group(1)):
            found |= {w.strip().split(" as ")[-1] for w in m.group(2).split(",")} | {w.strip().split(" as ")[0] for w in m.group(2).split(",")}
    return found


def own(path):
    m = re.match(r"Rattle\.(\w+)", path)
    return bool(m) and m.group(1) in CRATES


# two names that would become one: the lemma beside a definition takes another
APART = {
    "bit-xor": "bit_of_xor",
    "check-cell": "check_cell_is",
    "code-most": "code_most_is",
    "unfinished-record": "unfinished_record_is",
    "unfinished-strip": "unfinished_strip_is",
    "finished-record": "finished_record_is",
    "finished-strip": "finished_strip_is",
    "pitted-record": "pitted_record_is",
    "pitted-strip": "pitted_strip_is",
    "is-worn": "worn_said",
    "all-worn": "worn_all",
    "told-half": "half_told",
    "is-row": "row_said",
    "bit-times": "bit_reduced",
}
# and the same in some files alone
APART_IN = {
    "crates/level/proofs/Cells.antt": {"no-level": "no_level_is", "record_of": "record_is"},
    "crates/level/proofs/RecordOf.antt": {"record_of": "record_is"},
    "crates/level/proofs/Theorems.antt": {"record_of": "record_is"},
    "crates/lending/proofs/Writing.antt": {"record_of": "record_is"},
}

# what port.py itself has turned: pages, comments and edits follow
TURNED = """
add-a add-assoc add-comm add-five add-is add-left add-push add-step add-wide added-next added-none adds-none alike-all all-hold all-none allBelow
and-left and-right any-spec apart-by apart-some area-small as-is as-long as-many asks-back at-5 at-7 at-8 at-9 at-last at-most at-none at-p at-y
back-read back-some below-at below-more bit-past bitAt bits-small block-spec both-by both-is both-left both-right both-sums by-answer by-number byteAt
byteOf bytes-next bytes-of cell-at cell-below cells-of cellsOf clear-none clear-spec code-of codes-all columns-of copy-goes copy-spec count-less
count-most count-next count-none count-spec countOf countTo data-of dataOf digits-3 digits-4 distinct-append end-is enter-spec entry-of enum-told
field-below field-is fieldAt fill-spec find-spec finish-spec finished-as first-alike first-byte first-gives first-small first-spec firstOf fit-at
found-right free-more free-spec from-zero front-kept front-less getD-past given-holds go-on goes-on goes-over good-none half-at half-down half-spec
half-up head-in head-more head-read head-spec in-b in-c in-field in-lane in-one in-window is-field isRow joined-small kindAt kindOf laid-as laid-more
laid-none laid-out lane-below lane-count lane-inside lane-of lane-word last-sum left-in leftOf length-part length-shift lent-level lineOf list-full
listOf log-is make-spec markOf marked-differs marked-refused moved-more moved-none mul-assoc mul-comm mul-left mul-low mul-wide no-cell no-line
no-other no-true none-above none-between none-differ none-first none-in none-left not-first not-free not-none not-wider noted-more numberOf numbers-of
one-code one-more one-power one-spec one-word only-gone only-here or-left or-right out-of-range packed-none pair-small pair-spec pairs-next part-same
partOf pass-all pass-spec past-next patched-same pick-spec place-in place-of placeOf pow-apart power-at product-is push-spec put-next put-spec
quotient-by read-alike read-below read-spec record-of room-for room-row row-at row-back row-fits row-keeps row-last row-more row-next row-room
row-same row-seen row-small rows-all rows-behind rows-few rows-fit rows-more rows-next rows-same rows-seen rowsOf rule-dropped same-at same-bytes
same-code same-digits same-len same-length same-not same-numbers same-test same-versions second-none second-spec secondOf seen-all seen-as seen-more
seen-none set-there sets-behind shown-by some-left spelled-at spread-none spreadOf step-spec sub-low sum-first sum-goes sum-is sum-more sumOf sumTo
sums-next take-next taken-is text-says textOf too-many too-short top-bit top-byte triples-none two-back two-runs up-to value-in value-none value-row
valuesOf walk-at walk-from walk-meets window-more word-of word-small wordAt wordOf write-spec wrote-none xor-assoc zero-bit zero-room
""".split()

CRATES = {p.split("/")[1] for p in glob.glob("crates/*/src")}


def declared(text):
    text = COMMENT.sub("", text)
    goals = {m.group(1) for m in GOAL.finditer(text)}
    found = {m.group(1) for m in SIGNATURE.finditer(text)}
    found |= {m.group(1) for m in re.finditer(r"\blet\s+([^\s:(){}.,;λ]+)\s*(?::|=)", text)}
    for m in re.finditer(r"[({]([^():{}→]+?)\s:\s", text):
        found |= set(m.group(1).split())
    return found - goals


def main():
    dry = "--dry" in sys.argv
    antt = sorted(glob.glob("crates/*/specs/**/*.antt", recursive=True) + glob.glob("crates/*/proofs/**/*.antt", recursive=True))
    antt = [f for f in antt if "/out/" not in f]
    texts = {f: open(f, encoding="utf-8").read() for f in antt}
    names = set()
    for f in antt:
        names |= {n for n in declared(texts[f]) if re.fullmatch(r"[\wα-ωℕ'₀-₉-]+", n)}
    table = {n: snake(n) for n in names if snake(n) != n and not n.startswith("+")}
    table.update(APART)

    # names that fall together
    if dry:
        meet = 0
        for f in antt:
            t = COMMENT.sub("", texts[f])
            tokens = set(TOKEN.findall(t))
            goals = {m.group(1) for m in GOAL.finditer(t)}
            kit = kit_imports(t)
            by = collections.defaultdict(set)
            for w in tokens:
                by[APART_IN.get(f, {}).get(w) or (table[w] if w in table and w not in kit and w not in goals else w)].add(w)
            for new, olds in by.items():
                if len(olds) > 1:
                    print("meet:", f, new, sorted(olds))
                    meet += 1
        print(len(table), "names,", meet, "meet")
        return

    followed = {**{n: snake(n) for n in TURNED}, **table}

    def following(text):
        return TOKEN.sub(lambda m: followed.get(m.group(0), m.group(0)), text)

    def quoted(text):
        return re.sub(r"`([^`\n]+)`", lambda m: "`" + following(m.group(1)) + "`", text)

    def turned(text, skip, apart={}):
        return TOKEN.sub(lambda m: apart.get(m.group(0)) or (table[m.group(0)] if m.group(0) in table and m.group(0) not in skip else m.group(0)), text)

    for f in antt:
        t = texts[f]
        skip = kit_imports(t) | {m.group(1) for m in GOAL.finditer(COMMENT.sub("", t))}
        new = re.sub(r"--[^\n]*", lambda m: quoted(m.group(0)), turned(t, skip, APART_IN.get(f, {})))
        if new != t:
            open(f, "w", encoding="utf-8").write(new)
    for f in sorted(glob.glob("crates/*/src/**/*.rt", recursive=True) + glob.glob("crates/*/must-fail/*.edit")):
        t = open(f, encoding="utf-8").read()
        # in code a name of several words has underscores already; clauses and comments are what is turned
        new = following(t)
        if new != t:
            open(f, "w", encoding="utf-8").write(new)
    pages = ["README.md", "CHANGES.md", "CONTRIBUTING.md"] + sorted(glob.glob("docs/*.md")) + sorted(glob.glob("tests/docs/*"))
    for f in pages:
        if f.startswith("docs/PORT"):
            continue
        t = open(f, encoding="utf-8").read()
        new = quoted(t)
        if new != t:
            open(f, "w", encoding="utf-8").write(new)


main()
