#!/usr/bin/env python3
"""Brings the names of definitions and lemmas to one spelling; run once, at the top, straight after the kit's port.py.

port.py respells only those names that a library of the kit has too. Here every definition, field and local name in
camel case goes to snake case; lemmas keep their hyphens, and get back those that port.py took; must-fail edits and
the pages follow. Functions of src/, exported C names, strings, inputs and outputs keep their names.
"""

import os
import re
import subprocess

# Names of the kit that keep their capitals.
KIT = {"mut_Tells", "walk_Meets"}

# A letter that stands for itself between two words.
SPECIAL = {"forAtoE": "for_a_to_e"}

# Lemmas whose hyphens port.py took, since a library has a name of that spelling.
HYPHENS = """
add-at after-call after-text alike-at all-back all-in all-read all-same all-short and-left and-right any-
append any-at as-before as-items as-many as-read as-said at-byte at-item at-n at-pair at-size at-stage begun-
more both-right both-ways by-call by-kind by-le by-part by-read by-three by-two byte-fits bytes-back call-
enters clear-next clear-spec copy-done count-spec counts-zero cut-fits decimal-digit deep-of digits-append
due-all each-at end-fits end-is ended-so ends-at ends-of enter-spec entered-on entries-at entries-next entry-
ending entry-gone entry-key entry-next equal-as few-on fill-done filled-at filled-none find-spec finish-spec
finished-as first-byte float-small found-in from-first from-one from-suc from-wrong given-by given-so go-on
goes-before goes-kept goes-on held-all held-fits held-on in-all in-near in-whole item-count items-refused
keep-spec key-below key-more laid-as laid-none last-line lay-done lead-up leads-one lent-at line-same line-
taken list-done lists-back lower-in moved-out neg-of next-one no-bytes no-digit no-ones no-room none-below
none-over not-full not-same not-written nothing-put nothing-read number-at number-more number-short number-
step of-two one-byte one-less one-more one-number one-passes one-told onward-near or-later other-length other-
row out-at out-of-range over-none own-first part-length passes-then past-more past-two place-at place-found
place-is place-none plain-entry plain-row plain-size put-all put-as put-spec puts-one range-none rank-rises
read-again read-alike read-back read-is read-short reads-end reads-first reads-more reads-over reads-whole
rest-some right-by right-key right-so row-back row-cut row-from row-has row-here row-laid row-near row-same
rows-back rows-end rows-next rows-right run-more run-spec same-after same-key same-kind same-length same-
numbers same-self same-sum same-truth seek-finds seek-found sets-last seven-at shift-zero side-right size-is
size-number small-by some-right staged-done start-spec step-range step-spec step-typed stopped-by sub-part
takes-one tell-none to-last to-one too-many took-pieces typed-byte under-all upper-in upper-is value-after
value-grows walk-is walked-more walked-none walked-whole write-read written-one written-read
""".split()

# The same where a definition has the spelling too: these files mean the lemma.
HYPHENS_IN = {
    "crates/rules/proofs/RowLaws.antt": ["row-at"],
    "crates/rules/proofs/RowReadings.antt": ["row-at"],
    "crates/rules/proofs/CleanRuns.antt": ["run-on"],
    "crates/book/proofs/PlaceLaws.antt": ["look-up"],
    "crates/terminal/proofs/Fits.antt": ["byte-of"],
}

# Camel names that port.py respelled itself: edits and pages have them still.
BY_PORT = """
andThen bitsOf butAt byByte byteOf bytesOf cutTo endOf entryAt entryOf fieldAt firstOf formOf foundAt heldAt heldOf
inRow inTable inTurn isNumber isOrder itemsOf keyOf kindAt lineOf linesOf noRun oneAt oneOf orElse orderIn orderOf
originOf outOf placeIn placeOf planAt planOf pointsOf readEntry restAt rowAt rowIn rowOf rowsOf runOf sameN sideOf
signedOf sizeOf soFar sumOf upTo valueOf
""".split()

# Words of the library that port.py respells in clauses; edits have them still.
EDIT_WORDS = {"getD": "get_or"}

PAGES = ["README.md", "docs/RULES.md", "docs/PROMISES.md", "docs/DECISIONS.md", "docs/CHANGES.md"]

NAME = r"[^\s(){}\[\].,;:«»⟨⟩@\"&`]+"


def snake(name):
    if name in SPECIAL:
        return SPECIAL[name]
    parts = [re.sub(r"([a-z0-9])([A-Z])", r"\1_\2", p).lower() for p in name.split("-")]
    return "-".join(parts)


def files(*ends):
    for folder, dirs, names in os.walk("crates"):
        dirs[:] = sorted(d for d in dirs if d != "out")
        for name in sorted(names):
            if name.endswith(ends):
                yield os.path.join(folder, name)


def read(path):
    with open(path, encoding="utf-8") as f:
        return f.read()


def write(path, text):
    with open(path, "w", encoding="utf-8") as f:
        f.write(text)


def of_kit(text, own):
    """The names that a file imports from the kit."""
    found = set()
    for m in re.finditer(r"use ([\w.]+)\.\{([^}]*)\}", text):
        parts = m.group(1).split(".")
        if not (parts[0] == "Rattle" and parts[1] in own):
            found |= {n.split(" as ")[0].strip() for n in m.group(2).split(",")}
    return found


def each_name(text, turn):
    """Every name outside strings, turned; turn sees the name and whether a dot stands before it."""
    strings = re.compile(r'"[^"\n]*"|' + NAME)

    def one(m):
        word = m.group(0)
        if word.startswith('"'):
            return word
        return turn(word, m.start() > 0 and text[m.start() - 1] == ".")

    return strings.sub(one, text)


def camel_names(texts, own):
    found = set()
    for text in texts.values():
        kit = of_kit(text, own) | KIT
        code = re.sub(r"--.*", "", text)

        def see(word, dotted):
            if word[0].islower() and re.search("[A-Z]", word) and "·" not in word and word not in kit:
                found.add(word)
            return word

        each_name(code, see)
    return found


def main():
    own = {line.split()[0].rstrip(":") for line in read("crates.txt").splitlines() if line and line[0] != "#"}
    texts = {p: read(p) for p in files(".antt")}
    names = camel_names(texts, own)
    turned = {n: snake(n) for n in names | set(BY_PORT)}

    for path, text in texts.items():
        kit = of_kit(text, own)
        hyphens = {h.replace("-", "_"): h for h in HYPHENS + HYPHENS_IN.get(path, [])}

        def turn(word, dotted):
            if word in kit:
                return word
            if word in turned:
                return turned[word]
            return word if dotted else hyphens.get(word, word)

        write(path, each_name(text, turn))

    for path in files(".rt"):
        write(path, each_name(read(path), lambda word, dotted: turned.get(word, word)))

    for path in files(".edit"):
        text = each_name(read(path), lambda word, dotted: EDIT_WORDS.get(word, turned.get(word, word)))
        if "file: specs/" in text:
            text = re.sub(r"(?<=[\w)'-]) \.(?=[\w«])", ".", text)
            text = re.sub(r"\((\w+(?:\.\w+)+)\)", r"\1", text)
        write(path, text)

    for path in PAGES:
        write(path, re.sub(r"[A-Za-z][A-Za-z0-9_'-]*", lambda m: turned.get(m.group(0), m.group(0)), read(path)))

    top = os.getcwd()
    for line in sorted(own):
        subprocess.run(["rt", "fmt"], cwd=os.path.join(top, "crates", line), check=False)


main()
