#!/usr/bin/env python3
"""Respells this repository's own names as today's Rattle has them. Run once, at the top, right after the kit's port.py.

1. Labels that Rattle makes, in proofs/**/{Answers,Invariants}.antt: a name of src/ keeps its underscores (c.write-loop ->
   c.write_loop), and so do the check's own words (returns-in-err-x -> returns-in_err-x).
2. The definitions and lemmas of specs/ and proofs/, and ghost members: plain snake case (rowGroup -> row_group,
   add-zero -> add_zero). A lemma that would get the name of a definition gets _lem behind it.
3. Paths that port.py leaves (X-as-Measure), and a projection in a must-fail edit.

Functions of src/, exported names, strings and comments are left. It prints each name that it turned, and stops before it
writes anything where two names would fall together."""
import collections
import pathlib
import re
import sys

TOP = pathlib.Path(sys.argv[1] if len(sys.argv) > 1 else ".")
NAME = r"[A-Za-z][\w'-]*"
TOKEN = re.compile(rf"(?<![\w'·-])({NAME})")
FILES = sorted(
    f
    for f in TOP.glob("crates/**/*")
    if f.suffix in (".antt", ".rt", ".edit") and "out" not in f.parts
)
TEXT = {f: f.read_text() for f in FILES}
FOUND = dict(TEXT)

# Functions of the library and words of the check that stand in labels.
OF_LIBRARY = (
    "checked_sub checked_add div_euclid rem_euclid copy_from_slice split_at as_slice from_be_bytes to_be_bytes from_residual "
    "in_ok in_err in_default overflow_sub overflow_add overflow_mul overflow_step overflow_cast overflow_shl overflow_shr "
    "overflow_neg nonzero_div nonzero_rem slice_bounds offset_bounds invariant_of type_inv"
).split()

# Lemmas that would meet a definition, as port.py leaves them.
LEMMAS = (
    "after-claim has-claim wait-count is-claim place-word put-reply retime-reply drop-reply times-row item_count zero_row"
).split()

# What port.py takes for a name of ours, and is a label: a call of `add` bound to `total`.
LABELS = {"crates/engine/proofs/tables/fill_row/Answers.antt": [("h.add_total.", "h.add-total.")]}


def code(text, suffix):
    """The text without comments."""
    return re.sub(r"//[^\n]*" if suffix == ".rt" else r"--[^\n]*", "", text)


def snake(name):
    return re.sub(r"(?<=[a-z0-9])([A-Z])", lambda m: "_" + m[1].lower(), name).replace("-", "_")


def respell_labels():
    names = set(OF_LIBRARY)
    for f, text in TEXT.items():
        if f.suffix == ".rt":
            names |= set(re.findall(r"[A-Za-z][A-Za-z0-9]*(?:_[A-Za-z0-9]+)+", code(text, ".rt")))
    table = {name.replace("_", "-"): name for name in sorted(names, key=len)}
    part = re.compile(
        r"(?<![A-Za-z0-9_'])("
        + "|".join(re.escape(k) for k in sorted(table, key=len, reverse=True))
        + r")(?![A-Za-z0-9_'])"
    )
    turned = collections.Counter()
    for f, text in TEXT.items():
        if f.name not in ("Answers.antt", "Invariants.antt"):
            continue
        goals = set(re.findall(r"^(?:abbrev |pub )*(\S+) : goal\.", text, re.M))
        for group in re.findall(r"^use Rattle\.\S+\.(?:Goals|Given)\.\{([^}]*)\}", text, re.M):
            goals |= {name.strip() for name in group.split(",")}

        def one(m):
            word = m[0]
            head = word.split(".")[0]
            path = "." in word and re.match(r"[a-z(]", word) and not re.fullmatch(r"\w+\.\d", word)
            if path or word in goals or head in goals or word.startswith("invariant-"):
                new = part.sub(lambda m: table[m[1]], word).replace("·", "-")
                if new != word:
                    turned[f"{word} -> {new}"] += 1
                return new
            return word

        text = re.sub(r"[^\s(){},;]+", one, text)
        for old, new in LABELS.get(f.relative_to(TOP).as_posix(), []):
            text = text.replace(old, new)
        TEXT[f] = text
    return turned


def declared():
    """The lower-case names that the repository declares, each with its files."""
    names = collections.defaultdict(set)
    for f, text in TEXT.items():
        if f.suffix == ".antt":
            head = rf"^\s*(?:abbrev |unfoldable |pub |record |data )*({NAME})(?: \([^)]*\)| \{{[^}}]*\}})* :(?![:=])(?! goal\.)"
            found = re.findall(head, code(text, ".antt"), re.M)
        elif f.suffix == ".rt":
            found = re.findall(r"\bghost ([a-z]\w*)", code(text, ".rt"))
        else:
            found = []
        for name in found:
            if name[0].islower():
                names[name].add(f)
    return names


def respell_names():
    names = declared()
    table = {n: n.replace("-", "_") + "_lem" for n in LEMMAS}
    for name in LEMMAS:
        if name not in names:
            sys.exit(f"respell: no lemma {name}: has this been run before?")
    table |= {n: snake(n) for n in names if n not in table and snake(n) != n}
    news = collections.Counter(table.values())
    met = [new for new, count in news.items() if count > 1 or new in names and new not in table]
    if met:
        sys.exit(f"respell: names that fall together: {met}")
    for f, text in TEXT.items():
        quiet = r"//[^\n]*|\"[^\"\n]*\"" if f.suffix == ".rt" else r"--[^\n]*"
        done, at = [], 0
        for m in re.finditer(quiet, text):
            done += [TOKEN.sub(lambda t: table.get(t[1], t[1]), text[at : m.start()]), m[0]]
            at = m.end()
        TEXT[f] = "".join(done) + TOKEN.sub(lambda t: table.get(t[1], t[1]), text[at:])
    return table


def mend_paths():
    for f, text in TEXT.items():
        if f.suffix == ".rt":
            text = text.replace("X-as-Measure.", "X.Measure.")
        if f.suffix == ".edit":
            text = re.sub(r"(?<=[a-z]) \.(?=\d)", ".", text)
        TEXT[f] = text


labels = respell_labels()
names = respell_names()
mend_paths()
changed = [f for f in FILES if TEXT[f] != FOUND[f]]
for f in changed:
    f.write_text(TEXT[f])
for what in sorted(labels):
    print("label", what)
for old in sorted(names):
    print("name", old, "->", names[old])
print(f"respell: {sum(labels.values())} labels, {len(names)} names, {len(changed)} files")
