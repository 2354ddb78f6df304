#!/usr/bin/env python3
"""Brings the names of this repository's definitions and lemmas to the spelling of the newer Rattle. It was run once, behind Rattle's own script.

usage: python3 tools/respell.py [ROOT]

A word is in snake case, a type in camel case: lane-size becomes lane_size, Unseen-shift becomes UnseenShift. A lemma on a type keeps the dash behind
the type's name. Turned are the code of specs/ and proofs/ and the clauses of src/. Names that a file brings in from a library stay as they are.
In a function's proof the names that Rattle makes keep the dashes between their parts, and lose those within a part: in-err-place-of becomes
in_err-place_of. Names that fall together within a file are printed, and then nothing is written.
"""

import collections
import glob
import os
import re
import sys

WORD = re.compile(r'[^\s(){}.;,@"«»]+')
DASHED = re.compile(r"[^\W_][\w'′]*(?:-[\w'′]+)+$")
QUIET = re.compile(r'"(?:[^"\\\n]|\\.)*"|(?<![^\s(){}.;,@"«»])--[^\n]*')
QUIET_RUST = re.compile(r'"(?:[^"\\\n]|\\.)*"|//[^\n]*')
USE = re.compile(r"^(?:ghost |pub )?use +([^\s;{]+?)(?:\.\{([^}]*)\}| as .*)?;?$", re.M)
SIGNATURE = re.compile(
    r"^\s*(?:(abbrev|unfoldable|record|data)\s+)?(?:pub\s+)?(?:(abbrev|unfoldable|record|data)\s+)?(?:pub\s+)?"
    r'([^\s(){}.;,@"«»]+)((?:\s+[({][^\n]*)?\s+:\s.*)$',
    re.M,
)
# Words of Rattle's own that are one part of a name that it makes.
MADE = ["in-ok", "in-err", "in-default", "from-residual", "type-inv", "invariant-of", "slice-bounds", "offset-bounds", "checked-mul", "checked-add"]
MADE += ["overflow-" + w for w in ("add", "sub", "mul", "shl", "shr", "neg", "cast", "step")] + ["nonzero-div", "nonzero-rem"]


def read(path):
    with open(path, encoding="utf-8") as f:
        return f.read()


def outside(quiet, text, turn):
    """The text with turn applied to what lies outside comments and strings."""
    out, at = [], 0
    for m in quiet.finditer(text):
        out += [turn(text[at : m.start()]), m[0]]
        at = m.end()
    return "".join(out + [turn(text[at:])])


def own(path, crates):
    """Whether a use line's path leads to a file of this repository."""
    parts = path.split(".")
    return parts[0] == "Rattle" and len(parts) > 1 and parts[1] in crates and parts[2:3] != ["std"]


def camel(word):
    return "".join(p[:1].upper() + p[1:] for p in word.split("-"))


def main(root):
    os.chdir(root)
    crates = set(os.listdir("crates"))
    antt = sorted(f for d in ("specs", "proofs") for f in glob.glob(f"crates/*/{d}/**/*.antt", recursive=True))
    rust = sorted(glob.glob("crates/*/src/**/*.rt", recursive=True))
    texts = {f: read(f) for f in antt + rust}

    declared, types, words = set(), set(), set()
    for f in antt:
        for kind, kind2, name, rest in SIGNATURE.findall(texts[f]):
            declared.add(name)
            if name[:1].isupper() and (kind or kind2):
                types.add(name)
    for f in rust:
        for w in re.findall(r"[a-z]\w*_\w+", texts[f]):
            words.add(w)
    parts = sorted({w.replace("_", "-") for w in words} | set(MADE), key=len, reverse=True)

    def respell(word):
        if word in types:
            return camel(word)
        if word[:1].isupper() and word.split("-")[0] in {t.split("-")[0] for t in declared if t[:1].isupper() and "-" not in t}:
            head, _, rest = word.partition("-")
            return head + "-" + rest.replace("-", "_")
        return word.replace("-", "_")

    def label(word):
        """A name that Rattle makes: dashes stay between its parts."""
        text = "-" + word + "-"
        for p in parts:
            for q in (p, p[:1].upper() + p[1:]):
                while "-" + q + "-" in text:
                    text = text.replace("-" + q + "-", "-" + q.replace("-", "_") + "-")
        return text[1:-1]

    wrong, said, written = [], [], {}
    for f, text in texts.items():
        imported, made = set(), set()
        for path, names in USE.findall(text):
            listed = [n.strip() for n in names.split(",") if n.strip()]
            if path.split(".")[-1] in ("Goals", "Given"):
                made |= {n.split(" as ")[-1] for n in listed}
            elif not own(path, crates):
                imported |= {n.split(" as ")[-1] for n in listed} | {n.split(" as ")[0] for n in listed} | set(path.split("."))
        function = bool(re.match(r"crates/\w+/proofs/.+/(Answers|Invariants|Proof)\.antt$", f))
        if function:
            made |= set(re.findall(r"\bgoal\.(?:at\.)?([^\s(){}.;,]+)", text))

        def turn(piece):
            def one(m):
                w = m[0]
                dotted = m.start() and piece[m.start() - 1] == "."
                # behind a dot it is a field, and a file brings in no fields
                if not DASHED.match(w) or w in imported and not (dotted and w in declared):
                    return w
                if function and (w in made or dotted and w not in declared):
                    return label(w)
                return respell(w)

            piece = WORD.sub(one, piece)
            if "AllByRecursion as All" in text:
                # Rattle keeps the name All for a word of its own
                piece = re.sub(r"(?<![^\s(){}.;,])All(?![^\s(){}.;,])", "AllByRecursion", piece).replace("AllByRecursion as AllByRecursion", "AllByRecursion")
            return piece

        new = outside(QUIET if f.endswith(".antt") else QUIET_RUST, text, turn)
        pairs = collections.defaultdict(set)
        was = text.replace("AllByRecursion as All", "AllByRecursion")
        for a, b in zip(WORD.findall(was), WORD.findall(new)):
            pairs[b].add(a)
        for b, olds in pairs.items():
            if len(olds - {"All"}) > 1:
                # a definition may share its name with a function or a module of src/: these are other kinds of names
                shared = olds == {b, b.replace("_", "-")} and b in words
                (said if shared else wrong).append(f"{f}: {' and '.join(sorted(olds))} would both be {b}")
        if new != text:
            written[f] = new
    for line in said:
        print("look: " + line + ", which is a name of src/ too")
    for line in wrong:
        print("respell: " + line)
    if wrong:
        return 1
    for f, new in written.items():
        with open(f, "w", encoding="utf-8") as out:
            out.write(new)
    print(f"respell: {len(written)} files written")
    return 0


if __name__ == "__main__":
    sys.exit(main(sys.argv[1] if len(sys.argv) > 1 else "."))
