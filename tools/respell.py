#!/usr/bin/env python3
"""Brings the names of the repository's own definitions and lemmas to today's spelling, once, after port.py.

usage: tools/respell.py            at the top of the repository

Words are in snake case: a part of a name that begins with a small letter and has a capital letter in it, as in `arrivalsOf` or
`length-arrivalsOf`, gets underscores. A name that is a type keeps its capitals wherever it stands, and so do types of the
library. The proof of the function F in proofs/F is called F_spec. What a goal is about follows its kind after an underscore.
Local names that would fall together with a definition are told apart first.
"""

import os
import re

# A lemma or a local name that port.py gave the snake-case form of a definition in use there: the file, the name, the new name.
APART = [
    ("slot_leaders/proofs/Best.antt", "best_of", "best_of_lem"),
    ("slot_leaders/proofs/Best.antt", "goes_to", "sent_to"),
    ("slot_matching/proofs/After.antt", "held_by", "holding"),
    ("slot_matching/proofs/After.antt", "one_more", "one_further"),
    ("oq_slot/proofs/Choosing.antt", "in_buffer", "in_buffer_lem"),
    ("oq_slot/proofs/choose_from/Proof.antt", "in_buffer", "in_buffer_lem"),
    ("trace/proofs/RoundTrip.antt", "in_range", "within"),
    ("trace_reader/proofs/Answered.antt", "opening_of", "opened"),
    ("cue_store/proofs/Found.antt", "place_at", "place_at_lem"),
    ("fair_slot/proofs/Runs.antt", "same_memory", "memory_same"),
    ("slot_moves/proofs/Buffering.antt", "same_place", "place_stays"),
]

KINDS = "add sub mul shl shr cast step"
WORD = re.compile(r"[\w?'₀-₉-]+")
MIXED = re.compile(r"[a-z][a-z0-9?']*[A-Z]")


def snake(part):
    if part == "getD":
        return "get_or"
    if not MIXED.match(part) or re.search(r"_[A-Z]", part):
        return part
    return re.sub("[A-Z]", lambda m: "_" + m.group().lower(), part)


def respell(word):
    return "-".join(map(snake, word.split("-")))


def in_text(text):
    """Every word, but for those in a Rust string."""
    return WORD.sub(lambda m: respell(m.group()), text)


def in_source(text):
    parts = re.split(r'(b?"(?:[^"\\]|\\.)*")', text)
    return "".join(p if i % 2 else in_text(p) for i, p in enumerate(parts))


def in_proof(path, text):
    function = os.path.basename(os.path.dirname(path))
    text = re.sub(r"\bNeed-(overflow)-(?=(?:" + KINDS.replace(" ", "|") + r")-)", r"Need-\1_", text)
    name = re.search(r"^pub (\S+) : \{M : Type 1\} → statement M$", text, re.M)
    if name and name.group(1) != function + "_spec":
        text = re.sub(r"(?<![\w'?.-])" + re.escape(name.group(1)) + r"(?![\w'?-])", function + "_spec", text)
    return text


def files(ending):
    for folder, folders, names in os.walk("crates"):
        folders[:] = sorted(f for f in folders if f != "out")
        for name in sorted(names):
            if name.endswith(ending):
                yield os.path.join(folder, name)


def rewrite(path, change):
    with open(path, encoding="utf-8") as file:
        old = file.read()
    new = change(old)
    if new != old:
        with open(path, "w", encoding="utf-8") as file:
            file.write(new)


def main():
    for path, old, new in APART:
        path = os.path.join("crates", path)
        if os.path.exists(path):
            rewrite(path, lambda t: re.sub(r"(?<![\w'?.-])" + old + r"(?![\w'?-])", new, t))
    for path in files(".antt"):
        rewrite(path, in_text)
        if os.path.basename(path) == "Proof.antt":
            rewrite(path, lambda t: in_proof(path, t))
    for path in files(".rt"):
        rewrite(path, in_source)


if __name__ == "__main__":
    main()
