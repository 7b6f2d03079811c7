#!/usr/bin/env python3
"""Brings the repository's own definitions and lemmas to snake case, once, after the kit's port.py.

usage: python3 tools/respell.py         at the top of the repository

It goes over the words that specs/ and proofs/ declare: camel case and dashes become underscores. Answers to goals keep
their names, since the prover gives them, and so do files, functions of src/, strings, inputs and outputs.
Two words that would become one stop it before anything is written.
"""
import os
import re

WORD = r"[A-Za-z][A-Za-z0-9_'\-]*"
DECLARED = re.compile(r"^\s*(?:abbrev |unfoldable )?(?:pub )?(?:ruleset )?(" + WORD + r")((?:\s*[\(\{].*)?\s*:(?:\s.*)?)$")
TOKEN = re.compile(r"(?<![A-Za-z0-9_'\-◌·])" + WORD + r"(?![A-Za-z0-9_'\-◌])")
GOAL = re.compile(r":\s*goal\.")
# words whose parts would read badly
BY_HAND = {
    "getD-ordered": "slice_index_or_ordered",
    # these would fall together with a field, so they say what they are the last of
    "lastDay": "last_working_day",
    "lastNumber": "last_certificate_number",
    "noDevices": "ledger_without_devices",
    "stillOpen": "still_open_check",
    # fields and local facts that would have the name of a definition
    "in-term": "within_term",
    "offers-made": "offers_on_record",
    "cancellations-made": "cancellations_on_record",
    "offered-numbers": "numbers_offered",
    "free-checks": "checks_of_free",
    "slot-checks": "checks_of_slots",
    "row-free": "free_row",
    # a sample's name, in a crate that does not see the definition
    "valid-until": "valid_until",
}
# names under which a file imports a word, and parameters
OTHERS = ["totalsIn", "expiredBy", "loweredBy", "overdueBy", "isFull", "isBad"]
# a lemma that would have its definition's name
LEMMAS = """account-known change-answer device-known found-at is-equal issue-of lay-answer lowered-all or-next
under-offer""".split()


def respelled(word):
    if word in BY_HAND:
        return BY_HAND[word]
    if word in LEMMAS:
        return word.replace("-", "_") + "_lem"
    word = word.replace("-", "_")
    return re.sub(r"(?<=[a-z0-9])([A-Z])", lambda m: "_" + m.group(1).lower(), word)


def files(endings):
    for folder, inner, names in os.walk("crates"):
        inner[:] = sorted(d for d in inner if d != "out")
        for name in sorted(names):
            if name.endswith(endings):
                yield os.path.join(folder, name)


def read(path):
    with open(path, encoding="utf-8") as f:
        return f.read()


def declared():
    words = set()
    for path in files((".antt",)):
        for line in read(path).split("\n"):
            found = DECLARED.match(line)
            if found and not GOAL.search(line):
                words.add(found.group(1))
    return words


def main():
    own = declared() | set(OTHERS)
    new = {w: respelled(w) for w in own if w[0].islower() and respelled(w) != w}
    goals = re.compile(r"^(returns|invariant|measure|decreases|loop|overflow|bounds|slice-bounds|in-bounds)(-.*)?$")
    new = {w: n for w, n in new.items() if not goals.match(w) or w in BY_HAND}
    everything = set()
    for path in files((".antt", ".rt")):
        everything |= set(TOKEN.findall(read(path)))
    taken = {}
    for w, n in new.items():
        taken.setdefault(n, []).append(w)
    two = [(n, ws) for n, ws in taken.items() if len(ws) > 1 and not any(w in BY_HAND for w in ws)]
    if two:
        for n, ws in sorted(two):
            print("two words fall together:", n, "from", ", ".join(ws))
        raise SystemExit(1)
    shared = sorted(n for n in taken if n in everything)
    print("also the name of a function, a label or a local fact, which is allowed:", ", ".join(shared))
    for path in files((".antt", ".rt", ".edit")):
        old = read(path)
        text = TOKEN.sub(lambda m: new.get(m.group(0), m.group(0)), old)
        if text != old:
            with open(path, "w", encoding="utf-8") as f:
                f.write(text)
    print(len(new), "words respelled")


if __name__ == "__main__":
    main()
