#!/usr/bin/env python3
"""Gives the repository's own names today's spelling, after port.py: a definition that begins small is in snake case.

usage: tools/respell.py      at the top of the repository, once

It goes by whole words, over specs/, proofs/, src/ and must-fail/ of each crate, and in the pages over what stands between backticks.
"""
import glob
import re

WORD = re.compile(r"[A-Za-z][A-Za-z0-9_'\-?]*")
SMALL = re.compile(r"^(?:[a-z0-9]+-)*[a-z0-9]+(?:[A-Z][a-z0-9]*)+(?:-[a-z0-9A-Z]+)*$")

# names that would fall together with another one
OWN = {"inUse": "wires_in_use", "getD-right": "get_or-right"}
LEMMAS = {
    "crates/reading/proofs/Long.antt": {"no_number": "no_number_lem"},
    "crates/plan/proofs/Numbers.antt": {"no_room": "no_room_lem"},
    "crates/plan/proofs/planned/Proof.antt": {"no_room": "no_room_lem"},
}

# what port.py respelled because a library spelled it so; the pages and the edits follow
PORTED = """add-at add-times after-none afterOf alike-at alike-refl all-more all-of all-right all-same allBelow and-both and-left and-right ask-holds
at-low at-place at-room atOut back-is before-more by-token choiceOf count-fits count-past count-same counted-spec digit-low doneOf end-low endOf
ends-same entries-none entry-new entry-old entry-past entry-spec entryAt entryOf eqb-no exact-same filled-more filled-none first-found fresh-start
freshOf from-low given-by held-first held-none implies-true in-use isCode isEmpty isNone join-is laid-more laid-none leave-spec leftOf lend-spec
lends-none lends-some lengthOf lent-is less-other lifted-own lineOf listed-at long-after low-small main-spec mid-start modeOf nameOf namedIn
names-same namesOf next-last next-le next-more no-due no-mode no-name no-number no-part no-room no-table none-stays nothing-is numberOf one-token
or-left or-right order-other owed-none owes-nothing owes-self own-room owns-nothing paid-other pair-ended pair-same part-held part-owned pass-kept
pass-spec place-none post-is put-one put-spec put-three put-two queue-long queuedAt read-spec rest-under roomAt roomsOf run-holds run-spec same-end
same-length same-once same-queue same-runs same-step seen-all seen-more seen-none serve-is set-past settle-is short-none shorter-spec slice-snoc
some-or-none start-spec startAt startOf step-fits step-gives step-spec stepOf sum-bound sum-more take-all-spec take-spec takes-of target-past
test-of to-low told-is turn-spec turned-same under-none view-first viewOf waits-one want-is want-kept written-is writtenOf enum-told
same-parts""".split()


def snake(name):
    parts = re.sub(r"(?<=[a-z0-9])([A-Z])", lambda m: "_" + m.group(1).lower(), name)
    return OWN.get(name, parts)


def respell(text, also):
    def word(m):
        w = m.group(0)
        if w in also:
            return also[w]
        return snake(w) if w in OWN or SMALL.match(w) else w

    return WORD.sub(word, text)


def rewrite(path, change):
    with open(path, encoding="utf-8") as f:
        old = f.read()
    new = change(old)
    if new != old:
        with open(path, "w", encoding="utf-8") as f:
            f.write(new)


def main():
    ported = {n: re.sub("-", "_", snake(n)) for n in PORTED}
    ported.update({"in-use": "in_use", "no-number": "no_number_lem", "no-room": "no_room_lem"})
    for folder in ("specs", "proofs"):
        for path in glob.glob(f"crates/*/{folder}/**/*.antt", recursive=True):
            rewrite(path, lambda t: respell(t, LEMMAS.get(path, {})))
    for path in glob.glob("crates/*/src/**/*.rt", recursive=True):
        rewrite(path, lambda t: respell(t, {}))
    for path in glob.glob("crates/*/must-fail/*.edit"):
        rewrite(path, lambda t: respell(t, ported))
    for path in ["README.md", *glob.glob("docs/*.md")]:
        rewrite(path, lambda t: re.sub(r"`[^`\n]+`", lambda m: respell(m.group(0), ported), t))


main()
