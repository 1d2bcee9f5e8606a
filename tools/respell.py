#!/usr/bin/env python3
"""Brings the repository's own definitions and lemmas to today's spelling.

usage: python3 tools/respell.py     at the top of the repository, once, after /opt/rattle/port/port.py

A fact or a type is in upper camel case, everything else in snake case. A lemma on an equation keeps a dash between the names
of two definitions. In .rt files only what stands outside comments and texts is turned, and there a name with a dash can stand
in a clause alone. Generated names of proof files (goals, steps, loops) are not the repository's own and are left.
"""

import os
import re
import sys

# facts and types
TYPES = """
All-named By-turn Counts-once Full-for None-for One-block One-letter One-more Only-for Other-side-kept Put-back-own Put-own
Puts-back Read-as Reads-back Same-bag Take-own Taken-at Tray-made Writes-back
"""

# definitions and fields
WORDS = """
after-word before-quote body-fault body-in by-some count-in decimal-value empty-run ends-word from-to head-fits hex-body
hex-bytes hex-digit hex-text hex-value in-range long-number mask-of name-text named-of newest-first now-held numbers-from
one-letter parts-of put-answer quoted-after reads-back reason-text reel-limits reel-waits same-places same-run short-number
starts-name take-answer tray-accepts tray-limits tray-waits turn-after turn-of wall-limits wall-waits was-there with-digit
word-length writes-back zeros-in zeros-number zeros-place
"""

# lemmas, and what is bound in their proofs
LEMMAS = """
added-answer added-own after-short below-le below-some big-4 big-8 bind-was bit-low bit-lt blanks-end blanks-off blanks-on
block-laid body-cut body-laid body-length channel-back check-back check-laid cleared-back count-back count-falls cut-append
cut-cons cut-none cut-push cut-whole digits-by digits-end entry-back fit-whole flag-lt flag-named flag-on fourth-short
framed-back full-answer head-was held-above held-is hex-blank hex-by hex-end hex-here in-front is-now joined-append laid-past
lawful-held lay-fit lead-cut left-none left-some length-block length-filled length-joined low-cut mask-back mask-off mask-on
mask-same more-at-end more-counts more-length named-cases named-off named-on none-moved number-at-back number-back numbers-cut
numbers-done numbers-from-more numbers-none numbers-ok numbers-same numbers-some numbers-step numbers-was one-moved ones-all
ones-lower ones-mod parts-back places-back present-around present-left present-more present-named present-one put-own
puts-back-so puts-queued quote-end quote-here quote-off quote-on range-was ranged-back regroup-body regroup-number removed-at
reserved-back rest-moved room-again share-is station-back sum-passes taken-by-turn takes-by-turn term-le test-was
weighted-fits weighted-le weighted-left wide-lt wide-right word-here word-is word-off word-short zeros-append zeros-cut
zeros-pass
"""

# lemmas whose names join the names of two definitions
JOINED = {
    "bytes-append": "Bytes-append",
    "bytes-big": "Bytes-big",
    "bytes-each": "Bytes-each",
    "bytes-front": "Bytes-front",
    "bytes-lead": "Bytes-lead",
    "bytes-numbers": "Bytes-numbers",
    "bytes-zeros": "Bytes-zeros",
    "getD-fit": "get_or-fit",
    "getD-named-of": "get_or-named_of",
    "getD-zeros": "get_or-zeros",
    "length-named-of": "length-named_of",
    "length-numbers-from": "length-numbers_from",
    "mask-named-of": "mask_of-named_of",
    "present-named-of": "present-named_of",
}

# Names that join the names of two definitions already, and stay: below-present, big-wide, fit-fit, length-big, length-fit,
# length-lead, length-low, length-numbers, length-single, length-upper, length-zeros, present-append, wide-big.


def table():
    names = {t: "".join(p[0].upper() + p[1:] for p in t.split("-")) for t in TYPES.split()}
    names.update({w: w.replace("-", "_") for w in (WORDS + LEMMAS).split()})
    names.update(JOINED)
    return names


def files(root):
    for folder, dirs, found in os.walk(os.path.join(root, "crates")):
        dirs[:] = sorted(d for d in dirs if d != "out")
        for name in sorted(found):
            if name.endswith((".rt", ".antt")):
                yield os.path.join(folder, name)


def token(names):
    part = r"[\w'\u2032\u25cc-]"
    return re.compile("(?<!" + part + ")(?:" + "|".join(sorted(map(re.escape, names), key=len, reverse=True)) + ")(?!" + part + ")")


def code_only(text, turn):
    """Applies `turn` to what stands outside comments and texts of a .rt file."""
    parts = re.split(r"(//[^\n]*|b?\"(?:\\.|[^\"\\])*\"|b?'(?:\\.|[^'\\\n])')", text)
    return "".join(p if i % 2 else turn(p) for i, p in enumerate(parts))


def main():
    root = os.getcwd()
    names = table()
    fixed = token(names)
    new = set(names.values())
    before = set()
    texts = {}
    for path in files(root):
        with open(path, encoding="utf-8") as f:
            texts[path] = f.read()
        if path.endswith(".antt"):
            before |= set(re.findall(r"^(?:(?:abbrev|unfoldable) )?(?:pub )?(?:(?:record|data|abbrev|unfoldable) )?([^\s(){}:]+)[^:\n]* : ", texts[path], re.M))
            before |= set(re.findall(r"^ +(?:pub )?([^\s(){}:]+) : ", texts[path], re.M))
    for name in sorted(new & before):
        print(f"look: {name} is the name of something already", file=sys.stderr)
    if len(new) != len(names):
        print("look: two names fall together", file=sys.stderr)
    count = 0
    for path, text in texts.items():
        turn = lambda t: fixed.sub(lambda m: names[m.group(0)], t)
        after = turn(text) if path.endswith(".antt") else code_only(text, turn)
        if after != text:
            count += 1
            with open(path, "w", encoding="utf-8") as f:
                f.write(after)
    print(f"respell: {count} files")


if __name__ == "__main__":
    main()
