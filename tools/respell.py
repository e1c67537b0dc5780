#!/usr/bin/env python3
"""Brings the repository's own definitions and lemmas to the spelling of today's Rattle.

usage: python3 tools/respell.py        at the top of the repository, once, after the toolchain's port.py

Functions and lemmas are in snake case, facts and types in upper camel case; a dash stays in a lemma
that joins two names. It rewrites contracts, specs/, proofs/ and pages, and no name of the code; then it
lays out every crate (`rt fmt`). The page on the port, which sets old names beside new ones, it leaves.
"""

import os
import re
import subprocess
import sys

# Facts and types.
TYPES = """All-fit Blank-between First-misfit Fits-in Has-line Ill-formed Is-run Loads-bytes Loads-file
Next-run Place-checks Places-check Run-after Shows-at Stands-at The-outcome Undefined-among
Undefined-from""".split()

# Definitions.
WORDS = """anyZero arithNumber bench-over body-length castsToZero cutQuotient cutRemainder
elementNumber formNumber front-end front-place line-of-fault littleEndian open-bus past-line
quotientLine readBits reductionNumber refusal-of remainderLine shiftLeft shiftRight shiftedOut
specialNumber typeNumber vectorAddr whole-lines with-line zeroLine""".split()

# Lemmas, and the fields of facts.
LEMMAS = """added-fits and-run ap-le ap-lt below-past bits-high bits-low byte-before byte-behind
byte-within bytes-are cases-order' cast-fewer cast-range checked-all count-width element-between
element-line ends-within extended-bits faulty-one filled-after filled-line filled-out first-not
fit-put fits-here fits-not-faulty flags-same front-full-end front-is-end front-is-place
front-place-within front-unknown fuse-again fuse-off fuse-sound gather-common gather-greatest
gather-least gather-picked gather-product gather-sum ill-formed image-at-end image-at-place
image-before image-one image-sound is-defined is-undefined lane-minus lane-negative lane-residue
lane-rotate lane-rotate-all lane-shl lane-shl-past lane-shr-past lane-shr-signed lane-shr-unsigned
lane-signed lane-sub lane-truth lane-unsigned lane-add lane-mul line-above line-behind line-below
line-more load-keeps loads-bytes loan-parts located-err located-ok lowest-four lowest-two
malformed-before malformed-one misfit-here misfits-not misfits-one more-defined more-undefined
new-long none-changes not-end-and-bad not-end-and-place not-place-and-bad on-some-byte one-outcome
open-sound over-at over-back over-front over-length over-line over-lines over-long over-mid over-tail
past-none past-some places-within pow-pos' put-below put-end put-more put-start q-long ram-sound
ram-write read-range reads-once rem-size residue-below residue-differs residue-factor residue-fewer
residue-is residue-same residue-small rom-sound same-fault same-fuse same-meaning same-past same-x
same-y shows-located shr-sign slots-after small-below space-after spliced-apart spliced-meets
spliced-none spliced-one split-sound split-whole split-within unchecked-all unchecked-more
undefined-add unwritten-all unwritten-more whole-line worked-add worked-load writable-is
zero-length""".split()

# Named for what they join, by the names that those have now.
JOINED = {
    "getD-spliced": "get_or-spliced",
    "residue-read": "residue-read_bits",
}


def snake(name):
    return re.sub(r"(?<=[a-z])([A-Z])", lambda m: "_" + m.group(1).lower(), name).replace("-", "_")


def camel(name):
    return "".join(w[0].upper() + w[1:] for w in name.split("-"))


NEW = {n: camel(n) for n in TYPES} | {n: snake(n) for n in WORDS + LEMMAS} | JOINED

# A name of antt ends at a space, a bracket, or a mark of punctuation.
EDGE = r"[\s(){}\[\].,;:`«»|×→←∙λ\"/]"
FIND = re.compile(r"(?:(?<=" + EDGE + r")|^)(" + "|".join(re.escape(n) for n in sorted(NEW, key=len, reverse=True)) + r")(?=" + EDGE + r"|$)", re.M)


def files():
    for folder, dirs, names in os.walk("."):
        dirs[:] = sorted(d for d in dirs if d not in ("out", "target", ".git", "tools", "data"))
        for n in sorted(names):
            if n.endswith((".rt", ".antt", ".md")) and n != "PORT.md":
                yield os.path.join(folder, n)


def main():
    if not os.path.isdir("crates"):
        sys.exit("run it at the top of the repository")
    for path in files():
        with open(path, encoding="utf-8") as f:
            old = f.read()
        new = FIND.sub(lambda m: NEW[m.group(1)], old)
        if new != old:
            with open(path, "w", encoding="utf-8") as f:
                f.write(new)
    for crate in sorted(os.listdir("crates")):
        subprocess.run(["rt", "fmt"], cwd=os.path.join("crates", crate), stdout=subprocess.DEVNULL, check=False)


if __name__ == "__main__":
    main()
