#!/usr/bin/env python3
"""Goals by their names of today in the files that answer them: words that the prover makes, and names of src/, keep their underscores.

    python3 tools/goals.py          at the top of the checkout
"""
import glob
import re

WORDS = ["from-residual", "in-ok", "in-err", "in-default", "slice-bounds", "offset-bounds", "overflow-add", "overflow-sub", "overflow-mul", "overflow-cast", "overflow-shl", "overflow-shr", "overflow-neg", "overflow-step", "nonzero-div", "nonzero-rem", "invariant-of"]


def names(crate):
    found = set()
    for path in glob.glob(f"{crate}/src/**/*.rt", recursive=True):
        for line in open(path):
            if not line.strip().startswith("//"):
                found |= set(re.findall(r"\b[a-z0-9]+(?:_[a-z0-9]+)+\b", line))
    return found


for crate in sorted(glob.glob("crates/*")):
    dashed = {name.replace("_", "-"): name for name in names(crate)}
    dashed |= {word: word.replace("-", "_") for word in WORDS}
    choice = "|".join(sorted(map(re.escape, dashed), key=len, reverse=True))
    pattern = re.compile(rf"(?<![A-Za-z0-9_])({choice})(?![A-Za-z0-9_])")
    for path in glob.glob(f"{crate}/proofs/**/*.antt", recursive=True):
        if path.count("/") < 4:
            continue
        text = open(path).read()
        new = pattern.sub(lambda m: dashed[m.group(1)], text)
        if new != text:
            open(path, "w").write(new)
