#!/usr/bin/env python3
"""The library's operators and plain words come from the library itself, which `rt ci` asks: what stood in spec's Prelude under their names
is imported from Rattle.std.specs.Prelude.

usage: python3 tools/std_words.py    at the top"""
import glob
import re

OWN = ["Option", "none", "some", "get_elem?"]
USE = re.compile(r"^use Rattle\.(spec\.specs|std\.specs)\.Prelude\.\{([^}]*)\}\n", re.M)


def names(text):
    return [n.strip() for n in text.split(",") if n.strip()]


for path in sorted(glob.glob("crates/*/specs/*.antt") + glob.glob("crates/*/proofs/**/*.antt", recursive=True)):
    if path == "crates/spec/specs/Prelude.antt":
        continue
    with open(path, encoding="utf-8") as f:
        text = f.read()
    found = list(USE.finditer(text))
    if not any(m.group(1) == "spec.specs" for m in found):
        continue
    std, own = [], []
    for m in found:
        for n in names(m.group(2)):
            to = own if m.group(1) == "spec.specs" and n in OWN else std
            if n not in to:
                to.append(n)
    lines = ""
    if std:
        lines += f"use Rattle.std.specs.Prelude.{{{', '.join(std)}}}\n"
    if own:
        lines += f"use Rattle.spec.specs.Prelude.{{{', '.join(own)}}}\n"
    first = found[0].start()
    new = USE.sub("", text[: first]) + lines + USE.sub("", text[first:])
    with open(path, "w", encoding="utf-8") as f:
        f.write(new)
