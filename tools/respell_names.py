#!/usr/bin/env python3
"""Brings this repository's own definitions and lemmas to today's spelling: words in snake case, facts and types in camel case.

usage: python3 tools/respell_names.py        at the top, once, right after the kit's port/port.py

A name is this repository's if a file of crates/*/specs or a file that lies in crates/*/proofs itself declares it: a definition, a lemma,
a record's field, a constructor. Its dashes become underscores; a name that begins with a capital and is a fact or a type (its signature
ends in a Type, or it is a record or a data) is joined in camel case. In each file a name is turned only if it does not come from a
library by a use line. Names of functions of src/, of exported C functions and the text of strings have no dash and stay. It prints
the table of names to tools/respelled-names.txt and the names that would fall together, which it leaves alone."""
import glob
import os
import re
import sys

TOKEN = re.compile(r"[^\s(){}\[\];,.`\"“”:]+")
DECLARED = re.compile(r"^\s*(?:(?:pub|abbrev|unfoldable|ruleset|where)\s+)*([^\s(){}\[\];,.:λ]+)\s+:(?=\s|$)")
WHERE = re.compile(r"\swhere\s+([^\s(){}\[\];,.:λ]+)\s+:\s")
SHAPED = re.compile(r"^\s*(?:pub\s+)?(?:data|record)\s+([^\s(){}\[\];,.:]+)")
RULESET = re.compile(r"^\s*(?:pub\s+)?ruleset\s+([^\s(){}\[\];,.:=]+)")
USE = re.compile(r"^\s*(?:pub\s+)?(?:ghost\s+)?use\s+(.*?)(?:\.\{([^}]*)\})?(?:\s+as\s+\S+?)?;?\s*$")


def own_files(root):
    for pattern in ("crates/*/specs/*.antt", "crates/*/proofs/*.antt"):
        yield from sorted(glob.glob(os.path.join(root, pattern)))


def signature(lines, i):
    """The signature that begins on line i, with the lines that go on with it."""
    text = lines[i]
    for line in lines[i + 1 : i + 12]:
        if re.match(r"^\s+\S", line) and not DECLARED.match(line):
            text += " " + line.strip()
        else:
            break
    return text


def collect(root):
    names, types = set(), set()
    for path in own_files(root):
        with open(path, encoding="utf-8") as f:
            lines = f.read().split("\n")
        for i, line in enumerate(lines):
            if line.lstrip().startswith("--"):
                continue
            m = SHAPED.match(line)
            if m:
                names.add(m.group(1))
                types.add(m.group(1))
                continue
            m = DECLARED.match(line)
            if m:
                names.add(m.group(1))
                if re.search(r"Type(\s+\d)?\s*$", signature(lines, i)):
                    types.add(m.group(1))
            for name in WHERE.findall(line):
                names.add(name)
            m = RULESET.match(line)
            if m:
                names.add(m.group(1))
    return names, types


def camel(name):
    parts = name.split("-")
    return parts[0] + "".join(p[:1].upper() + p[1:] for p in parts[1:])


def table(root):
    names, types = collect(root)
    turned, taken = {}, {}
    for name in sorted(names):
        if "-" not in name or name.startswith("-"):
            continue
        new = camel(name) if name in types and name[0].isupper() else name.replace("-", "_")
        turned[name] = new
        taken.setdefault(new, []).append(name)
    clash = {}
    for new, olds in taken.items():
        if len(olds) > 1 or new in names:
            clash[new] = olds
            for old in olds:
                del turned[old]
    return turned, clash


def foreign(text, crates):
    """Names that a library's use line brings in, so that they are not this repository's here."""
    found = set()
    for line in text.split("\n"):
        m = USE.match(line)
        if m and m.group(2):
            path = m.group(1)
            own = re.match(r"Rattle\.(\w+)\.", path)
            if not (own and own.group(1) in crates):
                found.update(n.split(" as ")[0].strip() for n in m.group(2).split(","))
    return found


def respell(text, turned, skipped):
    def one(m):
        word = m.group(0)
        bare = word.rstrip("?!")
        if word in turned and word not in skipped:
            return turned[word]
        if bare in turned and bare not in skipped and bare != word:
            return turned[bare] + word[len(bare) :]
        return word

    return TOKEN.sub(one, text)


def main():
    root = "."
    turned, clash = table(root)
    crates = {os.path.basename(p) for p in glob.glob("crates/*")}
    for pattern in ("crates/*/specs/*.antt", "crates/*/proofs/**/*.antt", "crates/*/src/**/*.rt", "crates/*/must-fail/*.edit", "crates/*/wrong-definitions/*"):
        for path in sorted(glob.glob(pattern, recursive=True)):
            with open(path, encoding="utf-8") as f:
                text = f.read()
            new = respell(text, turned, foreign(text, crates))
            if new != text:
                with open(path, "w", encoding="utf-8") as f:
                    f.write(new)
    with open("tools/respelled-names.txt", "w", encoding="utf-8") as f:
        for old in sorted(turned):
            f.write(old + " " + turned[old] + "\n")
    for new, olds in sorted(clash.items()):
        print("falls together, left:", new, "<-", " ".join(olds))
    print(len(turned), "names")


if __name__ == "__main__":
    sys.exit(main())
