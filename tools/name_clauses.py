#!/usr/bin/env python3
"""After turn_proofs.py: where a function has several clauses of a kind, an answer names them (`.requires.lies`, `record { lies = ..; .. }`)
in place of counting pairs.

usage: name_clauses.py NAMES CRATE    at the top; NAMES as for turn_proofs.py"""
import glob
import json
import os
import re
import sys

IDENT = r"[^\s(){}\[\];,.]+"


def labels():
    """By crate and function: the labels of its requires and of its ensures."""
    found = {}
    for path in glob.glob("crates/*/src/**/*.rt", recursive=True):
        crate = path.split("/")[1]
        module = re.sub(r"^crates/\w+/src/|\.rt$", "", path).replace("/", "::")
        name, kinds = None, None
        with open(path, encoding="utf-8") as f:
            for line in f:
                m = re.match(r"\s*(?:pub )?(?:const )?(?:extern \"C\" )?fn (\w+)", line)
                if m:
                    name, kinds = m.group(1), {"requires": [], "ensures": []}
                    found.setdefault((crate, name), []).append(kinds)
                    found.setdefault((crate, f"{module}::{name}"), []).append(kinds)
                m = re.match(r"\s+(requires|ensures)\s*(\w*)\s*\{", line)
                if m and kinds is not None:
                    kinds[m.group(1)].append(m.group(2))
    return {k: v[0] for k, v in found.items() if len(v) == 1 or all(x == v[0] for x in v)}


def by_label(names, path):
    i, k = 0, 0
    while i < len(names) - 1:
        if k >= len(path):
            return None
        if path[k] == "0":
            return names[i], path[k + 1 :]
        if path[k] != "1":
            return None
        i += 1
        k += 1
    return names[-1], path[k:]


def split(text):
    """The parts of a tuple's inside, at its top-level commas."""
    parts, depth, now = [], 0, ""
    for ch in text:
        if ch in "([{":
            depth += 1
        if ch in ")]}":
            depth -= 1
        if ch == "," and depth == 0:
            parts.append(now)
            now = ""
        else:
            now += ch
    if now.strip():
        parts.append(now)
    return [p.strip() for p in parts]


def last_group(text):
    """Where the parenthesis begins that ends the text."""
    end = len(text.rstrip())
    if not text.rstrip().endswith(")"):
        return None
    depth = 0
    for i in range(end - 1, -1, -1):
        if text[i] in ")]}":
            depth += 1
        if text[i] in "([{":
            depth -= 1
            if depth == 0:
                return i
    return None


def flat(inside, n):
    parts = split(inside)
    while len(parts) < n and len(parts) >= 2 and parts[-1].startswith("(") and last_group(parts[-1]) == 0:
        parts = parts[:-1] + split(parts[-1][1:-1])
    if len(parts) > n >= 2:
        parts = parts[: n - 1] + ["(" + ", ".join(parts[n - 1 :]) + ")"]
    return parts if len(parts) == n else None


def recorded(body, names, said, what):
    at = last_group(body)
    if at is None:
        said.append(f"{what}: no tuple at the end")
        return body
    parts = flat(body.rstrip()[at + 1 : -1], len(names))
    if parts is None:
        said.append(f"{what}: not {len(names)} parts")
        return body
    fields = [f"{n} = {p}" for n, p in zip(names, parts)]
    one = "record { " + "; ".join(fields) + " }"
    line = body[:at].split("\n")[-1]
    if "\n" not in one and len(line) + len(one) < 136:
        return body[:at] + one
    indent = " " * (len(line) - len(line.lstrip()) + 2) if line.strip() == "" and line else "      "
    close = indent[:-2]
    return body[:at] + "record {\n" + "".join(f"{indent}{x};\n" for x in fields) + close + "}"


def mend(path, function, info, known, crate):
    with open(path, encoding="utf-8") as f:
        text = f.read()
    said = []
    own = known.get((crate, function.replace(".", "::")), known.get((crate, function.split(".")[-1]), {"requires": [], "ensures": []}))
    calls = {}
    for p in info["places"]:
        if p[3]:
            parts = p[3].split("::")
            calls[p[2][1]] = known.get((parts[0], "::".join(parts[1:])), known.get((parts[0], parts[-1])))
    chunks = re.split(r"\n\n(?=(?:--|pub |\S))", text)
    out = []
    for chunk in chunks:
        m = re.search(r"^pub (\S+) : goal\.", chunk, re.M)
        if not m:
            out.append(chunk)
            continue
        goal = m.group(1)
        ways = {"c.requires": own["requires"]}
        for step, k in calls.items():
            if k:
                ways[f"c.{step}.ensures"] = k["ensures"]
        for x in re.finditer(r"let (" + IDENT + r") = (c\." + IDENT + r"(?:\." + IDENT + r")?) in", chunk):
            if x.group(2) in ways:
                ways[x.group(1)] = ways[x.group(2)]
        for way, names in ways.items():
            if len(names) < 2:
                continue

            def one(x):
                got = by_label(names, x.group(2)[1:].split("."))
                if got is None:
                    said.append(f"{goal}: part {x.group(0)}")
                    return x.group(0)
                return ".".join([way, got[0], *got[1]])

            chunk = re.sub(r"(?<![^\s(){}\[\];,])(" + re.escape(way) + r")((?:\.[01](?![^\s(){}\[\];,.]))+(?:\." + IDENT + r")*)", one, chunk)
        names = []
        if goal.startswith("returns"):
            names = own["ensures"]
        elif goal.endswith("-requires") or re.search(r"-requires-\d+$", goal):
            k = calls.get(re.sub(r"-requires(-\d+)?$", "", goal))
            names = k["requires"] if k else []
        if len(names) >= 2 and "record {" not in chunk.split(goal + " c", 1)[-1].strip()[-400:].split("\n")[-1]:
            chunk = recorded(chunk.rstrip("\n"), names, said, goal) + ("\n" if chunk.endswith("\n") else "")
        for x in list(re.finditer(r"[ \t]*let (" + IDENT + r") = c\.[^\s.]+-1\.given(?:\.[01])* in\n?", chunk)):
            if len(re.findall(r"(?<![^\s(){}\[\];,.])" + re.escape(x.group(1)) + r"(?![^\s(){}\[\];,.])", chunk)) <= 1:
                chunk = chunk.replace(x.group(0), "")
        out.append(chunk)
    new = "\n\n".join(out)
    if new != text:
        with open(path, "w", encoding="utf-8") as f:
            f.write(new)
    return said


def main():
    names, crate = sys.argv[1:3]
    known = labels()
    with open(f"{names}/{crate}/names.json", encoding="utf-8") as f:
        infos = json.load(f)
    for key, info in sorted(infos.items()):
        m = re.match(r"Rattle-(\w+)-proofs\.(.*)\.Lts$", key)
        if not m or m.group(1) != crate:
            continue
        path = f"crates/{crate}/proofs/{m.group(2).replace('.', '/')}/Answers.antt"
        if os.path.exists(path):
            for line in mend(path, m.group(2), info, known, crate):
                print(f"{crate} {m.group(2)}: {line}")


if __name__ == "__main__":
    main()
