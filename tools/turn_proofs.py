#!/usr/bin/env python3
"""Turns the proof files of the older form (Proof.antt, answers by place) into Invariants.antt and Answers.antt.

usage: turn_proofs.py NAMES CRATE [FUNCTION ..]    at the top; NAMES/CRATE/names.json is what `rattle check --generated --old-names` wrote

An answer that is the search alone is left out: the check tries it. What can't be turned is printed, and that file stays."""
import json
import os
import re
import sys

IDENT = r"[^\s(){}\[\];,.]+"
PATH = re.compile(r"(?<![^\s(){}\[\];,])(" + IDENT + r")((?:\." + IDENT + r")+)(?![^\s(){}\[\];,.])")
LET = re.compile(r"let (" + IDENT + r") = (" + IDENT + r"(?:\." + IDENT + r")*) in(\s+|$)")


def norm(name):
    name = name.replace("_", "-")
    name = re.sub(r"^overflow-", "", name)
    name = re.sub(r"-lem(?=-|$)", "", name)
    name = re.sub(r"-holds(?=-?\d*$)", "-init", name)
    name = re.sub(r"-less(?=-?\d*$)", "-smaller", name)
    name = re.sub(r"-again(?=-?\d*$)", "-preserved", name)
    return name


class Turn:
    def __init__(self, info):
        self.info = info
        self.index = {p[0]: i for i, p in enumerate(info["places"])}
        self.params = info["params"]
        self.said = []

    def map(self, place, fields, need=None):
        """The new path of old fields read at a place; None where it is the place itself."""
        fields = list(fields)
        i = self.index[place]
        while fields and fields[0] == "before":
            parent = self.info["places"][i][1]
            if parent is not None:
                i = self.index[parent]
            fields.pop(0)
        if not fields:
            return None
        step, rest = fields[0], fields[1:]
        if step in ("args", "requires", "ranges", "utf8"):
            return "c." + ".".join(fields)
        p = self.info["places"][i]
        if norm(step) != norm(p[2][0]):
            # the older form had more steps or fewer: the step goes by its name, on the way to the goal
            j, found = self.index[self.at], []
            while j is not None:
                if norm(self.info["places"][j][2][0]) == norm(step):
                    found.append(j)
                parent = self.info["places"][j][1]
                j = None if parent is None else self.index[parent]
            if len(found) != 1:
                self.said.append(f"at {p[0]} the step is {p[2][0]}, not {step}, which stands {len(found)} times above {self.at}")
                return "c." + ".".join(fields)
            i = found[0]
            p = self.info["places"][i]
        old, new = p[2]
        arm = self.info["arms"][i] if i < len(self.info["arms"]) else None
        if arm:
            best = None
            for field, was, path in arm[2]:
                if norm(was) == norm(old) and rest[: len(path)] == path and (best is None or len(path) > len(best[1])):
                    if field.endswith("-own") and path == [] and any(x[1] == was and x[2] for x in arm[2]):
                        continue
                    best = (field, path)
            if best:
                return ".".join(["c", arm[0], best[0], *rest[len(best[1]) :]])
        if rest and rest[0] in ("new", "auto") and len(rest) > 1 and rest[1] in ("0", "1"):
            names = self.params.get(p[3] or "", None)
            k, j = 1, 0
            while k < len(rest) and rest[k] == "1":
                j += 1
                k += 1
            if names is not None and k < len(rest) and rest[k] == "0" and j < len(names):
                return ".".join(["c", new, rest[0], names[j], *rest[k + 1 :]])
            if names is not None and j == len(names) - 1 and (k == len(rest)):
                return ".".join(["c", new, rest[0], names[j]])
            return "?" + ".".join(["c", new, *rest])
        if re.match(r"(shared_)?slice_known|shape", old) and rest[:1] == ["given"]:
            for name, was in self.info["typed"][i] if i < len(self.info["typed"]) else []:
                if was == old:
                    return ".".join(["c", "type_inv", name, *rest[1:]])
        return ".".join(["c", new, *rest])

    def body(self, text, place):
        """The text of an answer at a place, with its paths turned and the names of places gone."""
        self.at = place
        alias = {"c": (place, [])}
        kept = {"c": None}

        def resolve(head, rest):
            at, fields = alias[head]
            return at, fields + rest

        def turned(head, rest):
            at, fields = resolve(head, rest)
            new = self.map(at, fields)
            if new is None:
                self.said.append(f"a place as a whole: {head}.{'.'.join(rest)}")
                return "c"
            if new.startswith("?"):
                self.said.append(f"part of a tuple: {new}")
                return new[1:]
            own = kept.get(head)
            if own and new.startswith(own + "."):
                return head + new[len(own) :]
            return new

        out, at = [], 0
        while at < len(text):
            m = LET.search(text, at)
            stop = m.start() if m else len(text)
            chunk = text[at:stop]

            def one(x):
                if x.group(1) in alias:
                    return turned(x.group(1), x.group(2)[1:].split("."))
                return x.group(0)

            chunk = PATH.sub(one, chunk)

            def bare(x):
                name = x.group(0)
                if name in alias and name != "c" and kept.get(name) is None:
                    self.said.append(f"a place as a whole: {name}")
                    return "c"
                return name

            chunk = re.sub(r"(?<![^\s(){}\[\];,])" + IDENT + r"(?![^\s(){}\[\];,])", bare, chunk)
            out.append(chunk)
            if not m:
                break
            name, path = m.group(1), m.group(2).split(".")
            if path[0] in alias:
                full = resolve(path[0], path[1:])
                new = self.map(*full)
                alias[name] = full
                if new is None or new.startswith("?"):
                    kept[name] = None
                    # the let goes, with the blanks behind it
                    at = m.end()
                    continue
                kept[name] = new
                own = kept.get(path[0])
                shown = path[0] + new[len(own) :] if own and new.startswith(own + ".") else new
                out.append(f"let {name} = {shown} in{m.group(3)}")
            else:
                out.append(m.group(0))
            at = m.end()
        text = "".join(out)
        return re.sub(r"[ \t]+\n", "\n", text)


def blocks(text):
    """The comment at the head, the use lines, and the declarations, each with its comment."""
    lines = text.rstrip("\n").split("\n")
    head, uses, decls = [], [], []
    i = 0
    while i < len(lines) and lines[i].startswith("--"):
        head.append(lines[i])
        i += 1
    while i < len(lines) and (lines[i].startswith("use ") or not lines[i].strip() or (uses and lines[i].startswith(" "))):
        if lines[i].startswith("use "):
            uses.append(lines[i])
        elif lines[i].strip():
            uses[-1] += " " + lines[i].strip()
        i += 1
    now = []
    for line in lines[i:]:
        if not line.strip():
            if now:
                decls.append(now)
            now = []
        else:
            now.append(line)
    if now:
        decls.append(now)
    # a declaration may hold blank lines: joined again where a block does not begin with a signature
    return head, uses, decls


def uses_for(uses, text, extra):
    """The use lines whose names the text has."""
    found = []
    tokens = set(re.findall(r"[^\s(){}\[\];,.]+", re.sub(r"--.*", "", text)))
    for line in uses:
        m = re.match(r"use (.*)\.\{(.*)\}$", line)
        if not m:
            if re.search(r"(\.Statement|\.Tie)\b", line):
                continue
            m2 = re.match(r"use (\S+)(?: as (\S+))?$", line)
            name = m2.group(2) or m2.group(1).split(".")[-1]
            if name in tokens:
                found.append(line)
            continue
        if re.search(r"\.(Statement|Tie|Lts|Reads)$", m.group(1)):
            continue
        names = []
        for n in m.group(2).split(","):
            n = n.strip()
            own = n.split(" as ")[-1].strip()
            parts = [x for x in own.split("◌") if x] if "◌" in own else [own]
            if all(x in tokens or (own == "[]" and "[]" in text) for x in parts):
                names.append(n)
        if names:
            found.append(f"use {m.group(1)}.{{{', '.join(names)}}}")
    return found + extra


def substitute(body, table):
    def one(m):
        return table.get(m.group(0), m.group(0))

    return re.sub(r"(?<![^\s(){}\[\];,])" + IDENT, one, body)


def turn(path, info, module):
    with open(path, encoding="utf-8") as f:
        head, uses, decls = blocks(f.read())
    t = Turn(info)
    needs = {norm(old): k for k, (old, new) in enumerate(info["needs"])}
    loops = {norm(old): (new, vars_, info["changed"][k]) for k, ((old, new), vars_) in enumerate(info["loops"])}
    invariants, answers, helpers, left = [], [], [], []
    for block in decls:
        comment = []
        while block and block[0].startswith("--"):
            comment.append(block.pop(0))
        if not block:
            continue
        text = "\n".join(block)
        m = re.match(r"(?:abbrev |pub )*(" + IDENT + r") :\s+(.*)", text, re.S)
        if not m:
            left.append(text)
            continue
        name = m.group(1)
        if re.search(r"statement M\b", text.split("\n")[0]) or re.match(r"pub \S+[-_]spec :", text):
            continue
        kind = re.search(r"tie\.(invariant|decreases)-(\S+)", text.split("\n")[0])
        if kind:
            lines = text.split("\n")
            clause = "\n".join(lines[1:])
            x = re.match(r"(\S+)\s+(.*?)\s*=(?=\s)(.*)$", clause, re.S)
            args = x.group(2).split()
            loop = loops.get(norm(kind.group(2)))
            if loop is None:
                t.said.append(f"no loop {kind.group(2)}")
                continue
            new, vars_, changed = loop
            names = [(f"l.initial.{v}" if ch else f"l.{v}") for v, ch in zip(vars_, changed)] + [f"l.{v}" for v, ch in zip(vars_, changed) if ch]
            if len(args) > len(names) or len(args) < len(names):
                t.said.append(f"{name}: {len(args)} arguments, {len(names)} names")
            table = dict(zip(args, names))
            body = substitute(x.group(3), table)
            word = kind.group(1)
            invariants.append("\n".join(comment + [f"abbrev pub {word}-{new} : goal.{word}-{new}", f"{word}-{new} l ={body}"]))
            continue
        if "tie.Need-" in text:
            k = needs.get(norm(name))
            was = re.search(r"tie\.Need-(\S+)", text).group(1)
            if k is None:
                k = needs.get(norm(was))
            lines = text.split("\n")
            n = 1
            while not re.match(re.escape(name) + r"(\s|$)", lines[n]):
                n += 1
            between = lines[1:n]
            clause = "\n".join(lines[n:])
            x = re.match(re.escape(name) + r"((?:\s+[^\s=]+)*)\s*=(?=\s)(.*)$", clause, re.S)
            if not x:
                left.append(text)
                t.said.append(f"{name}: its clause is not read")
                continue
            if re.fullmatch(r"\s*search rules\s*", x.group(2)):
                continue
            if k is None:
                t.said.append(f"{name}: no such goal now")
                left.append(text)
                continue
            new = info["needs"][k][1]
            place = info["asked_at"][k][0]
            args = x.group(1).split()
            if args[1:] == ["κs"] or args[1:] == ["_"] and new.endswith("requires"):
                args = args[:1]
            if len(args) != 1:
                t.said.append(f"{name}: arguments {args}")
            was_c = args[0] if args else "c"
            body = x.group(2)
            if was_c not in ("c", "_"):
                t.said.append(f"{name}: context {was_c}")
            body = t.body(body, place)
            answers.append((k, "\n".join(comment + [f"pub {new} : goal.{new}", *between, f"{new} {'c' if was_c != '_' else '_'}{''.join(' ' + a for a in args[1:])} ={body}"])))
            continue
        helpers.append("\n".join(comment + [text]))
        if re.search(r"\b(tie|lts|reads)\.", text):
            t.said.append(f"helper {name} names the older form")
    folder = os.path.dirname(path)
    made = []
    if invariants:
        text = "\n\n".join(invariants)
        lines = uses_for(uses, text, [f"use {module}.Given as goal"])
        with open(f"{folder}/Invariants.antt", "w", encoding="utf-8") as f:
            f.write("\n".join(head + lines) + "\n\n" + text + "\n")
        made.append("Invariants")
    body = helpers + [a for _, a in answers]
    if answers or helpers:
        text = "\n\n".join(body)
        lines = uses_for(uses, text, [f"use {module}.Goals as goal"])
        with open(f"{folder}/Answers.antt", "w", encoding="utf-8") as f:
            f.write("\n".join(([] if invariants else head) + lines) + "\n\n" + text + "\n")
        made.append("Answers")
    os.remove(path)
    if not os.listdir(folder):
        os.rmdir(folder)
    return made, t.said + [f"left: {x.splitlines()[0]}" for x in left]


def main():
    names, crate, wanted = sys.argv[1], sys.argv[2], sys.argv[3:]
    with open(f"{names}/{crate}/names.json", encoding="utf-8") as f:
        known = json.load(f)
    count = {"files": 0, "none": 0}
    for key, info in sorted(known.items()):
        m = re.match(r"Rattle-(\w+)-proofs\.(.*)\.Lts$", key)
        if not m or m.group(1) != crate:
            continue
        function = m.group(2)
        if wanted and function not in wanted:
            continue
        path = f"crates/{crate}/proofs/{function.replace('.', '/')}/Proof.antt"
        if not os.path.exists(path):
            continue
        made, said = turn(path, info, f"Rattle.{crate}.proofs.{function}")
        count["files"] += 1
        count["none"] += not made
        for line in said:
            print(f"{crate} {function}: {line}")
    print(crate, count)


if __name__ == "__main__":
    main()
