#!/usr/bin/env python3
"""Turns the Proof.antt files of a crate, which walk the code by hand, into Invariants.antt and Answers.antt.

usage: answers.py CRATE_FOLDER NAMES_JSON [--keep]

NAMES_JSON is what `rt check --generated FOLDER --old-names` writes in the crate's folder: the old and the new name of each goal and step.
An answer that only says `search rules` goes, since the check tries that itself. Paths into c (c.before.before.if1.true) become today's (c.if-a-b.true).
What it cannot turn is printed as a line that begins 'left:'.
"""
import glob
import json
import os
import re
import sys

TOKEN = re.compile(r"[^\s(){};,\[\]]+")


def dashed(name):
    return name.replace("_", "-").replace("-₀", "₀")


def bare(need):
    """A need's name as the list has it: without Need- and the kind of overflow."""
    need = dashed(need)
    if need.startswith("Need-"):
        need = need[5:]
    if need.startswith("overflow-"):
        need = need[9:]
    return need


class Names:
    def __init__(self, entry):
        self.needs = {}
        places = [p[0] for p in entry["asked_at"]]
        for (old, new), place in zip(entry["needs"], places):
            self.needs[bare(old)] = (new, place)
        self.same_count = len(entry["needs"]) == len(places)
        self.places = {p[0]: p for p in entry["places"]}
        self.loops = entry["loops"]
        self.changed = entry["changed"]
        self.clauses = {}
        for p, it in zip(entry["places"], entry["clauses"]):
            if it and it.get("fields"):
                self.clauses[p[0]] = it["fields"]

    def step(self, place, ups, field):
        for _ in range(ups):
            place = self.places[place][1]
            if place is None:
                return None
        if field in ("args", "requires", "type_inv", "ranges", "utf8"):
            return place, field
        # a step that stands at the place, or farther up on the way
        here = self.places[place]
        if dashed(here[2][0]) == dashed(field):
            return place, here[2][1]
        return None


def path(names, place, word, left):
    """c.before.before.x.y as today's path."""
    m = re.fullmatch(r"(←?\(?)c((?:\.before)*)(?:\.([^.]+))?((?:\.[^.]+)*)", word)
    if not m:
        return word
    ups = m[2].count(".before")
    if not m[3]:
        if ups:
            left.append(word)
        return word
    found = names.step(place, ups, m[3])
    if not found:
        left.append(f"{word} at {place}")
        return word
    at, new = found
    rest = m[4]
    fields = names.clauses.get(at)
    if fields:
        rest = re.sub(r"^\.ensures\.(\d+)", lambda k: ".ensures." + fields[min(int(k[1]), len(fields) - 1)], rest)
    return f"{m[1]}c.{new}{rest}"


def turn_body(names, place, body, left):
    # aliases of whole steps, also in terms of one another: let q = c.before in let r = q.before in .. r.x
    while True:
        m = re.search(r"let (\S+) = (c(?:\.before)*) in\s*", body)
        if not m:
            break
        body = body[: m.start()] + body[m.end():]
        body = re.sub(rf"(?<![\w.'-]){re.escape(m[1])}(?=\.)", m[2], body)
    return TOKEN.sub(lambda m: path(names, place, m[0], left) if m[0].lstrip("←(").startswith("c.") else m[0], body)


def turn_invariant(names, index, head, body):
    (old, new), variables = names.loops[index]
    changed = names.changed[index]
    params = head.split()
    expected = [v + ("₀" if c else "") for v, c in zip(variables, changed)] + [v for v, c in zip(variables, changed) if c]
    if len(params) != len(expected):
        return None
    rows = {}
    for given, want in zip(params, expected):
        rows[given] = f"l.initial.{want[:-1]}" if want.endswith("₀") else f"l.{want}"

    def word(m):
        first, dot, rest = m[0].partition(".")
        return rows[first] + dot + rest if first in rows else m[0]

    return TOKEN.sub(word, body)


def blocks(text):
    """The file's top-level pieces: (comments above, lines)."""
    out, comment, piece = [], [], []
    for line in text.split("\n"):
        if not line.strip():
            if piece:
                out.append((comment, piece))
                comment, piece = [], []
            elif comment:
                out.append((comment, []))
                comment = []
            continue
        if not piece and line.startswith("--"):
            comment.append(line)
            continue
        piece.append(line)
    if piece or comment:
        out.append((comment, piece))
    return out


def turn(folder, entry, crate, module):
    names = Names(entry)
    p = os.path.join(folder, "Proof.antt")
    with open(p, encoding="utf-8") as f:
        text = f.read()
    left, head, uses, invariants, answers = [], [], [], [], []
    loop_names = [it[0] for it in names.loops]
    for comment, piece in blocks(text):
        if not piece:
            (head if not uses and not answers else answers).append("\n".join(comment))
            continue
        if piece[0].startswith("use "):
            head += comment
            for line in piece:
                if not re.search(r"\.(Statement|Tie)\b", line):
                    uses.append(line)
            continue
        whole = "\n".join(piece)
        if re.match(r"pub \S+(?:_|-)spec :", whole):
            continue
        m = re.match(r"(abbrev )?(\S+) : tie\.(\S+)([^\n]*)\n((?:unfolding [^\n]*\n)*)\2((?: [^\s=]+)*) =( |\n\s+)(.*)", whole, re.S)
        if not m:
            if "tie." in whole:
                left.append("not understood: " + piece[0])
            answers.append("\n".join(comment + piece))
            continue
        kind, unfolding, params, gap, body = m[3], m[5], m[6], m[7], m[8]
        if kind.startswith(("invariant", "decreases")):
            k = re.match(r"(invariant|decreases)-(.*)", dashed(kind))
            index = next((i for i, it in enumerate(loop_names) if dashed(it[0]) == k[2]), None)
            if index is None:
                left.append("no such loop: " + kind)
                continue
            turned = turn_invariant(names, index, params, body)
            if turned is None:
                left.append(f"{kind}: parameters {params} for {names.loops[index]} {names.changed[index]}")
                turned = body
            n = f"{k[1]}-{loop_names[index][1]}"
            invariants.append("\n".join(comment + [f"abbrev pub {n} : goal.{n}", f"{n} l ={gap}{turned}"]))
            continue
        row = names.needs.get(bare(kind))
        if body.strip() == "search rules" and not unfolding:
            continue
        if not row:
            left.append("no such goal: " + kind)
            continue
        new, place = row
        turned = turn_body(names, place, body, left)
        params = re.sub(r" κs\b", "", params)
        answers.append("\n".join(comment + [f"pub {new} : goal.{new}"]) + "\n" + unfolding + f"{new}{params} ={gap}{turned}")
    head_text = "\n".join(head)
    base = f"Rattle.{crate}.proofs.{module}"
    written = []
    if invariants:
        body = head_text + "\n" + "\n".join(uses + [f"use {base}.Given as goal"]) + "\n\n" + "\n\n".join(invariants) + "\n"
        with open(os.path.join(folder, "Invariants.antt"), "w", encoding="utf-8") as f:
            f.write(body)
        written.append("Invariants")
    if any("goal." in a for a in answers):
        body = head_text + "\n" + "\n".join(uses + [f"use {base}.Goals as goal"]) + "\n\n" + "\n\n".join(answers) + "\n"
        with open(os.path.join(folder, "Answers.antt"), "w", encoding="utf-8") as f:
            f.write(body)
        written.append("Answers")
    os.remove(p)
    return written, left


def main(argv):
    folder, names = argv[0].rstrip("/"), argv[1]
    crate = os.path.basename(os.path.abspath(folder))
    with open(names, encoding="utf-8") as f:
        entries = json.load(f)
    for p in sorted(glob.glob(os.path.join(folder, "proofs/**/Proof.antt"), recursive=True)):
        at = os.path.dirname(p)
        module = os.path.relpath(at, os.path.join(folder, "proofs")).replace("/", ".")
        key = next((k for k in (f"Rattle-{crate}-proofs.{module}.Lts",) if k in entries), None)
        if key is None:
            print(f"left: {module}: no names for it")
            continue
        written, left = turn(at, entries[key], crate, module)
        print(f"{module}: {', '.join(written) or 'needs no file'}")
        for it in left:
            print(f"left: {module}: {it}")
    return 0


if __name__ == "__main__":
    raise SystemExit(main(sys.argv[1:]))
