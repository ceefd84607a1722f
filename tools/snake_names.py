#!/usr/bin/env python3
"""Brings the repository's own definitions and lemmas to today's spelling: words in snake case, records in camel case.

usage: snake_names.py [--list] ROOT

A name is turned where it is declared in specs/ or proofs/ of a crate: a definition, a lemma, a field, a constructor. Names of the kit's libraries,
of Rust's text and of what the checker generates stay. --list prints the table and what falls together, and writes nothing.
Run it once, right after the kit's port.py.
"""
import collections
import glob
import os
import re
import sys

WORD = re.compile(r"[^\s(){}.;,@\"«»\[\]`]+")
NAME = r"[^\s:(){}.,;|=→]+"
HEAD = re.compile(rf"^\s*(?:(?:abbrev|unfoldable|pub) )*(?:(?:record|data) ({NAME})(?=\s)|({NAME}(?: {NAME})*) :(?=\s|$))")
LIBRARY = re.compile(r"^\s*(?:pub |ghost )?use ((?!Rattle\.(?:%s)\.)[^\s{;]+)\.\{([^}]*)\}")
# Where the plain rule would give one spelling to two things that meet in a file, or hide a name of the kit.
APART = {
    "number-at": "number_at_lem",
    "byte-at": "byte_at_lem",
    "at-most": "at_most_lem",
    "lines-in": "lines_in_lem",
    "move-code": "move_code_lem",
    "fault-code": "fault_code_lem",
    "step-at": "step_at_lem",
    "by-measure": "by_measure_lem",
    "client-at": "client_at_lem",
    "log-room": "log_room_lem",
    "wrong-length": "wrong_length_lem",
    "in-force": "stored_in_force",
    "at-place": "place_is",
    "at_turn": "turn_is",
}


def read(path):
    with open(path, encoding="utf-8") as f:
        return f.read()


def snake(name):
    """read-back and readBack become read_back; a capital word stays one, as in IsTold; signs such as # and ₀ stay."""
    core, tail = re.fullmatch(r"(.*?)([#'₀-₉]*)", name).groups()
    if re.match(r"[A-Z]", core):
        return "".join(p[:1].upper() + p[1:] for p in core.split("-")) + tail
    parts = core.replace("-", "_")
    parts = re.sub(r"(?<=[a-z0-9])([A-Z])", lambda m: "_" + m[1].lower(), parts)
    return parts + tail


def is_generated(path, text_of_type):
    return path.endswith("/Proof.antt") and "tie." in text_of_type


def declared(root):
    """The names that the repository's own specs/ and proofs/ declare, also within a module and several in a line."""
    found = set()
    for p in sorted(glob.glob(os.path.join(root, "crates/*/specs/**/*.antt"), recursive=True) + glob.glob(os.path.join(root, "crates/*/proofs/**/*.antt"), recursive=True)):
        for line in read(p).split("\n"):
            m = HEAD.match(line)
            if not m or line.lstrip().startswith(("--", "let ", "use ", "pub use ")):
                continue
            rest = line[m.end():]
            if is_generated(p, rest) or re.search(r"\bstatement\b", rest):
                continue
            found |= set((m[1] or m[2]).split())
    return found - {"record", "data", "where", "let", "in", "module", "_"}


def table(root):
    rows = {}
    for name in declared(root):
        new = APART.get(name, snake(name))
        if new != name and (name in APART or re.search(r"[-A-Z]", name)) and re.match(r"[A-Za-z]", name):
            rows[name] = new
    return rows


def code_files(root):
    for pattern in ("crates/*/specs/**/*.antt", "crates/*/proofs/**/*.antt", "crates/*/src/**/*.rt", "crates/*/must-fail/*.edit"):
        yield from sorted(glob.glob(os.path.join(root, pattern), recursive=True))


def library_names(root, text):
    """The names that the file takes from the kit's libraries, and as aliases: they stay."""
    own = "|".join(sorted(os.listdir(os.path.join(root, "crates"))))
    names = set()
    for m in re.finditer(r"(?m)^(?:old: |new: )?\s*(?:pub |ghost )?use ([^\s{;]+)\.\{([^}]*)\}", text):
        if re.match(rf"Rattle[.·](?:{own})[.·]", m[1]) and not re.search(r"\.(declared|contracts)\b|\.proofs\.\w+(\.\w+)*\.(Tie|Goals|Given|Statement)$", m[1]):
            continue
        names |= {it.strip() for it in m[2].split(",")}
    return names


def turned(root, rows, path, text):
    stays = library_names(root, text)
    def word(m):
        w = m[0]
        return rows[w] if w in rows and w not in stays else w

    def line(s):
        marker = "//" if path.endswith(".rt") else "--"
        code, sign, comment = s, "", ""
        at = re.search(r"(?<!\S)" + re.escape(marker), s)
        if path.endswith(".edit") and s.startswith("#"):
            return re.sub(r"`[^`]*`", lambda m: WORD.sub(word, m[0]), s)
        if at and not s.startswith(("old:", "new:")):
            code, comment = s[: at.start()], s[at.start():]
            comment = re.sub(r"`[^`]*`", lambda m: WORD.sub(word, m[0]), comment)
            comment = re.sub(r"(?<![\w-])[a-z]+[A-Z]\w*(?![\w-])", word, comment)
        pieces = re.split(r'("(?:[^"\\]|\\.)*")', code)
        return "".join(q if i % 2 else WORD.sub(word, q) for i, q in enumerate(pieces)) + comment

    return "\n".join(line(s) for s in text.split("\n"))


def meetings(root, rows):
    """Places where a new spelling is already taken in a file that has the old one."""
    by_new = collections.defaultdict(set)
    for old, new in rows.items():
        by_new[new].add(old)
    out = []
    for p in code_files(root):
        words = set(WORD.findall(read(p)))
        for old in words & set(rows):
            new = rows[old]
            if new in words:
                out.append((os.path.relpath(p, root), old, new))
            for other in (by_new[new] - {old}) & words:
                out.append((os.path.relpath(p, root), old, other, "both become", new))
    return out, {n: sorted(o) for n, o in by_new.items() if len(o) > 1}


def main(argv):
    listing = "--list" in argv
    root = [a for a in argv if not a.startswith("--")][0]
    rows = table(root)
    met, shared = meetings(root, rows)
    if listing:
        for old, new in sorted(rows.items()):
            print(f"{old}\t{new}")
        for row in met:
            print("meets:", *row)
        for new, olds in sorted(shared.items()):
            print("one spelling:", new, olds)
        return 0
    for p in code_files(root):
        text = read(p)
        new = turned(root, rows, p, text)
        if new != text:
            with open(p, "w", encoding="utf-8") as f:
                f.write(new)
    print(f"{len(rows)} names turned")
    return 0


if __name__ == "__main__":
    raise SystemExit(main(sys.argv[1:]))
