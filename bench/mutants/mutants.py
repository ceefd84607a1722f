#!/usr/bin/env python3
"""Small faults put one at a time into the code or the definitions, to see which of them the proofs notice.

A mutant is one change in one file. It is put into a copy of the repository, and `rt check` says whether the crate is still
proved. One that survives is either no change of meaning or a promise that says too little: a person has to judge it.
"""
import argparse
import collections
import os
import pathlib
import random
import re
import shutil
import signal
import subprocess
import tempfile
import threading
import time

ROOT = pathlib.Path(__file__).resolve().parents[2]
CRATES = ["schedule", "counting", "lock", "flag", "flat"]
# The crates that use a crate, nearest first: they may refuse what the crate itself lets pass.
ABOVE = {
    "counting": ["counting_run"],
    "lock": ["lock_run"],
    "flag": ["flag_run"],
    "flat": ["flat_run"],
    "schedule": ["counting", "lock", "flag", "flat", "counting_run", "lock_run", "flag_run", "flat_run", "replayer"],
}
ABOVE["machine"] = ["schedule"] + ABOVE["schedule"]
ABOVE["rows"] = ["machine"] + ABOVE["machine"]
# What an entry of a table of examples starts with.
EXAMPLES = ("does ", "refuses ", "refuses_unsound ", "runs ", "starts ")
NUMBERS = {"u8", "u16", "u32", "u64", "usize"}

# edits: (start, end, text) spans of the file, not overlapping; names: what the changed text needs imported; was, now: the changed lines
Mutant = collections.namedtuple("Mutant", "crate side kind file line edits names was now")


# ---------- what a file has outside its comments, imports and contracts

def blank(text, spans):
    """The text with these spans as spaces, so that places in it stay places in the file."""
    out = list(text)
    for a, b in spans:
        for i in range(a, b):
            if out[i] != "\n":
                out[i] = " "
    return "".join(out)


def mask(text, side):
    comment, skip = {
        "src": (r"//[^\n]*", r"^[ ]*(?:(?:(?:ghost |pub )?use|(?:pub )?mod)\b|#!?\[)[^\n]*"),
        "specs": (r"--[^\n]*", r"^[ ]*(?:use|(?:pub )?mod|module)\b[^\n]*"),
    }[side]
    text = blank(text, [m.span() for m in re.finditer(f"(?m){comment}|{skip}", text)])
    if side == "src":
        # A clause may have a name before its braces, and go on over lines; so may what a trait or an impl has for proofs alone.
        text = blank(text, list(braced(text, r"^[ ]*(?:requires|ensures|ghost)\b[^{\n]*\{")))
    return text


def closing(text, at, pair="()"):
    """The place of the parenthesis that closes the one at this place, or None."""
    depth = 0
    for i in range(at, len(text)):
        depth += (text[i] == pair[0]) - (text[i] == pair[1])
        if depth == 0:
            return i
    return None


def braced(text, head):
    """The spans that begin with this head, which ends in a brace, and end where that brace is closed."""
    for m in re.finditer(f"(?m){head}", text):
        end = closing(text, m.end() - 1, "{}")
        if end is not None:
            yield m.start(), end + 1


def left_end(text, at, stops):
    """Where the operand before an operator starts: after a parenthesis that is still open, a stop word or an equation's start."""
    depth = 0
    i = at
    while i > 0:
        i -= 1
        if text[i] == ")":
            depth += 1
        elif text[i] == "(":
            if depth == 0:
                return i + 1
            depth -= 1
        elif depth == 0:
            if text[i] == "\n" and i + 1 < len(text) and not text[i + 1].isspace():
                return i + 1
            for stop in stops:
                if text.endswith(stop, 0, i + 1):
                    return i + 1
    return 0


def right_end(text, at, stops):
    """Where the operand after an operator ends, by the same rule; a line that starts in the first column is another declaration."""
    depth = 0
    for i in range(at, len(text)):
        if text[i] == "(":
            depth += 1
        elif text[i] == ")":
            if depth == 0:
                return i
            depth -= 1
        elif depth == 0:
            if text[i] == "\n" and (i + 1 == len(text) or not text[i + 1].isspace() or text.startswith("\n\n", i)):
                return i
            if any(text.startswith(stop, i) for stop in stops):
                return i
    return len(text)


def inner(text, a, b):
    """The span without the space around it."""
    part = text[a:b]
    return a + len(part) - len(part.lstrip()), b - (len(part) - len(part.rstrip()))


# ---------- mutants of code: each yields (kind, edits, names needed)

def swap_words(text, kind, pattern, table):
    for m in re.finditer(pattern, text):
        yield kind, [(m.start(1), m.end(1), table[m[1]])], []


def src_operators(text):
    arith = {"+": "-", "-": "+", "*": "+", "/": "*", "%": "/", "<<": ">>", "|": "&", "&": "|"}
    yield from swap_words(text, "arithmetic", r"(?<= )(<<|[-+*/%|&])(?==? )", arith)
    compare = {"<": "<=", "<=": "<", ">": ">=", ">=": ">", "==": "!=", "!=": "=="}
    yield from swap_words(text, "comparison", r"(?<= )(<=|>=|==|!=|<|>)(?= )", compare)
    yield from swap_words(text, "truth value", r"\b(true|false)\b", {"true": "false", "false": "true"})


def src_integers(text):
    # A length in a type says nothing that a proof could miss, and is never well-formed alone.
    types = [m.span() for m in re.finditer(r"; \d+\]", text)]
    for m in re.finditer(r"(?<![\w.])(\d+)\b", blank(text, types)):
        yield "integer", [(m.start(), m.end(), str(int(m[1]) + 1))], []


def constants():
    """module -> type -> names, of the modules that hold nothing but constants."""
    found = {}
    for module in ["schedule/src/limits"]:
        text = (ROOT / "crates" / f"{module}.rt").read_text()
        module = module.rsplit("/", 1)[1]
        for name, type_ in re.findall(r"pub const (\w+): (\w+)", text):
            found.setdefault(module, {}).setdefault(type_, []).append(name)
    # the enums whose variants are numbers of the scope: a type, and its variants under one name
    for file, enum in [("machine/src/refusal", "Refusal"), ("schedule/src/kinds", "Kind")]:
        text = (ROOT / "crates" / f"{file}.rt").read_text()
        body = re.search(rf"pub enum {enum} \{{(.*?)\n\}}", text, re.S)[1]
        found[enum] = {enum: re.findall(r"(\w+) = \d+", body)}
    return found


def src_constants(text, rng):
    known = constants()
    types = [m.span() for m in re.finditer(r"; limits::\w+\]", text)]
    for m in re.finditer(r"\b(limits|Refusal|Kind)::(\w+)\b(?!\()", blank(text, types)):
        names = next((ns for ns in known[m[1]].values() if m[2] in ns), [m[2]])
        others = [n for n in names if n != m[2]]
        if others:
            yield "named constant", [(m.start(2), m.end(2), rng.choice(others))], []


def structs():
    """struct -> field -> type, over all crates."""
    found = {}
    for file in ROOT.glob("crates/*/src/*.rt"):
        for name, fields in re.findall(r"pub struct (\w+)(?:<\w+>)? \{(.*?)\n\}", mask(file.read_text(), "src"), re.S):
            found.setdefault(name, {}).update(re.findall(r"pub (\w+): ([^,\n]+)", fields))
    return found


def another_value(expr, field, known, rng):
    """Another value of the expression's type: a neighbour of the same type, or one more."""
    m = re.fullmatch(r"(\w+)\.(\w+)", expr)
    if m:
        near = [f for fs in known.values() if m[2] in fs for f in fs if f != m[2] and fs[f] == fs[m[2]]]
        if near:
            return f"{m[1]}.{rng.choice(sorted(set(near)))}"
    types = {fs[field] for fs in known.values() if field in fs}
    if types & NUMBERS and re.fullmatch(r"[\w.:]+", expr):
        return f"{expr} + 1"
    if types == {"bool"} and re.fullmatch(r"[\w.]+", expr) and expr not in ("true", "false"):
        return f"!{expr}"
    return None


def src_fields(text, rng):
    known = structs()
    for m in re.finditer(r"(?m)^[ ]+(\w+)(?:: ([^\n]+?))?,$", text):
        new = another_value(m[2] or m[1], m[1], known, rng)
        if new:
            yield "field", [(m.start(1), m.end() - 1, f"{m[1]}: {new}")], []
    for m in re.finditer(r"(?m)^[ ]+\w+(?:\.\w+)*\.(\w+)(?:\[\w+\])? = ([^\n]+);$", text):
        new = another_value(m[2], m[1], known, rng)
        if new:
            yield "field", [(m.start(2), m.end(2), new)], []


def src_dropped(text):
    for m in re.finditer(r"(?m)^[ ]+[\w.]+(?:\[\w+\])? [-+|]?= [^\n]+;\n", text):
        yield "statement dropped", [(m.start(), m.end(), "")], []


def of_src(text, rng):
    yield from src_operators(text)
    yield from src_integers(text)
    yield from src_constants(text, rng)
    yield from src_fields(text, rng)
    yield from src_dropped(text)


# ---------- mutants of definitions and statements

def specs_literals(text):
    # A level, as in `Type 0` and `Unit {0}`, and a part of a pair, as in `v.0`, are no numbers.
    for m in re.finditer(r"(?<![\w.·{'#-])(?<!Type )(\d+)(?![\w'#}])", text):
        yield "literal", [(m.start(), m.end(), str(int(m[1]) + 1))], []


def specs_tests(text, rng):
    swaps = {"eqb": ["leb", "ltb"], "ltb": ["leb", "eqb"], "leb": ["ltb", "eqb"]}
    for m in re.finditer(r"\b(eqb|ltb|leb) ", text):
        new = rng.choice(swaps[m[1]])
        yield "test", [(m.start(1), m.end(1), new)], [new]
    for m in re.finditer(r"\bnot (?=\(|\w)", text):
        yield "test", [(m.start(), m.end(), "")], []
    for m in re.finditer(r"(?:\bneed [\w.]+ |\bcond )(\()|(\()(?=eqb |ltb |leb )", text):
        start = m.start(1) if m[1] else m.start(2)
        end = closing(text, start)
        if end and not text.startswith("(not ", start):
            yield "test", [(start + 1, start + 1, "not ("), (end, end, ")")], ["not"]
    for m in re.finditer(r"(?:\bneed [\w.]+ |\bcond )([\w']+(?:\.[\w']+)+)(?=[\s)])", text):
        yield "test", [(m.start(1), m.end(1), f"(not {m[1]})")], ["not"]
    # A pattern stands before the `=`, and only what is behind it is a value.
    for m in re.finditer(r"(?<![\w.])(true|false)\b", text):
        new = {"true": "false", "false": "true"}[m[1]]
        yield "truth value", [(m.start(), m.end(), new)], [new]


def specs_lists(text):
    stops = ["∷", " = ", " in\n", "→", ";", "++", ","]
    for m in re.finditer("∷", text):
        a, b = inner(text, left_end(text, m.start(), stops), m.start())
        c, d = inner(text, m.end(), right_end(text, m.end(), stops))
        left, right = text[a:b], text[c:d]
        # An example that is gone from a table, or stands elsewhere in it, is nothing that a proof could miss.
        if not left or not right or left.startswith(EXAMPLES) or right.startswith(EXAMPLES):
            continue
        if right != "[]" and left != right:
            yield "list entries swapped", [(a, b, right), (c, d, left)], []
        yield "list entry dropped", [(a, c, "")], []


def atom(text, at):
    """The span of the argument that starts at or after this place."""
    while at < len(text) and text[at].isspace():
        at += 1
    if text.startswith("(", at):
        end = closing(text, at)
        return (at, end + 1) if end else None
    m = re.compile(r"[^\s();]+").match(text, at)
    return m.span() if m else None


def specs_branches(text):
    for m in re.finditer(r"\bcond ", text):
        spans = []
        at = m.end()
        for _ in range(3):
            span = atom(text, at)
            if not span:
                break
            spans.append(span)
            at = span[1]
        if len(spans) == 3:
            (a, b), (c, d) = spans[1:]
            if text[a:b] != text[c:d]:
                yield "branches swapped", [(a, b, text[c:d]), (c, d, text[a:b])], []


def specs_fields(text):
    pattern = re.compile(r"(?<![\w'#-])([\w'#-]+) = ([^;{}=]+);\s+([\w'#-]+) = ([^;{}=]+?)(?= *[;}])")
    for start in [m.start() for m in re.finditer(r"(?<![\w'#-])[\w'#-]+ = [^;{}=]+;", text)]:
        m = pattern.match(text, start)
        if m and m[2].strip() != m[4].strip():
            yield "fields swapped", [(*m.span(2), m[4].strip()), (*m.span(4), m[2].strip())], []


def specs_order(text):
    for m in re.finditer(r" ([+-]) ", text):
        new = {"+": "-", "-": "+"}[m[1]]
        yield "sum", [(m.start(1), m.end(1), new)], [f"◌{new}◌"]
    for m in re.finditer(r" ([<≤]) ", text):
        new = {"<": "≤", "≤": "<"}[m[1]]
        yield "order", [(m.start(1), m.end(1), new)], [f"◌{new}◌"]


def specs_conjuncts(text):
    for op in ["×", "&&"]:
        stops = [op, " = ", "→", ";", " in\n", " ⊎ ", " : "]
        for m in re.finditer(re.escape(op), text):
            a, b = inner(text, left_end(text, m.start(), stops), m.start())
            c, d = inner(text, m.end(), right_end(text, m.end(), stops))
            # `(t : ℕ) ×` binds a name: without it the rest means nothing.
            if a == b or c == d or re.match(r"\([\w ]+ : ", text[a:b]):
                continue
            yield "conjunct dropped", [(a, c, "")], []
            yield "conjunct dropped", [(b, d, "")], []


def specs_statements(text, others):
    for m in re.finditer(r"(?m)^  pub ([\w'#-]+) : [^\n]*\n(?:      [^\n]*\n)*", text):
        word = re.compile(rf"(?<![\w'#-]){re.escape(m[1])}(?![\w'#-])")
        if not word.search(others) and len(word.findall(text)) == 1:
            yield "clause dropped", [(m.start(), m.end(), "")], []


def of_specs(text, rng, others):
    yield from specs_literals(text)
    yield from specs_tests(text, rng)
    yield from specs_lists(text)
    yield from specs_branches(text)
    yield from specs_fields(text)
    yield from specs_order(text)
    yield from specs_conjuncts(text)
    yield from specs_statements(text, others)


# ---------- the sample

def change(raw, edits):
    """The lines that the edits touch, before and after."""
    a, b = raw.rfind("\n", 0, edits[0][0]) + 1, raw.find("\n", edits[-1][1])
    b = len(raw) if b < 0 else b
    new = raw[a:b]
    for start, end, text in reversed(edits):
        new = new[:start - a] + text + new[end - a:]
    return " ".join(raw[a:b].split()), " ".join(new.split())


def all_mutants(crate, side, rng):
    suffix = {"src": "rt", "specs": "antt"}[side]
    found = []
    for file in sorted((ROOT / "crates" / crate / side).glob(f"*.{suffix}")):
        raw = file.read_text()
        text = mask(raw, side)
        if side == "src":
            made = of_src(text, rng)
        else:
            rest = [f for f in ROOT.glob("crates/*/**/*.antt") if f != file]
            made = of_specs(text, rng, "\n".join(f.read_text() for f in rest))
        for kind, edits, names in made:
            edits = sorted(edits)
            line = raw.count("\n", 0, edits[0][0]) + 1
            found.append(Mutant(crate, side, kind, file.relative_to(ROOT), line, edits, names, *change(raw, edits)))
    return found


def by_turns(lists):
    """One of each list in turn, until all are empty."""
    lists = [list(l) for l in lists if l]
    while lists:
        for l in lists:
            yield l.pop()
        lists = [l for l in lists if l]


def drawn(crate, side, rng, only):
    """The mutants of a crate in the order in which they are tried: by turns over the kinds, and in a kind by turns over the files, since a
    long table would else be most of it. By chance in each."""
    kinds = {}
    for m in all_mutants(crate, side, rng):
        if not only or m.kind in only:
            kinds.setdefault(m.kind, {}).setdefault(m.file, []).append(m)
    orders = []
    for kind in sorted(kinds):
        files = [kinds[kind][f] for f in sorted(kinds[kind])]
        for group in files:
            rng.shuffle(group)
        rng.shuffle(files)
        orders.append(list(by_turns(files))[::-1])
    return by_turns(orders)


def shares(total, crates):
    """How many of each crate: as even as it goes."""
    return {c: total // len(crates) + (i < total % len(crates)) for i, c in enumerate(crates)}


# ---------- trying one

PRELUDE = "Rattle.std.specs.Prelude"


def imported(text, name):
    """The text with this name of std imported: a change that only lacks its import is no ill-formed one."""
    m = re.search(rf"(?m)^use {re.escape(PRELUDE)}\.\{{([^}}]*)\}}$", text)
    if not m:
        at = re.search(r"(?m)^(?!--)", text).start()
        return f"{text[:at]}use {PRELUDE}.{{{name}}}\n{text[at:]}"
    if name in [n.strip() for n in m[1].split(",")]:
        return text
    return f"{text[:m.end(1)]}, {name}{text[m.end(1):]}"


def mutated(text, mutant):
    for a, b, new in reversed(mutant.edits):
        text = text[:a] + new + text[b:]
    for name in mutant.names:
        text = imported(text, name)
    return text


def check(copy, crate, limit):
    """The exit and the output of `rt check` in the copy's crate; None for the exit where it took too long."""
    p = subprocess.Popen(
        ["rt", "check"], cwd=copy / "crates" / crate, stdin=subprocess.DEVNULL, stdout=subprocess.PIPE, stderr=subprocess.STDOUT, start_new_session=True
    )
    try:
        out, _ = p.communicate(timeout=limit)
        return p.returncode, out.decode(errors="replace")
    except subprocess.TimeoutExpired:
        # The group is this run's own, so that nothing else is ended with it; the prover that rt started ends with rt.
        os.killpg(p.pid, signal.SIGKILL)
        p.communicate()
        return None, ""


def errors(out):
    """File, line and text of each error that is not the consequence of another. A file is named from its crate's folder."""
    found = re.findall(r"(?m)^(?:\./)?((?:src|specs|proofs)/[^\s:]+):(\d+):\d+: error(?:\[[^\]]*\])?: (.*)$", out)
    return [e for e in found if not re.search(r"which was (?:not admitted|rejected), (?:was|were) not checked", e[2])]


def by_shape(out):
    """Whether the proofs only lack something by name: the code asks for other facts than they prove, and none of theirs was found wrong. Such a
    refusal says less, since a proof written anew might go through. A fact that the prover looked for itself, under its new name, and did not find
    is one that was found wrong."""
    found = errors(out)
    shape = all(re.search(r"has no `|not in scope|no such|that can be named", e[2]) for e in found)
    return bool(found) and shape and not re.search(r"(?m)^note: src/\S+: it is not proved", out)


def ill_formed(folder, out):
    """Whether the text itself is refused: by the compiler, or in a definition. An error in a proof is a fact that is not proved."""
    for path, line, _ in errors(out):
        side = path.split("/")[0]
        # The one kind of proof that stands among the definitions.
        if side == "proofs" or side == "specs" and (folder / path).read_text().splitlines()[int(line) - 1].endswith("= refl"):
            continue
        return True
    return False


def first_error(out):
    found = errors(out)
    if found:
        return f"{found[0][0]}:{found[0][1]} {found[0][2]:.90}"
    # A function that needs no proof file is refused without an error line.
    m = re.search(r"(?m)^note: (src/\S+: it is not proved.{0,90})|^(fn \S+: (?:not proved|no proof).{0,60})|^(rt: .{0,90})(?=\n\Z)", out)
    return (m[1] or m[2] or m[3]) if m else ""


def attempt(mutant, copy, limit):
    """What becomes of a mutant, how long it took, and where it was refused."""
    file = copy / mutant.file
    text = file.read_text()
    start = time.time()
    try:
        file.write_text(mutated(text, mutant))
        code, out = check(copy, mutant.crate, limit)
        spent = time.time() - start
        # 3: the prover met one of its own limits, and can't tell
        if code in (None, 3):
            return "too long", spent, ""
        if code == 0:
            return "survived", spent, ""
        # any other exit but 1: nothing was judged
        if code != 1 or ill_formed(copy / "crates" / mutant.crate, out):
            return "ill-formed", spent, first_error(out)
        return ("by shape" if by_shape(out) else "refused"), spent, first_error(out)
    finally:
        file.write_text(text)


def refused_above(mutant, copy, limit, deadline):
    """The first of the crates that use a crate to refuse the mutant."""
    file = copy / mutant.file
    text = file.read_text()
    try:
        file.write_text(mutated(text, mutant))
        for crate in ABOVE[mutant.crate]:
            left = min(limit, deadline - time.time())
            if left <= 1:
                return "not asked above: no time left"
            code, out = check(copy, crate, left)
            if code in (None, 3):
                return f"{crate} took too long"
            if code != 0:
                library = re.search(r"(?m)^rt: the library (\w+) did not build", out)
                return f"refused by {library[1] if library else crate}: {first_error(out)}"
        return "survived above as well"
    finally:
        file.write_text(text)


# ---------- the report

def table(results):
    rows = {}
    for mutant, what, _, _, _ in results:
        row = rows.setdefault((mutant.side, mutant.crate, mutant.kind), collections.Counter())
        row[what] += 1
    yield "| side | crate | kind | tried | refused | of these by shape | survived | too long | ill-formed |"
    yield "|---|---|---|---|---|---|---|---|---|"
    sums = {}
    for key in sorted(rows):
        row = rows[key]
        sums.setdefault(key[:2], collections.Counter()).update(row)
        yield line_of(key, row)
    for key in sorted(sums):
        yield line_of((*key, "all"), sums[key])


def line_of(key, row):
    refused = row["refused"] + row["by shape"]
    tried = refused + row["survived"] + row["too long"]
    cells = [*key, tried, refused, row["by shape"], row["survived"], row["too long"], row["ill-formed"]]
    return "| " + " | ".join(str(c) for c in cells) + " |"


def times(results):
    spent = {}
    for mutant, _, seconds, _, _ in results:
        spent.setdefault(mutant.crate, []).append(seconds)
    for crate, all_ in sorted(spent.items()):
        yield f"{crate}: {sum(all_) / len(all_):.1f} s a mutant, at most {max(all_):.1f} s"


def survivors(results):
    for mutant, what, _, _, above in results:
        if what not in ("survived", "too long"):
            continue
        yield f"{mutant.file}:{mutant.line} ({mutant.kind}) {what}" + (f"; {above}" if above else "")
        yield f"    was  {mutant.was}"
        yield f"    now  {mutant.now}"
        yield "    verdict: "


def report(results, out):
    lines = [*table(results), "", *times(results), "", *survivors(results)]
    out.write_text("\n".join(lines) + "\n")


# ---------- the run

class Draw:
    """Hands out the next mutant, even over crates and sides, until each has its number or the time is up."""

    def __init__(self, args, rng):
        self.lock = threading.Lock()
        self.deadline = time.time() + args.minutes * 60
        self.queues, self.left = {}, {}
        for side, total in [("src", args.src), ("specs", args.specs)]:
            for crate, n in shares(total, args.crates).items():
                self.queues[crate, side] = drawn(crate, side, rng, args.kinds)
                self.left[crate, side] = n
        self.asked = dict(self.left)

    def next(self):
        with self.lock:
            open_ = [k for k in self.left if self.left[k] > 0]
            # The one that is furthest behind its number goes first, so that a run cut short is still even.
            for key in sorted(open_, key=lambda k: -self.left[k] / self.asked[k]):
                mutant = next(self.queues[key], None)
                if mutant and time.time() < self.deadline:
                    self.left[key] -= 1
                    return mutant
                self.left[key] = 0
            return None

    def again(self, mutant):
        """An ill-formed one does not count: another is drawn in its place."""
        with self.lock:
            self.left[mutant.crate, mutant.side] += 1


def copied(to):
    """A copy with the crates alone. What `rt check` kept of them elsewhere on the machine it finds by itself."""
    shutil.copytree(ROOT / "crates", to / "crates", symlinks=True, ignore=shutil.ignore_patterns("out", "must-fail"))
    for name in ("crates.txt", "HANDLES"):
        if (ROOT / name).exists():
            shutil.copy(ROOT / name, to / name)
    return to


def work(draw, copy, args, results):
    while mutant := draw.next():
        what, seconds, where = attempt(mutant, copy, args.limit)
        if what == "ill-formed":
            draw.again(mutant)
        with draw.lock:
            results.append((mutant, what, seconds, where, ""))
            report(results, args.out)
            print(f"{what:10} {seconds:6.1f} s  {mutant.file}:{mutant.line} ({mutant.kind}) {where}", flush=True)


def ask_above(results, copy, args, deadline):
    for i, (mutant, what, seconds, where, _) in enumerate(results):
        if what == "survived" and mutant.side == "specs":
            above = refused_above(mutant, copy, args.limit, deadline)
            results[i] = (mutant, what, seconds, where, above)
            report(results, args.out)
            print(f"{mutant.file}:{mutant.line} ({mutant.kind}) {above}", flush=True)


def options():
    p = argparse.ArgumentParser(description=__doc__.splitlines()[0])
    p.add_argument("--seed", type=int, default=1)
    p.add_argument("--src", type=int, default=60, help="mutants of code, over all crates")
    p.add_argument("--specs", type=int, default=120, help="mutants of definitions, over all crates")
    p.add_argument("--crates", type=lambda s: s.split(","), default=CRATES)
    p.add_argument("--kinds", type=lambda s: s.split(","), default=[], help="kinds of mutants by name, by default all")
    p.add_argument("--jobs", type=int, default=1)
    p.add_argument("--limit", type=float, default=240, help="seconds that one check may take")
    p.add_argument("--minutes", type=float, default=600, help="no mutant is started after this time")
    p.add_argument("--above", type=float, default=600, help="minutes for asking the crates above about survivors; 0 for not at all")
    p.add_argument("--out", type=pathlib.Path, default=pathlib.Path("mutants.md"))
    return p.parse_args()


def main():
    args = options()
    draw = Draw(args, random.Random(args.seed))
    results = []
    with tempfile.TemporaryDirectory(prefix="mutants-") as room:
        copies = [copied(pathlib.Path(room).resolve() / f"job{i}") for i in range(args.jobs)]
        for copy in copies:
            for crate in args.crates:
                code, out = check(copy, crate, None)
                if code != 0:
                    raise SystemExit(f"{crate} is not proved as it stands:\n{out}")
        jobs = [threading.Thread(target=work, args=(draw, copy, args, results)) for copy in copies]
        for job in jobs:
            job.start()
        for job in jobs:
            job.join()
        if args.above:
            ask_above(results, copies[0], args, time.time() + args.above * 60)
    report(results, args.out)
    print("\n".join(table(results)))


if __name__ == "__main__":
    main()
