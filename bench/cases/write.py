#!/usr/bin/env python3
"""Writes what the cases of cases.txt become: the files, arguments and expected output of the program `cases`, the table of bench cases that
crates/replayer proves, and the schedules of examples/. With --check it writes nothing and fails where something committed differs."""

import pathlib
import re
import sys

HERE = pathlib.Path(__file__).resolve().parent
ROOT = HERE.parent.parent
PROGRAM = ROOT / "crates" / "cases"
EXAMPLES = ROOT / "examples"
LARGEST = 49155
TABLE = ROOT / "crates" / "replayer" / "specs" / "Cases.antt"


def unhex(text):
    """Bytes of a hex text, blanks free, `[HEX]*N` for N repetitions, `-` for none."""
    if text.strip() == "-":
        return b""
    out = b""
    for piece in re.findall(r"\[[^\]]*\]\*\d+|[0-9A-Fa-f ]+", text):
        if piece.startswith("["):
            body, times = piece[1:].split("]*")
            out += bytes.fromhex(body.replace(" ", "")) * int(times)
        else:
            out += bytes.fromhex(piece.replace(" ", ""))
    return out


def read_cases():
    cases, section = [], ""
    for block in (HERE / "cases.txt").read_text().split("\n\n"):
        lines = block.strip().split("\n")
        for line in lines:
            if line.startswith("#"):
                section = line[1:].strip()
        fields = dict(line.split(" ", 1) for line in lines if line and not line.startswith("#"))
        if not fields:
            continue
        # `image as NAME`: the very image of an earlier case
        same = re.fullmatch(r"as (\w+)", fields["image"])
        image = next(c["image"] for c in cases if c["name"] == same[1]) if same else unhex(fields["image"])
        code, place = re.fullmatch(r"(\d+) at (\d+)", fields["verdict"]).groups()
        cases.append({
            "section": section,
            "name": fields["name"],
            "says": fields["says"],
            "file": unhex(fields.get("file", "-")),
            "log": int(fields["log"]),
            "state": int(fields["state"]),
            "code": int(code),
            "place": int(place),
            "wrote": unhex(fields["wrote"]),
            "image": image,
            "same": same and same[1],
        })
    return cases


def shown(data):
    return data.hex().upper() or "-"


def row(data):
    return "".join(f"{b} ∷ " for b in data) + "[]"


TABLE_HEAD = """-- The bench cases of the scope, P1 to P12, each a row: the file, the lengths of both buffers, the code and place answered, what is written to each. One
-- claim over the table proves them: proofs/Tabled.antt. Written by bench/cases/write.py. Assumes nothing.
use Rattle.std.specs.Prelude.{◌≡◌, Bool, true, ◌&&◌, List, [], ◌∷◌, ℕ, eqb, length, replicate}
use Rattle.rows.specs.Bytes.{alike}
use Rattle.rows.specs.Stores.{over}
use Rattle.rows.specs.Walk.{every}
use Rattle.machine.specs.Rest.{Rested}
use Rattle.replayer.specs.Replay.{replay_of}

pub record Case : Type 0 where
  pub file : List ℕ
  pub log_room : ℕ
  pub image_room : ℕ
  pub code : ℕ
  pub place : ℕ
  pub log : List ℕ
  pub image : List ℕ

abbrev pub row : List ℕ → ℕ → ℕ → ℕ → ℕ → List ℕ → List ℕ → Case
row file log_room image_room code place log image =
    record { file = file; log_room = log_room; image_room = image_room; code = code; place = place; log = log; image = image }

-- a buffer before: so many bytes 170
abbrev pub before : ℕ → List ℕ
before room = replicate room 170

-- the answer is the row's: code, place, both lengths, and both whole buffers
abbrev pub meets : Case → Bool
meets c =
    let a : Rested = replay_of c.file (before c.log_room) (before c.image_room) in
    eqb a.code c.code && (eqb a.place c.place && (eqb a.logged (length c.log) && (eqb a.imaged (length c.image)
    && (alike a.log (over c.log (before c.log_room)) && alike a.image (over c.image (before c.image_room))))))
"""


def table(cases):
    text = TABLE_HEAD
    names = []
    for c in cases:
        name = c["name"]
        names.append(name)
        text += f"\n-- {c['says']}\n"
        text += f"abbrev pub {name} : Case\n"
        text += f"{name} =\n    row ({row(c['file'])}) {c['log']} {c['state']} {c['code']} {c['place']}\n"
        image = f"{c['same']}.image" if c["same"] else f"({row(c['image'])})"
        text += f"    ({row(c['wrote'])})\n    {image}\n"
    text += "\nabbrev pub cases : List Case\ncases = " + " ∷ ".join(names) + " ∷ []\n"
    text += "\nabbrev pub Tabled : Type 0\nTabled = every (λ i c. meets c) 0 cases ≡ true\n"
    return text


def expected(c):
    """What the program writes of a case. Over the largest file an input is refused unread, whatever the replayer says of the bytes."""
    text = f"{c['name']}\nverdict {c['code']} at {c['place']}\nlog {shown(c['wrote'])}\nstate {shown(c['image'])}\n"
    if len(c["file"]) > LARGEST:
        text += f"{c['name']} as input\nverdict 3 at 0\nlog -\nstate -\n"
    return text


def outputs(cases):
    """Path and content of everything that is written."""
    files = {}
    for c in cases:
        head = c["log"].to_bytes(2, "big") + c["state"].to_bytes(2, "big")
        files[PROGRAM / "data" / c["name"]] = head + c["file"]
    files[PROGRAM / "args"] = "".join(c["name"] + "\n" for c in cases).encode()
    files[PROGRAM / "stdout"] = "".join(expected(c) for c in cases).encode()
    for c in cases:
        if c["section"] == "examples":
            files[EXAMPLES / (c["name"].removeprefix("example_") + ".schedule")] = c["file"]
    files[TABLE] = table([c for c in cases if c["section"] == "bench cases"]).encode()
    return files


def main():
    cases = read_cases()
    names = [c["name"] for c in cases]
    assert len(set(names)) == len(names), "a name stands twice"
    files = outputs(cases)
    if sys.argv[1:] == ["--check"]:
        stale = [str(p.relative_to(ROOT)) for p, data in files.items() if not p.exists() or p.read_bytes() != data]
        old = [str(p.relative_to(ROOT)) for p in (PROGRAM / "data").glob("*") if p not in files]
        for name in stale + old:
            print(f"differs from cases.txt: {name}")
        sys.exit(1 if stale or old else 0)
    for path, data in files.items():
        path.parent.mkdir(parents=True, exist_ok=True)
        path.write_bytes(data)
    print(f"{len(cases)} cases")


main()
