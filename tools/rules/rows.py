"""Cases as theorems about the definition, proved by computing: an equation for each, in a scratch repository.

    python3 cases.py > cases.jsonl
    python3 rows.py cases.jsonl [--family NAME]... [--most N] [--per-file N]

Copies the crates numbers, text and meaning to a temporary folder, writes the crate `rows` beside them and has `rt check` prove it.
Says how many rows there were and which did not hold. The notation is that of crates/meaning/specs/Rows.antt and proofs/Sample.antt.
"""

from __future__ import annotations

import argparse
import json
import random
import re
import shutil
import subprocess
import sys
import tempfile
from pathlib import Path
from typing import Iterable

REPOSITORY = Path(__file__).resolve().parents[2]
MOST_STEPS = 3_000  # longer runs take the checker too long
MOST_CHARACTERS = 20_000  # of a case's line: beyond that the checker meets its own step limit

KIT = """-- Bindings brought in one after the other, and what each answers.
use Rattle.std.specs.Prelude.{ℕ, List, [], ◌∷◌}
use Rattle.meaning.specs.Limits.{most_cells, most_bytes}
use Rattle.meaning.specs.Errors.{refusal_number}
use Rattle.meaning.specs.Heads.{Got, got, refused}
use Rattle.meaning.specs.Bindings.{BindingRoom, empty_room, bring}

pub data Step : Type 0 where
  empties : Step
  bringing : ℕ → List ℕ → List ℕ → Step

pub data Reply : Type 0 where
  emptied brought : Reply
  declined : ℕ → ℕ → Reply

abbrev pub after : BindingRoom → Got BindingRoom → Reply × BindingRoom
after room (got more) = (brought, more)
after room (refused r p) = (declined (refusal_number r) p, room)

abbrev pub taken : ℕ → ℕ → BindingRoom → Step → Reply × BindingRoom
taken cells bytes room empties = (emptied, empty_room)
taken cells bytes room (bringing n table text) = after room (bring cells bytes room n table text)

unfoldable pub play : ℕ → ℕ → List Step → BindingRoom → List Reply × BindingRoom
play cells bytes [] room = ([], room)
play cells bytes (s ∷ ss) room =
    let now = taken cells bytes room s in
    let later = play cells bytes ss now.1 in
    (now.0 ∷ later.0, later.1)

abbrev pub room : List Step → BindingRoom
room steps = (play most_cells most_bytes steps empty_room).1
"""

HEAD = """-- Rows.
use Rattle.std.specs.Prelude.{◌≡◌, refl, [], ◌∷◌, true, false, pos, negsuc}
use Rattle.meaning.specs.Errors.{Steps, Cells, Text, Nesting}
use Rattle.meaning.specs.Value.{null, bool, int, uint, double, string, bytes, int_key, uint_key, bool_key, string_key, scalar, map, optional_none, optional_of, empty, entry}
use Rattle.meaning.specs.Bindings.{empty_room}
use Rattle.meaning.specs.Answer.{answer_of}
use Rattle.meaning.specs.Rows.{gives, fails, exhausts, refuses, seen, expected}
use Rattle.meaning.proofs.Sample.{elements, counts}
use Rattle.meaning.proofs.Compute.{compute}
use Rattle.rows.proofs.Kit.{empties, bringing, emptied, brought, declined, play, room}

"""


def listed(parts: Iterable[str]) -> str:
    parts = list(parts)
    return "(" + " ∷ ".join([*parts, "[]"]) + ")" if parts else "[]"


def bytes_of(data: str) -> str:
    return listed(str(byte) for byte in bytes.fromhex(data))


def integer(number: int) -> str:
    return f"(pos {number})" if number >= 0 else f"(negsuc {-number - 1})"


def scalar_of(kind: str, held: object) -> str:
    """A scalar's constructor, which is a key's too but for its name's end."""
    if kind == "Bool":
        return f"bool{{}} {str(held).lower()}"
    if kind == "Int":
        return f"int{{}} {integer(int(str(held)))}"
    if kind == "Uint":
        return f"uint{{}} {held}"
    if kind == "Double":
        return f"double{{}} 0x{held}"
    return f"{kind.lower()}{{}} {bytes_of(str(held))}"


def value_of(data: list) -> str:
    kind, rest = data[0], data[1:]
    if kind == "Null":
        return "(scalar null)"
    if kind == "List":
        return f"(elements {listed(map(value_of, rest[0]))})"
    if kind == "Map":
        entries = "empty"
        for key, part in reversed(rest[0]):
            entries = f"(entry ({scalar_of(*key).format('_key')}) {value_of(part)} {entries})"
        return f"(map {entries})"
    if kind == "Optional":
        return f"(optional_of {value_of(rest[0])})" if rest else "optional_none"
    return f"(scalar ({scalar_of(kind, rest[0]).format('')}))"


def counts_of(counts: list) -> str:
    return f"(counts {counts[0]} {counts[1]} {counts[2]})"


def shown(case: dict) -> str:
    answer = case["answer"]
    if answer[0] == "value":
        cells = listed(map(value_of, case["rooms"]["cells"]))
        return f"(gives {value_of(answer[1])} {counts_of(answer[2:])} {cells} {bytes_of(case['rooms']['text'])})"
    if answer[0] == "error":
        return f"(fails {answer[1]} {answer[2]} {counts_of(answer[3])})"
    if answer[0] == "exhausted":
        return f"(exhausts {answer[1]} {counts_of(answer[2])})"
    return f"(refuses {answer[1]} {answer[2]})"


def evaluation(case: dict) -> str:
    """The answer with its counts, and the rooms, of one evaluation."""
    steps = listed(f"bringing {n} {bytes_of(table)} {bytes_of(text)}" for n, table, text in case["bindings"])
    answer = f"answer_of {bytes_of(case['table'])} {bytes_of(case['text'])} (room {steps}) {counts_of(case['limits'])}"
    return f"seen {shown(case)} ({answer}) ≡ expected {shown(case)}"


def script(case: dict) -> str:
    """The answers of a binding room to some steps, and what it holds at the end."""
    steps = listed("empties" if step[0] == "empty" else f"bringing {step[1]} {bytes_of(step[2])} {bytes_of(step[3])}" for step in case["steps"])
    replies = listed(reply[0] if reply[0] != "refused" else f"declined {reply[1]} {reply[2]}" for reply in case["answers"])
    bound: list[int] = []
    for step, reply in zip(case["steps"], case["answers"]):
        bound = [] if reply[0] == "emptied" else [step[1], *bound] if reply[0] == "brought" else bound
    pairs = listed(f"({n}, {value_of(case['holds'][str(n)])})" for n in bound)
    used = case["after"]["used"]
    held = f"record {{ bound = {pairs}; used_cells = {used[0]}; used_bytes = {used[1]} }}"
    return f"play {case['lent'][0]} {case['lent'][1]} {steps} empty_room ≡ ({replies}, {held})"


def fits(line: str, case: dict) -> bool:
    """Whether the case speaks of the definition alone (no cells of a room) and is short enough."""
    if "room" in case or len(line) > MOST_CHARACTERS:
        return False
    answer = case.get("answer", ["refused"])
    steps = answer[2] if answer[0] == "value" else answer[-1][0] if answer[0] in ("error", "exhausted") else 0
    return steps <= MOST_STEPS


def write(cases: "list[dict]", per_file: int, scratch: Path) -> None:
    for crate in ("numbers", "text", "meaning"):
        shutil.copytree(REPOSITORY / "crates" / crate, scratch / "crates" / crate, ignore=shutil.ignore_patterns("must-fail", "out"))
    (scratch / "crates.txt").write_text("numbers:\ntext:\nmeaning: numbers text\nrows: numbers text meaning\n")
    proofs = scratch / "crates" / "rows" / "proofs"
    proofs.mkdir(parents=True)
    (proofs.parent / "src").mkdir()
    (proofs.parent / "src" / "lib.rt").write_text("// Rows alone.\n")
    modules = ["Kit"]
    (proofs / "Kit.antt").write_text(KIT)
    for first in range(0, len(cases), per_file):
        modules.append(f"Rows{first // per_file}")
        rows = [HEAD]
        for case in cases[first:first + per_file]:
            name = re.sub(r"\W", "", case["id"])
            says = evaluation(case) if case["op"] == "evaluate" else script(case)
            rows.append(f"{name} : {says}\nunfolding compute play\n{name} = refl\n\n")
        (proofs / f"{modules[-1]}.antt").write_text("".join(rows))
    (proofs / "Lib.antt").write_text("".join(f"pub mod {module}\n" for module in modules))


def main() -> None:
    parser = argparse.ArgumentParser(description=__doc__, formatter_class=argparse.RawDescriptionHelpFormatter)
    parser.add_argument("cases", type=Path)
    parser.add_argument("--family", action="append")
    parser.add_argument("--most", type=int, help="of each family, drawn with a fixed seed")
    parser.add_argument("--per-file", type=int, default=500)
    chosen = parser.parse_args()
    families: dict[str, list[dict]] = {}
    for line in chosen.cases.open():
        case = json.loads(line)
        if (not chosen.family or case["family"] in chosen.family) and fits(line, case):
            families.setdefault(case["family"], []).append(case)
    rows: list[dict] = []
    for family, cases in families.items():
        if chosen.most and len(cases) > chosen.most:
            cases = random.Random(7).sample(cases, chosen.most)
        rows += cases
        print(f"{family:10} {len(cases)}")
    with tempfile.TemporaryDirectory() as name:
        write(rows, chosen.per_file, Path(name))
        checked = subprocess.run(["rt", "check"], cwd=Path(name) / "crates" / "rows", capture_output=True, text=True)
    failing = sorted(set(re.findall(r"error: `(\w+)`", checked.stdout + checked.stderr)))
    print(f"{len(rows)} rows, {len(failing)} did not hold {' '.join(failing[:20])}")
    if checked.returncode != 0 and not failing:
        print((checked.stdout + checked.stderr)[-2000:])
    sys.exit(checked.returncode)


if __name__ == "__main__":
    main()
