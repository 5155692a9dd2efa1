#!/usr/bin/env python3
"""Wrong evaluators on purpose, the twenty-three edits of breaks.txt: the comparison with the crate must find each.

    breaks.py ORACLE                    the edits of the evaluator's code, each in a copy of this repository, run with no proof (./run --unproved)
    breaks.py ORACLE --model            the same edits of the model in tools/rules, but for one: the model is lent no memory
    breaks.py stored                    the edits of the model, each on the stored list of `replay`; needs no oracle and no kit
    breaks.py list                      what there is
    breaks.py apply NUMBER FOLDER       makes one edit of the code in the repository at FOLDER

Of each, N cases (--count, 20,000) are compared with the crate; the edit is found if one differs. An edit of the code is known by
its text, in whatever file of crates/*/src it stands; the text must stand there once. Options: --only NUMBER; --from FOLDER, another
repository; --through "COMMAND {}", what runs the program, where it does not take the lines itself.
"""

from __future__ import annotations

import argparse
import re
import shlex
import shutil
import subprocess
import sys
import tempfile
from itertools import islice, zip_longest
from pathlib import Path
from typing import NamedTuple

HERE = Path(__file__).resolve().parent
RULES = HERE.parent / "tools" / "rules"


class Break(NamedTuple):
    says: str
    code: "tuple[str, str]"  # in crates/*/src
    model: "tuple[str, str] | None"  # in tools/rules/model


def breaks() -> "list[Break]":
    """What breaks.txt has."""
    found = []
    for block in re.split(r"^== ", (HERE / "breaks.txt").read_text(), flags=re.MULTILINE)[1:]:
        says, *texts = re.split(r"\n-- (?:code|becomes|model)\n", block.rstrip("\n"))
        found.append(Break(says, (texts[0], texts[1]), (texts[2], texts[3]) if texts[2:] else None))
    return found


BREAKS = breaks()


def edited(folder: Path, pattern: str, edit: "tuple[str, str]") -> Path:
    """Makes the edit in the one file where its text stands once."""
    old, new = edit
    holders = [path for path in sorted(folder.glob(pattern)) if old in path.read_text()]
    times = sum(path.read_text().count(old) for path in holders)
    if times != 1:
        raise SystemExit(f"this text stands {times} times, and not once, in {folder}/{pattern}:\n{old}")
    holders[0].write_text(holders[0].read_text().replace(old, new))
    return holders[0]


def broken_model(number: int, room: Path) -> str:
    copy = room / "rules"
    shutil.copytree(RULES, copy, ignore=shutil.ignore_patterns("__pycache__"))
    if number >= 0:
        edited(copy, "model/*.py", BREAKS[number].model)
    return f"{sys.executable} {copy / 'replay.py'}"


def broken_code(number: int, room: Path, repository: Path) -> str:
    """What runs `replay` out of a copy of the repository's code, which no prover lets pass."""
    copy = room / "repository"
    (copy / "tools").mkdir(parents=True)
    shutil.copytree(repository / "crates", copy / "crates", ignore=shutil.ignore_patterns("out"))
    shutil.copy(repository / "crates.txt", copy)
    for part in ("run", "tools/unproved"):
        shutil.copy(HERE.parent / part, copy / part)
    if number >= 0:
        edited(copy, "crates/*/src/**/*.rt", BREAKS[number].code)
    command = [str(copy / "run"), "--unproved", "replay"]
    subprocess.run(command, check=True, stdin=subprocess.DEVNULL)  # compiled here
    return shlex.join(command)


def tried(number: int, arguments: argparse.Namespace) -> bool:
    """Whether the comparison finds the edit."""
    with tempfile.TemporaryDirectory() as name:
        room = Path(name)
        program = broken_model(number, room) if arguments.model else broken_code(number, room, Path(arguments.source))
        program = arguments.through.replace("{}", program)
        command = [sys.executable, str(HERE / "compare.py"), arguments.oracle, program, "--count", str(arguments.count), "--no-hand-made"]
        run = subprocess.run(command, stdout=subprocess.PIPE, stderr=subprocess.DEVNULL, text=True)
    found = re.search(r"(\d+) answers in \d+ seconds, (\d+) different", run.stdout)
    of, different = (int(found[1]), int(found[2])) if found else (0, 0)
    print(f"{number + 1:2} {'found' if different else 'NOT FOUND'}, {different} of {of} answers: {BREAKS[number].says if number >= 0 else 'as it is'}", flush=True)
    return different > 0


def told_apart(number: int, most: "int | None" = None) -> int:
    """At which answer of the stored list of `replay`, counted from 1, the edit of the model shows; 0 if at none of those that are tried."""
    folder = HERE.parent / "crates" / "replay"
    with tempfile.TemporaryDirectory() as name, (folder / "stdin").open() as given, (folder / "stdout").open() as wanted:
        run = subprocess.Popen(shlex.split(broken_model(number, Path(name))), stdin=given, stdout=subprocess.PIPE, text=True)
        pairs = islice(zip_longest(run.stdout, wanted), most)
        at = next((at for at, (said, want) in enumerate(pairs, 1) if said != want), 0)
        run.kill()
        run.wait()
    return at


def stored() -> None:
    """The stored list tells every edit of the model apart, and up to there the model as it is answers what is stored."""
    furthest, numbers = 0, [number for number, one in enumerate(BREAKS) if one.model]
    for number in numbers:
        at = told_apart(number)
        furthest = max(furthest, at)
        if at == 0:
            sys.exit(f"{number + 1:2} NOT FOUND in the stored list: {BREAKS[number].says}")
    if not numbers:
        sys.exit("nothing was tried")
    if told_apart(-1, furthest):
        sys.exit("the model as it is differs from the stored list too, so that no finding tells anything")
    print(f"{len(numbers)} wrong models, each found by the first {furthest} answers of the stored list")


def main() -> None:
    if sys.argv[1:] == ["stored"]:
        return stored()
    if sys.argv[1:] == ["list"]:
        for number, one in enumerate(BREAKS, 1):
            print(f"{number:2} {one.says}")
        return
    if sys.argv[1:2] == ["apply"] and len(sys.argv) == 4:
        path = edited(Path(sys.argv[3]), "crates/*/src/**/*.rt", BREAKS[int(sys.argv[2]) - 1].code)
        print(f"{path}: {BREAKS[int(sys.argv[2]) - 1].says}")
        return
    parser = argparse.ArgumentParser(description=__doc__, formatter_class=argparse.RawDescriptionHelpFormatter)
    parser.add_argument("oracle")
    parser.add_argument("--model", action="store_true")
    parser.add_argument("--count", type=int, default=20_000)
    parser.add_argument("--only", type=int)
    parser.add_argument("--from", dest="source", default=str(HERE.parent))
    parser.add_argument("--through", default="{}")
    arguments = parser.parse_args()
    wanted = range(len(BREAKS)) if arguments.only is None else [arguments.only - 1]
    numbers = [number for number in wanted if BREAKS[number].model or not arguments.model]
    if tried(-1, arguments):
        sys.exit("the evaluator as it is differs too, so that no finding tells anything")
    missed = [number for number in numbers if not tried(number, arguments)]
    print(f"{len(numbers)} tried, {len(missed)} not found")
    if not numbers:
        sys.exit("nothing was tried")
    sys.exit(bool(missed))


if __name__ == "__main__":
    main()
