#!/usr/bin/env python3
"""Checks the documents against the sources: what README.md and docs/ name must be there, and what must be named must be named.

    tools/documents.py

- README.md's map has a row for each crate of crates.txt, and no other; the modules, functions and files that a row names are there, and so are
  the crates of the table of floors. crates.txt gives a reason beside each crate of fewer than 60 lines of code.
- docs/PROOFS.md names each edit under crates/*/must-fail in a row of its crate, and no edit that is not there; the functions that such a row names
  are there; a contract that callers outside use has two edits or more, and each public function of the crates that are theirs has a row there.
- A path of a file that begins at the root or in a crate, and a link, lead to something. A path of code in backticks (`crate::module::function`)
  leads to an item, also in the way of a rule in docs/NEWCOMERS.md. This is not asked of docs/CHANGES.md, docs/PORT.md,
  docs/DESIGN-PASS.md and docs/LOOK-BACK.md, which name what is gone.
- A name in backticks of docs/PROOFS.md occurs in the sources, and in the file that stands in brackets behind it.
- docs/DECISIONS.md lists each public function of a library that has a `requires`, and no other.
Says what is wrong, a line each, and ends with 1; ends with 0 otherwise.
"""

from __future__ import annotations

import re
import sys
from functools import lru_cache
from pathlib import Path

ROOT = Path(__file__).resolve().parent.parent
CRATES = ROOT / "crates"
README, PROOFS, NEWCOMERS, DECISIONS = ROOT / "README.md", *(ROOT / "docs" / f"{name}.md" for name in ("PROOFS", "NEWCOMERS", "DECISIONS"))
PAGES = [page for page in (README, *sorted((ROOT / "docs").glob("*.md"))) if page.name not in ("CHANGES.md", "PORT.md", "DESIGN-PASS.md", "LOOK-BACK.md")]
SMALL = 60  # lines of code
ITEM = r"\b(?:fn|struct|enum|const|mod|impl)"
# what callers outside use, whole crates or modules, but for functions that only crates here call
OUTSIDE = ["numbers", "numbers_order", "text", "answer_values", "answer/reasons"]
INSIDE = {"text": {"sequences::continues", "sequences::sequence"}}

wrong: "list[str]" = []


@lru_cache(None)
def read(path: Path) -> str:
    return path.read_text()


@lru_cache(None)
def crates() -> "dict[str, str]":
    """The crates of crates.txt, each with the comment above it."""
    found, comment = {}, ""
    for line in read(ROOT / "crates.txt").split("\n"):
        if line.startswith("#"):
            comment += line[1:]
        else:
            if ":" in line:
                found[line.split(":")[0].split()[0]] = comment
            comment = ""
    return found


def lines_of_code(crate: str) -> int:
    texts = [read(path) for path in (CRATES / crate / "src").glob("*.rt")]
    return sum(1 for text in texts for line in text.split("\n") if line.strip() and not line.strip().startswith("//"))


def rows(page: Path, heading: str) -> "list[list[str]]":
    """The rows of the tables below a heading, up to the next heading of its level or above."""
    level = heading.split(" ")[0]
    text = read(page)
    if f"\n{heading}\n" not in text:
        wrong.append(f"{page.name}: no heading {heading}")
        return []
    part = re.split(rf"\n#{{1,{len(level)}}} ", text.split(f"\n{heading}\n", 1)[1])[0]
    cells = [[cell.strip() for cell in re.split(r"(?<!\\)\|", line)[1:-1]] for line in part.split("\n") if line.startswith("|")]
    return [row for row in cells if not re.fullmatch(r"-+", row[0])]


def is_code(crate: str, parts: "list[str]") -> bool:
    """Whether a path from a crate leads to a module, to an item of a module or of the crate's root, or to an item of a type that stands there."""
    module = CRATES / crate / "src" / f"{parts[0]}.rt"
    if module.exists():
        return len(parts) == 1 or re.search(rf"{ITEM} {parts[-1]}\b", read(module)) is not None
    roots = [path for name in ("lib.rt", "main.rt") if (path := CRATES / crate / "src" / name).exists()]
    return all(any(re.search(rf"{ITEM} {part}\b", read(root)) for root in roots) for part in parts)


# ---- README.md's map


def check_map() -> None:
    table = rows(README, "## The house")
    named = [row[0].strip("`") for row in table if row[0].startswith("`")]
    for crate in sorted(set(crates()) - set(named)):
        wrong.append(f"README.md: the map has no row for {crate}")
    for crate in sorted(name for name in set(named) if name not in crates() or named.count(name) > 1):
        wrong.append(f"README.md: the map's row for {crate} is one too many")
    for row in table:
        if row[0].startswith("`") and row[0].strip("`") in crates():
            check_row(row[0].strip("`"), *row[2:5])
        elif len(row) == 3:
            for name, rest in re.findall(r"`(\w+?)(\.\.)?`", row[1]):
                if not (any(crate.startswith(name) for crate in crates()) if rest else name in crates() or row[1] == "Crates"):
                    wrong.append(f"README.md: the floor {row[0]} has {name}, which is no crate")
    for crate, comment in crates().items():
        if lines_of_code(crate) < SMALL and not re.search(r"\b(No code|Small because)\b", comment):
            wrong.append(f"crates.txt: {crate} has {lines_of_code(crate)} lines of code, and no reason beside it")


def check_row(crate: str, code: str, definition: str, promises: str) -> None:
    """What a row of the map names: modules with functions in brackets, and files of specs/ and proofs/, of another crate where it says so."""
    for module, functions in re.findall(r"`(\w+)`(?: \(([^)]*)\))?", code):
        for parts in [[module], *([module, name] for name in re.findall(r"`(\w+)`", functions))]:
            if not (CRATES / crate / "src" / f"{module}.rt").exists() or not is_code(crate, parts):
                wrong.append(f"README.md: {crate}'s row names {'::'.join(parts)}, which is not there")
    for folder, cell in (("specs", definition), ("proofs", promises)):
        for part in cell.split(";"):
            other = re.search(r"of `(\w+)`", part)
            for name in re.findall(r"\b[A-Z][a-z]\w+", re.sub(r"`.*?`", "", part)):
                if not (CRATES / (other.group(1) if other else crate) / folder / f"{name}.antt").exists():
                    wrong.append(f"README.md: {crate}'s row names {folder}/{name}, which is not there")


# ---- the list of edits


def check_edits() -> None:
    named: "dict[str, set[str]]" = {crate: set() for crate in crates()}
    outside: "set[tuple[str, str]]" = set()
    for heading in ("What callers outside use", "Wrong definitions", "Functions inside"):
        for row in rows(PROOFS, f"### {heading}"):
            crate, edits = row[0].strip("`"), set(re.findall(r"`(\w+)`", row[-1]))
            if row[0] == "Crate":
                continue
            if crate not in named:
                wrong.append(f"PROOFS.md: edits of {row[0]}, which is no crate")
                continue
            named[crate] |= edits
            if heading == "What callers outside use":
                outside |= {(crate, path) for path in re.findall(r"`([^`]+)`", row[1])}
                if len(edits) < 2:
                    wrong.append(f"PROOFS.md: {crate}, {row[1]} has fewer than two edits")
            if heading != "Wrong definitions":
                for path in re.findall(r"`([\w:]+|\w+<.*?> for \w+)`", row[1]):
                    if not path.startswith("ombravelik_") and not (is_trait_of(crate, path) if " for " in path else is_item(crate, path.split("::"))):
                        wrong.append(f"PROOFS.md: {crate} has no {path}")
    for crate, path in public_functions():
        if (crate, path) not in outside:
            wrong.append(f"PROOFS.md: {crate}, {path} has no row among what callers outside use")
    for crate in crates():
        there = {path.stem for path in (CRATES / crate / "must-fail").glob("*.edit")}
        for edit in sorted(there - named[crate]):
            wrong.append(f"PROOFS.md: {crate}/{edit} is not named")
        for edit in sorted(named[crate] - there):
            wrong.append(f"PROOFS.md: {crate}/{edit} is named, and is no edit")


def public_functions() -> "list[tuple[str, str]]":
    """The functions of what callers outside use, each with its module: also those of types, and the traits that types have, as `double::Add`."""
    found = []
    for crate, _, module in (name.partition("/") for name in OUTSIDE):
        for path in sorted((CRATES / crate / "src").glob(f"{module or '*'}.rt")):
            inside = "" if path.stem == "lib" else f"{path.stem}::"
            names = [inside + name for name in re.findall(r"(?m)^ *pub fn (\w+)", read(path))] + traits(crate, read(path), inside)
            found += [(crate, name) for name in names if name not in INSIDE.get(crate, ())]
    return found


def traits(crate: str, text: str, inside: str) -> "list[str]":
    """The traits that a file gives to types that callers see: those of the language, and public ones."""
    public = {name for path in (CRATES / crate / "src").glob("*.rt") for name in re.findall(r"\bpub (?:struct|enum) (\w+)", read(path))}
    return [f"{trait}{given} for {kind}" if given else inside + trait
            for trait, given, kind in re.findall(r"(?m)^impl (\w+)(<.*?>)? for (\w+)", text) if kind in public or kind.islower()]


def is_trait_of(crate: str, path: str) -> bool:
    """Whether a type has a trait, as in `From<Error> for u8`."""
    return any(f"\nimpl {path} {{" in read(source) for source in (CRATES / crate / "src").glob("*.rt"))


def is_item(crate: str, parts: "list[str]") -> bool:
    """As is_code, and a function or constant of a type, as `Scope::empty`, in whatever module it stands."""
    texts = [read(path) for path in (CRATES / crate / "src").glob("*.rt")]
    typed = parts[0][0].isupper() and any(re.search(rf"\bimpl {parts[0]}\b", text) and re.search(rf"\b(fn|const) {parts[-1]}\b", text) for text in texts)
    return typed or is_code(crate, parts)


# ---- contracts

FUNCTION = re.compile(r"(?m)^ *(pub )?(?:extern \"C\" )?fn (\w+)(?:<[^>]*>)?\(([^)]*)\)((?s:.*?))\{(?: .*\})?$")


def functions(path: Path) -> "list[tuple[bool, str, str]]":
    """Of each function of a file: whether it is public, its name, and its contract."""
    found = []
    for match in FUNCTION.finditer(read(path)):
        contract = re.split(r"\n *\{", read(path)[match.end(3) :], maxsplit=1)[0]
        clauses = contract if re.match(r"\)[^\n{]*\n\s+(requires|ensures)", contract) else ""
        found.append((bool(match.group(1)), match.group(2), clauses))
    return found


def check_contracts() -> None:
    asking = set()
    for crate in crates():
        root = CRATES / crate / "src" / "lib.rt"
        modules = {"lib", *re.findall(r"(?m)^pub mod (\w+)", read(root))} if root.exists() else set()
        for path in sorted((CRATES / crate / "src").glob("*.rt")):
            inside = f"{crate}::" if path.stem == "lib" else f"{crate}::{path.stem}::"
            for public, name, clauses in functions(path):
                if public and path.stem in modules and "requires" in clauses:
                    asking.add(inside + name)
    named = {path for row in rows(DECISIONS, "## Functions that ask something of their caller") for path in re.findall(r"`(\w+(?:::\w+)+)`", row[0])}
    for path in sorted(asking - named):
        wrong.append(f"DECISIONS.md: {path} has a `requires`, and no reason stands there")
    for path in sorted(named - asking):
        wrong.append(f"DECISIONS.md: {path} is named among the functions that ask something, and asks nothing")


# ---- paths, links and names


def check_paths() -> None:
    for page in PAGES:
        text = read(page)
        paths = re.findall(r"(?<![\w:/.-])((?:[\w.-]+/)+(?:src|specs|proofs|must-fail)(?:/[\w.+-]*\w)?)", text)
        for path in paths + re.findall(r"(?<![\w:/.-])((?:crates|tools|callers|compare|include|docs)/[\w/.+-]*\w)", text):
            if "NAME" not in path and not any(at.exists() or at.with_name(at.name + ".antt").exists() for at in (ROOT / path, CRATES / path)):
                wrong.append(f"{page.name}: {path} is not there")
        for target in re.findall(r"\]\(([^)#:]+)\)", text):
            if not (ROOT / target).exists() and not (page.parent / target).exists():
                wrong.append(f"{page.name}: the link to {target} leads nowhere")
        for path in re.findall(r"`(\w+(?:::\w+)+)`", text):
            parts = path.split("::")
            inside = parts[0] in crates() and is_code(parts[0], parts[1:])
            if not inside and (parts[0] in crates() or not any(is_item(crate, parts) for crate in crates())) and not is_outside(parts):
                wrong.append(f"{page.name}: {path} is not there")


def is_outside(parts: "list[str]") -> bool:
    """A method of the Rust crate of callers/, as `Bindings::from_parts`, or of the crate that this follows, as `Value::resolve_val`."""
    texts = [read(path) for part in ("callers", "compare", "tools") for path in (ROOT / part).rglob("*.rs")]
    return parts[0][0].isupper() and any(re.search(rf"\b{parts[-1]}\b", text) for text in texts)


def check_way() -> None:
    """The calls of the newcomers' rule: a crate, two spaces, and its functions; what stands behind more spaces is a remark."""
    for line in read(NEWCOMERS).split("## The way of one rule")[1].split("## Where to add")[0].split("\n"):
        if not line.startswith("    "):
            continue
        crate = ""
        for call in re.split(r" → (?:\.\. )?|, ", re.sub(r" → \.\.$", "", re.split(r" {3,}", line.strip())[0])):
            *before, path = call.split("  ")
            crate = before[-1] if before else crate
            if len(before) > 1 or crate not in crates() or not is_code(crate, path.split("::")):
                wrong.append(f"NEWCOMERS.md: {call} is no call of {crate or 'a crate'}")


def check_names() -> None:
    words = {path.name for part in ("tools", "compare", "callers", "include") for path in (ROOT / part).rglob("*")}
    files: "dict[str, list[str]]" = {}
    for path in CRATES.rglob("*"):
        words.add(path.stem)
        if path.suffix in (".rt", ".antt"):
            text = read(path)
            words |= set(re.findall(r"[\w'-]+", text))
            files.setdefault(path.stem, []).append(text)
    for name in sorted(set(re.findall(r"`([A-Za-z_][\w'-]*)`", read(PROOFS)))):
        if name not in words:
            wrong.append(f"PROOFS.md: `{name}` occurs nowhere in the sources")
    # `theorem`, `theorem` (File)
    for names, file in re.findall(r"((?:`[^`|]+`(?:, | and )?)+) \((?:\w+/)?(?:(?:specs|proofs)/)?([A-Z]\w+)\)", read(PROOFS)):
        for name in re.findall(r"`([\w'-]+)`", names):
            said = rf"(?m)^ *(?:(?:abbrev|unfoldable|pub|record|data|fn) )*{re.escape(name)}(?![\w'-])"
            if not any(re.search(said, text) for text in files.get(file, [])):
                wrong.append(f"PROOFS.md: `{name}` is not said in a file {file}")


def main() -> int:
    check_map()
    check_edits()
    check_contracts()
    check_paths()
    check_way()
    check_names()
    for line in wrong:
        print(line)
    if not wrong:
        edits = len(list(CRATES.glob("*/must-fail/*.edit")))
        print(f"{len(crates())} crates in README.md's map, {edits} edits in docs/PROOFS.md; files, functions and theorems that the documents name are there")
    return 1 if wrong else 0


if __name__ == "__main__":
    sys.exit(main())
