#!/usr/bin/env python3
"""Turns proofs that walk a function's code by hand into invariants and answers under today's names.

usage: python3 tools/port/turn_proofs.py NAMES CRATE..

NAMES is the folder that `rt names NAMES` wrote at the top of the checkout: it has each goal's, step's and place's old name beside its new one.
Each proofs/F/Proof.antt becomes proofs/F/Answers.antt, and proofs/F/Invariants.antt where F has loops; the files of a cycle become one of each. The
kit's keep_names.py has to run before. An answer that is `search rules` alone goes, since the check tries that itself. A path such as
`c.before.before.size.given.0.0` becomes `c.in-Value.size`: today's records have every step as a field. What it cannot turn is printed as `left:`.
"""

import json
import os
import re
import sys

W = r"[^\s(){}.;,@\"«»\[\]\\]+"
HEAD = re.compile(r"^(?:pub |abbrev )*(" + W + r") :(?=\s|$)")
PATH = re.compile(r"(?<![\w.'₀-₉-])(" + W + r")((?:\." + W + r")+)?")


def plain(name):
    return name.replace("_", "-").lower()


def goal_key(name):
    return re.sub(r"^(overflow|nonzero|float|slice)-", "", plain(name))


class Function:
    """What a function's list of names says."""

    def __init__(self, of):
        self.places = {}
        for row, new in zip(of["places"], of["places_by_name"]):
            self.places[plain(row[0])] = row, new
        self.order = [plain(row[0]) for row in of["places"]]
        self.arms = dict(zip(self.order, of["arms"]))
        self.needs = {}
        for (old, new), (at, _) in zip(of["needs"], of["asked_at"]):
            self.needs[plain(old)] = new, plain(at)
            self.needs.setdefault(goal_key(old), (new, plain(at)))
        self.loops = {plain(loop[0]): (loop[1], names, changed) for (loop, names), changed in zip(of["loops"], of["changed"])}

    def parent(self, place):
        above = self.places[place][0][1]
        return None if above is None else plain(above)

    def group(self, place):
        """The first place of an arm that the place belongs to: an arm's places are one record today."""
        arm = self.arms[place]
        while arm and arm[1] > 1:
            place = self.parent(place)
            arm = self.arms[place]
        return place

    def hops(self, start, end):
        count, at = 0, start
        while at is not None and self.group(at) != self.group(end):
            above = self.parent(self.group(at))
            if above is None:
                return None
            at, count = above, count + 1
        return count

    def above(self, place):
        """The place and those on the way to it, the nearest first."""
        while place is not None:
            yield place
            place = self.parent(place)

    def last_of(self, place):
        """The name of the record in which an arm's place stands."""
        return self.places[place][1]


class Turned:
    def __init__(self, function, text, module, said, stem="", cycle=False):
        self.function, self.text, self.module, self.said, self.stem, self.cycle = function, text, module, said, stem, cycle
        self.used_places = set()

    def left(self, what):
        self.said.append(f"left: {self.module}: {what}")

    def blocks(self):
        out = [[None, []]]
        for line in self.text.split("\n"):
            found = HEAD.match(line)
            if found:
                notes = []
                while out[-1][1] and (out[-1][1][-1].startswith("--") or not out[-1][1][-1].strip()):
                    notes.insert(0, out[-1][1].pop())
                while notes and not notes[0].strip():
                    notes.pop(0)
                out.append([found[1], notes + [line]])
            else:
                out[-1][1].append(line)
        return [(name, "\n".join(lines).strip("\n")) for name, lines in out]

    def path(self, var, place, fields):
        """A path off a record of an old place, as a path today."""
        f = self.function
        start, at, fields = place, place, list(fields)
        while fields and fields[0] == "before":
            fields.pop(0)
            if f.parent(at) is not None:
                at = f.parent(at)
            elif not fields:
                self.left(f"`{var}`: more `.before` than places")
                return None
        if not fields:
            n = f.hops(place, at)
            if n is None:
                return None
            return var + ".before" * n
        # the table of the kit's names takes some steps for words of its own
        step = plain({"is_is_leaf": "is_leaf", "type_size": "size_of", "well_formed-2": "well_formed2"}.get(fields[0], re.sub("_lem$", "", fields[0])))
        if step in ("args", "requires", "ranges", "well-formed", "good", "utf8", "type-inv", "lifetimes", "fits", "known"):
            return ".".join([var, *fields])
        # first where the path says, then anywhere on the way here: a step's old name stands once in a function
        for place in [at, *f.above(start)]:
            found = self.step(var, place, step, fields)
            if found:
                return found
        self.left(f"`{'.'.join(fields)}` at {at}: no step of that name (here: {f.places[at][0][2][0]})")
        return None

    def step(self, var, at, step, fields):
        row, arm = self.function.places[at][0], self.function.arms[at]
        if arm:
            best = None
            for new, old, old_path in arm[2]:
                if plain(old) == step and [plain(x) for x in fields[1 : 1 + len(old_path)]] == [plain(x) for x in old_path]:
                    if best is None or len(old_path) > len(best[2]):
                        best = new, old, old_path
            if best:
                return ".".join([var, arm[0], best[0], *fields[1 + len(best[2]) :]])
            if any(plain(old) == step for _, old, _ in arm[2]):
                return None
        if plain(row[2][0]) == step:
            return ".".join([var, row[2][1], *fields[1:]])
        return None

    def inlined(self, code, variables):
        """Bindings of pure paths are written out."""
        while True:
            for found in re.finditer(r"let (" + W + r") = (" + W + r"(?:\." + W + r")*)\s+in(?=[\s(])\s*", code):
                head = found[2].split(".")[0]
                if head in variables and head != found[1]:
                    break
            else:
                return code
            name, path = found[1], found[2]
            rest = code[found.end() :]
            rest = re.sub(r"(?<![\w.'₀-₉-])" + re.escape(name) + r"(?![\w'₀-₉-])", lambda _: path, rest)
            code = code[: found.start()] + rest

    def converted(self, code, variables, goal=None):
        code = self.inlined(code, variables)
        # a lemma over a place takes that place's record, wherever the path of befores leads today
        for lemma, place in self.helpers.items():

            def record(found, place=place):
                var = found[2]
                if var not in variables:
                    return found[0]
                if variables[var] == place:
                    return found[1] + var
                if goal and self.cycle:
                    return f"{found[1]}(goal.at.{goal} t {var}).{self.function.last_of(place)}"
                if goal:
                    return f"{found[1]}(goal.at.{goal} {var}).{self.function.last_of(place)}"
                n = self.function.hops(variables[var], place)
                return found[0] if n is None else found[1] + var + ".before" * n

            code = re.sub(r"((?<![\w.'₀-₉-])" + re.escape(lemma) + r" (?:t )?)(" + W + r")(?:\.before)*(?![\w.'₀-₉-])", record, code)

        def one(found):
            var, fields = found[1], (found[2] or "").split(".")[1:]
            if var not in variables or not fields:
                return found[0]
            return self.path(var, variables[var], fields) or found[0]

        return PATH.sub(one, code)

    def types(self, code):
        """Types of records of places: `tie.Then1 invariant-loop decreases-loop` is a name that Goals exports."""

        def one(found):
            place = plain(found[1])
            if place not in self.function.places:
                return found[0]
            new = self.function.last_of(place)
            self.used_places.add(new)
            return new

        code = re.sub(r"tie\.(" + W + r")((?: (?:invariant|decreases)-" + W + r")*)", one, code)
        return code

    def run(self):
        f = self.function
        self.helpers = dict(getattr(self, "shared", {}))
        for name, block in self.blocks():
            found = name and re.search(r"(?m)^(?:pub |abbrev )*" + re.escape(name) + r" : (?:\(t : ℕ\) )?\(" + W + r" : tie\.(" + W + r")[^()]*\) →", block)
            if found and plain(found[1]) in f.places:
                self.helpers[name] = plain(found[1])
        answers, invariants, uses = [], [], []
        for name, block in self.blocks():
            if name is None:
                uses = [l for l in block.split("\n") if l.startswith("use ")]
                head = [l for l in block.split("\n") if l.startswith("--")]
                continue
            sig = re.search(r"(?m)^((?:pub |abbrev )*)" + re.escape(name) + r" :((?:.*)(?:\n(?![^\n]* =(?:\s|$)|unfolding )[ \t)].*)*)", block)
            kind = sig[2].strip()
            if self.cycle:
                kind = re.sub(r"^\(t : ℕ\) → ", "", kind)
            if re.search(r"(?:-|_)spec$", name) and "statement" in kind:
                continue
            notes = [l for l in block.split("\n") if l.startswith("--")]
            body = block[sig.end() :].strip("\n")
            need = re.match(r"tie\.Need-(" + W + r")", kind)
            loop = re.match(r"tie\.(invariant|decreases)-(" + W + r")", kind)
            if self.cycle and not need and not loop and re.search(r"\bMeasures\b|\bIn \d", kind):
                continue
            if need:
                key = plain(need[1])
                row = f.needs.get(key) or f.needs.get(goal_key(need[1]))
                if not row:
                    self.left(f"no goal `{need[1]}`")
                    continue
                new, place = row
                new = self.stem + new
                if re.fullmatch(r"\S+(?: \S+)* =\s+search rules", body.strip()):
                    continue
                clause = re.search(r"(?m)^" + re.escape(name) + r"((?: " + W + r")*) =", body)
                if not clause:
                    self.left(f"`{name}`: no clause of the usual form")
                    continue
                args = clause[1].split()
                if self.cycle:
                    args = args[1:]
                variables = {args[0]: place} if args else {}
                code = self.converted(self.types(body), variables, new)
                # a call's lifetimes are no argument of an answer today
                code = re.sub(r"(?m)^" + re.escape(name) + r"((?: " + W + r")+?) κs =", lambda m: name + m[1] + " =", code)
                code = re.sub(r"(?m)^" + re.escape(name) + r"(?= |$)", new, code)
                answers.append("\n".join(notes + [f"pub {new} : goal.{new}", code]))
            elif loop:
                key = plain(loop[2])
                if key not in f.loops:
                    self.left(f"no loop `{loop[2]}`")
                    continue
                new, names, changed = f.loops[key]
                new = self.stem + new
                clause = re.search(r"(?m)^" + re.escape(name) + r"((?: " + W + r")*) =", body)
                args = clause[1].split()
                now = [n for n, c in zip(names, changed) if c]
                if len(args) != len(names) + len(now):
                    self.left(f"`{name}` takes {len(args)} names, and the loop has {len(names)} and {len(now)}")
                to = {}
                for arg, n, c in zip(args, names, changed):
                    to[arg] = f"l.initial.{n}" if c else f"l.{n}"
                for arg, n in zip(args[len(names) :], now):
                    to[arg] = f"l.{n}"
                to.pop("_", None)
                code = body[: clause.start()] + f"{loop[1]}-{new} l =" + re.sub(
                    r"(?<![\w.'₀-₉-])(" + "|".join(sorted(map(re.escape, to), key=len, reverse=True)) + r")(?![\w'₀-₉-])(?! =)", lambda m: to[m[1]], body[clause.end() :]
                )
                invariants.append("\n".join(notes + [f"abbrev pub {loop[1]}-{new} : goal.{loop[1]}-{new}", code]))
            else:
                variables = {}
                for names, place in re.findall(r"\(([^():]+) : tie\.(" + W + r")[^()]*\)", block):
                    for v in names.split():
                        if plain(place) in f.places:
                            variables[v] = plain(place)
                answers.append(self.converted(self.types(block), variables))
        return head, uses, answers, invariants


def kept_uses(uses, text, module):
    out = []
    for line in uses:
        if re.search(r"\.(Statement|Tie)\b", line):
            continue
        found = re.match(r"use ([^\s{]+)\.\{(.*)\}$", line)
        if found:
            names = []
            for name in found[2].split(", "):
                word = name.split(" as ")[-1].strip()
                tokens = [t for t in re.split("◌", word) if t]
                if all(t in text for t in tokens):
                    names.append(name)
            if names:
                out.append(f"use {found[1]}.{{{', '.join(names)}}}")
        else:
            alias = re.search(r"(?: as |\.)(" + W + r")$", line)
            if alias and re.search(r"(?<![\w.'-])" + re.escape(alias[1]) + r"\.", text):
                out.append(line)
    return out


def cycle(name, crate, found, members, said):
    """The proof of functions that call one another: one file of invariants, one of answers."""
    folder = os.path.join(crate, "proofs", *found.split("."))
    whole = f"Rattle.{name}.proofs.{found}"
    paths = [os.path.join(folder, "Proof.antt")]
    inner = os.path.join(folder, "Proof")
    if os.path.isdir(inner):
        paths += [os.path.join(inner, it) for it in sorted(os.listdir(inner))]
    uses, answers, invariants, places, head = [], [], [], set(), []
    shared = {}
    for path in paths:
        with open(path, encoding="utf-8") as it:
            text = it.read()
        for member, alias in re.findall(r"(?m)^use " + re.escape(whole) + r"\.Lts-(\S+) as (\S+)$", text):
            for lemma, place in re.findall(r"(?m)^(?:pub |abbrev )*(" + W + r") : \(t : ℕ\) \(" + W + r" : " + re.escape(alias) + r"\.(" + W + r")", text):
                shared.setdefault(member, {})[lemma] = plain(place)
    for path in paths:
        with open(path, encoding="utf-8") as it:
            text = it.read()
        aliases = re.findall(r"(?m)^use " + re.escape(whole) + r"\.Lts-(\S+) as (\S+)$", text)
        blocks = re.split(r"\n(?=(?:-- [^\n]*\n)*(?:pub |abbrev )*" + W + r" :\s)", text)
        uses += [l for l in blocks[0].split("\n") if l.startswith("use ")]
        if path == paths[0]:
            head = [l for l in blocks[0].split("\n") if l.startswith("--")]
        for block in blocks[1:]:
            if re.search(r": \{M : Type 1\} → statement M", block):
                continue
            cited = [(member, alias) for member, alias in aliases if re.search(r"(?<![\w.-])" + re.escape(alias) + r"\.", block)]
            title = next((HEAD.match(l)[1] for l in block.split("\n") if HEAD.match(l)), "")
            measure = re.search(r"(?m)^μ-(\S+) κs a = (.*(?:\n .*)*)", block)
            if measure:
                member = next(m for m in members if plain(m.split("-")[-1]) == plain(measure[1]))
                own = members[member]["stem"][:-1] or member
                rows = [row for of in members.values() for path, row in of["params"].items() if plain(path.split("::")[-1]) == plain(measure[1])]
                if not rows:
                    said.append(f"left: {name}: {found}: the measure of {measure[1]}")
                    continue
                code = re.sub(r"(?<![\w.])a((?:\.1)*)\.0", lambda m: "l." + rows[0][m[1].count(".")], measure[2])
                invariants.append(f"abbrev pub decreases-{own} : goal.decreases-{own}\ndecreases-{own} l = {code}")
                continue
            if re.search(r"-(at|below|claims)$", title) and re.search(r"\bIn \d|Claims\b", block):
                continue
            if not cited:
                answers.append(block.strip("\n"))
                continue
            member, alias = cited[0]
            of = members[member]
            block = re.sub(r"(?<![\w.-])" + re.escape(alias) + r"\.", "tie.", block)
            # what a place's type says of claims is today's own affair
            block = re.sub(r"(tie\.(?!Need-)" + W + r") \([\w-]+-claims t\) \([\w-]+[-_]at t\) [\w-]+\.Post(?: [\w-]+-Inv-loop [\w-]+-μ-loop)?", r"\1", block)
            turned = Turned(Function(of), block, f"{name}: {found} {member}", said, of["stem"], True)
            turned.shared = shared.get(member, {})
            _, _, more, inv = turned.run()
            answers += more
            invariants += inv
            places |= turned.used_places
    for path in paths:
        os.remove(path)
    if os.path.isdir(inner):
        os.rmdir(inner)
    named, plain_uses = {}, []
    for line in dict.fromkeys(uses):
        row = re.match(r"use ([^\s{]+)\.\{(.*)\}$", line)
        if row:
            for word in row[2].split(", "):
                named.setdefault(row[1], {})[word] = None
        else:
            plain_uses.append(line)
    uses = [f"use {path}.{{{', '.join(words)}}}" for path, words in named.items()] + plain_uses
    uses = [l for l in dict.fromkeys(uses) if ".Proof." not in l and not re.search(r"\.Lts-\S+ as |\.(Reads|Kinds)( as|\.|$)", l)]
    for body, file, module in ((invariants, "Invariants.antt", "Given"), (answers, "Answers.antt", "Goals")):
        if body:
            body = "\n\n".join(body)
            lines = kept_uses(uses, body, whole) + [f"use {whole}.{module} as goal"]
            if module == "Goals" and places:
                lines.append(f"use {whole}.Goals.{{{', '.join(sorted(places))}}}")
            with open(os.path.join(folder, file), "w", encoding="utf-8") as it:
                it.write("\n".join(head + lines) + "\n\n" + body + "\n")


def main(names, crates):
    said = []
    for crate in crates:
        name = os.path.basename(crate.rstrip("/"))
        with open(os.path.join(names, "crates", name, "names.json")) as it:
            lists = json.load(it)
        cycles = {}
        for module, of in lists.items():
            found = re.match(r"Rattle-%s-proofs\.(.*\+[^.]*)\.Lts-?(.*)$" % re.escape(name), module)
            if found:
                cycles.setdefault(found[1], {})[found[2]] = of
        for found, members in cycles.items():
            if os.path.exists(os.path.join(crate, "proofs", *found.split("."), "Proof.antt")):
                cycle(name, crate, found, members, said)
        for module, of in lists.items():
            found = re.match(r"Rattle-%s-proofs\.(.*)\.Lts$" % re.escape(name), module)
            if not found or "+" in module:
                continue
            folder = os.path.join(crate, "proofs", *found[1].split("."))
            path = os.path.join(folder, "Proof.antt")
            if not os.path.exists(path):
                continue
            with open(path, encoding="utf-8") as it:
                text = it.read()
            whole = f"Rattle.{name}.proofs.{found[1]}"
            turned = Turned(Function(of), text, f"{name}: {found[1]}", said)
            head, uses, answers, invariants = turned.run()
            os.remove(path)
            if invariants:
                body = "\n\n".join(invariants)
                lines = kept_uses(uses, body, whole) + [f"use {whole}.Given as goal"]
                with open(os.path.join(folder, "Invariants.antt"), "w", encoding="utf-8") as it:
                    it.write("\n".join(head + lines) + "\n\n" + body + "\n")
            if answers:
                body = "\n\n".join(answers)
                lines = kept_uses(uses, body, whole) + [f"use {whole}.Goals as goal"]
                if turned.used_places:
                    lines.append(f"use {whole}.Goals.{{{', '.join(sorted(turned.used_places))}}}")
                with open(os.path.join(folder, "Answers.antt"), "w", encoding="utf-8") as it:
                    it.write("\n".join(head + lines) + "\n\n" + body + "\n")
            if not answers and not invariants and not os.listdir(folder):
                os.rmdir(folder)
    print("\n".join(said))


if __name__ == "__main__":
    if len(sys.argv) < 3:
        sys.exit(__doc__)
    main(sys.argv[1], sys.argv[2:])
