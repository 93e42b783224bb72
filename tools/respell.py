#!/usr/bin/env python3
"""Brings the repository's own definitions, fields and lemmas to the spelling of Rattle's library. Run once, right after port.py, at the top.

Words are in snake case, types and modules in camel case. A dash stays only between two names, as in `length-append`; a plain word is
joined by `_`. Names from src/, strings, inputs and outputs are left as they are: of a .rt file only the clauses and `ghost use` lines change.
`respell.py --list` prints the renamings and changes nothing.
"""
import os
import re
import subprocess
import sys

TOKEN = re.compile(r"[^\W\d][\w'′₀-₉-]*", re.UNICODE)
DECLARED = re.compile(r"^(\s*)((?:abbrev |unfoldable |pub )*)([^\s:(){}.,;λ→◌]+)\s*:\s")
TYPE = re.compile(r"^(?:abbrev |unfoldable |pub )*(?:record|data)\s+(?:pub )?([^\s:(){}.,;]+)")
# names of the library that lemmas join to the repository's own
LIBRARY = set("length get_or set take drop append map reverse replicate sum zero suc add mul sub min max cons ap plus minus".split())
# names that would fall together with another one
APART = {
    "arity-most": "arity_at_most",
    "base-most": "base_at_most",
    "limit-most": "limit_at_most",
    "node-legal": "node_is_legal",
    "and-then": "and_then_lem",
    "is-set": "is_set_lem",
    "child-span": "child_span_lem",
    "children-from": "children_from_lem",
    "live-span": "live_span_lem",
    "plan-price": "plan_price_lem",
    "said-soft": "said_soft_lem",
    "search-leaves": "search_leaves_lem",
    "shown-part": "shown_part_lem",
    "stretch-added": "stretch_added_lem",
    "unary-entries": "unary_entries_lem",
    "unary-start": "unary_start_lem",
    "whole-with": "whole_with_lem",
}


def files():
    for folder, dirs, names in os.walk("crates"):
        dirs[:] = [d for d in dirs if d != "out"]
        for name in sorted(names):
            if name.endswith((".rt", ".antt")):
                yield os.path.join(folder, name)


def is_law(path):
    """A file of definitions or lemmas, and not the proof of one function."""
    return path.endswith(".antt") and os.path.basename(path) not in ("Proof.antt", "Invariants.antt", "Answers.antt")


def snake(word):
    return re.sub(r"(?<=[a-z0-9])([A-Z])", lambda m: "_" + m.group(1).lower(), word) if word[:1].islower() else word


def declared():
    names, fields, specs = set(), set(), set()
    for path in files():
        if not is_law(path):
            continue
        within = False
        for line in open(path, encoding="utf-8"):
            kind = TYPE.match(line)
            if kind:
                within = True
                names.add(kind.group(1))
                specs.add(kind.group(1))
            elif line.strip() and not line[0].isspace() and not line.startswith("--"):
                within = False
            name = DECLARED.match(line)
            if name:
                names.add(name.group(3))
                if within and name.group(1):
                    fields.add(name.group(3))
                elif "/specs/" in path and not name.group(1):
                    specs.add(name.group(3))
    return names, fields, specs


def renamings():
    names, fields, specs = declared()
    known = {snake(s) for s in specs} | LIBRARY
    out = {}
    for name in sorted(names):
        if not TOKEN.fullmatch(name) or name in APART:
            continue
        parts = [snake(p) for p in name.split("-")]
        new = parts[0]
        for i, part in enumerate(parts[1:], 1):
            joined = name not in fields and (new[:1].isupper() or new in known and "-".join(parts[i:]).split("-")[0] in known)
            new += ("-" if joined else "_") + part
        if new != name:
            out[name] = new
    out.update(APART)
    return out


def clause_spans(text):
    """The parts of a .rt file that proofs alone read: `ghost use` lines, and the braces after requires, ensures and ghost."""
    for m in re.finditer(r"^\s*ghost use [^;]*;", text, re.M):
        yield m.span()
    for m in re.finditer(r"^\s*(?:pub )?(?:requires|ensures|ghost)\*?(?: \w+)?:?\s*\{", text, re.M):
        depth, i = 0, m.end() - 1
        while i < len(text):
            depth += {"{": 1, "}": -1}.get(text[i], 0)
            i += 1
            if depth == 0:
                break
        yield (m.end(), i)


def main():
    table = renamings()
    back = {}
    for old, new in table.items():
        back.setdefault(new, []).append(old)
    used = {}
    for path in files():
        text = open(path, encoding="utf-8").read()
        parts = [text] if path.endswith(".antt") else [text[a:b] for a, b in clause_spans(text)]
        for part in parts:
            for line in part.split("\n"):
                for t in TOKEN.findall(line.split("--")[0] if path.endswith(".antt") else line):
                    used.setdefault(t, set()).add(path)
    together = {n: o for n, o in back.items() if len(o) > 1 or n in used}
    if "--list" in sys.argv:
        for old, new in table.items():
            print(old, new)
    for new, olds in sorted(together.items()):
        print("together:", new, "<-", " ".join(olds), "| used in", " ".join(sorted(used.get(new, []))[:4]), file=sys.stderr)
    if "--list" in sys.argv:
        return

    def turn(text, plain):
        return TOKEN.sub(lambda m: table.get(m.group(0), m.group(0)) if plain or "-" not in m.group(0) else m.group(0), text)

    for path in list(files()):
        text = open(path, encoding="utf-8").read()
        if path.endswith(".antt"):
            lines = []
            for line in text.split("\n"):
                at = line.find("--")
                cut = at if at >= 0 and (at == 0 or line[at - 1] == " ") else len(line)
                lines.append(turn(line[:cut], True) + turn(line[cut:], False))
            new = "\n".join(lines)
            new = re.sub(r"(Rattle\.\w+\.specs)\.ties\b", r"\1.Ties", new)
            new = re.sub(r"^(pub mod|mod) ties\b", r"\1 Ties", new, flags=re.M)
        else:
            new, last = "", 0
            for a, b in sorted(clause_spans(text)):
                if a < last:
                    continue
                new += text[last:a] + turn(text[a:b], True)
                last = b
            new += text[last:]
            new = re.sub(r"(Rattle\.\w+\.specs)\.ties\b", r"\1.Ties", new)
        if new != text:
            open(path, "w", encoding="utf-8").write(new)
    for crate in sorted(os.listdir("crates")):
        specs = os.path.join("crates", crate, "specs")
        for old, new in (("ties.antt", "Ties.antt"), ("ties", "Ties")):
            if os.path.exists(os.path.join(specs, old)):
                subprocess.run(["git", "mv", os.path.join(specs, old), os.path.join(specs, new)], check=True)


if __name__ == "__main__":
    main()
