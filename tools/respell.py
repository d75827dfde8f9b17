#!/usr/bin/env python3
"""Brings the repository's own definitions and lemmas to today's spelling: words in snake case, types and modules in camel case, a dash only between two names.

usage: tools/respell.py [--show] [--edits FOLDER]     at the top of the repository, once, after port.py
Names of functions, types, fields and exports of src/ keep their names, and so do strings, inputs and outputs. --show prints the table old -> new, and writes nothing.
"""
import collections
import glob
import os
import re
import subprocess
import sys

TOKEN = re.compile(r"[^\s(){}\[\],;.`\"|/=<>:]+(?:-[^\s(){}\[\],;.`\"|/=<>:]+)*")
HEAD = re.compile(r"^\s*(?:(?:abbrev|unfoldable|pub|private)\s+)*((?:[^\s:(){}\[\],;.]+\s+)*[^\s:(){}\[\],;.]+)\s:(?:\s|$)")
TYPE = re.compile(r"^\s*(?:(?:abbrev|unfoldable|pub)\s+)*(?:record|data|ruleset)\s+([^\s:(){}\[\],;.]+)")
CASE = re.compile(r"^\s*\|?\s*(?:pub\s+)?([^\s:(){}\[\],;.]+) :(?:\s|$)")
WORDS = {"abbrev", "unfoldable", "pub", "private", "record", "data", "module", "use", "where", "let", "mod", "ruleset", "unfolding", "mutual", "open", "as", "elim", "in", "_"}
# the same name twice after respelling, or another thing of that name in sight
BY_HAND = {
    "EachSide": "HeldBySide",
    "chain_by": "chain_by_lem",
    "ending_at": "ending_at_lem",
    "joins_part": "joins_part_lem",
    "kept_in": "kept_in_lem",
    "laid_from": "laid_from_lem",
    "next-ender": "next_ender_lem",
    "next-starter": "next_starter_lem",
    "nodes-at": "nodes_at_lem",
    "slips-in": "slips_within",
    "stretch-end": "stretch_end_lem",
    "turned-back": "turned_back_lem",
}


def snake(part):
    if part == "getD":
        return "get_or"
    if not re.match(r"[a-z]", part):
        return part
    part = re.sub(r"([A-Z]+)(?=[A-Z][a-z])", lambda m: "_" + m.group(1).lower(), part)
    return re.sub(r"[A-Z]+", lambda m: "_" + m.group(0).lower(), part)


def antt_files():
    for top in ("specs", "proofs"):
        for p in sorted(glob.glob(f"crates/*/{top}/**/*.antt", recursive=True)):
            yield p


def walked(p):
    """A proof that walks the code: its own names are those that Rattle gives."""
    return os.path.basename(p) == "Proof.antt"


def names_of(text):
    """The names that a file defines, each with whether it is a type."""
    found = {}
    for line in text.split("\n"):
        if line.lstrip().startswith("--"):
            continue
        m = TYPE.match(line)
        if m:
            found[m.group(1)] = True
            continue
        m = HEAD.match(line)
        if m and "=" not in m.group(1) and "↦" not in m.group(1):
            for n in m.group(1).split():
                if n not in WORDS:
                    found.setdefault(n, bool(re.search(r": Type|→ Type", line)))
    return found


def imported(text):
    """The names that a file takes from elsewhere than this repository's crates."""
    own = {d for d in os.listdir("crates")}
    taken = set()
    for m in re.finditer(r"^(?:ghost )?use ([^\s{;]+?)\.?(?:\{([^}]*)\})?;?$", text, re.M):
        path = m.group(1)
        parts = path.split(".")
        if parts[0] == "Rattle" and len(parts) > 1 and parts[1] in own and ".declared" not in path:
            continue
        for n in (m.group(2) or "").split(","):
            n = n.strip().split(" as ")[-1]
            if n:
                taken.add(n)
    return taken


def table():
    own, types, defined, lib = set(), set(), set(), set()
    for p in antt_files():
        text = open(p, encoding="utf-8").read()
        lib |= imported(text)
        if walked(p):
            continue
        if "/specs/" in p:
            defined |= {m.group(1) for m in re.finditer(r"^(?:abbrev|unfoldable) (?:pub )?(\S+) :", text, re.M)}
        for n, t in names_of(text).items():
            own.add(n)
            if t:
                types.add(n)
    words = {snake(n) for n in defined | lib if "-" not in n and len(n) > 1 and re.match(r"[A-Za-zℕ]", n)}
    new = {}
    for n in sorted(own):
        if n in BY_HAND:
            new[n] = BY_HAND[n]
            continue
        parts = n.split("-")
        if re.fullmatch(r"[A-Z0-9_-]+", n):
            r = "_".join(parts)
        elif re.match(r"[A-Z]", n) and n in types:
            r = "".join(q[0].upper() + q[1:] for q in parts)
        else:
            parts = [snake(q) for q in parts]
            r = parts[0]
            for a, b in zip(parts, parts[1:]):
                r += ("-" if a in words and b in words else "_") + b
        r = r.replace("′", "'")
        if r != n:
            new[n] = r
    # a lemma that would have a definition's name
    falls = collections.defaultdict(set)
    for n in own:
        falls[new.get(n, n)].add(n)
    for r, olds in falls.items():
        if len(olds) > 1:
            for n in olds:
                if "-" in n and n not in BY_HAND:
                    new[n] = r + "_lem"
    return new, own


def main():
    new, own = table()
    falls = collections.defaultdict(set)
    for n in own:
        falls[new.get(n, n)].add(n)
    fns = collections.defaultdict(set)
    for p in glob.glob("crates/*/src/**/*.rt", recursive=True):
        for m in re.finditer(r"\bfn ([a-z_0-9]+)", open(p, encoding="utf-8").read()):
            fns[m.group(1)].add(p.split("/")[1])
    if "--show" in sys.argv:
        for n, r in new.items():
            print(n, "->", r)
        for r, olds in sorted(falls.items()):
            if len(olds) > 1:
                print("TOGETHER", r, sorted(olds))
        for n, r in new.items():
            if r in fns:
                print("FUNCTION", n, r, sorted(fns[r]))
        return
    for p in sorted(glob.glob("crates/*/specs/**/steps*", recursive=True)):
        q = re.sub(r"/steps(\.antt)?$", r"/Steps\1", p)
        if q != p:
            subprocess.run(["git", "mv", p, q], check=True)
    for p in list(antt_files()) + sorted(glob.glob("crates/*/src/**/*.rt", recursive=True)) + sorted(glob.glob("crates/*/must-fail/*.edit")):
        old = open(p, encoding="utf-8").read()
        text = respelled(old, new, p)
        if text != old:
            open(p, "w", encoding="utf-8").write(text)


def respelled(text, new, path):
    """The text with new names. In a comment a name with a dash is turned only where it heads an entry of a list of names, or can be no English."""
    foreign = imported(text) if path.endswith((".antt", ".rt")) else set()

    def one(m):
        n = m.group(0)
        return new[n] if n in new and n not in foreign else n

    def said(m):
        n = m.group(0)
        english = "-" in n and n.count("-") < 2 and n == n.lower()
        return n if english else one(m)

    lines = []
    for line in text.split("\n"):
        mark = "//" if path.endswith(".rt") else "--"
        at = line.find(mark + " ")
        if path.endswith(".edit"):
            if line.startswith(("old: ", "new: ", "file: ")):
                line = TOKEN.sub(one, line).replace("specs/steps/", "specs/Steps/").replace(".specs.steps", ".specs.Steps")
            lines.append(line)
            continue
        code, comment = (line, "") if at < 0 else (line[:at], line[at:])
        if not (path.endswith(".rt") and '"' in code):
            code = TOKEN.sub(one, code)
        if comment:
            entry = re.match(r"--   (.*?) == ", comment)
            if entry:
                comment = TOKEN.sub(one, comment[: entry.end()]) + TOKEN.sub(said, comment[entry.end():])
            else:
                comment = TOKEN.sub(said, comment)
        line = code + comment
        line = line.replace(".specs.steps.", ".specs.Steps.").replace("pub mod steps", "pub mod Steps")
        lines.append(line)
    return "\n".join(lines)


main()
