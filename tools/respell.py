#!/usr/bin/env python3
"""Brings the repository's own definitions and lemmas to today's spelling: words in snake case.

usage: python3 tools/respell.py            at the top of the repository, once, right after port.py

`isLive` becomes `is_live`, `live-on` becomes `live_on`. Types, modules and whatever begins with a capital stay, and so do names of src/,
of the libraries, and those that the check makes (the goals of a function's proof). Where a definition and a lemma would fall together, the
lemma gets `_lem` after its name. Turned are specs/, proofs/, the clauses of src/, the edits of must-fail/ and names between backticks in
the pages. Lines that begin 'look:' name files in which a new spelling meets a name that stood there before.
"""

import collections
import os
import re
import sys

TOP = os.path.realpath(os.path.join(os.path.dirname(__file__), ".."))
WORD = r"[^\s(){}\[\].;,@\"«»:`|]+"
NAME = r"[a-zμ][\w'ℕℤ]*(?:-[\w'ℕℤ]+)*"
DECLARED = re.compile(rf"(?m)^ *(?:(?:pub|abbrev|unfoldable|private) )*({WORD})(?: [({{][^(){{}}\n]*[)}}])* :(?!:)(.*)$")
LOCAL = re.compile(rf"\b(?:let|where|in) +({WORD})(?: [({{][^(){{}}\n]*[)}}])* :")
USE = re.compile(r"(?m)^[ \t]*(?:pub )?use ([^\s;{]+?)(?:\.\{([^}]*)\})?(?: as (\S+))?$")
GOAL = re.compile(r"\b(tie|goal)\.")
COMMENT = re.compile(r"--.*$")
# A lemma whose new spelling its own file takes from a library.
MEETS_A_LIBRARY = {"bit-or": "bit_or_lem"}


def snake(name):
    return re.sub(r"(?<=[a-z0-9])[A-Z]", lambda m: "_" + m[0].lower(), name).replace("-", "_")


def turns(name):
    return re.fullmatch(NAME, name) and snake(name) != name


def read(path):
    with open(path, encoding="utf-8") as f:
        return f.read()


def files(*endings):
    for folder, dirs, names in os.walk(os.path.join(TOP, "crates")):
        dirs[:] = sorted(d for d in dirs if d != "out")
        for name in sorted(names):
            if name.endswith(endings):
                yield os.path.join(folder, name)


def is_goal_file(path):
    return os.path.basename(path) == "Proof.antt"


def declared(path, text):
    """The names that a file declares, and of these the ones that are goals of a function."""
    names, goals = set(), set()
    for m in DECLARED.finditer(re.sub(r"(?m)--.*$", "", text)):
        names.add(m[1])
        if is_goal_file(path) and (GOAL.search(m[2]) or m[1].endswith("-spec")):
            goals.add(m[1])
    names.update(m[1] for m in LOCAL.finditer(text))
    return names - goals, goals


def imports(text):
    """The names that a file takes from a library, and (name, module) for those of this repository."""
    of_library, of_ours = set(), {}
    for m in USE.finditer(text):
        ours = m[1].startswith("Rattle.") and not re.match(r"Rattle\.(std|core|io|libc|os|check)\b", m[1])
        for it in (m[2] or "").split(","):
            name = it.split(" as ")[0].strip()
            if not name:
                continue
            if ours:
                of_ours[name] = m[1]
            else:
                of_library.add(name)
    return of_library, of_ours


def main():
    texts = {p: read(p) for p in files(".antt")}
    own, by_file, goals_of = set(), {}, {}
    for p, t in texts.items():
        names, goals = declared(p, t)
        by_file[p], goals_of[p] = names, goals
        own |= names
    old = {n for n in own if turns(n)}
    # Names that fall together: a definition in camel case keeps the plain spelling, and the lemma gets an ending.
    groups = collections.defaultdict(set)
    for n in own:
        if re.fullmatch(NAME, n):
            groups[snake(n)].add(n)
    table, lemmas = {}, {}
    table.update(MEETS_A_LIBRARY)
    for new, names in groups.items():
        if names & set(MEETS_A_LIBRARY):
            continue
        camel = {n for n in names if re.search(r"[a-z0-9][A-Z]", n) and "-" not in n}
        for n in names:
            if n in camel or len(names) == 1:
                target = new
            elif camel or (new in names and n != new):
                target = new + "_lem"
            else:
                target = new
            if n == new and target != new:
                lemmas[n] = target
            elif n != target:
                table[n] = target
        if len(names) > 1:
            print("together:", " ".join(sorted(names)), "->", " ".join(table.get(n, lemmas.get(n, n)) for n in sorted(names)))

    def module(p):
        return "Rattle." + os.path.relpath(p, os.path.join(TOP, "crates"))[:-5].replace("/", ".")

    modules = {module(p): p for p in texts}
    met = []
    pattern = re.compile(rf"(?<![^\s(){{}}\[\].;,@«»:`|]){NAME}(?![^\s(){{}}\[\].;,@«»:`|])")

    def turned(p, t, here, skip):
        def word(m):
            return m[0] if m[0] in skip else here.get(m[0], m[0])

        out = []
        for line in t.split("\n"):
            c = COMMENT.search(line) if p.endswith(".antt") else None
            if c and not (line[: c.start()].count('"') % 2):
                said = re.sub(pattern, lambda m: here.get(m[0], m[0]) if re.search(r"[A-Z]", m[0]) and m[0] not in skip else m[0], c[0])
                line = pattern.sub(word, line[: c.start()]) + said
            else:
                line = pattern.sub(word, line)
            out.append(line)
        return "\n".join(out)

    for p, t in texts.items():
        of_library, of_ours = imports(t)
        here = dict(table)
        for n, target in lemmas.items():
            camel = [x for x in groups[n] if x != n and "-" not in x]
            from_ours = n in of_ours and n in by_file.get(modules.get(of_ours[n]), ())
            if n in by_file[p] or from_ours:
                here[n] = target
        # What a library calls so, and the goals of a function, keep their spelling here.
        skip = of_library | goals_of[p]
        new = turned(p, t, here, skip)
        words = set(pattern.findall(re.sub(r"(?m)--.*$", "", t)))
        for n in sorted(words & set(here) - skip):
            if here[n] in words and here[n] not in here:
                met.append(f"look: {os.path.relpath(p, TOP)}: {n} -> {here[n]}, which stood there")
        if new != t:
            with open(p, "w", encoding="utf-8") as f:
                f.write(new)

    camel = {n: v for n, v in table.items() if re.search(r"[a-z0-9][A-Z]", n)}
    for p in files(".rt"):
        t = read(p)
        out, clause = [], False
        words = set(re.findall(r"\w+", re.sub(r"(?m)//.*$", "", t)))
        for line in t.split("\n"):
            ghost = re.match(r"\s*(ghost use|requires|ensures|ghost)\b", line) or clause
            here = table if ghost else camel
            if '"' not in line:
                line = pattern.sub(lambda m: here.get(m[0], m[0]), line)
            clause = bool(ghost) and line.count("{") > line.count("}")
            out.append(line)
        new = "\n".join(out)
        for n in sorted(words & set(camel)):
            if camel[n] in words and not re.search(rf"\bfn {camel[n]}\b", t):
                met.append(f"look: {os.path.relpath(p, TOP)}: {n} -> {camel[n]}, which stood there")
        if new != t:
            with open(p, "w", encoding="utf-8") as f:
                f.write(new)

    for p in files(".edit"):
        lines = read(p).split("\n")
        spec = any(re.match(r"file: (specs|proofs)/", l) for l in lines)
        here = table if spec else camel
        new = "\n".join(pattern.sub(lambda m: here.get(m[0], m[0]), l) if re.match(r"(old|new): ", l) and '"' not in l else l for l in lines)
        if new != "\n".join(lines):
            with open(p, "w", encoding="utf-8") as f:
                f.write(new)

    for folder in (TOP, os.path.join(TOP, "docs"), os.path.join(TOP, "docs/promises")):
        for name in sorted(os.listdir(folder)):
            p = os.path.join(folder, name)
            if name.endswith(".md") and name != "PORT.md":
                t = read(p)
                new = re.sub(r"`[^`\n]+`", lambda s: pattern.sub(lambda m: table.get(m[0], m[0]), s[0]), t)
                if new != t:
                    with open(p, "w", encoding="utf-8") as f:
                        f.write(new)

    print("\n".join(met))
    print(f"respell: {len(table)} names, {len(lemmas)} of them lemmas with an ending, {len(met)} to look at")


sys.exit(main())
