#!/usr/bin/env python3
"""The pages against the tree: what the pages on promises name is there, and what has to be on a page is on one.

    tests/pages.py     prints each fault; ends with 'N passed, M failed', and with exit status 1 where something failed

On docs/PROMISES.md and docs/promises: every path exists ("crates/" and ".edit" are left out), every name in backticks is defined
in crates, `module::function` in that module, and a row's file has one of the row's names. On every page: links lead to a page and a
heading. Every crate of crates.txt stands in README's table and in the picture of docs/CONTRIBUTING.md. Every must-fail edit is
named on a page on promises, or its folder is named there by itself.
"""
import pathlib
import re
import sys

ROOT = pathlib.Path(__file__).resolve().parent.parent
CRATES = ROOT / "crates"
PROMISES = [ROOT / "docs" / "PROMISES.md", *sorted((ROOT / "docs" / "promises").glob("*.md"))]
PAGES = [ROOT / "README.md", *sorted((ROOT / "docs").glob("**/*.md"))]
PLAIN = {"requires", "ensures", "pub", "NAME", "module::function"}  # in backticks, and no names of ours

# In specs and proofs: `name :`, also of fields and cases; records and data types. In code: functions, types, constants; fields; cases.
SPEC_NAME = re.compile(r"^\s*(?:(?:pub|unfoldable|abbrev)\s+)*([^\s:(){}]+)(?:\s+\{[^}]*\})?\s*:(?:\s|$)", re.M)
SPEC_TYPE = re.compile(r"\b(?:record|data)\s+([^\s:(){}]+)")
CODE_NAME = re.compile(r"\b(?:fn|struct|enum|trait|const)\s+(\w+)|^\s+pub\s+(\w+):|^\s+([A-Z]\w*)(?:\(|,$|\s*\{)", re.M)
PATH = re.compile(r"[\w.-]+(?:/[\w*-]+(?:\.\w+)*)+|\b[A-Z]+\.md\b")


class Counts:
    def __init__(self):
        self.passed = self.failed = 0

    def holds(self, page, true, fault):
        if true:
            self.passed += 1
        else:
            self.failed += 1
            print("pages: %s: %s" % (page.relative_to(ROOT), fault))


def defined():
    """Every name that is defined in crates, with those of the crates themselves and of the edits."""
    names = {path.stem for path in CRATES.glob("*/must-fail/*.edit")} | {path.name for path in CRATES.iterdir()}
    for path in CRATES.glob("**/*.antt"):
        names.update(SPEC_NAME.findall(path.read_text()), SPEC_TYPE.findall(path.read_text()))
    for path in CRATES.glob("**/*.rt"):
        names.update(name for found in CODE_NAME.findall(path.read_text()) for name in found if name)
    return names


def in_module(module, name):
    """A function of a module or of a crate; where the first is a type, a case of that enum."""
    if module[0].isupper():
        files, what = CRATES.glob("*/src/*.rt"), r"\benum %s \{(?:[^{}]|\{[^{}]*\})*?\b%s\b" % (module, name)
    else:
        files, what = [*CRATES.glob("*/src/%s.rt" % module), *CRATES.glob("%s/src/*.rt" % module)], r"\bfn %s\b" % name
    return any(re.search(what, path.read_text()) for path in files)


def found(path):  # the file or folder that a page means, or none
    places = [base / (path + end) for base in (ROOT, CRATES, ROOT / "docs") for end in ("", ".edit")]
    return next((place for place in places if place.exists()), None)


def prose(page):  # without fenced blocks
    return re.sub(r"^```.*?^```", "", page.read_text(), flags=re.M | re.S)


def check_names(counts, page, names):
    text = re.sub(r"\]\([^)]*\)", "]", prose(page))
    for quoted in sorted(set(re.findall(r"`([^`\n]+)`", text)) - PLAIN):
        if re.fullmatch(r"\w+::\w+", quoted):
            counts.holds(page, in_module(*quoted.split("::")), "no `%s`" % quoted)
        elif re.fullmatch(r"[\w-]{2,}", quoted):
            counts.holds(page, quoted in names, "`%s` is not defined" % quoted)
    for path in sorted(set(PATH.findall(text))):
        counts.holds(page, found(path), "no %s" % path)
    for row in re.findall(r"^\|.*\|$", text, re.M):
        files, words = [p for p in PATH.findall(row) if p.endswith((".antt", ".rt"))], re.findall(r"`(?:\w+::)?([\w-]+)`", row)
        if len(files) == 1 and words and found(files[0]):
            there = any(re.search(r"(?<![\w-])%s(?![\w-])" % word, found(files[0]).read_text()) for word in words)
            counts.holds(page, there, "%s has none of %s" % (files[0], ", ".join(words)))


def check_links(counts, page):
    for pair in re.findall(r"\]\(([^)\s]+)\)|^\[[^\]]+\]: (\S+)", prose(page), re.M):
        path, _, heading = "".join(pair).partition("#")
        goal = page.parent / path if path else page
        titles = re.findall(r"^#+ (.*)", goal.read_text(), re.M) if goal.suffix == ".md" and goal.exists() else []
        slugs = {re.sub(r"[^\w\s-]", "", title).strip().lower().replace(" ", "-") for title in titles}
        counts.holds(page, goal.exists() and (not heading or heading in slugs), "the link to %s leads nowhere" % "".join(pair))


def check_crates(counts):
    readme, contributing = ROOT / "README.md", ROOT / "docs" / "CONTRIBUTING.md"
    table = "\n".join(re.findall(r"^\|.*", readme.read_text(), re.M))
    picture = "\n".join(re.findall(r"^```text(.*?)^```", contributing.read_text(), re.M | re.S))
    for crate in re.findall(r"^(\w+)(?: \w+)?:", (ROOT / "crates.txt").read_text(), re.M):
        counts.holds(readme, re.search(r"\bcrates/%s\b" % crate, table), "crates/%s is not in the table" % crate)
        counts.holds(contributing, re.search(r"\b%s\b" % crate, picture), "%s is not in the picture" % crate)


def check_edits(counts):
    text = "\n".join(page.read_text() for page in PROMISES)
    for edit in sorted(CRATES.glob("*/must-fail/*.edit")):
        named = r"\b%s\b|\b%s/must-fail(?!/\w)" % (edit.stem, edit.parts[-3])
        counts.holds(edit, re.search(named, text), "is on no page")


if __name__ == "__main__":
    all_counts, all_names = Counts(), defined()
    for promises in PROMISES:
        check_names(all_counts, promises, all_names)
    for each in PAGES:
        check_links(all_counts, each)
    check_crates(all_counts)
    check_edits(all_counts)
    print("%d passed, %d failed" % (all_counts.passed, all_counts.failed))
    sys.exit(1 if all_counts.failed else 0)
