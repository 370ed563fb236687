#!/usr/bin/env python3
"""Checks the tables of docs/PROOFS.md: each clause, must-fail edit and test that a row names must exist.

A clause is `CRATE/src/FILE.rt:FUNCTION:LABEL`, where LABEL is `ensures` for a clause without a name;
a fact that a type keeps is `CRATE/src/FILE.rt:TYPE:LABEL`, where LABEL is a ghost field, or `invariant`.
An edit is `CRATE!NAME`, a test is `CRATE/src/FILE.rt#FUNCTION`, a definition is `CRATE/specs/FILE.antt:NAME`, a file
begins with `crates/`. A reference of another form that has one of their marks is stale too.
"""
import pathlib
import re
import sys

TOP = pathlib.Path(__file__).resolve().parent.parent
CRATES = TOP / "crates"


def text(path):
    return path.read_text(encoding="utf-8") if path.is_file() else None


def head_of(source, name):
    """The signature and clauses of each function of this name."""
    lines = source.splitlines()
    for start, line in enumerate(lines):
        if re.match(rf"\s*(pub(\([a-z]+\))? )?(const )?(final )?fn {re.escape(name)}\b", line):
            indent = line[: len(line) - len(line.lstrip())]
            end = start
            while end < len(lines) and lines[end] not in (indent + "{", indent + "{}"):
                if end > start and lines[end].endswith(";") and lines[end].startswith(indent + ")"):
                    break
                end += 1
            yield "\n".join(lines[start : end + 1])


def type_of(source, name):
    """The declaration of a type and its model."""
    for match in re.finditer(rf"(struct|enum|impl(<[^>]*>)? Model for) {re.escape(name)}\b.*?\n}}", source, re.S):
        yield match.group(0)


def clause(reference):
    path, name, label = reference.split(":")
    source = text(CRATES / path)
    if source is None:
        return "no such file"
    if name[0].isupper():
        wanted = rf"ghost {re.escape(label)}\b"
        found = list(type_of(source, name))
    else:
        wanted = r"ensures\*? \{" if label == "ensures" else rf"ensures\*? {re.escape(label)} \{{"
        found = list(head_of(source, name))
    if not found:
        return f"no `{name}`"
    return None if any(re.search(wanted, part) for part in found) else f"no `{label}` at `{name}`"


def definition(reference):
    path, name = reference.split(":")
    source = text(CRATES / path)
    if source is None:
        return "no such file"
    found = re.search(rf"^(abbrev |unfoldable )?pub (record |data )?{re.escape(name)}\b", source, re.M)
    return None if found else f"no `{name}`"


def edit(reference):
    crate, name = reference.split("!")
    return None if (CRATES / crate / "must-fail" / f"{name}.edit").is_file() else "no such edit"


def test(reference):
    path, name = reference.split("#")
    source = text(CRATES / path)
    if source is None:
        return "no such file"
    found = re.search(rf"#\[test\]\s*(#\[[^\]]*\]\s*)*(pub )?fn {re.escape(name)}\b", source)
    return None if found else f"no test `{name}`"


def stale(reference):
    if re.fullmatch(r"\w+/src/[\w/]+\.rt:\w+:\w+", reference):
        return clause(reference)
    if re.fullmatch(r"\w+/specs/[\w/]+\.antt:[\w\-]+", reference):
        return definition(reference)
    if re.fullmatch(r"\w+!\w+", reference):
        return edit(reference)
    if re.fullmatch(r"\w+/src/[\w/]+\.rt#\w+", reference):
        return test(reference)
    if re.fullmatch(r"crates/[\w/.]+", reference):
        return None if (TOP / reference).exists() else "no such file"
    return "names none of these" if re.search(r"[/!#:]", reference) else None


def main():
    page = TOP / "docs" / "PROOFS.md"
    failed = checked = 0
    for number, line in enumerate(text(page).splitlines(), 1):
        if not line.startswith("|"):
            continue
        if line.count("`") % 2:
            checked, failed = checked + 1, failed + 1
            print(f"docs/PROOFS.md:{number}: a quote that does not end")
        for reference in re.findall(r"`([^`]+)`", line):
            checked += 1
            why = stale(reference)
            if why:
                failed += 1
                print(f"docs/PROOFS.md:{number}: {reference}: {why}")
    print(f"proof rows: {checked - failed} stand, {failed} are stale")
    return 1 if failed or not checked else 0


if __name__ == "__main__":
    sys.exit(main())
