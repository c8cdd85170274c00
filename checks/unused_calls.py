#!/usr/bin/env python3
"""unused_calls.py: the public calls that no command makes are those that ARCHITECTURE lists.

Reads the sources of the crates, and begins at `main` of dta. A function is reached where the body
of a reached one names it: a method behind a dot or a type, any other function by itself; a call
that a trait declares is always reached. So a call with the name of one that is made counts as made
too. Laws (laws.rt), crates that only check (worked_cases, worked_runs, traffic_laws, reference) and
tests are left out. Prints what stands in one of the two lists alone; status 1 where anything does.
"""
import pathlib
import re
import sys

ROOT = pathlib.Path(__file__).resolve().parent.parent
CHECKS = {"worked_cases", "worked_runs", "traffic_laws", "reference"}
SKIPPED = re.compile(r"^\s*(//|ghost use |(pub )?use ).*$", re.M)
HEAD = re.compile(r"^([ \t]*)(pub(?:\(\w+\))? )?(?:const )?fn (\w+)", re.M)
IMPL = re.compile(r"^impl(?:<[^>]*>)? (?:(\w+)(?:<[^{]*>)? for )?(\w+)", re.M)
CLAUSE = re.compile(r"(?:requires|ensures|ghost|invariant)[^{]*\{(?:[^{}]|\{[^{}]*\})*\}")
NAMED = re.compile(r"(\.|[A-Z]\w*(?:::<[^(]*>)?::)?\b([a-z_]\w*)")


def functions(crate, text):
    """Of each function: its crate, type, name, whether it is public, whether of a trait, body."""
    text = SKIPPED.sub("", text.split("#[cfg(test)]")[0])
    heads = list(HEAD.finditer(text))
    for head, after in zip(heads, heads[1:] + [None]):
        body = text[head.end():after.start() if after else len(text)]
        owner = IMPL.findall(text, 0, head.start())[-1:] if head[1] else []
        of_trait, kind = owner[0] if owner else ("", "")
        yield crate, kind, head[3], head[2] == "pub ", bool(of_trait), CLAUSE.sub("", body)


def all_functions():
    for file in sorted(ROOT.glob("crates/*/src/**/*.rt")):
        crate = file.relative_to(ROOT).parts[1]
        if crate not in CHECKS and file.name != "laws.rt":
            yield from functions(crate, file.read_text(encoding="utf-8"))


def unused():
    """The public functions that `main` of dta doesn't reach."""
    found = list(all_functions())
    by_name = {}
    for one in found:
        by_name.setdefault((bool(one[1]), one[2]), []).append(one)
    todo = [one for one in found if one[4] or (one[0], one[2]) == ("dta", "main")]
    reached = {id(one) for one in todo}
    while todo:
        for before, name in set(NAMED.findall(todo.pop()[5])):
            new = [one for one in by_name.get((bool(before), name), []) if id(one) not in reached]
            reached.update(map(id, new))
            todo += new
    return {f"{one[0]} `{one[1]}{'::' if one[1] else ''}{one[2]}`"
            for one in found if one[3] and id(one) not in reached}


def listed():
    """The calls of the section of ARCHITECTURE."""
    page = (ROOT / "docs/ARCHITECTURE.md").read_text(encoding="utf-8")
    section = page.split("## Calls that no command makes\n")[1].split("\n## ")[0]
    rows = re.findall(r"^\| (\w+) \| (.*?) \|", section, re.M)
    return {f"{crate} {call}" for crate, calls in rows for call in re.findall(r"`[\w:]+`", calls)}


if __name__ == "__main__":
    wrong = [f"not listed: {it}" for it in sorted(unused() - listed())]
    wrong += [f"listed, and made or gone: {it}" for it in sorted(listed() - unused())]
    print(*wrong, f"{len(listed())} calls listed, {len(wrong)} wrong", sep="\n")
    sys.exit(1 if wrong else 0)
