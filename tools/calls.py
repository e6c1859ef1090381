#!/usr/bin/env python3
"""Writes docs/CALLS.md: each public call that can fail or wait, read off the sources.

    python3 tools/calls.py > docs/CALLS.md
"""
import pathlib
import re

TOP = pathlib.Path(__file__).resolve().parent.parent
TESTS = ("_tests", "_trials", "_rows")
# A call with one of these in its head may wait: a bound `Handles` has `Wait` in it.
WAITS = re.compile("Wait|Handles")
HEAD = """# Each public call that can fail

Written by `tools/calls.py` from the sources; don't edit it by hand.

**Each call returns.** The prover accepts no loop and no recursion without a measure that falls, or a list that ends. Calls marked *waits* may
wait for a lock or a thread, and owe no return.

**A public call that isn't listed can't fail**: it takes no memory, or answers by an `Option` or a `bool` what its clauses say. Laws are calls that do nothing.

The last column names the clauses of the call that say when it answers what. `Memory` is answered only where memory was refused, and nothing else is said
of when that is. All other refusals are answered exactly where these clauses say, the first in the order in which `docs/PROMISES.md` and
`docs/PROTOCOL.md` list them.
"""


def crates():
    lines = (TOP / "crates.txt").read_text().splitlines()
    names = [line.split(":")[0] for line in lines if line.strip() and not line.startswith("#")]
    return [name for name in names if not name.endswith(TESTS) and name not in ("acapd", "acapc")]


def exported(crate):
    """The names that stand at a crate's root."""
    names = set()
    for use in re.findall(r"pub use ([^;]+);", (TOP / f"crates/{crate}/src/lib.rt").read_text()):
        inner = re.search(r"\{([^}]*)\}", use, re.S)
        for name in inner[1].split(",") if inner else [use.split("::")[-1]]:
            names.add(name.strip().split(" as ")[-1])
    return names


def signature(text, indent):
    """What stands between a function's `pub` and its body."""
    # without a clause the body opens at the end of a line
    end = re.search(r"\n" + " " * indent + r"\{|\{\}\n| \{\n" + " " * indent + r"    (?!requires|ensures|ghost)", text)
    return text[: end.start()] if end else text


def calls(crate):
    """A crate's public calls: name, result, names of clauses, whether it may wait."""
    names = exported(crate)
    for file in sorted((TOP / f"crates/{crate}/src").glob("*.rt")):
        text, owner = file.read_text(), None
        for found in re.finditer(r"^impl([^{]*)\{|^( *)pub fn (\w+)", text, re.M):
            if found[3] is None:
                kind = re.search(r"^(?:<[^{]*?>)?\s+(?:\w+\s+for\s+)?([A-Z]\w*)", found[1])
                owner = kind[1] if kind else None
                continue
            indent = len(found[2])
            if (owner if indent else found[3]) not in names:
                continue
            head = signature(text[found.start():], indent)
            result = re.search(r"->\s*(.*?)(?:\n\s*(?:where|requires|ensures|ghost)|$)", head, re.S)
            clauses = [name or "its one clause" for name in re.findall(r"ensures\*?\s+(\w+)?\s*\{", head)]
            yield (f"{owner}::{found[3]}" if indent else found[3],
                   re.sub(r"\s+", " ", result[1]).strip() if result else "", clauses, bool(WAITS.search(head)))


def main():
    print(HEAD)
    for crate in crates():
        rows = [row for row in calls(crate) if "Result<" in row[1] or row[3] and "waits" not in row[0]]
        if not rows:
            continue
        print(f"## {crate}\n\n| call | answers | clauses |\n|---|---|---|")
        for name, result, clauses, waits in rows:
            print(f"| `{name}`{' (waits)' if waits else ''} | `{result or '()'}` | {', '.join(clauses) or 'none'} |")
        print()


if __name__ == "__main__":
    main()
