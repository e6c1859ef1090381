#!/usr/bin/env python3
"""Counts the lines of code, definitions and proofs of two commits, crate by crate.

    python3 bench/lines.py OLD [NEW]

NEW is HEAD where it isn't given. Imports, `mod` lines, comments and blank lines don't count, nor do files whose names have `Example`. It prints
for each crate that differs what OLD has, what NEW has and the difference, and then the sums. Nothing is judged here.
"""
import collections
import re
import subprocess
import sys

KINDS = {"src": "code", "specs": "specs", "proofs": "proofs"}
COLUMNS = [*KINDS.values(), "all"]
IMPORT = re.compile(r"(pub |ghost |pub\(crate\) )*(use|mod) .*")


def git(*words):
    return subprocess.run(["git", *words], check=True, capture_output=True, text=True).stdout


def counted(text):
    """How many lines of a text count."""
    count, in_import = 0, False
    for line in map(str.strip, text.splitlines()):
        if in_import:
            in_import = not line.endswith("};")
        elif IMPORT.fullmatch(line):
            in_import = line.endswith("{")
        elif line and not line.startswith(("//", "--", "#!")):
            count += 1
    return count


def lines(commit):
    """The lines of each crate of a commit, by kind."""
    found = collections.defaultdict(collections.Counter)
    for name in git("ls-tree", "-r", "--name-only", commit, "crates").splitlines():
        parts = name.split("/")
        if len(parts) > 3 and parts[2] in KINDS and name.endswith((".rt", ".antt")) and "Example" not in parts[-1]:
            count = counted(git("show", f"{commit}:{name}"))
            for row in (parts[1], "all crates"):
                found[row] += {KINDS[parts[2]]: count, "all": count}
    return found


def main():
    if len(sys.argv) not in (2, 3):
        sys.exit(__doc__)
    old, new = (lines(commit) for commit in (sys.argv[1], (sys.argv[2:] or ["HEAD"])[0]))
    print("| crate |", " | ".join(COLUMNS), "|")
    print("|---" * (len(COLUMNS) + 1) + "|")
    for crate in sorted(old.keys() | new.keys(), key=lambda name: (name == "all crates", name)):
        if old[crate] != new[crate]:
            cells = [f"{old[crate][kind]} to {new[crate][kind]} ({new[crate][kind] - old[crate][kind]:+})" for kind in COLUMNS]
            print(f"| {crate} |", " | ".join(cells), "|")


if __name__ == "__main__":
    main()
