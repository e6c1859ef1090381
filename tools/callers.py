#!/usr/bin/env python3
"""Lists each public call that can fail, and which crates call it. Fails where none does.

    python3 tools/callers.py

It goes by names alone: a method is taken as called where its name stands after a dot or after its type. So a name that several types have
may hide a call that nobody makes; a call that nobody makes under any name is found.
"""
import re
import sys

from calls import TOP, calls, crates


def sources():
    """The sources of each crate, without what stands in comments."""
    lines = (TOP / "crates.txt").read_text().splitlines()
    names = [line.split(":")[0] for line in lines if line.strip() and not line.startswith("#")]
    return {name: "\n".join(re.sub(r"//.*", "", file.read_text()) for file in sorted((TOP / f"crates/{name}/src").rglob("*.rt"))) for name in names}


def pattern(call, texts):
    """Where a call is made: after a dot, or after its type or another name of that."""
    owner, _, name = call.rpartition("::")
    before = r"(?<!fn )(?<![.\w])(?:\w+::)*"
    if owner:
        owners = [owner] + [other for text in texts.values() for other in re.findall(rf"pub type (\w+)(?:<[^=]*>)? = {owner}\b", text)]
        before = rf"(?:\.|\b(?:{'|'.join(owners)})(?:::<[^()]*?>)?::)"
    return re.compile(rf"{before}{name}(?:::<[^()]*?>)?\(")


def main():
    texts, missing = sources(), []
    for crate in crates():
        for name, result, _, waits in calls(crate):
            if "Result<" not in result and not (waits and result):
                continue
            made = pattern(name, texts)
            found = [other for other, text in texts.items() if other != crate and made.search(text)]
            if not found and made.search(texts[crate]):
                found = [f"{crate} itself"]
            print(f"{crate}: {name}: {', '.join(found) or 'nobody'}")
            if not found:
                missing.append(name)
    if missing:
        sys.exit(f"tools/callers.py: nobody calls {', '.join(missing)}")


if __name__ == "__main__":
    main()
