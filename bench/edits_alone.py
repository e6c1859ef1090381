#!/usr/bin/env python3
"""Tries the edits of bench/edits/CRATE, each on the function that it changes alone: a whole check of the crate for each would take minutes.

    python3 bench/edits_alone.py CRATE [EDIT..]     # an EDIT: the beginning of its name; none: all of the crate

What `rt check` has proved in crates/*/out is used, so run it in the crate's folder first. It tries the last commit, in a clone. Up to eight
edits of different functions are tried at once. An edit is refused where a function that it changes is no longer proved. One that isn't
refused so is tried by itself: its function, then all of its module, then the whole crate. An edit outside functions, as of a constant,
begins with its module, and one of a definition with the crate. Fails where one is not refused, or the text that it replaces doesn't stand in
the code exactly once. It doesn't say where an edit is refused only because the prover can't read it, or because a proof names what it took
away: bench/edits.sh does.
"""
import contextlib
import os
import re
import shutil
import subprocess
import sys
import tempfile

TOP = os.path.dirname(os.path.dirname(os.path.abspath(__file__)))
AT_ONCE = 8


def text_of(file):
    with open(file, encoding="utf-8") as it:
        return it.read()


def write_all(crate, texts):
    for path, text in texts.items():
        with open(f"{crate}/{path}", "w", encoding="utf-8") as it:
            it.write(text)


def pairs_of(edit):
    """Returns what an edit replaces, as (file, old text, new text)."""
    pairs, path, old = [], "", ""
    for line in text_of(edit).split("\n"):
        if line.startswith("file: "):
            path = line[len("file: "):].strip()
        elif line.startswith("old: "):
            old = line[len("old: "):]
        elif line.startswith("new:"):
            pairs.append((path, old, line[len("new:"):].removeprefix(" ")))
    return pairs


def indent_of(line):
    return len(line) - len(line.lstrip())


def type_of(line):
    """Returns the name by which `rt check` calls a method's type: with the trait's after it, where the impl is of one, and after
    that the type that the trait is of. `Any` is a type that is a parameter of the impl."""
    generics = re.match(r"^impl(<(?:[^<>]|<[^<>]*>)*>)?\s*", line)
    head = line[generics.end():]
    of_trait = re.match(r"([\w:]+)(?:<(.*)>)?\s+for\s+&?(\w+)", head)
    if of_trait:
        trait, of, name = of_trait.groups()
        is_any = re.search(rf"[<,]\s*{name}\b", generics[1] or "")
        return ("Any" if is_any else name) + trait.split("::")[-1] + (of if of and of.isalnum() else "")
    return re.match(r"&?(\w+)", head)[1]


def function_at(text, place):
    """Returns the function around a place of a file, after its type's name where it is a method; None outside functions."""
    lines = text.split("\n")
    at = text[:place].count("\n")
    margin, found = indent_of(lines[at]), None
    for number in range(at, -1, -1):
        line = lines[number]
        head = re.match(r"\s*(?:pub(?:\(\w+\))? )?(?:const )?fn (\w+)", line)
        if head and not found and (number == at or indent_of(line) <= margin):
            found = head[1]
            if not indent_of(line):
                return found
        elif found and line.startswith("impl"):
            return f"{type_of(line)}::{found}"
        elif not found and number < at and line.rstrip() in ("}", "};"):
            return None
    return found


def ways_of(crate, pairs):
    """Returns what to check, in turn: the functions that an edit changes, their modules, and the crate, which is an empty list."""
    functions, modules = [], []
    for path, old, _ in pairs:
        if not path.endswith(".rt"):
            return [[]]
        text = text_of(f"{crate}/{path}")
        module = path.removeprefix("src/").removesuffix(".rt").replace("/", "::")
        function = function_at(text, text.find(old))
        # (a method is listed in its type's module, which may be another one, and is found by the end of its name)
        is_method = function and "::" in function
        functions.append(function if is_method else f"{module}::{function}" if function else module)
        modules.append(module)
    ways = [list(dict.fromkeys(it)) for it in (functions, modules)] + [[]]
    return ways[ways[0] == ways[1]:]


def edited(crate, pairs):
    """Returns the texts of the files that an edit changes, by their paths, or why it can't be applied."""
    texts = {}
    for path, old, new in pairs:
        text = texts[path] if path in texts else text_of(f"{crate}/{path}")
        if text.count(old) != 1:
            return {}, f"its text stands {text.count(old)} times in {path}"
        texts[path] = text.replace(old, new)
    return texts, None if texts else "it replaces nothing"


def not_proved(crate, only):
    """Returns the functions that a check refuses, whether it refuses anything, and its last line."""
    words = [word for path in only for word in ("--only", path)]
    ran = subprocess.run(["rt", "check", *words], cwd=crate, capture_output=True, text=True, errors="replace", stdin=subprocess.DEVNULL)
    refused = re.findall(r"^fn (\S+): (?:not proved|no proof)", ran.stdout, re.M)
    last = ran.stdout.rstrip("\n").split("\n")[-1]
    return refused, ran.returncode == 1 and bool(refused or last.startswith("logic=not-proved")), last[:120]


@contextlib.contextmanager
def applied(crate, pairs):
    """The crate with these texts replaced; gives why that can't be done, or None."""
    texts, misfit = edited(crate, pairs)
    were = {path: text_of(f"{crate}/{path}") for path in texts}
    write_all(crate, texts)
    try:
        yield misfit
    finally:
        write_all(crate, were)


def tried(crate, pairs):
    """Returns whether an edit is refused by itself, and what to say of it."""
    ways = ways_of(crate, pairs)
    with applied(crate, pairs) as misfit:
        if misfit:
            return False, misfit
        for only in ways:
            refused, is_refused, last = not_proved(crate, only)
            if is_refused:
                break
    return is_refused, refused[0] if refused else last


def is_in(name, function):
    """Whether a name that a check prints is that function's, or that of a closure in it."""
    return f"::{function}::" in f"::{name}::"


def tried_at_once(crate, group):
    """Returns the function by which each edit is refused that is, by the edit's name, where all are made at once."""
    functions = {name: ways_of(crate, pairs)[0] for name, pairs in group.items()}
    with applied(crate, [pair for pairs in group.values() for pair in pairs]):
        refused, _, _ = not_proved(crate, list(dict.fromkeys(it for some in functions.values() for it in some)))
    found = {name: [it for it in refused for function in some if is_in(it, function)] for name, some in functions.items()}
    return {name: some[0] for name, some in found.items() if some}


def fits(crate, group, pairs):
    """Whether an edit can be made beside those of a group: it changes other functions, and all texts stand where they should."""
    functions = {it for some in group.values() for it in ways_of(crate, some)[0]}
    apart = not functions & set(ways_of(crate, pairs)[0])
    return len(group) < AT_ONCE and apart and not edited(crate, [it for some in group.values() for it in some] + pairs)[1]


def is_of_functions(crate, pairs):
    """Whether an edit can be made, and changes nothing outside functions: what it changes there may have others refused."""
    if edited(crate, pairs)[1]:
        return False
    functions, *wider = ways_of(crate, pairs)
    return len(wider) == 2 and not set(functions) & set(wider[0])


def groups_of(crate, edits):
    """Puts the edits of functions into groups that can be made at once."""
    groups = []
    for name, pairs in edits.items():
        if not is_of_functions(crate, pairs):
            continue
        group = next((it for it in groups if fits(crate, it, pairs)), None)
        if group is None:
            groups.append({name: pairs})
        else:
            group[name] = pairs
    return groups


def main(name, *begins):
    with tempfile.TemporaryDirectory() as clone:
        subprocess.run(["git", "clone", "-q", TOP, f"{clone}/repo"], check=True)
        for one in os.listdir(f"{TOP}/crates"):
            if os.path.isdir(f"{TOP}/crates/{one}/out"):
                shutil.copytree(f"{TOP}/crates/{one}/out", f"{clone}/repo/crates/{one}/out", symlinks=True)
        crate, folder = f"{clone}/repo/crates/{name}", f"{clone}/repo/bench/edits/{name}"
        names = [it for it in sorted(os.listdir(folder)) if it.endswith(".edit")]
        edits = {it: pairs_of(f"{folder}/{it}") for it in names if not begins or it.startswith(begins)}
        refused = {}
        for group in groups_of(crate, edits):
            found = tried_at_once(crate, group)
            refused.update(found)
            for edit, function in found.items():
                print(f"{edit}: refused: {function}", flush=True)
        for edit in sorted(edits.keys() - refused.keys()):
            is_refused, said = tried(crate, edits[edit])
            if is_refused:
                refused[edit] = said
            print(f"{edit}: {'refused' if is_refused else 'NOT REFUSED'}: {said}", flush=True)
    print(f"{name}: {len(refused)} of {len(edits)} edits refused")
    return 0 if len(refused) == len(edits) else 1


if __name__ == "__main__":
    if len(sys.argv) < 2:
        sys.exit(__doc__)
    sys.exit(main(*sys.argv[1:]))
