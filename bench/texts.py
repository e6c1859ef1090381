#!/usr/bin/env python3
"""Finds texts that no longer stand: what edits and scripts replace, and what documents name. The gate runs it before all else.

    python3 bench/texts.py

It proves and runs nothing, and takes a second or two. It prints a line for each text that it misses, and fails where there is one:

- the `old:` text of each edit, which must stand in its file exactly once, after the pairs before it are put in place; so must what
  `bench/threads.py` and `bench/locked.py` replace;
- each name in backticks of README.md, CONTRIBUTING.md, CHANGELOG.md, docs/ and the pages beside the edits: a file must be there, and each word
  of a name of code that has `_` or `::` in it (a function, a clause, a law) must be a word of the sources or of a script;
- each file of definitions, which docs/DEFINITIONS.md must name in the section of its crate, and each that it names there;
- each file of code, which docs/ARCHITECTURE.md must name in the section of its crate, and each function that it names beside a file;
- each crate that makes a counter, or the parts of a ledger, and isn't one of the few that may: a body that counted in a counter of its own
  would meet the bounds on work, which speak of the counter that is lent.
"""
import functools
import importlib.util
import os
import pathlib
import re
import sys

TOP = pathlib.Path(__file__).resolve().parent.parent

SOURCES = {".rt", ".antt", ".py", ".sh", ".edit", ".rows", ".txt", ".c"}

WORD = re.compile(r"[A-Za-z_][A-Za-z0-9_]*")

# A name of code: words joined by `::`, the last of which may be several in braces.
NAME = re.compile(r"[A-Za-z_][A-Za-z0-9_]*(::(\{[a-z_, ]+\}|[A-Za-z_][A-Za-z0-9_]*))*")

FILE = re.compile(r"[A-Za-z0-9_./-]+\.(rt|antt|py|sh|md|rows|edit|c)")


def pairs_of(edit):
    """What an edit replaces, as (file, old text, new text)."""
    path, old = "", ""
    for line in edit.read_text().split("\n"):
        if line.startswith("file: "):
            path = line.removeprefix("file: ").strip()
        elif line.startswith("old: "):
            old = line.removeprefix("old: ")
        elif line.startswith("new:"):
            yield path, old, line.removeprefix("new:").removeprefix(" ")


def stale_pairs(what, folder, pairs):
    """A line for each old text that doesn't stand in its file of a folder exactly once, after the pairs before it are put in place."""
    texts = {}
    for path, old, new in pairs:
        if not (folder / path).is_file():
            yield f"{what}: {path} is no file"
            continue
        text = texts.get(path) or (folder / path).read_text()
        if text.count(old) != 1:
            yield f"{what}: stands {text.count(old)} times in {path}: {old.strip()}"
        texts[path] = text.replace(old, new)


def stale_edits():
    """A line for each text of an edit that doesn't stand in its file exactly once."""
    for edit in sorted(it for it in files() if it.suffix == ".edit"):
        crate = edit.parent.name if edit.parent.name != "must-fail" else edit.parent.parent.name
        yield from stale_pairs(edit.relative_to(TOP), TOP / "crates" / crate, pairs_of(edit))


@functools.cache
def files():
    """The files of the repository, without what checks and runs leave."""
    found = []
    for folder, inner, names in os.walk(TOP):
        inner[:] = sorted(set(inner) - {".git", "out", "__pycache__"})
        found += [pathlib.Path(folder) / name for name in sorted(names)]
    return found


@functools.cache
def words():
    """Each word of the sources and scripts, and the names of all files and folders."""
    texts = (it.read_text(errors="replace") for it in files() if it.suffix in SOURCES)
    return {word for text in texts for word in WORD.findall(text)} | names()


@functools.cache
def names():
    """The names of all files and folders, with and without their endings."""
    return {name for it in files() for part in it.relative_to(TOP).parts for name in (part, pathlib.PurePath(part).stem)}


def is_named(token):
    """Whether what stands in backticks is there; what is neither a file nor a name of code is passed over."""
    if FILE.fullmatch(token):
        return pathlib.PurePath(token).name in names()
    if NAME.fullmatch(token) and ("_" in token or "::" in token):
        return set(WORD.findall(token)) <= words()
    return True


def pages():
    """The documents."""
    return [*sorted(TOP.glob("*.md")), *sorted((TOP / "docs").glob("*.md")), *sorted((TOP / "bench/edits").glob("*/*.md"))]


def stale_names():
    """A line for each name in backticks of a document that is nowhere."""
    for page in pages():
        for number, line in enumerate(page.read_text().split("\n"), 1):
            for token in re.findall(r"`([^`]+)`", line):
                if not is_named(token):
                    yield f"{page.relative_to(TOP)}:{number}: names what isn't there: {token}"


def sections(page, mark):
    """The sections of a page by the crates that head them."""
    parts = re.split(rf"^{mark} (acap\w+)$", page.read_text(), flags=re.MULTILINE)
    return dict(zip(parts[1::2], parts[2::2]))


def unnamed_files(page, mark, kind, but):
    """A line for each file of a kind that the page doesn't name in the section of its crate."""
    named = sections(page, mark)
    for crate in sorted((TOP / "crates").iterdir()):
        stems = {it.stem for it in crate.glob(f"{kind}/*")} - but
        words = set(re.findall(r"`(\w+)(?:\.antt)?`", named.get(crate.name, "")))
        for stem in sorted(stems - words):
            yield f"{page.relative_to(TOP)}: doesn't name {crate.name}/{kind}/{stem}"


def misplaced_files():
    """A line for each file of definitions that is named in the section of a crate that doesn't have it."""
    page = TOP / "docs/DEFINITIONS.md"
    for crate, text in sections(page, "##").items():
        for stem in sorted(set(re.findall(r"`(\w+)\.antt`", text))):
            if not (TOP / f"crates/{crate}/specs/{stem}.antt").is_file():
                yield f"{page.relative_to(TOP)}: {crate} has no {stem}.antt"


def misplaced_functions():
    """A line for each function or constant that docs/ARCHITECTURE.md names beside a file that doesn't have it."""
    page = TOP / "docs/ARCHITECTURE.md"
    for file, listed in re.findall(r"`(\w+/src/\w+\.rt)`(?:: ((?:`\w+`(?:, )?)+))?", page.read_text()):
        path = TOP / "crates" / file
        text = path.read_text() if path.is_file() else ""
        for name in re.findall(r"`(\w+)`", listed):
            if not re.search(rf"\b(fn|const|static) {name}\b", text):
                yield f"{page.relative_to(TOP)}: {file} has no {name}"


def stale_tables():
    """A line for each file or function that a table of files lacks, or has where it isn't."""
    yield from unnamed_files(TOP / "docs/DEFINITIONS.md", "##", "specs", {"Lib"})
    yield from misplaced_files()
    yield from unnamed_files(TOP / "docs/ARCHITECTURE.md", "###", "src", {"lib", "laws"})
    yield from misplaced_functions()


def script(name):
    """A script of this folder, of which nothing is run."""
    spec = importlib.util.spec_from_file_location(name, TOP / "bench" / f"{name}.py")
    module = importlib.util.module_from_spec(spec)
    spec.loader.exec_module(module)
    return module


def replaced_by_scripts():
    """What scripts replace: the script and the body, and its texts one after the other as (file, old text, new text)."""
    threads, locked = script("threads"), script("locked")
    for name, (edits, _) in (threads.BODIES | threads.SERVED).items():
        yield f"bench/threads.py: {name}", edits
    yield "bench/locked.py: the last epoch", [("crates/acap_locked/src/book.rt", *locked.LAST)]


def stale_patches():
    """A line for each text that a script replaces and that doesn't stand in its file exactly once."""
    for name, edits in replaced_by_scripts():
        yield from stale_pairs(name, TOP, edits)


COUNTERS = re.compile(r"\bBlank\b|\bBrand\b|\bSteps::(<\w+>::)?new\b")

# The crates that may make a counter or the parts of a ledger, and why.
MAY_COUNT = {
    "acap_entries": "has the counter's type",
    "acap_locked": "splits the ledger of its passes, whose parts its caller hands in",
    "acap_task": "counts what a source in memory gives again and again",
    "acap_serving": "hands the ledgers of a server and its counter in",
    "acap_rows": "a program",
    "acapd": "a program",
}


def counting_crates():
    """A line for each crate that makes a counter and may not. Crates of tests may."""
    for crate in sorted((TOP / "crates").iterdir()):
        if crate.name in MAY_COUNT or crate.name.endswith("_tests"):
            continue
        for file in sorted(crate.glob("src/**/*.rt")):
            found = COUNTERS.search(file.read_text())
            if found:
                yield f"{file.relative_to(TOP)}: makes a counter of its own: {found[0]}"


def main():
    stale = [*stale_edits(), *stale_patches(), *stale_names(), *stale_tables(), *counting_crates()]
    print("\n".join(stale) or "every text stands")
    sys.exit(bool(stale))


if __name__ == "__main__":
    main()
