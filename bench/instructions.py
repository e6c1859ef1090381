#!/usr/bin/env python3
"""Counts the instructions of one operation of `acapd`, which don't depend on what else the machine does.

    python3 bench/instructions.py PROGRAM [OTHER]

Each input is made here. Valgrind counts a run of what is prepared, and one in which the operation follows it many
times. A line has the difference for one operation, of both programs where two are given, and the ratio of the first to
the second. OTHER may be of a commit that has no groups: it gets those lines alone in which no group is named.

    --only WORD    only the inputs whose names have the word
"""
import argparse
import os
import random
import re
import subprocess
import sys
import tempfile

ENTRIES = 10_000


# ---- inputs: a name, the program's words, what is prepared, what is measured, how many operations that is, whether groups are named

def session(texts):
    return "".join(f"A{i} {text}\r\n" for i, text in enumerate(texts)).encode("ascii")


def script(lines):
    return "".join(line + "\n" for line in lines).encode("ascii")


def store(dataset, name, items):
    return f'("{dataset}{name}" ' + " ".join(f'"{attribute}" "{value}"' for attribute, value in items) + ")"


def one(k, value="x"):
    return "STORE " + store("/option/~/", f"e{k:06}", [("option.value", value)])


def ten(k, salt):
    return "STORE " + store("/option/~/", f"e{k:06}", [(f"option.a{i}", f"{salt}{i}") for i in range(10)])


def filled(dataset, count, attributes=1):
    """STOREs of this many entries, a hundred to a command."""
    entries = [store(dataset, f"e{k:06}", [(f"option.a{i}", f"{k * 7919 % count:08}") for i in range(attributes)]) for k in range(count)]
    step = 100 // attributes
    return ["STORE " + " ".join(entries[i:i + step]) for i in range(0, count, step)]


def pipe(name, prepared, measured):
    return name, ["pipe", "joe"], session(prepared), session(prepared + measured), len(measured), False


def stores(name, order):
    order = list(order)
    return pipe(f"STORE of one item, {ENTRIES} {name}", [], [one(k) for k in order])


def searches():
    search = lambda returns, more="": f'SEARCH "/option/~/" RETURN ({returns}) {more}ALL'
    one_read = '"option.a0"'
    yield pipe("SEARCH of one attribute", filled("/option/~/", ENTRIES), [search(one_read)])
    five = " ".join(f'"option.a{i}"' for i in range(5))
    yield pipe("SEARCH of five attributes", filled("/option/~/", ENTRIES, 5), [search(five)])
    yield pipe("SEARCH, SORT by a number", filled("/option/~/", ENTRIES), [search(one_read, 'SORT ("option.a0" "-i;ascii-numeric") ')])
    yield pipe("SEARCH, key over two attributes", filled("/option/~/", ENTRIES, 2),
               [search(one_read) [:-3] + 'AND COMPARE "option.a0" "i;octet" "0" PREFIX "option.a1" "i;octet" "0"'])
    yield pipe("SEARCH where the attribute has a list", filled("/option/~/", ENTRIES) + ['SETACL ("/option/~/" "option.a0") "joe" "rwxia"'], [search(one_read)])
    inherits = ['STORE ("/option/~/" "dataset.inherit" "/option/site/")']
    base = filled("/option/site/", ENTRIES)
    yield ("SEARCH of what is inherited", ["script"], script(["admin root", "enter 1 root", "enter 2 joe"] + [f"send 1 B {it}" for it in base] + [f"send 2 C {it}" for it in inherits]),
           script(["admin root", "enter 1 root", "enter 2 joe"] + [f"send 1 B {it}" for it in base] + [f"send 2 C {it}" for it in inherits] + ["send 2 D " + search(one_read)]), 1, False)


def lists():
    """Ann searches what Joe lets her, by a list that names her among others."""
    search = 'send 2 C SEARCH "/option/user/joe/" RETURN ("option.a0") ALL'
    entries = [f"send 1 B {it}" for it in filled("/option/~/", ENTRIES)]
    groups = [f"group g{k} u{k}{m}" for k in range(50) for m in range(20)] + [f"group g{k} ann" for k in (7, 23, 41)]
    begin = ["enter 1 joe", "enter 2 ann"]
    users = [f'send 1 B SETACL ("/option/~/") "{it}" "r"' for it in ("bob", "cem", "ann")]
    named = [f'send 1 B SETACL ("/option/~/") "group:g{k}" "r"' for k in (7, 23, 41)]
    for name, first, acl, has_groups in (
        ("SEARCH by a list of three users", [], users, False),
        ("SEARCH by a list of three users, among 50 groups", groups, users, True),
        ("SEARCH by a list of 3 of 50 groups", groups, named, True),
    ):
        prepared = first + begin + entries + acl
        yield name, ["script"], script(prepared), script(prepared + [search]), 1, has_groups


def inputs():
    yield pipe("NOOP", [], ["NOOP"] * 5000)
    yield "an octet of short tokens", ["pipe", "joe"], b"", (b"B FROB" + b" ab (cd ef) ghi" * 500 + b"\r\n") * 100, 750_800, False
    shuffled = list(range(ENTRIES))
    random.Random(1).shuffle(shuffled)
    yield pipe("STORE of one item, existing entry", [one(1)], [one(1, f"v{i % 10}") for i in range(5000)])
    yield stores("ascending", range(ENTRIES))
    yield stores("descending", reversed(range(ENTRIES)))
    yield stores("in random order", shuffled)
    yield pipe("STORE of ten items, existing entry", [ten(1, "v")], [ten(1, f"v{i % 10}") for i in range(2000)])
    yield pipe("STORE of ten items, new entries", [], [ten(k, "v") for k in range(2000)])
    yield from searches()
    yield from lists()


# ---- runs

def counted(program, words, octets, folder):
    """The instructions of one run."""
    file = f"{folder}/in"
    with open(file, "wb") as it:
        it.write(octets)
    valgrind = ["valgrind", "--tool=callgrind", f"--callgrind-out-file={folder}/out"]
    with open(file, "rb") as given:
        done = subprocess.run(valgrind + [program] + words, stdin=given, stdout=subprocess.DEVNULL, stderr=subprocess.PIPE, check=False)
    found = re.search(rb"Collected : (\d+)", done.stderr)
    if done.returncode or not found:
        sys.exit(f"{program} {' '.join(words)} ended with status {done.returncode}: {done.stderr.decode()[-300:]}")
    return int(found.group(1))


def main():
    words = argparse.ArgumentParser(description=__doc__, formatter_class=argparse.RawDescriptionHelpFormatter)
    words.add_argument("programs", nargs="+")
    words.add_argument("--only", default="")
    given = words.parse_args()
    programs = [os.path.abspath(it) for it in given.programs]
    with tempfile.TemporaryDirectory(prefix="acapd-bench-") as folder:
        for name, called, prepared, whole, count, has_groups in inputs():
            if given.only not in name:
                continue
            asked = programs[:1] if has_groups else programs
            values = [(counted(it, called, whole, folder) - counted(it, called, prepared, folder)) / count for it in asked]
            ratio = f"{values[0] / values[1]:8.2f}" if len(values) == 2 and values[1] else ""
            print(f"{name:58}" + "".join(f"{value:16,.1f}" for value in values) + ratio, flush=True)


if __name__ == "__main__":
    main()
