#!/usr/bin/env python3
"""Measures `acapd pipe`: processor time and memory of an operation, and allocations where a C compiler is at hand.

    python3 bench/bench.py PROGRAM [OTHER]
    python3 bench/bench.py PROGRAM [OTHER] --contexts

Each input is made here and read from a file; what is printed is thrown away. A line has the time of one operation (user
and system, the least of the rounds, less that of the input's preparation alone), of both programs where two are given, and
the ratio of the first to the second. With two programs their outputs are compared octet by octet as well.

With --contexts the rows of contexts are measured instead. A line has how often the operation takes what another takes, in
instructions where valgrind is at hand and in time, and the bound that is to be kept. After these come commands that hold
everybody up, in milliseconds of processor time. S is a STORE of one item of an existing entry, at as many entries, without
any context: in time that of the same run, in instructions 17,437, which it took when the bounds were set (22,045 by a
script). OTHER, of before contexts were served, has a row of S alone.

    --rounds N     how many rounds each input is run (5)
    --only WORD    only the inputs whose names have the word
    --no-compare   doesn't compare outputs
    --contexts     the rows of contexts
    --large        of these also the rows at 60,000 entries, which take minutes
"""
import argparse
import filecmp
import os
import random
import re
import shutil
import subprocess
import sys
import tempfile
import typing

USER = "joe"

# Instructions of a STORE of one item, through a pipe and by a script, when the bounds of the rows of contexts were set: the unit S of
# what is counted. In time it is such a STORE of the same run.
STORE_COUNTS = {"S": 17_437, "S a notice": 17_437, "S by a script": 22_045}
PIPE, SCRIPT = ("pipe", USER), ("script",)


# ---- inputs: a name, a unit, what is prepared, what is measured, and how many operations that is

def lines(texts):
    return "".join(f"A{i} {text}\r\n" for i, text in enumerate(texts)).encode("latin-1")


def entry(name, items):
    given = " ".join(f'"{attribute}" "{value}"' for attribute, value in items)
    return f'("/option/~/{name}" {given})'


def one(name, value="x"):
    return "STORE " + entry(name, [("option.value", value)])


def ten(name, salt):
    return "STORE " + entry(name, [(f"option.a{i}", f"{salt}{i}") for i in range(10)])


def filled(count, attributes=1, length=8):
    """STOREs of this many entries, many to a command."""
    items = lambda k: [(f"option.a{i}", f"{k:0{length}}") for i in range(attributes)]
    entries = [entry(f"e{k:06}", items(k)) for k in range(count)]
    step = max(1, 6000 // len(entries[0]))
    return lines("STORE " + " ".join(entries[i:i + step]) for i in range(0, count, step))


def line_of(piece, total=8000):
    begin = "B FROB"
    return (begin + piece * ((total - len(begin)) // len(piece)) + "\r\n").encode("latin-1")


def literals(count, length):
    return ("B FROB" + f" {{{length}+}}\r\n{'a' * length}" * count + "\r\n").encode("latin-1")


def with_lists(dataset, lists, strings):
    """STOREs of this many lists of rights for attributes of a dataset, three to a command."""
    rights = " ".join(f'"u{k:03}\tr"' for k in range(strings))
    one_list = lambda k: f'"dataset.acl.o{k:03}" ("value" ({rights}))'
    return lines(f'STORE ("{dataset}" ' + " ".join(map(one_list, range(k, min(k + 3, lists)))) + ")" for k in range(0, lists, 3))


def by_turns(datasets, count, salt):
    return "STORE " + " ".join(f'("{datasets[k % len(datasets)]}e{k}" "o" "{salt}")' for k in range(count))


def deleted(names):
    """So many entries, made and then deleted in the order of their names that is given."""
    ended = [f'("/option/~/e{k:06}" "entry" NIL)' for k in names]
    return filled(len(names)) + lines("STORE " + " ".join(ended[i:i + 128]) for i in range(0, len(ended), 128))


def inputs():
    shuffled = random.Random(1)
    yield "NOOP", "us", b"", lines(["NOOP"] * 200_000), 200_000
    yield "STORE of one item, existing entry", "us", lines([one("e")]), lines(one("e", f"v{i % 10}") for i in range(50_000)), 50_000
    for count in (10_000, 60_000):
        yield f"STORE of one item, {count} ascending", "us", b"", lines(one(f"e{i:06}") for i in range(count)), count
    for count in (10_000, 60_000):
        order = list(range(count))
        shuffled.shuffle(order)
        yield f"STORE of one item, {count} in random order", "us", b"", lines(one(f"e{i:06}") for i in order), count
    yield "STORE of ten items, existing entry", "us", lines([ten("e", "v")]), lines(ten("e", f"v{i % 10}") for i in range(20_000)), 20_000
    yield "STORE of ten items, new entries", "us", b"", lines(ten(f"e{i:06}", "v") for i in range(20_000)), 20_000
    yield "STORE of 256 new paths", "us", b"", lines("STORE " + " ".join(entry(f"e{256 * k + i:06}", [("a", "b")]) for i in range(256)) for k in range(40)), 256 * 40
    long = "x" * 1000
    yield "STORE of 1,000 octets, quoted", "us", lines([one("e")]), lines(one("e", long) for _ in range(20_000)), 20_000
    literal = 'STORE ("/option/~/e" "option.value" {1000+}\r\n' + long + ")"
    yield "STORE of 1,000 octets, literal", "us", lines([one("e")]), lines([literal] * 20_000), 20_000
    search = lambda n: 'SEARCH "/option/~/" RETURN (' + " ".join(f'"option.a{i}"' for i in range(n)) + ") ALL"
    for count in (1, 5):
        yield f"SEARCH of 10,000 entries, {count} attributes", "us", filled(10_000, count), lines([search(count)] * 40), 40
    yield "SEARCH of 60,000 entries, 1 attributes", "us", filled(60_000), lines([search(1)] * 10), 10
    sorted_by = 'SEARCH "/option/~/" RETURN ("option.a0") SORT ("option.a0" "-i;ascii-numeric") ALL'
    yield "SEARCH of 10,000 entries, SORT by a number", "us", filled(10_000, 1), lines([sorted_by] * 20), 20
    items = " ".join(['"option.a0"'] * 256)
    for name, order in (("", ""), (", SORT", 'SORT ("option.a0" "-i;octet") ')):
        limited = f'SEARCH "/option/~/" LIMIT 1 1 {order}RETURN ({items}) ALL'
        yield f"SEARCH of 10,000 entries, LIMIT 1 1, 256 items{name}", "us", filled(10_000), lines([limited] * 4), 4
    keyed = 'SEARCH "/option/~/" RETURN ("option.a0") AND COMPARE "option.a0" "i;octet" "0" PREFIX "option.a1" "i;octet" "0"'
    yield "SEARCH of 10,000 entries, key over two attributes", "us", filled(10_000, 2), lines([keyed] * 20), 20
    listed = lines(['SETACL ("/option/~/" "option.a0") "joe" "rwxia"'])
    yield "SEARCH of 10,000 entries, the attribute has a list", "us", filled(10_000) + listed, lines([search(1)] * 20), 20
    heir = lines(['STORE ("/c/~/" "dataset.inherit" "/option/user/joe/")'])
    of_heir = 'SEARCH "/c/~/" RETURN ("option.a0") ALL'
    yield "SEARCH of 10,000 entries, all inherited", "us", filled(10_000, 1) + heir, lines([of_heir] * 20), 20
    named = lambda dataset, name: f'SEARCH "{dataset}" RETURN ("option.a0") EQUAL "entry" "i;octet" "{name}"'
    for count in (1_000, 10_000, 60_000):
        asked = lines(named("/option/~/", f"e{shuffled.randrange(count):06}") for _ in range(20_000))
        yield f"SEARCH of one by its name among {count:,}", "us", filled(count), asked, 20_000
    asked = lines(named("/c/~/", f"e{shuffled.randrange(10_000):06}") for _ in range(200))
    yield "SEARCH of one by its name among 10,000, all inherited", "us", filled(10_000, 1) + heir, asked, 200
    turns = ["/a/~/", "/b/~/"]
    lists_of_both = b"".join(with_lists(it, 200, 200) for it in turns)
    yield "STORE of 200 in two datasets by turns, 200 lists of 200", "ms", lists_of_both, lines(by_turns(turns, 200, k) for k in range(10)), 10
    yield "STORE of 200 in one dataset, 200 lists of 200", "ms", lists_of_both, lines(by_turns(turns[:1], 200, k) for k in range(10)), 10
    names = list(range(4096))
    since = lines(['DELETEDSINCE "/option/~/" "19700101000000"'] * 40)
    yield "DELETEDSINCE of 4,096, deleted in order", "ms", deleted(names), since, 40
    shuffled.shuffle(names)
    yield "DELETEDSINCE of 4,096, deleted in any order", "ms", deleted(names), since, 40
    deep = lines(['SEARCH "/heirs/~/" DEPTH 0 RETURN ("option.a0") EQUAL "option.a0" "i;octet" "none"'] * 2)
    yield "SEARCH with DEPTH, 400 heirs of 2,000", "ms", filled(2000, 1) + heirs("/option/user/joe/", 400), deep, 2
    yield "SEARCH of 2,000 rows of 1,000 octets", "us", filled(2000, 1, 1000), lines([search(1)] * 80), 80
    for name, octets in (
        ("short tokens", line_of(" ab (cd ef) ghi") * 2500),
        ("strings of 1,000 octets, quoted", line_of(' "' + "abcdefghi " * 100 + '"') * 5000),
        ("strings of 1,000 octets, an escape in twenty", line_of(' "' + 'abcdefghi abcdefgh\\"' * 50 + '"') * 2500),
        ("strings of 1,000 octets, literals", literals(7, 1000) * 5000),
    ):
        yield f"octets of {name}", "ns", b"", octets, len(octets)


def memory_inputs():
    """A name, an input and one with more entries, if that is what is measured, and how many more."""
    single = lambda numbers: lines(one(f"e{i:06}", "value") for i in numbers)
    yield "octets an entry, the second 30,000 of 60,000, one attribute", single(range(30_000)), single(range(60_000)), 30_000
    yield "octets an entry, the second 10,000 of 20,000, ten attributes", filled(10_000, 10), filled(20_000, 10), 10_000
    search = lines(['SEARCH "/option/~/" RETURN ("option.a0") ALL'] * 100)
    yield "peak octets, 100 SEARCHes of 10,000 entries at once", None, filled(10_000, 1) + search, 1


def allocation_inputs():
    yield "allocations a NOOP", lines(["NOOP"]), 1000
    yield "allocations a STORE of one item, existing entry", lines([one("e", "v")]), 1000
    yield "allocations a STORE of ten items, existing entry", lines([ten("e", "v")]), 1000


# ---- rows of contexts: a name, what is measured, what it is measured beside, and its bounds

class Work(typing.NamedTuple):
    """What is measured, after what is prepared, and how many operations that is."""
    words: tuple
    prepared: bytes
    measured: bytes
    count: int


DATASET = "/option/~/"
NUMBERED = 'SORT ("option.a0" "+i;ascii-numeric") '


def search(of=DATASET, more=""):
    return f'SEARCH "{of}" {more}RETURN ("option.a0") ALL'


def make(name, dataset=DATASET, more="", enumerate_="ENUMERATE "):
    return search(dataset, f'MAKECONTEXT {enumerate_}NOTIFY "{name}" {more}')


def update(names):
    return "UPDATECONTEXT " + " ".join(f'"{it}"' for it in names)


def changes(count, entries):
    """STOREs of a shown value, each to any of the entries. By their numbers they come to stand anywhere."""
    mixed = random.Random(2)
    any_of = lambda: mixed.randrange(entries)
    return ["STORE " + entry(f"e{any_of():06}", [("option.a0", f"{any_of():08}")]) for _ in range(count)]


def with_updates(texts, names, step=100):
    """An UPDATECONTEXT of all after every few, since a context with more than 4,096 waiting notices is freed."""
    for i in range(0, len(texts), step):
        yield from texts[i:i + step]
        yield update(names)


def sent(seat, octets):
    """The same lines as a script has them."""
    return b"".join(b"send %d %s\n" % (seat, line) for line in octets.splitlines())


def plain(entries):
    """S."""
    return Work(PIPE, filled(entries), lines(changes(10_000, entries)), 10_000)


def watched(entries, more="", count=2000):
    names = [f"c{k}" for k in range(20)]
    prepared = filled(entries) + lines(make(it, more=more) for it in names)
    return Work(PIPE, prepared, lines(with_updates(changes(count, entries), names)), count)


def watched_growth(entries):
    """From an empty dataset to this many entries, in random order."""
    names, order = [f"c{k}" for k in range(20)], list(range(entries))
    random.Random(1).shuffle(order)
    stores = ["STORE " + entry(f"e{k:06}", [("option.a0", f"{k:08}")]) for k in order]
    prepared = lines([f'STORE ("{DATASET}" "option.a0" "0")']) + lines(make(it) for it in names)
    return Work(PIPE, prepared, lines(with_updates(stores, names)), entries)


def inherited(entries):
    """50 datasets inherit one, and 50 notices are sent of each STORE to it."""
    numbers = range(50)
    inherit = lines(f'STORE ("/c{k}/~/" "dataset.inherit" "{DATASET}")' for k in numbers)
    contexts = lines(make(f"c{k}", f"/c{k}/~/") for k in numbers)
    stores = with_updates(changes(1000, entries), [f"c{k}" for k in numbers], 50)
    return Work(PIPE, filled(entries) + inherit + contexts, lines(stores), 1000)


def beside_others(entries, contexts):
    """By a script: some of 310 datasets have a context, at two seats, and a third seat stores to another dataset."""
    prepared = b"".join(b"enter %d joe\n" % seat for seat in range(3)) + sent(0, filled(entries))
    prepared += sent(0, lines(f'STORE ("/c{k}/~/e" "option.a0" "1")' for k in range(310)))
    for k in range(contexts):
        prepared += sent(1 + k % 2, lines([make(f"c{k}", f"/c{k}/~/")]))
    return Work(SCRIPT, prepared, sent(0, lines(changes(5000, entries))), 5000)


def heirs(base, count):
    return lines(f'STORE ("/heirs/~/h{k:05}/" "dataset.inherit" "{base}")' for k in range(count))


def beside_heirs():
    """By a script: 8,000 datasets inherit one, eight seats have 1,600 contexts of datasets with names alike, and a ninth stores to the one."""
    prepared = b"".join(b"enter %d joe\n" % seat for seat in range(9)) + sent(0, lines([one("e")]) + heirs(DATASET, 8000))
    prepared += sent(0, lines(f'STORE ("/heirs/~/x{k:05}/e" "option.a0" "1")' for k in range(1600)))
    for k in range(1600):
        prepared += sent(1 + k % 8, lines([make(f"c{k}", f"/heirs/~/x{k:05}/")]))
    return Work(SCRIPT, prepared, sent(0, lines(one("e", f"v{i}") for i in range(100))), 100)


def beside_depth():
    """2,000 datasets inherit one, 20 contexts look at all levels beneath another one, and a value of the one is stored."""
    other = lines(['STORE ("/vendor/~/e" "option.a0" "1")'])
    contexts = lines(make(f"c{k}", "/vendor/~/", "DEPTH 0 ") for k in range(20))
    stores = lines(one("e", f"v{i}") for i in range(100))
    return Work(PIPE, lines([one("e")]) + heirs(DATASET, 2000) + other + contexts, stores, 100)


def rights_changed():
    """A list of rights of a dataset of 10,000 entries that 20 contexts look at."""
    contexts = lines(make(f"c{k}") for k in range(20))
    lists = lines(f'SETACL ("{DATASET}") "u{i}" "r"' for i in range(4))
    return Work(PIPE, filled(10_000) + contexts, lists, 4)


def time_rows():
    """Commands that hold everybody up: what is measured, and the bound in milliseconds of processor time."""
    yield "STORE, 8,000 heirs, 1,600 contexts elsewhere", beside_heirs(), 0.5
    yield "STORE to a base, 2,000 heirs, 20 with DEPTH elsewhere", beside_depth(), 1.5
    yield "SETACL on 10,000 that 20 contexts look at", rights_changed(), 250


def store_rows():
    stored = plain(10_000)
    yield "STORE of a shown value, 20 contexts", watched(10_000), stored, [("S", 1, 14), ("S a notice", 20, 0.7)]
    yield "the same, SORT by a number", watched(10_000, NUMBERED), stored, [("S", 1, 28)]
    yield "STORE of new entries, 20 contexts", watched_growth(10_000), stored, [("S", 1, 11)]
    yield "STORE to what 50 datasets inherit, 1,000 entries", inherited(1000), plain(1000), [("S", 1, 36)]
    yield "STORE beside 310 contexts of other datasets", beside_others(10_000, 310), beside_others(10_000, 0), [("S by a script", 1, 1.3)]


def size_rows(large):
    sizes = [(10_000, 1000, 2.2)] + ([(60_000, 10_000, 1.6)] if large else [])
    for many, few, bound in sizes:
        for name, more in (("20 contexts", ""), ("20 with SORT", NUMBERED)):
            yield f"STORE, {name}, {many:,} entries", watched(many, more), watched(few, more), [(f"of {few:,}", 1, bound)]


def quiet_rows():
    """Nothing waits in the context."""
    prepared = filled(10_000) + lines([make("c")])
    noop, asked, count = lines(["NOOP"] * 20_000), lines([f'MYRIGHTS ("{DATASET}")'] * 20_000), 20_000
    works = (Work(PIPE, prepared, measured, count) for measured in (lines([update("c")] * count), asked))
    yield "UPDATECONTEXT, nothing waits", *works, [("MYRIGHTS", 1, 1.3)]
    prepared = b"enter 1 joe\n" + sent(1, prepared)
    yield "drain, nothing waits", Work(SCRIPT, prepared, b"drain 1\n" * count, count), Work(SCRIPT, prepared, sent(1, noop), count), [("NOOPs", 1, 2)]


def search_rows():
    searched = Work(PIPE, filled(10_000), lines([search()] * 10), 10)
    for name, more in (("MAKECONTEXT NOTIFY", ""), ("MAKECONTEXT ENUMERATE NOTIFY", "ENUMERATE ")):
        made = lines(make(f"c{k}", enumerate_=more) for k in range(10))
        yield f"{name} of 10,000", searched._replace(measured=made), searched, [("SEARCHes", 1, 1.6)]
    for name, waiting, bound in (("nothing", 0, 1.2), ("4,096 notices", 4096, 4)):
        prepared = filled(10_000) + lines([make("c")]) + lines(changes(waiting, 10_000))
        over = Work(PIPE, prepared, lines([search("c")] * 10), 10)
        yield f"SEARCH over a context of 10,000, {name} waiting", over, over._replace(measured=searched.measured), [("SEARCHes", 1, bound)]


def context_rows(large):
    yield from store_rows()
    yield from size_rows(large)
    yield from search_rows()
    yield from quiet_rows()


# ---- runs

def run(program, file, out=os.devnull, words=PIPE, **env):
    """Processor seconds of one run."""
    with open(file, "rb") as given, open(out, "wb") as taken:
        child = subprocess.Popen([program, *words], stdin=given, stdout=taken, env={**os.environ, **env})
        _, status, used = os.wait4(child.pid, 0)
        child.returncode = os.waitstatus_to_exitcode(status)
    if child.returncode:
        sys.exit(f"{program} ended with status {child.returncode} on {file}")
    return used.ru_utime + used.ru_stime


# What a run takes is read off the memory that its parent had, so a small parent is needed.
PEAK = """
import os, sys
program, user, file = sys.argv[1:]
given = (os.POSIX_SPAWN_OPEN, 0, file, os.O_RDONLY, 0)
taken = (os.POSIX_SPAWN_OPEN, 1, os.devnull, os.O_WRONLY, 0)
child = os.posix_spawn(program, [program, "pipe", user], os.environ, file_actions=[given, taken])
print(os.wait4(child, 0)[2].ru_maxrss * 1024)
"""


def peak(program, octets, folder):
    """The most memory of one run, in octets."""
    file = f"{folder}/peak_in"
    with open(file, "wb") as it:
        it.write(octets)
    words = [sys.executable, "-S", "-c", PEAK, program, USER, file]
    done = subprocess.run(words, stdout=subprocess.PIPE, check=True)
    return int(done.stdout)


def least(programs, files, rounds, words=PIPE):
    """The least time of each program on each file, all of them in turn in each round."""
    times = [[float("inf")] * len(files) for _ in programs]
    for _ in range(rounds):
        for i, program in enumerate(programs):
            for j, file in enumerate(files):
                times[i][j] = min(times[i][j], run(program, file, words=words))
    return times


def instructions(program, words, file):
    """The instructions of one run."""
    valgrind = ["valgrind", "--tool=cachegrind", "--cache-sim=no", "--cachegrind-out-file=/dev/null", program, *words]
    with open(file, "rb") as given:
        done = subprocess.run(valgrind, stdin=given, stdout=subprocess.DEVNULL, stderr=subprocess.PIPE, check=False)
    found = re.search(rb"I +refs: +([0-9,]+)", done.stderr)
    if done.returncode or not found:
        sys.exit(f"{program} {' '.join(words)} ended with status {done.returncode}: {done.stderr.decode()[-300:]}")
    return int(found.group(1).replace(b",", b""))


REFUSED = re.compile(rb"^(?:\d+: )?(?:\S+ (?:NO|BAD)|\* (?:ALERT|BYE)) .*", re.MULTILINE)


def check_answers(program, words, file, folder):
    out = f"{folder}/answers"
    run(program, file, out, words)
    with open(out, "rb") as it:
        refused = REFUSED.search(it.read())
    if refused:
        sys.exit(f"{program} refuses what is measured: {refused.group().decode()}")


class Bench:
    """Measures works with one program or two."""

    def __init__(self, programs, folder, rounds):
        self.programs, self.folder, self.rounds = programs, folder, rounds
        self.counts = {}
        self.has_valgrind = shutil.which("valgrind") is not None

    def files(self, works):
        """Of each work a file of what is prepared, and one with what is measured as well."""
        files = []
        for i, work in enumerate(works):
            for name, octets in (("ready", work.prepared), ("whole", work.prepared + work.measured)):
                files.append(f"{self.folder}/{name}{i}")
                with open(files[-1], "wb") as it:
                    it.write(octets)
        return files

    def counted(self, program, words, file):
        with open(file, "rb") as it:
            key = program, words, it.read()
        if key not in self.counts:
            self.counts[key] = instructions(*key[:2], file)
        return self.counts[key]

    def costs(self, works):
        """Of each program and each work: instructions and seconds of one operation."""
        files, words = self.files(works), works[0].words
        for program in self.programs:
            for file in files[1::2]:
                check_answers(program, words, file, self.folder)
        times = least(self.programs, files, self.rounds, words)
        counts = [[self.counted(it, words, file) for file in files] if self.has_valgrind else None for it in self.programs]
        each = lambda of: [(of[2 * i + 1] - of[2 * i]) / work.count for i, work in enumerate(works)]
        return [each(it) if it else None for it in counts], [each(it) for it in times]


def shown_bound(name, by_count, by_time, unit, bound):
    """How often it is what it stands beside, by both measures, and whether the bound is kept."""
    kept = [it <= bound for it in (by_time if by_count is None else by_count, by_time)]
    verdict = {(True, True): "met", (False, False): "not met"}.get(tuple(kept), "met as counted" if kept[0] else "met in time")
    count = f"{'-':>10}" if by_count is None else f"{by_count:10.2f}"
    print(f"{name:58}{count}{by_time:10.2f} {unit:12}{bound:8,} {verdict}", flush=True)


def measure_context_rows(programs, folder, given):
    one_program, all_programs = (Bench(it, folder, given.rounds) for it in (programs[:1], programs))
    print(f"{'':58}{'counted':>10}{'time':>10} {'':12}{'at most':>8}", flush=True)
    for name, work, beside, bounds in context_rows(given.large):
        if given.only not in name:
            continue
        (counts,), (times,) = one_program.costs([work, beside])
        for unit, parts, bound in bounds:
            one = counts and STORE_COUNTS.get(unit, counts[1])
            shown_bound(name, counts and counts[0] / one / parts, times[0] / times[1] / parts, unit, bound)
        microseconds = " and ".join(f"{it * 1e6:,.2f} us" for it in times)
        instructions = " and ".join(f"{it:,.0f}" for it in counts) + " instructions, " if counts else ""
        print(f"    {instructions}{microseconds}", flush=True)
    for name, work, bound in time_rows():
        if given.only in name:
            (counts,), (times,) = one_program.costs([work])
            shown_bound(name, None, times[0] * 1e3, "ms", bound)
            if counts:
                print(f"    {counts[0]:,.0f} instructions", flush=True)
    name = "STORE without contexts, beside the other program"
    if len(programs) == 2 and given.only in name:
        counts, times = all_programs.costs([plain(10_000)])
        shown_bound(name, counts[0] and counts[0][0] / counts[1][0], times[0][0] / times[1][0], "S", 1.05)
    measure_context_memory(programs[0], folder, given.only)
    measure_rights_memory(programs[0], folder, given.only)


def measure_context_memory(program, folder, only):
    """Ten contexts more over the same entries: what a SEARCH takes for a while doesn't count."""
    name = "octets an entry in a live context, one attribute"
    if only not in name:
        return
    few, many = (filled(10_000) + lines(make(f"c{k}") for k in range(count)) for count in (1, 11))
    octets = (peak(program, many, folder) - peak(program, few, folder)) / 100_000
    shown_bound(name, None, octets, "octets", 320)


def measure_rights_memory(program, folder, only):
    """What a change of rights takes for a while, beside the same without one."""
    name = "octets an entry and context, SETACL"
    if only not in name:
        return
    work = rights_changed()
    octets = (peak(program, work.prepared + work.measured, folder) - peak(program, work.prepared, folder)) / 200_000
    shown_bound(name, None, octets, "octets", 150)


def shown(name, values, unit, digits=3):
    ratio = f"{values[0] / values[1]:8.2f}" if len(values) == 2 and values[1] else ""
    print(f"{name:58}" + "".join(f"{value:14,.{digits}f}" for value in values) + f" {unit:6}" + ratio, flush=True)


COUNTER = r"""
#define _GNU_SOURCE
#include <dlfcn.h>
#include <stdio.h>
#include <stdlib.h>
#include <sys/syscall.h>
#include <unistd.h>
static unsigned long taken, grown;
static void *(*real_malloc)(size_t), *(*real_realloc)(void *, size_t), *(*real_calloc)(size_t, size_t);
static int (*real_align)(void **, size_t, size_t);
static void *(*real_aligned)(size_t, size_t);
#define REAL(x, name) if (!x) x = dlsym(RTLD_NEXT, name)
void *malloc(size_t n) { REAL(real_malloc, "malloc"); taken++; return real_malloc(n); }
void *realloc(void *p, size_t n) { REAL(real_realloc, "realloc"); if (p) grown++; else taken++; return real_realloc(p, n); }
int posix_memalign(void **p, size_t a, size_t n) { REAL(real_align, "posix_memalign"); taken++; return real_align(p, a, n); }
void *aligned_alloc(size_t a, size_t n) { REAL(real_aligned, "aligned_alloc"); taken++; return real_aligned(a, n); }
__attribute__((destructor)) static void report(void) {
    FILE *to = fopen(getenv("COUNTED"), "w");
    if (to) { fprintf(to, "%lu %lu", taken, grown); fclose(to); }
}
/* a program that may start threads ends by this call, which runs no destructor */
void _exit(int status) {
    report();
    syscall(SYS_exit_group, status);
    __builtin_unreachable();
}
"""


def counted(program, counter, octets, folder):
    file, counted = f"{folder}/counted_in", f"{folder}/counted_out"
    with open(file, "wb") as it:
        it.write(octets)
    run(program, file, LD_PRELOAD=counter, COUNTED=counted)
    with open(counted, encoding="ascii") as it:
        return [int(word) for word in it.read().split()]


def count_allocations(programs, folder):
    compiler = shutil.which("cc") or shutil.which("gcc") or shutil.which("clang")
    if not compiler:
        print("allocations: not counted, since no C compiler is at hand")
        return
    source, counter = f"{folder}/counter.c", f"{folder}/counter.so"
    with open(source, "w", encoding="ascii") as it:
        it.write(COUNTER)
    subprocess.run([compiler, "-O1", "-shared", "-fPIC", "-o", counter, source, "-ldl"], check=True)
    for name, octets, count in allocation_inputs():
        sums = [[], []]
        for program in programs:
            few = counted(program, counter, octets * 100, folder)
            many = counted(program, counter, octets * (100 + count), folder)
            for k in (0, 1):
                sums[k].append((many[k] - few[k]) / count)
        shown(name, sums[0], "taken", 2)
        shown("", sums[1], "grown", 2)


def main():
    words = argparse.ArgumentParser(description=__doc__, formatter_class=argparse.RawDescriptionHelpFormatter)
    words.add_argument("programs", nargs="+")
    words.add_argument("--rounds", type=int, default=5)
    words.add_argument("--only", default="")
    for flag in ("--no-compare", "--contexts", "--large"):
        words.add_argument(flag, action="store_true")
    given = words.parse_args()
    programs = [os.path.abspath(it) for it in given.programs]
    with tempfile.TemporaryDirectory(prefix="acapd-bench-") as folder:
        if given.contexts:
            return measure_context_rows(programs, folder, given)
        ready, whole, nothing = (f"{folder}/{it}" for it in ("ready", "whole", "nothing"))
        open(nothing, "wb").close()
        for name, unit, prepared, measured, count in inputs():
            if given.only not in name:
                continue
            with open(ready, "wb") as it:
                it.write(prepared)
            with open(whole, "wb") as it:
                it.write(prepared + measured)
            if len(programs) == 2 and not given.no_compare:
                outs = [f"{folder}/out{i}" for i in (0, 1)]
                for program, out in zip(programs, outs):
                    run(program, whole, out)
                if not filecmp.cmp(*outs, shallow=False):
                    print(f"{name}: the programs print other octets")
            times = least(programs, [ready, whole], given.rounds)
            scale = {"ms": 1e3, "us": 1e6, "ns": 1e9}[unit]
            shown(name, [(all_ - before) * scale / count for before, all_ in times], unit)
        for name, few, many, count in memory_inputs():
            if given.only not in name:
                continue
            peaks = [peak(it, many, folder) - (peak(it, few, folder) if few else 0) for it in programs]
            shown(name, [it / count for it in peaks], "octets", 0)
        if given.only in "allocations":
            count_allocations(programs, folder)


if __name__ == "__main__":
    main()
