#!/usr/bin/env python3
"""Makes random scripts with contexts, and follows each context as its client would.

    python3 bench/follow.py PROGRAM [--seed N] [--scripts N] [--ignore WORD]
    python3 bench/follow.py PROGRAM --compare OTHER [--seed N] [--scripts N]

A script has several users at several seats, datasets that inherit, access lists, contexts of all kinds, and changes. PROGRAM
(`acapd script`) is sent one line after the other. From the rows of each SEARCH that makes a context with NOTIFY, notices are
applied as docs/PROTOCOL.md says. Behind each UPDATECONTEXT the same SEARCH is sent without MAKECONTEXT, at the same seat: its
rows must be what is held then, in their order where the context is enumerated, and its MODTIME the one that was sent. SEARCHes
over the context must find the same. The first difference is shown, with a script of lines that it needs.

    --seed N       the seed of the first script (1); the next ones have N + 1 and so on
    --scripts N    how many (1,000)
    --compare OTHER  gives each whole script to both programs instead, and compares what they print, octet by octet, what
                     they report on standard error, and their statuses
    --ignore WORD  doesn't apply notices of this kind, ADDTO, REMOVEFROM or CHANGE: then a difference must be found
"""
import argparse
import collections
import random
import re
import subprocess
import sys

STRING = r'("(?:[^"\\]|\\.)*")'
ENTRY = re.compile(rf"ENTRY {STRING}(.*)")
NOTICE = re.compile(rf"\* (ADDTO|REMOVEFROM|CHANGE) {STRING} {STRING} (\d+)(?: (\d+))?(.*)")
TIME = re.compile(rf"\* MODTIME {STRING} {STRING}")
MAKES = re.compile(rf"SEARCH .*MAKECONTEXT (ENUMERATE )?(NOTIFY )?{STRING} .*")
ONCE = re.compile(rf"(?:MAKECONTEXT (?:ENUMERATE )?(?:NOTIFY )?{STRING}|HARDLIMIT \d+) ")
RETURN = re.compile(r"RETURN \((?:[^()]|\([^()]*\))*\)")


# ---- clients

def apply(rows, enumerated, word, name, old, new, data):
    """Applies a notice to what is held, a list of names and data. A CHANGE has two positions, others have one twice."""
    names = [held for held, _ in rows]
    if word != "ADDTO":
        at = old - 1 if enumerated else names.index(name)
        if at not in range(len(names)) or names.pop(at) != name:
            raise ValueError(f"{name} isn't held at {old}")
        del rows[at]
    if word != "REMOVEFROM":
        at = new - 1 if enumerated else 0
        if at not in range(len(names) + 1) or name in names:
            raise ValueError(f"{name} can't be put at {new}")
        rows.insert(at, (name, data))


class Context:
    """What a client holds of a context: its entries' names and data, and the time up to which all has been sent."""

    def __init__(self, text, is_ordered, rows):
        self.text, self.is_ordered, self.rows, self.time = text, is_ordered, list(rows), None

    def questions(self, name):
        """Commands, and the rows that each must find."""
        within = f"SEARCH {name} {RETURN.search(self.text)[0]} "
        yield ONCE.sub("", self.text), self.rows
        yield within + "ALL", self.rows
        if self.is_ordered:
            yield within + f"RANGE 2 4 {self.time}", self.rows[1:4]


class Follower:
    """The clients of a script: what is held at each seat."""

    def __init__(self, process, ignored, counts):
        self.process, self.ignored, self.counts, self.held, self.asked = process, ignored, counts, {}, 0

    def heed(self, seat, text):
        """Heeds a line without a tag."""
        notice, time = NOTICE.fullmatch(text), TIME.fullmatch(text)
        if time:
            self.held[seat, time[1]].time = time[2]
        elif notice and notice[1] != self.ignored:
            word, name, entry, old, new, data = notice.groups()
            context = self.held[seat, name]
            self.counts[word + " by position" * context.is_ordered] += 1
            if not context.is_ordered and {old, new or "0"} != {"0"}:
                raise ValueError("a position is sent without ENUMERATE")
            apply(context.rows, context.is_ordered, word, entry, int(old), int(new or old), data)
        elif text.startswith("* ALERT"):
            raise ValueError("a context is freed")

    def send(self, seat, text):
        """Sends a command. The rows that it finds, the time that is sent, and how it is completed."""
        self.asked += 1
        tag, rows, time = f"T{self.asked} ", [], None
        print("send", seat, tag + text, file=self.process.stdin, flush=True)
        for line in self.process.stdout:
            to, said = line[:-1].split(": ", 1)
            row = ENTRY.fullmatch(said.removeprefix(tag))
            if to != seat:
                raise EOFError(f"{line!r} is said where seat {seat} is to be answered")
            if not said.startswith(tag):
                self.heed(seat, said)
            elif row:
                rows.append(row.groups())
            elif said.startswith(tag + "MODTIME "):
                time = said[len(tag + "MODTIME "):]
            else:
                return rows, time, said[len(tag):]
        raise EOFError("the program has ended")

    def compare(self, seat, name):
        """Compares what a client holds with what it finds."""
        context = self.held[seat, name]
        order = list if context.is_ordered else sorted
        for text, wanted in context.questions(name):
            rows, time, answer = self.send(seat, text)
            if order(rows) != order(wanted) or time != context.time:
                raise ValueError(f"seat {seat} holds by {context.time}\n  {wanted}\nand finds by {time}, by {text}\n  {rows} {answer}")
        self.counts["compared"] += 1

    def command(self, seat, text):
        """Sends a command, and does what it means for the contexts that are held."""
        rows, _, answer = self.send(seat, text)
        word, made = text.split(" ")[0], MAKES.fullmatch(text)
        self.counts[f"{word} {answer[:2]}"] += 1
        if not answer.startswith("OK "):
            return
        if made and made[2]:
            self.held[seat, made[3]] = Context(text, bool(made[1]), rows)
        elif made:
            self.held.pop((seat, made[3]), None)
        for name in re.findall(STRING, text):
            if word == "FREECONTEXT":
                self.held.pop((seat, name), None)
            elif word == "UPDATECONTEXT":
                self.compare(seat, name)

    def line(self, line):
        """Does a line of a script. What has no completion is followed by a NOOP."""
        word, seat, *rest = line.split(" ", 2)
        if word == "send":
            self.command(seat, rest[0].split(" ", 1)[1])
            return
        print(line, file=self.process.stdin, flush=True)
        if word == "leave":
            self.held = {key: held for key, held in self.held.items() if key[0] != seat}
        elif word in ("enter", "drain"):
            self.send(seat, "NOOP")


def follow(asked, lines, counts):
    """The first difference, or None; and whether the program went on so far."""
    pipe = subprocess.PIPE
    words = [asked.program, "script"]
    process = subprocess.Popen(words, stdin=pipe, stdout=pipe, stderr=subprocess.STDOUT, text=True, encoding="utf-8")
    follower = Follower(process, asked.ignore, counts)
    try:
        for line in lines:
            follower.line(line)
        rest, _ = process.communicate()
        return (rest or process.returncode) and f"the program ends with {rest} and status {process.returncode}", False
    except (ValueError, KeyError, EOFError, BrokenPipeError) as fault:
        process.kill()
        process.wait()
        return f"{fault}\nat the line: {line}", isinstance(fault, (ValueError, KeyError))


def shortened(asked, lines):
    """These lines without any that a difference doesn't need."""
    at = len(lines)
    while at:
        at -= 1
        fewer = lines[:at] + lines[at + 1:]
        if follow(asked, fewer, collections.Counter())[1]:
            lines = fewer
    return lines


# ---- two programs

def output(program, script):
    """What a program prints and reports for a script, and its status."""
    done = subprocess.run([program, "script"], input=script, capture_output=True, timeout=60)
    return done.stdout, done.stderr, done.returncode


def differs(asked, lines):
    """Whether two programs differ over a script."""
    script = "".join(line + "\n" for line in lines).encode()
    return output(asked.program, script) != output(asked.compare, script)


def compare(asked):
    """Compares two programs over all scripts, and ends at the first difference."""
    count = 0
    for seed in range(asked.seed, asked.seed + asked.scripts):
        lines = list(Maker(seed).lines())
        if differs(asked, lines):
            for at in reversed(range(len(lines))):
                fewer = lines[:at] + lines[at + 1:]
                lines = fewer if differs(asked, fewer) else lines
            sys.exit(f"seed {seed}, shortened:\n" + "\n".join(lines))
        count += len(lines)
    print(f"{asked.scripts} scripts of {count} lines: both programs print and report the same, and end with the same status")


# ---- random scripts

SEATS = {"1": "joe", "2": "ann", "3": "bob", "4": "joe", "5": "root"}
OWNERS = {"/option/site/": "5", "/option/user/joe/": "145", "/option/user/joe/s/": "14", "/option/user/joe/s/t/": "1",
          "/option/user/ann/": "2", "/option/user/bob/": "3"}
ENTRIES = ["a", "b", "c", "d", "s", "t", "é", r'q\"']
VALUES = ["1", "2", "10", "a", "B", "ab", ""]
ITEMS = [f'"{value}"' for value in VALUES] + ["NIL", "NIL", "DEFAULT", '("value" ("1" "b"))', '("value" ())']
ORDERS = ["i;octet", "i;ascii-casemap", "i;ascii-numeric"]
NAMES = ['"v"', '"w"', '"x"']
METADATA = ["", "", "", ' ("value" "acl")', ' ("myrights")', ' ("attribute" "size")', ' ("acl")']
IDENTIFIERS = ["joe", "ann", "bob", "anyone", "group:crew", "-ann", "-group:crew"]


class Maker:
    """Makes a script."""

    def __init__(self, seed):
        self.random = random.Random(seed)
        self.pick = self.random.choice
        self.datasets = self.random.sample(list(OWNERS), 4)
        self.made = set()

    def some(self, text, part):
        """The text, in that part of all cases."""
        return text if self.random.random() < part else ""

    def attribute(self):
        return self.pick(["k", "k", "k", "l", "l", "entry", "modtime"])

    def written(self, dataset, text):
        """A command at a seat that may write there, most often."""
        return self.pick(self.some("12345", 0.05) or OWNERS[dataset]), text

    def entry(self, path):
        if self.some("ended", 0.2):
            return f'("{path}" "entry" {self.pick(["NIL", "NIL", "DEFAULT"])})'
        items = " ".join(f'"{name}" {self.pick(ITEMS)}' for name in self.random.sample("kln", self.pick([1, 1, 2])))
        return f'("{path}" {items})'

    def store(self, dataset=None):
        dataset = dataset or self.pick(self.datasets)
        names = self.random.sample(ENTRIES, self.pick([1, 1, 2, 4]))
        return self.written(dataset, "STORE " + " ".join(self.entry(dataset + name) for name in names))

    def inherit(self):
        dataset, base = self.random.sample(self.datasets, 2)
        base = self.pick(["NIL", "DEFAULT"] + [f'"{base}"'] * 6)
        return self.written(dataset, f'STORE ("{dataset}" "dataset.inherit" {base})')

    def rights(self):
        dataset, who = self.pick(self.datasets), self.pick(IDENTIFIERS)
        inner = self.some(f' "{self.pick(["k", "l", "entry"])}"' + self.some(f' "{self.pick(ENTRIES)}"', 0.5), 0.7)
        given = f'SETACL ("{dataset}"{inner}) "{who}" "{self.pick(["r", "r", "r", "rx", "x", "rw", ""])}"'
        taken = f'DELETEACL ("{dataset}"{inner})' + self.some(f' "{who}"', 0.7)
        return self.written(dataset, self.some(taken, 0.3) or given)

    def key(self, depth=0):
        word = self.pick(["ALL"] * 4 + ["NOT", "AND", "OR", "EQUAL", "COMPARE", "COMPARESTRICT", "PREFIX", "SUBSTRING"])
        if word in ("NOT", "AND", "OR"):
            return " ".join([word] + [self.key(depth + 1) for _ in range(1 if word == "NOT" else 2)])
        if word == "ALL":
            return word
        order = self.some("-", 0.5) * word.startswith("COMPARE") + self.pick(ORDERS[:2] if word in ("PREFIX", "SUBSTRING") else ORDERS)
        value = self.some("NIL", 0.4 * (word == "EQUAL")) or f'"{self.pick(VALUES)}"'
        return f'{word} "{self.attribute()}" "{order}" {value}'

    def make(self):
        """A SEARCH that makes a context."""
        seat, name, notify = self.pick(list(SEATS)), self.pick(NAMES), self.some("NOTIFY ", 0.9)
        if notify:
            self.made.add((seat, name))
        items = [f'"{self.pick([self.attribute(), "n", "*", "k*"])}"{self.pick(METADATA)}' for _ in range(self.pick([1, 2, 3]))]
        orders = [f'"{self.attribute()}" "{self.some("-", 0.5)}{self.pick(ORDERS)}"' for _ in range(self.pick([1, 1, 2]))]
        return seat, (
            f'SEARCH "{self.pick(self.datasets)}" ' + self.some(f"DEPTH {self.random.randrange(4)} ", 0.3)
            + self.some("NOINHERIT ", 0.1) + self.some(f"HARDLIMIT {self.pick([2, 6])} ", 0.1)
            + "MAKECONTEXT " + self.some("ENUMERATE ", 0.7) + notify + f"{name} RETURN ({' '.join(items)}) "
            + self.some(f"SORT ({' '.join(orders)}) ", 0.6) + self.key())

    def other(self):
        """A command over contexts, most often over one that there is."""
        seat, name = self.pick(sorted(self.made | {("1", '"v"')}))
        return seat, self.some(f"FREECONTEXT {name}", 0.05) or f"UPDATECONTEXT {name}" + self.some(" " + self.pick(NAMES), 0.2)

    def commands(self):
        """Seats and commands."""
        yield from (self.store(dataset) for dataset in self.datasets)
        body = self.random.choices([self.store, self.rights, self.inherit, self.make, self.other], [12, 4, 2, 3, 8], k=40)
        for kind in [self.inherit] * 3 + [self.rights] * 4 + [self.make] * 5 + body:
            yield kind()
        yield from ((seat, f"UPDATECONTEXT {name}") for seat, name in sorted(self.made))

    def lines(self):
        yield from ["admin root", "group crew ann", "group crew bob"]
        yield from (f"enter {seat} {user}" for seat, user in SEATS.items())
        for number, (seat, text) in enumerate(self.commands()):
            yield f"send {seat} A{number} {text}"
            if self.some("drain", 0.15):
                yield f"drain {self.pick(list(SEATS))}"
            if self.some("leave", 0.01):
                yield from [f"leave {seat}", f"enter {seat} {SEATS[seat]}"]


def main():
    words = argparse.ArgumentParser()
    words.add_argument("program")
    words.add_argument("--seed", type=int, default=1)
    words.add_argument("--scripts", type=int, default=1000)
    words.add_argument("--compare", metavar="OTHER")
    words.add_argument("--ignore", choices=["ADDTO", "REMOVEFROM", "CHANGE"])
    asked, counts = words.parse_args(), collections.Counter()
    if asked.compare:
        return compare(asked)
    for seed in range(asked.seed, asked.seed + asked.scripts):
        lines = list(Maker(seed).lines())
        if follow(asked, lines, counts)[0]:
            lines = shortened(asked, lines)
            sys.exit(f"seed {seed}, shortened:\n" + "\n".join(lines) + f"\n{follow(asked, lines, counts)[0]}")
    print(f"{asked.scripts} scripts without a difference: " + ", ".join(f"{word} {count}" for word, count in sorted(counts.items())))


if __name__ == "__main__":
    main()
