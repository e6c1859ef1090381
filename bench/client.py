#!/usr/bin/env python3
"""Runs `acapc` against an `acapd serve` of its own over 127.0.0.1, and against servers that break off, and checks what it prints.

    python3 bench/client.py ACAPC ACAPD [CHECK..]

ACAPC and ACAPD are the two programs. Each check is named on a line, and at the first difference it ends with status 1. CHECK is part of the
name of a check: then those alone are done. It ends only programs that it started.
"""
import os
import pathlib
import random
import re
import signal
import socket
import subprocess
import sys
import tempfile
import threading
import time

from serve import SEATS, USERS, Server, answer, done, found, free_port, same, settings_file, string

SECONDS = 60  # that a check may take
EVERY = bytes(range(256))
CHECKS = []


def check(name):
    """Names a check."""
    def add(function):
        CHECKS.append((name, function))
        return function
    return add


def escaped(value):
    """Octets as they are printed."""
    return re.sub(rb"[^ -\[\]-~]", lambda octet: b"\\x%02x" % octet[0][0], value)


# ---- calls

class Caller:
    """Who calls a client, and at which server."""

    def __init__(self, client, port, user="joe", secret=None):
        self.words, self.user = [client, f"127.0.0.1:{port}", user], user
        self.environment = {"ACAP_SECRET": USERS[user] if secret is None else secret}

    def call(self, *words, given=b"", options=(), environment=None):
        """What a call prints, and its status."""
        client, server, user = self.words
        environment = self.environment if environment is None else environment
        ran = subprocess.run([client, *options, server, user, *words], input=given, capture_output=True, timeout=30, check=False, env=environment)
        return ran.stdout, ran.stderr, ran.returncode

    def does(self, *words, given=b"", options=()):
        """What a call prints that is to succeed."""
        out, err, status = self.call(*words, given=given, options=options)
        same((err, status), (b"", 0))
        return out

    def fails(self, text, *words, given=b"", status=1):
        """A call that is to end with this line on standard error, and this status, and prints nothing else."""
        said = f"acapc: {self.words[1]}: {text}\n".encode()
        same(self.call(*words, given=given), (b"", said, status))

    def start(self, *words):
        """A call that goes on."""
        return subprocess.Popen(
            [*self.words, *words], stdin=subprocess.PIPE, stdout=subprocess.PIPE, stderr=subprocess.PIPE, env=self.environment)


# ---- commands

@check("get, set, unset, list and find")
def _(client, server):
    joe = Caller(client, server.port)
    same(joe.does("set", "/option/~/", "font", "option.value", "mono"), b"")
    joe.does("set", "/option/~", "sizes", "option.value", "9", "10", "9\t")
    same(joe.does("get", "/option/~/", "font", "option.value"), b"font\toption.value\tmono\n")
    same(joe.does("get", "/option/~", "sizes", "option.value"), b"".join(b"sizes\toption.value\t%s\n" % value for value in (b"9", b"10", b"9\\x09")))
    rows = joe.does("get", "/option/~/").splitlines()
    same([row for row in rows if b"\tmodtime\t" not in row], [
        b"font\tentry\tfont", b"font\toption.value\tmono", b"sizes\tentry\tsizes",
        b"sizes\toption.value\t9", b"sizes\toption.value\t10", b"sizes\toption.value\t9\\x09"])
    same(len(rows), 8)
    same(joe.does("get", "/option/~/", "none"), b"")
    same(joe.does("list", "/option/~/"), b"font\nsizes\n")
    same(joe.does("list", "/option/", "--depth", "0"), b"/option/user\n/option/user/joe\n/option/user/joe/font\n/option/user/joe/sizes\n")
    same(joe.does("find", "/option/~/", "option.value", "mono"), b"font\n")
    same(joe.does("find", "/option/~/", "option.value", "-", given=b"mono"), b"font\n")
    same(joe.does("find", "/option/~/", "option.value", "9"), b"sizes\n")
    same(joe.does("find", "/option/~/", "option.value", "serif"), b"")
    joe.does("unset", "/option/~/", "font", "option.value")
    same(joe.does("get", "/option/~/", "font", "option.value"), b"")
    joe.does("unset", "/option/~/", "font")
    same(joe.does("list", "/option/~/"), b"sizes\n")


@check("values of 0 to 65,536 octets, each octet among them")
def _(client, server):
    joe = Caller(client, server.port)
    for count in (0, 1, 1_024, 1_025, 65_536):
        value = (EVERY * 257)[255:][:count]
        joe.does("set", "/octets/~/", f"n{count}", "v", "-", given=value)
        row = b"n%d\tv\t" % count
        same(joe.does("get", "/octets/~/", f"n{count}", "v"), row + escaped(value) + b"\n")
        same(joe.does("get", "/octets/~/", f"n{count}", "v", options=["--raw-octets"]), row + value + b"\n")
        same(joe.does("find", "/octets/~/", "v", "-", given=value), b"n%d\n" % count)
    joe.does("set", "/octets/~/", "é", "v", "\\")
    same(joe.does("get", "/octets/~/", "é", "v"), b"\\xc3\\xa9\tv\\x5c\n".replace(b"v", b"v\t"))
    joe.fails("Limit reached", "set", "/octets/~/", "more", "v", "-", given=bytes(65_537))
    joe.fails("Command too long", "set", "/octets/~/", "more", "v", "-", given=bytes(300_000))


@check("acl, grant and revoke")
def _(client, server):
    joe, ann = Caller(client, server.port), Caller(client, server.port, "ann")
    joe.does("set", "/lists/~/", "a", "k", "1")
    same(joe.does("acl", "/lists/~/"), b"xrwia\n")
    same(ann.does("acl", "/lists/user/joe/"), b"\n")
    joe.does("grant", "/lists/~/", "ann", "xr")
    same(joe.does("acl", "/lists/~/"), b"xrwia\njoe\txrwia\nann\txr\n")
    same(ann.does("get", "/lists/user/joe/", "a", "k"), b"a\tk\t1\n")
    joe.does("grant", "/lists/~/", "k", "ann", "rw")
    same(joe.does("acl", "/lists/~/", "k").splitlines()[-1], b"ann\trw")
    joe.does("grant", "/lists/~/", "k", "a", "anyone", "r")
    same(joe.does("acl", "/lists/~/", "k", "a").splitlines()[-1], b"anyone\tr")
    joe.does("grant", "/lists/~/", "--", "-ann", "w")
    same(joe.does("acl", "/lists/~/").splitlines()[-1], b"-ann\tw")
    joe.does("revoke", "/lists/~/", "ann")
    same(joe.does("acl", "/lists/~/"), b"xrwia\njoe\txrwia\n-ann\tw\n")
    same(b"ann\trw" in joe.does("acl", "/lists/~/", "k"), True)
    joe.does("revoke", "/lists/~/", "k", "--all")
    same(joe.does("acl", "/lists/~/", "k"), b"xrwia\n")
    joe.does("revoke", "--all", "/lists/~/", "k", "a")
    same(joe.does("acl", "/lists/~/", "k", "a"), b"xrwia\n")


@check("raw, from a file and by a pipe")
def _(client, server):
    joe = Caller(client, server.port)
    lines = b'A1 STORE ("/raw/~/a" "k" "1")\nA2 SEARCH "/raw/~/" RETURN ("k") EQUAL "entry" "i;octet" "a"\r\nA3 FROB\n'
    wanted = [rb'A1 OK "STORE done"', rb'A2 ENTRY "a" "1"', rb'A2 MODTIME "\d{20}"', rb'A2 OK "SEARCH done"', rb'A3 BAD "Unknown command"', b""]

    def is_as_wanted(out):
        same([bool(re.fullmatch(line, said)) for line, said in zip(wanted, out.split(b"\n"), strict=True)], [True] * len(wanted))

    is_as_wanted(joe.does("raw", given=lines))
    with tempfile.TemporaryFile() as file:
        file.write(lines)
        file.seek(0)
        ran = subprocess.run([*joe.words, "raw"], stdin=file, capture_output=True, timeout=30, check=True, env=joe.environment)
    is_as_wanted(ran.stdout)
    many = b"".join(b'B%d SEARCH "/raw/~/" RETURN ("*") ALL\n' % number for number in range(5_000))
    same(joe.does("raw", given=many).count(b'OK "SEARCH done"\n'), 5_000)
    talk = joe.start("raw")
    talk.stdin.write(b"C1 NOOP\n")
    talk.stdin.flush()
    same(talk.stdout.readline(), b'C1 OK "NOOP done"\n')
    out, err = talk.communicate(b"C2 LOGOUT\n", timeout=30)
    same((out, err, talk.returncode), (b'* BYE "Good bye"\nC2 OK "LOGOUT done"\n', b"", 0))


def applied(lines):
    """The list that printed lines stand for: first its rows, and then changes."""
    rows = []
    for line in lines:
        sign, *columns = line.split(b"\t")
        if sign == b"+":
            rows.insert(int(columns[0]) - 1, columns[1:])
        elif sign == b"-":
            same(rows.pop(int(columns[0]) - 1)[:1], columns[1:])
        elif sign == b"=":
            same(rows.pop(int(columns[0]) - 1)[:1], columns[2:3])
            rows.insert(int(columns[1]) - 1, columns[2:])
        else:
            rows.append([sign, *columns])
    return rows


@check("watch, and 1,000 changes by others")
def _(client, server):
    root = server.client("root")
    done(root, 'STORE ("/watched/" "dataset.acl" ("value" ("anyone\txrwi"))) ("/watched/e0" "k" "5") ("/watched/e1" "k" ("value" ("7" "8")))')
    joe = Caller(client, server.port)
    same(joe.does("watch", "/watched/", "--once"), b"e0\ne1\n")
    same(joe.does("watch", "/watched/", "--once", "--attribute", "k"), b"e0\t5\ne1\t7\t8\n")
    watching = joe.start("watch", "/watched/", "--attribute", "k", "--sort", "k")
    same([watching.stdout.readline(), watching.stdout.readline()], [b"e0\t5\n", b"e1\t7\t8\n"])
    others, picks = [server.client(user) for user in ("ann", "root", "joe")], random.Random(7)
    for number in range(1_000):
        given = picks.choice(['"k" "%02d"'] * 8 + ['"k" NIL', '"entry" NIL'])
        given = given % picks.randrange(100) if "%" in given else given
        done(others[number % 3], f'STORE ("/watched/e{picks.randrange(30)}" {given})')
    done(root, 'STORE ("/watched/last" "k" "zz")')
    lines = [b"e0\t5", b"e1\t7\t8"]
    while b"\tlast\t" not in lines[-1]:
        lines.append(watching.stdout.readline().rstrip(b"\n"))
    watching.send_signal(signal.SIGINT)
    watching.communicate(timeout=20)
    same(watching.returncode, -signal.SIGINT)
    rows = found(root, 'SEARCH "/watched/" RETURN ("k") SORT ("k" "i;octet") NOT EQUAL "entry" "i;octet" ""')
    held = [[name, *([] if value == "NIL" else value if isinstance(value, list) else [value])] for name, value in rows]
    same(applied(lines), held)
    same(joe.does("watch", "/watched/", "--once", "--attribute", "k", "--sort", "k"), b"".join(b"\t".join(row) + b"\n" for row in held))
    return f"{len(lines) - 2} lines"


# ---- a dump, and a server that loads it

LOST = b"not kept: moments, remembered deletions, NIL and deletions over a base, and lists without a value\n"


ODD = [b"plain", b"", b'quo"te \\', b"two\r\nlines", b"\xff\xfe\0", "é".encode(), b"x" * 1_024, b"x" * 1_025, b'"' * 600]
FIVE = [("joe", "/option/~/"), ("joe", "/option/~/work/"), ("ann", "/option/~/"), ("ann", "/book/~/"), ("joe", "/a/~/")]
RIGHTS = ['("/option/~/") "ann" "xr"', '("/option/~/" "k1") "ann" ""', '("/option/~/" "k2" "e3") "ann" "r"',
          '("/a/~/") "anyone" "r"', '("/option/~/" "entry" "e5") "-ann" "xr"']


def entry(dataset, number):
    """A STORE of the entry of that number: some odd strings, and in each second one a list."""
    items = b"".join(b' "k%d" %s' % (item, string(ODD[(number + item) % len(ODD)])) for item in range(number % 5))
    members = b' "list" ("value" (%s))' % b" ".join(string(ODD[item]) for item in range(number % 7))
    return b'STORE ("%se%d" "entry" "e%d"%s%s)' % (dataset.encode(), number, number, items, members * (number % 2))


def fill(server):
    """Stores 200 entries in 5 datasets of two users, inheritance, access lists, datasets without entries, and large entries and lists."""
    clients = {user: server.client(user) for user in ("joe", "ann")}
    joe, ann = clients["joe"], clients["ann"]
    for number in range(40):
        for user, dataset in FIVE:
            done(clients[user], entry(dataset, number))
    done(ann, 'STORE ("/option/~/" "dataset.inherit" "/book/~/" "note" "heir")')
    done(joe, 'STORE ("/a/~/" "dataset.inherit" "/option/~/work/") ("/option/~/work/" "dataset.inherit" "/option/~/")')
    done(joe, 'STORE ("/option/~/void/" "note" "x") ("/option/~/bare" "subdataset" ("value" (".")))')
    for rights in RIGHTS:
        done(joe, f"SETACL {rights}")
    for first in range(0, 250, 50):  # more than a command has room for
        items = b"".join(b' "wide%d" {1500+}\r\n%s' % (item, b"%03d" % item * 500) for item in range(first, first + 50))
        done(joe, b'STORE ("/option/~/wide"%s)' % items)
    items = b"".join(b' "%d" {900+}\r\n%s' % (item, b"%03d" % item * 300) for item in range(100))  # more than a line has room for
    done(joe, b'STORE ("/option/~/long"%s)' % items)
    done(joe, b'STORE ("/option/~/many" "list" ("value" (%s)))' % b" ".join([b'"i"'] * 256))
    long = [b"%03d" % number + b'"' * 500 for number in range(200)]
    done(joe, b'STORE ("/option/~/lists" "v" ("value" (%s)))' % b" ".join(b"{%d+}\r\n%s" % (len(it), it) for it in long))
    done(joe, b'STORE ("/option/~/lists" "w" ("value" (%s)))' % b" ".join([b"{1000+}\r\n" + b"x" * 1_000] * 256))



SEARCHES = [
    f'SEARCH "{dataset}" {modifiers}RETURN ("*" ("attribute" "value" "acl" "myrights")) ALL'
    for dataset in ("/", "/option/user/joe/", "/option/user/joe/work/", "/option/user/ann/", "/book/user/ann/", "/a/user/joe/")
    for modifiers in ("", "DEPTH 0 ", "NOINHERIT ")
]


def rows_of(server):
    """What each user finds by each search, but for modtime."""
    return {
        (user, text): [[name, [item for item in data if item[0] != b"modtime"]] for name, data in found(client, text)]
        for user in USERS
        for client in [server.client(user)]
        for text in SEARCHES
    }


@check("dump and load")
def _(client, server):
    fill(server)
    wanted, root = rows_of(server), Caller(client, server.port, "root")
    out, err, status = root.call("dump")
    same((err, status), (LOST, 0))
    Caller(client, server.port).fails("only an administrator can dump all", "dump")
    with tempfile.TemporaryDirectory() as folder:
        start = pathlib.Path(folder) / "start.acap"
        start.write_bytes(out)
        with Server(server.process.args[0], folder) as loaded, Server(server.process.args[0], folder, start=start) as begun:
            loaded.greeted().close()
            same(Caller(client, loaded.port, "root").does("load", given=out), b"")
            for other in (loaded, begun):
                for key, rows in rows_of(other).items():
                    same((key, rows), (key, wanted[key]))
                same(Caller(client, other.port, "root").call("dump"), (out, LOST, 0))
            refused = b'X1 NOOP\r\nX2 STORE ("/nowhere/a" "modtime" "1")\r\nX3 FROB\r\n'
            said = f"acapc: 127.0.0.1:{loaded.port}: commands are refused\n".encode()
            same(Caller(client, loaded.port, "root").call("load", given=refused), (b"X2\tInvalid value\nX3\tUnknown command\n", said, 1))
    name = "n" * 1_010
    done(server.client("joe"), f'STORE ("/option/~/{name}" "k" "v")')
    said = f"not written: /option/user/joe/{name}\n".encode() + LOST + f"acapc: {root.words[1]}: not all is written\n".encode()
    same(root.call("dump"), (out, said, 1))
    return f"{sum(map(len, wanted.values()))} rows, {len(out)} octets, {out.count(b' STORE (')} commands"


# ---- a file that is kept

class Keep:
    """A client that keeps a file."""

    def __init__(self, root, file, *options):
        self.file = file
        self.process = root.start("keep", str(file), *options)

    def __enter__(self):
        return self

    def __exit__(self, *_):
        self.process.kill()
        self.process.communicate()

    def end(self):
        """What it says, and its status, when it ends of itself."""
        out, err = self.process.communicate(timeout=20)
        return out, err, self.process.returncode

    def says(self, line):
        """Waits until it says this line on standard error."""
        while (said := self.process.stderr.readline()) != line:
            same(bool(said), True)

    def holds(self, wanted, seconds=10):
        """Waits until the file has these octets."""
        end = time.monotonic() + seconds
        while not self.file.exists() or self.file.read_bytes() != wanted:
            if time.monotonic() > end:
                same(self.file.read_bytes(), wanted)
            time.sleep(0.01)


class Again(Server):
    """A server at the port of one that has ended."""

    def __init__(self, before, folder, **settings):
        self.port, self.clients = before.port, []
        words = [before.process.args[0], "serve", settings_file(folder, listen=f"127.0.0.1:{self.port}", **settings)]
        self.process = subprocess.Popen(words, stdin=subprocess.DEVNULL, stdout=subprocess.PIPE, stderr=subprocess.PIPE)
        self.greeted().close()


def dumped(root):
    """What `dump` prints."""
    out, err, status = root.call("dump")
    same((err, status), (LOST, 0))
    return out


def entries(client, names, value):
    """Stores a value in entries of /kept/, 250 at a time."""
    for at in range(0, len(names), 250):
        done(client, "STORE " + " ".join(f'("/kept/{name}" "k" {{{len(value)}+}}\r\n{value})' for name in names[at:at + 250]))


def random_change(picks, user):
    """A change of what a user has. NIL, deletions and access lists keep out of datasets that inherit: no dump has them there without a value."""
    base, new = {"joe": "/option/~/", "ann": "/book/~/"}[user], f"/new{picks.randrange(4)}/~/"
    dataset = picks.choice([base, base, "/option/~/", new])
    name, attribute = f"e{picks.randrange(60)}", f"k{picks.randrange(5)}"
    if picks.random() < 0.1:
        return f'SETACL ("{new}" "{attribute}" "{name}") "anyone" "{picks.choice(["r", "rw", ""])}"'
    if dataset == base and picks.random() < 0.2:
        return f'STORE ("{dataset}{name}" "{picks.choice([attribute, "entry"])}" NIL)'
    if picks.random() < 0.2:
        return f'STORE ("{dataset}{name}" "{attribute}" ("value" ("{picks.random()}" "" "x")))'
    return b'STORE ("%s" "%s" %s)' % (f"{dataset}{name}".encode(), attribute.encode(), string(picks.choice(ODD) + b"%d" % picks.randrange(99)))


@check("keep, and 1,000 changes by four clients")
def _(client, server):
    fill(server)
    root = Caller(client, server.port, "root")
    with tempfile.TemporaryDirectory() as folder:
        file = pathlib.Path(folder) / "kept.acap"
        with Keep(root, file, "--over-bases") as keep:
            keep.says(LOST)
            others, picks = [(user, server.client(user)) for user in ("joe", "ann", "joe", "ann")], random.Random(11)
            refused = 0
            for number in range(1_000):
                user, other = others[number % 4]
                refused += answer(other, random_change(picks, user))[0] != "OK"
            keep.holds(dumped(root))
            same(file.stat().st_mode & 0o777, 0o600)
            same(sorted(path.name for path in file.parent.iterdir() if path.is_file()), ["kept.acap", "kept.acap.lock"])
        with Server(server.process.args[0], folder, start=file) as begun:
            begun.greeted().close()
            wanted = rows_of(server)
            for key, rows in rows_of(begun).items():
                same((key, rows), (key, wanted[key]))
    return f"{refused} of them refused, {sum(map(len, wanted.values()))} rows"


class Writer(threading.Thread):
    """A client that stores its number in three entries at once, counting on, until its server is gone."""

    def __init__(self, server, who):
        super().__init__(daemon=True)
        self.client, self.who, self.sent, self.done = server.client("root"), who, [], []
        self.start()

    def run(self):
        try:
            for number in range(100_000):
                self.sent.append(time.monotonic())
                done(self.client, "STORE " + " ".join(f'("/count/{self.who}{place}" "n" "{number}")' for place in "abc"))
                self.done.append(time.monotonic())
        except (OSError, EOFError):
            pass


def cut(server, writers):
    """The number of each writer that a server has, and that none of them has an earlier one than its place in time allows."""
    rows = dict(found(server.client("root"), 'SEARCH "/count/" RETURN ("n") NOT EQUAL "entry" "i;octet" ""'))
    held = [{int(rows.get(f"{writer.who}{place}".encode(), b"-1")) for place in "abc"} for writer in writers]
    same([len(numbers) for numbers in held], [1] * len(writers))
    held = [numbers.pop() for numbers in held]
    for one, number in zip(writers, held):
        for other, theirs in zip(writers, held):
            if theirs >= 0 and number + 1 < len(one.done):
                same(one.done[number + 1] > other.sent[theirs], True)
    return held


@check("keep, and a server that is killed at ten moments")
def _(client, server):
    lost = []
    with tempfile.TemporaryDirectory() as folder:
        file, before = pathlib.Path(folder) / "kept.acap", server
        before.process.kill()
        before.process.communicate()
        file.touch()
        with Keep(Caller(client, server.port, "root"), file) as keep:
            for number in range(10):
                with Again(before, folder, start=file) as running:
                    writers = [Writer(running, f"{number}{who}") for who in "pqrs"]
                    time.sleep(1.2 + 0.13 * number)
                    running.process.kill()
                    killed = time.monotonic()
                for writer in writers:
                    writer.join()
                time.sleep(0.3)
                with Again(before, folder, start=file) as begun:
                    held = cut(begun, writers)
                    lost += [killed - min([killed, *(writer.done[at + 1] for writer, at in zip(writers, held) if at + 1 < len(writer.done))])]
                    keep.holds(dumped(Caller(client, server.port, "root")))
    same(max(lost) < 3, True)
    return f"at most {max(lost):.2f} s lost, {min(lost):.2f} at least"


TOO_FEW = "the server has less than half of the file's entries: the file stays as it is (--restore, --accept)"


@check("keep, and a server that has too little")
def _(client, server):
    root = Caller(client, server.port, "root")
    with tempfile.TemporaryDirectory() as folder:
        file = pathlib.Path(folder) / "kept.acap"
        aside = file.with_name("kept.acap.1")
        names = [f"e{number:03}" for number in range(100)]
        with Keep(root, file) as keep:
            entries(server.client("root"), names, "1")
            whole = dumped(root)
            keep.holds(whole)
            server.process.kill()
            server.process.communicate()
            with Again(server, folder):
                out, err, status = keep.end()
                same((out, err.splitlines()[-1], status), (b"", f"acapc: {root.words[1]}: {TOO_FEW}".encode(), 1))
                same(file.read_bytes(), whole)
        with Again(server, folder) as few:
            entries(few.client("root"), names[:49], "2")
            said = LOST + f"acapc: {root.words[1]}: {TOO_FEW}\n".encode()
            same(root.call("keep", str(file)), (b"", said, 1))
            same(root.call("keep", str(file), "--restore", "--accept")[2], 2)
            same(file.read_bytes(), whole)
            with Keep(root, file, "--restore") as keep:
                keep.says(LOST)
                end = time.monotonic() + 10
                while dumped(root) != whole and time.monotonic() < end:
                    time.sleep(0.05)
                keep.holds(whole)
                done(few.client("root"), 'STORE ("/kept/more" "k" "1")')
                whole = dumped(root)
                keep.holds(whole)
        with Again(server, folder) as few:
            entries(few.client("root"), names[:3], "3")
            small = dumped(root)
            with Keep(root, file, "--accept") as keep:
                keep.holds(small)
            same(aside.read_bytes(), whole)
            file.write_bytes(whole)
            said = LOST + f"acapc: {root.words[1]}: the file can't be put aside: FILE.1 is there already\n".encode()
            same(root.call("keep", str(file), "--accept"), (b"", said, 1))
            same((file.read_bytes(), aside.read_bytes()), (whole, whole))
            aside.unlink()
            refused = b'X1 FROB\r\nX2 STORE ("/kept/e000" "modtime" "1")\r\n' + whole
            file.write_bytes(refused)
            with Keep(root, file, "--restore") as keep:
                same([keep.process.stdout.readline() for _ in range(2)], [b"X1\tUnknown command\n", b"X2\tInvalid value\n"])
                keep.holds(whole)
                same(aside.read_bytes(), refused)
            same(file.with_name("kept.acap.restoring").exists(), False)


@check("keep, and a restore that is broken off")
def _(client, server):
    root, names = Caller(client, server.port, "root"), [f"e{number:05}" for number in range(20_000)]
    entries(server.client("root"), names, "1")
    whole = dumped(root)
    with tempfile.TemporaryDirectory() as folder:
        file = pathlib.Path(folder) / "kept.acap"
        marked = file.with_name("kept.acap.restoring")
        file.write_bytes(whole)
        server.process.kill()
        server.process.communicate()
        with Keep(root, file, "--restore") as keep:
            with Again(server, folder) as other:
                watcher, wanted = other.client("root"), 'SEARCH "/kept/" RETURN ("entry") EQUAL "entry" "i;octet" "e12000"'
                while len(watcher.command(wanted)) < 3:
                    same(keep.process.poll(), None)
                other.process.kill()
            same((marked.exists(), file.read_bytes()), (True, whole))
            with Again(server, folder) as other:  # where the first restore had come to more than half of the file
                entries(other.client("root"), names[:12_000], "2")
                while marked.exists():
                    same((keep.process.poll(), file.read_bytes()), (None, whole))
                same(dumped(root), whole)
                keep.holds(whole)


@check("keep, and files that it doesn't touch")
def _(client, server):
    joe, root = Caller(client, server.port), Caller(client, server.port, "root")

    def refuses(text, *words, caller=root):
        same(caller.call("keep", *words), (b"", LOST + f"acapc: {root.words[1]}: {text}\n".encode(), 1))

    with tempfile.TemporaryDirectory() as folder:
        file = pathlib.Path(folder) / "kept.acap"
        refuses("only an administrator can dump all", str(file), caller=joe)
        refuses("Login failed", str(file), caller=Caller(client, server.port, "root", secret="no"))
        same(file.exists(), False)
        for text in (b"root:x:0:0\n", b'A1 NOOP\r\nA2 STORE ("/kept/a" "k" "1"', b"\r\n"):
            file.write_bytes(text)
            refuses("the file isn't one of whole commands (--accept)", str(file), "--restore")
            same(file.read_bytes(), text)
        with Keep(root, file, "--accept") as keep:
            keep.holds(dumped(root))
            same(file.with_name("kept.acap.1").read_bytes(), b"\r\n")
            refuses("the file is kept by another program", str(file))
        done(server.client("joe"), 'STORE ("/option/~/" "dataset.inherit" "/option/")')
        text = "a dataset inherits, and what hides entries of its base isn't kept (--over-bases)"
        kept = file.read_bytes()
        refuses(text, str(file))
        same(file.read_bytes(), kept)
        with Keep(root, file, "--over-bases") as keep:
            keep.holds(dumped(root))
        done(server.client("joe"), 'STORE ("/option/~/" "dataset.inherit" NIL)')
        with Keep(root, file) as keep:
            keep.holds(dumped(root))
            done(server.client("joe"), 'STORE ("/option/~/" "dataset.inherit" "/option/")')
            keep.says(f"acapc: {root.words[1]}: {text}\n".encode())
            keep.holds(dumped(root))
        done(server.client("joe"), 'STORE ("/option/~/" "dataset.inherit" NIL)')
        marked = file.with_name("kept.acap.restoring")
        marked.touch()
        refuses("a restore was broken off: the file stays as it is (--restore, --accept)", str(file))
        with Keep(root, file, "--restore", "--over-bases") as keep:
            while marked.exists():
                same(keep.process.poll(), None)
            keep.holds(dumped(root))


@check("keep, and a disk that is full, a folder that is gone")
def _(client, server):
    root, joe = Caller(client, server.port, "root"), server.client("joe")
    with tempfile.TemporaryDirectory() as folder:
        disk = pathlib.Path(folder) / "disk"
        disk.mkdir()
        if subprocess.run(["mount", "-t", "tmpfs", "-o", "size=256k", "tmpfs", disk], check=False, capture_output=True).returncode:
            return "not tried: no tmpfs can be mounted"
        try:
            file, filler = disk / "kept.acap", disk / "filler"
            with Keep(root, file) as keep:
                done(joe, 'STORE ("/option/~/a" "k" "1")')
                first = dumped(root)
                keep.holds(first)
                filler.write_bytes(bytes(200_000))
                done(joe, b'STORE ("/option/~/b" "k" %s)' % string(bytes(60_000)))
                keep.says(f"acapc: {root.words[1]}: cannot write the file: No space left on device (os error 28)\n".encode())
                done(joe, 'STORE ("/option/~/a" "k" "2")')
                time.sleep(1.5)
                same((file.read_bytes(), sorted(path.name for path in disk.iterdir())), (first, ["filler", "kept.acap", "kept.acap.lock"]))
                filler.unlink()
                keep.holds(dumped(root))
        finally:
            subprocess.run(["umount", disk], check=True)
        here, gone = pathlib.Path(folder) / "here", pathlib.Path(folder) / "gone"
        here.mkdir()
        with Keep(root, here / "kept.acap") as keep:
            keep.holds(dumped(root))
            here.rename(gone)
            done(joe, 'STORE ("/option/~/a" "k" "3")')
            keep.says(f"acapc: {root.words[1]}: cannot write the file: No such file or directory (os error 2)\n".encode())
            gone.rename(here)
            keep.holds(dumped(root))


@check("keep, and 10,000 entries")
def _(client, server):
    root, writer = Caller(client, server.port, "root"), server.client("root")
    names = [f"e{number:05}" for number in range(10_000)]
    with tempfile.TemporaryDirectory() as folder, Keep(root, pathlib.Path(folder) / "kept.acap") as keep:
        entries(writer, names, "1")
        keep.holds(dumped(root))
        done(writer, 'SETACL ("/kept/" "k") "joe" "r"')
        keep.holds(dumped(root))
        done(writer, 'SETACL ("/kept/") "ann" "xr"')
        keep.holds(dumped(root))
        keep.process.send_signal(signal.SIGSTOP)
        for number in range(3):  # more notices than its socket takes, and 4,096 beside
            entries(writer, names, "x" * 900 + str(number))
        keep.process.send_signal(signal.SIGCONT)
        begun = time.monotonic()
        keep.holds(dumped(root), 30)
        return f"current {time.monotonic() - begun:.1f} s after 30,000 changes that it didn't hear"


def spent(process):
    """The processor time that a process has taken, in seconds, and the memory that it has, in octets."""
    fields = pathlib.Path(f"/proc/{process.pid}/stat").read_text().rsplit(")", 1)[1].split()
    return (int(fields[11]) + int(fields[12])) / os.sysconf("SC_CLK_TCK"), int(fields[21]) * os.sysconf("SC_PAGESIZE")


def cost(server, keep, count):
    """What `count` STOREs take, one after the other, in 1,000 entries: microseconds of the server and of the keeper, and octets of the server, of each."""
    writer = server.client("root")
    entries(writer, [f"e{number:03}" for number in range(1_000)], "1")
    processes = [server.process, *([keep.process] if keep else [])]
    time.sleep(2)
    before = [spent(process) for process in processes]
    for number in range(count):
        done(writer, f'STORE ("/kept/e{number % 1_000:03}" "k" "{number}")')
    time.sleep(2)
    after = [spent(process) for process in processes]
    return [*((later[0] - earlier[0]) * 1e6 / count for earlier, later in zip(before, after)), (after[0][1] - before[0][1]) / count]


@check("keep, and what it costs")
def _(client, server):
    with tempfile.TemporaryDirectory() as folder:
        alone = cost(server, None, 5_000)
        with Server(server.process.args[0], folder) as other, Keep(Caller(client, other.port, "root"), pathlib.Path(folder) / "kept.acap") as keep:
            keep.says(LOST)
            kept = cost(other, keep, 5_000)
    return f"a STORE takes {kept[0]:.0f} us of the server and {kept[1]:.0f} of the keeper, {alone[0]:.0f} without it; {kept[2]:.0f} octets, {alone[1]:.0f} without it"


# ---- what is refused

@check("refused logins and commands")
def _(client, server):
    joe = Caller(client, server.port)
    for caller in (Caller(client, server.port, secret="no such words"), Caller(client, server.port, secret="")):
        caller.fails("Login failed", "list", "/")
    joe.fails("Permission denied", "set", "/option/user/ann/", "a", "k", "1")
    joe.fails("No such dataset", "get", "/nowhere/")
    joe.fails("Invalid value", "set", "/option/~/", "a", "modtime", "1")
    Caller(client, free_port()).fails("cannot connect: Connection refused (os error 111)", "list", "/")


@check("a full server")
def _(client, server):
    joe, others = Caller(client, server.port), [server.greeted() for _ in range(SEATS)]
    same(len(others), SEATS)
    joe.fails("Too many sessions", "list", "/")


@check("the words of a call")
def _(client, server):
    joe = Caller(client, server.port)
    with tempfile.TemporaryDirectory() as folder:
        file = pathlib.Path(folder) / "secret"
        for secret in ("secret", "secret\n", "secret\r\n"):
            file.write_bytes(secret.encode())
            same(joe.call("list", "/", options=["--secret-file", file], environment={}), (joe.does("list", "/"), b"", 0))
        out, err, status = joe.call("list", "/", options=["--secret-file", file.with_name("none")], environment={})
        same((out, status), (b"", 1))
        same(err.endswith(b": cannot read the secret's file: No such file or directory (os error 2)\n"), True)
    for words in ((), ("--help",), ("--version",), ("frob",), ("get",), ("set", "/d/", "e", "a"), ("get", "d"), ("get", "/d/", "."), ("list", "/", "--depth", "x")):
        out, err, status = joe.call(*words)
        wanted = (0, True, False) if words[:1] in (("--help",), ("--version",)) else (2, False, True)
        same((status, bool(out), bool(err)), wanted)
    same(joe.call("--version"), (b"acapc 0.1.0\n", b"", 0))
    out, err, status = joe.call("list", "/", environment={})
    same((out, status, b"ACAP_SECRET" in err), (b"", 2, True))


# ---- servers that break off

class Rude(threading.Thread):
    """A server for one client. After the login it sends these octets, and closes."""

    def __init__(self, answer, greeting=b'* ACAP (SASL "CRAM-MD5")\r\n'):
        super().__init__(daemon=True)
        self.listener, self.answer, self.greeting = socket.create_server(("127.0.0.1", 0)), answer, greeting
        self.port = self.listener.getsockname()[1]
        self.start()

    def run(self):
        with self.listener, self.listener.accept()[0] as peer, peer.makefile("rb") as lines:
            peer.sendall(self.greeting)
            if not self.greeting.startswith(b"* ACAP"):
                return
            for said in (b'+ "<1@here>"\r\n', b'L OK "done"\r\n', self.answer):
                lines.readline()
                peer.sendall(said)


CLOSED = "the server has closed the session"


@check("servers that break off")
def _(client, server):
    rows = [
        (b"", b"", CLOSED),
        (b'A1 ENTRY "a" "b"', b"", CLOSED),
        (b'A1 ENTRY "a" "b"\r\nA1 ENTRY "c" {5}\r\nab', b"a\tk\tb\n", CLOSED),
        (b'A1 ENTRY "a" "b"\r\n* BYE "Going down"\r\n', b"a\tk\tb\n", "Going down"),
        (b'A1 ENTRY "a" "b"\r\nA1 NO "No \x07 luck\\\\"\r\n', b"a\tk\tb\n", "No \\x07 luck\\x5c"),
        (b'A1 BAD "What?"\r\n', b"", "What?"),
        (b'A1 NO "' + b"x" * 255 + b'"\r\n', b"", "x" * 255),
        (b'A1 NO "' + b"x" * 256 + b'"\r\n', b"", "x" * 255),
        (b'A1 NO {300}\r\n' + b"y" * 300 + b"\r\n", b"", "y" * 255),
        (b"HTTP/1.1 400 Bad Request\r\n\r\n", b"", "the server doesn't speak ACAP"),
        (b'* ALERT "hear"\r\nA1 ENTRY "a" {300000}\r\n' + b"x" * 300_000 + b'\r\nA1 OK "done"\r\n', b"a\tk\t" + b"x" * 300_000 + b"\n", None),
    ]
    for answer, printed, text in rows:
        rude = Rude(answer)
        said = f"acapc: 127.0.0.1:{rude.port}: {text}\n".encode() if text else b""
        same(Caller(client, rude.port).call("get", "/d/", "a", "k"), (printed, said, 1 if text else 0))
    for greeting, text in ((b"", CLOSED), (b'* BYE "Full"\r\n', "Full"), (b"220 smtp\r\n", "the server doesn't speak ACAP"), (b'A1 OK "?"\r\n', "the server doesn't greet")):
        Caller(client, Rude(b"", greeting=greeting).port).fails(text, "list", "/")


@check("nothing is printed of a secret")
def _(client, server):
    for secret in ("swordfish", "\x07" * 8):
        joe = Caller(client, server.port, secret=secret)
        for words in (("list", "/"), ("raw",), ("--help",), ("frob",)):
            out, err, _ = joe.call(*words)
            same(secret.encode() in out + err, False)


# ---- all of it

def stop(number, _frame):
    if number == signal.SIGTERM:
        sys.exit("stopped")
    raise TimeoutError("it took too long")


def report(name, function, *given):
    """Does a check within its time, and prints how it went."""
    begun = time.monotonic()
    signal.alarm(SECONDS)
    try:
        more = function(*given)
    except Exception as fault:
        sys.exit(f"{name}: NOT as wanted: {type(fault).__name__}: {fault}")
    finally:
        signal.alarm(0)
    print(f"{name}: as wanted{f' ({more})' if more else ''}, {time.monotonic() - begun:.1f} s", flush=True)


def main():
    if len(sys.argv) < 3:
        sys.exit(__doc__)
    client, program = (str(pathlib.Path(word).resolve()) for word in sys.argv[1:3])
    for number in (signal.SIGALRM, signal.SIGTERM):
        signal.signal(number, stop)
    with tempfile.TemporaryDirectory() as folder:
        for name, function in CHECKS:
            if not sys.argv[3:] or any(word in name for word in sys.argv[3:]):
                with Server(program, folder) as server:
                    server.greeted().close()
                    report(name, function, client, server)


if __name__ == "__main__":
    main()
