#!/usr/bin/env python3
"""Starts `acapd serve` with settings of its own, and checks over 127.0.0.1 what its clients are answered, kind and rude ones.

    python3 bench/serve.py PROGRAM [CHECK..]

Each check is named on a line, and at the first difference it ends with status 1. CHECK is part of the name of a check: then those
alone are done. Behind each check the server has to have as few open files again as before. It ends only servers that it started.
"""
import contextlib
import itertools
import os
import pathlib
import random
import resource
import select
import signal
import socket
import struct
import subprocess
import sys
import tempfile
import threading
import time

BENCH = pathlib.Path(__file__).resolve().parent
TOOLS = BENCH.parent / "tools"
sys.path.append(str(TOOLS))

from acap_client import Client, string
from follow import apply

USERS = {"joe": "secret", "ann": "other words", "root": "key"}
GREETING = ["*", "ACAP", ["IMPLEMENTATION", b"acapd"], ["SASL", b"CRAM-MD5"], ["CONTEXTLIMIT", b"200"]]
FULL = b'* BYE "Too many sessions"\r\n'
SEATS = 64
COMMAND = 262_144  # octets that a command has at most
SECONDS = 60  # that a check may take
END = time.monotonic() + 170  # when all of them have to be done
CHECKS = []


def check(name):
    """Names a check."""
    def add(function):
        CHECKS.append((name, function))
        return function
    return add


def same(got, wanted):
    if got != wanted:
        got, wanted = repr(got), repr(wanted)
        at = len(os.path.commonprefix([got, wanted]))
        shown = slice(max(at - 100, 0), at + 200)
        raise AssertionError(f"at octet {at}\ngot    {got[shown]}\nwanted {wanted[shown]}")


def free_port():
    with socket.socket() as it:
        it.bind(("127.0.0.1", 0))
        return it.getsockname()[1]


# ---- servers

class Server:
    """A server that was started here, and its clients."""

    def __init__(self, program, folder, port=None, **settings):
        self.port, self.clients = free_port() if port is None else port, []
        self.file = settings_file(folder, listen=f"127.0.0.1:{self.port}", **settings)
        words = [program, "serve", self.file]
        self.process = subprocess.Popen(words, stdin=subprocess.DEVNULL, stdout=subprocess.PIPE, stderr=subprocess.PIPE)
        self.idle = None

    def __enter__(self):
        return self

    def __exit__(self, *_):
        self.close_clients()
        self.process.kill()
        self.process.communicate()

    def connect(self, connected=None):
        """A client that has read nothing yet. It waits until the server listens."""
        end = time.monotonic() + 20
        while True:
            try:
                client = Client(self.port, connected=connected)
                self.clients.append(client)
                return client
            except ConnectionRefusedError:
                if self.process.poll() is not None:
                    raise AssertionError(f"the server has ended: {self.end()}") from None
                if time.monotonic() > end:
                    raise
                time.sleep(0.01)

    def greeted(self, connected=None):
        client = self.connect(connected)
        same(client.reply(), GREETING)
        return client

    def client(self, user, connected=None):
        """A client that is logged in."""
        client = self.greeted(connected)
        same(client.login(user, USERS[user])[1:], ["OK", b"AUTHENTICATE done"])
        return client

    def close_clients(self):
        for client in self.clients:
            client.close()
        self.clients = []

    def files(self):
        """How many files and sockets it has open."""
        return len(os.listdir(f"/proc/{self.process.pid}/fd"))

    def settle(self):
        """Closes all clients, and waits until the server has closed its side: it has as few open files as when it had no client."""
        self.close_clients()
        if self.idle is None:
            self.greeted()
            self.idle = self.files() - 1
            self.close_clients()
        end = time.monotonic() + 10
        while self.files() != self.idle:
            if time.monotonic() > end:
                raise AssertionError(f"it has {self.files()} open files, and had {self.idle} without clients")
            time.sleep(0.01)

    def end(self):
        """What it prints, and its status, when it ends of itself."""
        out, err = self.process.communicate(timeout=20)
        return out, err, self.process.returncode


def listening(port):
    """The line that a server prints once it listens."""
    return f"acapd: listening on 127.0.0.1:{port}\n".encode("ascii")


def settings_file(folder, listen, start=None, sessions=0, turns=1_000_000):
    """A file of settings in a folder."""
    file = pathlib.Path(tempfile.mkdtemp(dir=folder)) / "settings.toml"
    lines = [f'listen = "{listen}"', 'host = "localhost"', "workers = 4", f"turns = {turns}", f"sessions = {sessions}"]
    lines += ['administrators = ["root"]'] + [f'start = "{start}"'] * bool(start)
    lines += ["[users]"] + [f'{user} = "{secret}"' for user, secret in USERS.items()]
    file.write_text("\n".join(lines) + "\n", encoding="ascii")
    return str(file)


def done(client, text):
    """Sends a command that is to be done, and gives its replies but for the completion."""
    *replies, last = client.command(text)
    if last[1] != "OK":
        raise AssertionError(f"{str(text)[:200]} is answered {last[1:]}")
    return replies


def answer(client, text):
    """The completion of a command, without its tag."""
    return client.command(text)[-1][1:]


def found(client, text):
    """The rows that a SEARCH finds."""
    return [row[2:] for row in done(client, text) if row[1] == "ENTRY"]


def store_big(client, count=16):
    """Stores entries in /big/, and gives a SEARCH of them and their values: a megabyte where there are 16."""
    values = [bytes([97 + number]) * 65_536 for number in range(count)]
    for number, value in enumerate(values):
        done(client, b'STORE ("/option/~/big/%02d" "v" %s)' % (number, string(value)))
    return 'SEARCH "/option/~/big/" RETURN ("v") ALL', [[b"%02d" % number, value] for number, value in enumerate(values)]


def is_silent(client, seconds):
    """Whether nothing comes for a while."""
    return not client.heard and not select.select([client.socket], [], [], seconds)[0]


# ---- kind clients

@check("login, STORE and SEARCH")
def _(server):
    client = server.greeted()
    same(answer(client, 'SEARCH "/" ALL'), ["BAD", b"Log in first"])
    same(client.login("joe", "wrong")[1:], ["NO", b"Login failed"])
    same(client.login("joe", "secret")[1:], ["OK", b"AUTHENTICATE done"])
    done(client, 'STORE ("/option/~/font" "option.value" "mono" "option.sizes" ("value" ("9" "10")))')
    row, time_told = done(client, 'SEARCH "/option/~/" RETURN ("option.value" "option.sizes" "modtime") ALL')
    same(row[1:5], ["ENTRY", b"font", b"mono", [b"9", b"10"]])
    same(time_told[1:], ["MODTIME", row[5]])
    if abs(time.time() - time.mktime(time.strptime(row[5][:14].decode(), "%Y%m%d%H%M%S")) + time.timezone) > 60:
        raise AssertionError(f"it is no time of today: {row[5]}")
    client.send(b"Z LOGOUT\r\n")
    same(client.rest(), b'* BYE "Good bye"\r\nZ OK "LOGOUT done"\r\n')


@check("literals both ways")
def _(server):
    client = server.client("joe")
    client.send(b'B1 STORE ("/option/~/literal" "a" {5}\r\n')
    same(client.reply(), ["+", b"Ready"])
    client.send(b'he\r\no "b" {1025+}\r\n' + b"x" * 1_025 + b' "c" {0+}\r\n)\r\n')
    same(client.reply(), ["B1", "OK", b"STORE done"])
    client.send(b'B2 SEARCH "/option/~/" RETURN ("a" "b" "c") EQUAL "entry" "i;octet" {7+}\r\nliteral\r\n')
    same(client.line(), b'B2 ENTRY "literal" {5}')
    same(client.octets(5), b"he\r\no")
    same(client.line(), b" {1025}")
    same(client.octets(1_025), b"x" * 1_025)
    same(client.line(), b' ""')
    same([reply[1] for reply in client.replies("B2")], ["MODTIME", "OK"])


@check("two users and SETACL")
def _(server):
    joe, ann = server.client("joe"), server.client("ann")
    done(joe, 'STORE ("/shared/~/a" "k" "1")')
    search = 'SEARCH "/shared/user/joe/" RETURN ("k") EQUAL "entry" "i;octet" "a"'
    same(found(ann, search), [])
    same(answer(ann, 'STORE ("/shared/user/joe/a" "k" "2")')[:2], ["NO", ["PERMISSION", [b"/shared/user/joe/", b"entry", b"a"]]])
    done(joe, 'SETACL ("/shared/~/") "ann" "xr"')
    same(found(ann, search), [[b"a", b"1"]])
    same(done(ann, 'MYRIGHTS ("/shared/user/joe/")')[0][2:], [b"xr"])
    same(answer(ann, 'STORE ("/shared/user/joe/a" "k" "2")')[:2], ["NO", ["PERMISSION", [b"/shared/user/joe/", b"k", b"a"]]])
    done(joe, 'SETACL ("/shared/~/") "ann" "xrw"')
    done(ann, 'STORE ("/shared/user/joe/a" "k" "2")')
    same(found(joe, search), [[b"a", b"2"]])


@check("64 at once, and the 65th")
def _(server):
    clients = [server.greeted() for _ in range(SEATS)]
    same([answer(client, "NOOP") for client in clients], [["OK", b"NOOP done"]] * SEATS)
    same(server.connect().rest(), FULL)
    done(clients[30], "LOGOUT")
    same(clients[30].rest(), b"")
    same(answer(server.greeted(), "NOOP"), ["OK", b"NOOP done"])
    same(server.connect().rest(), FULL)


@check("a NOTIFY context's client that sends nothing")
def _(server):
    silent, other = server.client("joe"), server.client("joe")
    done(other, 'STORE ("/live/~/a" "k" "1")')
    make = 'SEARCH "/live/~/" MAKECONTEXT ENUMERATE NOTIFY "c" RETURN ("k") NOT EQUAL "entry" "i;octet" ""'
    same(found(silent, make), [[b"a", b"1"]])
    begun = time.monotonic()
    done(other, 'STORE ("/live/~/b" "k" "2")')
    same(silent.reply(), ["*", "ADDTO", b"c", b"b", "2", b"2"])
    if time.monotonic() - begun > 5:
        raise AssertionError("the notice took more than 5 seconds")
    stamp = done(other, 'SEARCH "/live/~/" RETURN ("k") ALL')[-1][2]
    same(done(silent, 'UPDATECONTEXT "c"'), [["*", "MODTIME", b"c", stamp]])
    same(is_silent(silent, 0.3), True)
    done(other, 'STORE ("/live/~/a" "entry" NIL)')
    same(silent.reply(), ["*", "REMOVEFROM", b"c", b"a", "1"])


KEYS = ["ALL", 'COMPARE "k" "i;ascii-numeric" "30"', 'NOT EQUAL "entry" "i;octet" ""', 'PREFIX "k" "i;octet" "1"']
ORDERS = ["", 'SORT ("k" "i;ascii-numeric") ', 'SORT ("k" "-i;ascii-numeric") ']


class Viewer(threading.Thread):
    """A client with a context, which updates it until it has to stop, and compares what it holds with what it finds."""

    def __init__(self, client, number, stop=None, dataset="/crowd/"):
        super().__init__(daemon=True)
        self.client, self.stop, self.dataset, self.is_ordered, self.fault = client, stop, dataset, number % 2 == 0, None
        self.search = f'RETURN ("k") {ORDERS[number % 3]}{KEYS[number % 4]}'
        self.compared = self.noticed = 0
        made = f'SEARCH "{dataset}" MAKECONTEXT {"ENUMERATE " * self.is_ordered}NOTIFY "c" {self.search}'
        self.rows = [tuple(row) for row in found(client, made)]

    def heed(self, replies):
        """Applies the notices among some replies. The moment that is sent of the context, if one is."""
        moment = None
        for _, word, *rest in (reply for reply in replies if reply[0] == "*"):
            if word == "MODTIME":
                moment = rest[1]
                continue
            positions = [int(token) for token in rest[2:4] if isinstance(token, str) and token.isdigit()]
            apply(self.rows, self.is_ordered, word, rest[1], positions[0], positions[-1], rest[-1])
            self.noticed += 1
        return moment

    def compare(self):
        """Updates the context, and searches afresh. Whether both were at one moment, so that they could be compared. Both commands are
        sent at once, so that seldom another changes something in between."""
        updated, searched = self.client.commands('UPDATECONTEXT "c"', f'SEARCH "{self.dataset}" {self.search}')
        same([updated[-1][1:], searched[-1][1:]], [["OK", b"UPDATECONTEXT done"], ["OK", b"SEARCH done"]])
        moment, replies = self.heed(updated[:-1]), searched[:-1]
        rows = [tuple(reply[2:]) for reply in replies if reply[1] == "ENTRY"]
        moments = [reply[2] for reply in replies if reply[0] != "*" and reply[1] == "MODTIME"]
        if moments == [moment]:
            order = list if self.is_ordered else sorted
            same(order(self.rows), order(rows))
            self.compared += 1
        self.heed(reply for reply in replies if reply[0] == "*")
        return moments == [moment]

    def run(self):
        try:
            while not self.stop.is_set():
                self.compare()
                time.sleep(0.02)
            same(self.compare(), True)
        except Exception as fault:  # printed by the check
            self.fault = fault


class Writer(threading.Thread):
    """A client that stores `times` times."""

    def __init__(self, client, seed, count):
        super().__init__(daemon=True)
        self.client, self.random, self.count, self.fault = client, random.Random(seed), count, None

    def run(self):
        try:
            for _ in range(self.count):
                given = self.random.choice(['"k" "%d"'] * 8 + ['"k" DEFAULT', '"entry" NIL'])
                given = given % self.random.randrange(100) if "%" in given else given
                done(self.client, f'STORE ("/crowd/e{self.random.randrange(20)}" {given})')
        except Exception as fault:
            self.fault = fault


@check("16 contexts and 500 STOREs of others")
def _(server):
    done(server.client("root"), 'STORE ("/crowd/e0" "k" "5") ("/crowd/" "dataset.acl" ("value" ("anyone\txrwi")))')
    stop = threading.Event()
    viewers = [Viewer(server.client(user), number, stop) for number, user in zip(range(16), itertools.cycle(USERS))]
    writers = [Writer(server.client(user), seed, 125) for seed, user in enumerate(["joe", "ann", "root", "joe"])]
    for thread in viewers + writers:
        thread.start()
    for thread in writers:
        thread.join()
    stop.set()
    for thread in viewers:
        thread.join()
    for thread in viewers + writers:
        if thread.fault:
            raise thread.fault
    return f"{sum(it.noticed for it in viewers)} notices, {sum(it.compared for it in viewers)} comparisons"


# ---- rude clients

@check("octets one by one")
def _(server):
    client = server.client("joe")
    for octet in b'B1 NOOP\r\nB2 STORE ("/option/~/slow" "k" {4+}\r\na\r\nb)\r\nB3 FROB\r\n':
        client.send(bytes([octet]))
        time.sleep(0.003)
    same(client.reply(), ["B1", "OK", b"NOOP done"])
    same(client.reply(), ["B2", "OK", b"STORE done"])
    same(client.reply(), ["B3", "BAD", b"Unknown command"])


def noop_time(client):
    """How long a NOOP takes, in seconds."""
    begun = time.monotonic()
    same(answer(client, "NOOP"), ["OK", b"NOOP done"])
    return time.monotonic() - begun


def is_never_held_up(one_round):
    """Does rounds, each of which gives the longest that another's NOOP took, until that is less than 50 ms: other work
    on the machine may hold up a round, but not each of five."""
    worst = []
    while len(worst) < 5 and min(worst, default=1) >= 0.05:
        worst.append(one_round())
    if min(worst) >= 0.05:
        raise AssertionError(f"a NOOP took {worst} seconds in these rounds")
    return f"another's NOOP took {min(worst) * 1000:.1f} ms at most, round {len(worst)}"


def octets_round(client, other):
    """Sends a command an octet a second. The longest that another's NOOP took meanwhile, in seconds."""
    worst = 0
    for octet in b"B1 NOOP\r\n":
        same(is_silent(client, 0), True)
        client.send(bytes([octet]))
        end = time.monotonic() + 1
        while time.monotonic() < end:
            worst = max(worst, noop_time(other))
            time.sleep(0.02)
    same(client.reply(), ["B1", "OK", b"NOOP done"])
    return worst


@check("an octet a second")
def _(server):
    client, other = server.client("joe"), server.client("joe")
    return is_never_held_up(lambda: octets_round(client, other))


def narrow(port):
    """A connection of which the system holds little: some kilobytes here, and, for small segments, little at the server's end."""
    it = socket.socket()
    it.setsockopt(socket.SOL_SOCKET, socket.SO_RCVBUF, 8_192)
    it.setsockopt(socket.IPPROTO_TCP, socket.TCP_MAXSEG, 600)
    it.connect(("127.0.0.1", port))
    return it


def slow_round(client, other, search, rows):
    """Reads the beginning of a reply an octet a millisecond, then the rest. The longest that another's NOOP took, in seconds."""
    client.send(b"S " + search.encode() + b"\r\n")
    worst, heard, next_noop = 0, bytearray(), 0
    end = time.monotonic() + 1.5
    while time.monotonic() < end:
        heard += client.socket.recv(1)
        if time.monotonic() > next_noop:
            worst, next_noop = max(worst, noop_time(other)), time.monotonic() + 0.02
        time.sleep(0.001)
    client.heard[:0] = heard
    same([reply[2:] for reply in client.replies("S") if reply[1] == "ENTRY"], rows)
    return worst


@check("a slow reader of a megabyte")
def _(server):
    client, other = server.client("joe", narrow(server.port)), server.client("joe")
    search, rows = store_big(other)
    return is_never_held_up(lambda: slow_round(client, other, search, rows))


@check("half-closed after its last command")
def _(server):
    client = server.client("joe")
    search, rows = store_big(client)
    client.send(b"".join(b"N%d NOOP\r\n" % number for number in range(500)) + b"S " + search.encode() + b"\r\nT NOOP\r\n")
    client.socket.shutdown(socket.SHUT_WR)
    same([client.reply() for _ in range(500)], [[f"N{number}", "OK", b"NOOP done"] for number in range(500)])
    same([reply[2:] for reply in client.replies("S") if reply[1] == "ENTRY"], rows)
    same(client.rest(), b'T OK "NOOP done"\r\n')


def reset(client):
    """Ends a connection at once, as the system does for a client that is killed while octets for it wait."""
    client.socket.setsockopt(socket.SOL_SOCKET, socket.SO_LINGER, struct.pack("ii", 1, 0))
    client.close()


def one_more(server):
    """A client that is greeted, once a seat is free."""
    end = time.monotonic() + 5
    while time.monotonic() < end:
        client = server.connect()
        if client.reply() == GREETING:
            return client
        time.sleep(0.01)
    raise AssertionError("no seat is free again")


@check("killed in the middle of a literal")
def _(server):
    clients = [server.greeted() for _ in range(SEATS - 2)] + [server.client("joe") for _ in range(2)]
    for client, leave in (clients[-1], Client.close), (clients[-2], reset):
        client.send(b'B STORE ("/option/~/x" "k" {100}\r\n')
        same(client.reply(), ["+", b"Ready"])
        client.send(b"half of it")
        same(server.connect().rest(), FULL)
        leave(client)
        same(answer(one_more(server), "NOOP"), ["OK", b"NOOP done"])


def parting(server, octets, heard, times=100):
    """Each time a new client sends these octets, reads until the server closes, and must have heard what is wanted."""
    for number in range(times):
        client = server.connect()
        with contextlib.suppress(ConnectionResetError, BrokenPipeError):  # it sends more than the server reads
            client.send(octets)
        rest = client.rest()
        if not heard(rest):
            raise AssertionError(f"client {number} of {times} heard {rest[-200:]}")
        client.close()
    return f"{times} of {times} heard all"


@check("200,000 octets after a LOGOUT")
def _(server):
    end = b'* BYE "Good bye"\r\nA1 OK "LOGOUT done"\r\n'
    return parting(server, b"A1 LOGOUT\r\n" + b"x" * 200_000, lambda rest: rest.endswith(end))


@check("50 wrong lines and 200,000 octets without a line's end")
def _(server):
    def heard(octets):
        _, *lines, rest = octets.split(b"\r\n")
        return rest == b"" and len(lines) == 51 and lines[-1].startswith(b"* BYE")

    return parting(server, b"\r\n" * 50 + b"x" * 200_000, heard)


@check("a 65th that sent first")
def _(server):
    clients = [server.greeted() for _ in range(SEATS)]
    rest = parting(server, b"A1 NOOP\r\n" * 1_000, lambda rest: rest == FULL)
    same([answer(client, "NOOP") for client in clients], [["OK", b"NOOP done"]] * SEATS)
    return rest


@check("300,000 octets of garbage")
def _(server):
    for seed, octets in enumerate([range(256), b'"{}()\\\r\n A1+NOP', b"abc \r\n"]):
        client = server.greeted()
        garbage = bytes(random.Random(seed).choices(octets, k=300_000))
        with contextlib.suppress(OSError):  # the server may have closed already
            client.send(garbage + b"\r\n")
            client.socket.shutdown(socket.SHUT_WR)
        with contextlib.suppress(ConnectionError, EOFError):
            for line in iter(client.line, None):
                if b" BAD " not in line and b"BYE" not in line and b"+ " not in line and b"OK" not in line:
                    raise AssertionError(f"garbage is answered {line}")
        same(answer(server.greeted(), "NOOP"), ["OK", b"NOOP done"])


@check("a line without CR LF")
def _(server):
    client = server.greeted()
    client.send(b"B1 NOOP")
    same(is_silent(client, 0.3), True)
    client.send(b"\nB2 NOOP")
    same(is_silent(client, 0.1), True)
    client.send(b"\r\nB3 NOOP\r\n")
    same(client.reply(), ["B1", "BAD", b"Bad token"])
    same(client.reply(), ["B3", "OK", b"NOOP done"])
    client.send(b"B4 " + b"x" * 8_189)
    same(client.rest(), b'* BYE "Line too long"\r\n')


@check("a client reset in the middle of a reply")
def _(server):
    other = server.client("ann")
    search, _rows = store_big(server.client("joe"))
    for _ in range(5):
        client = server.client("joe")
        client.send(b"S " + search.encode() + b"\r\n")
        client.socket.recv(1_000)
        reset(client)
        same(answer(other, "NOOP"), ["OK", b"NOOP done"])


@check("10,000 connections opened and dropped")
def _(server):
    for number in range(10_000):
        client = Client(server.port)
        if number % 3 == 1:
            client.send(b"B NOOP\r\nB AUTHENTICATE")
        if number % 3 == 2:
            reset(client)
        client.close()
    server.settle()
    for _ in range(SEATS):
        one_more(server)


def largest(number):
    """A STORE that has as many octets as a command may have."""
    begin = b'B STORE ("/option/~/wide%02d"' % number
    begin += b"".join(b' "k%d" {65000+}\r\n%s' % (item, b"v" * 65_000) for item in range(4))
    left = COMMAND - len(begin) - len(b' "last" {1000+}\r\n)\r\n')
    command = begin + b' "last" {%d+}\r\n%s)\r\n' % (left, b"v" * left)
    same(len(command), COMMAND)
    return command


@check("64 commands of 262,144 octets at once")
def _(server):
    clients = [server.client("joe") for _ in range(SEATS)]
    for number, client in enumerate(clients):
        threading.Thread(target=client.send, args=[largest(number)], daemon=True).start()
    same([client.reply() for client in clients], [["B", "OK", b"STORE done"]] * SEATS)
    done(clients[0], "STORE " + " ".join(f'("/option/~/wide{number:02}" "entry" DEFAULT)' for number in range(SEATS)))
    status = pathlib.Path(f"/proc/{server.process.pid}/status").read_text(encoding="ascii")
    return f"peak memory so far {int(status.split('VmHWM:')[1].split()[0]) // 1024} MiB"


@check("a slow reader whose context is freed")
def _(server):
    slow, other = server.client("joe", narrow(server.port)), server.client("joe")
    done(other, 'STORE ("/freed/~/a" "k" "1")')
    found(slow, 'SEARCH "/freed/~/" MAKECONTEXT ENUMERATE NOTIFY "c" RETURN ("k") NOT EQUAL "entry" "i;octet" ""')
    value = "v" * 1_000
    # (besides what the system holds, one drain may have as many notices as may wait, 4,096, and as many may wait after it)
    for number in range(12_000):
        done(other, f'STORE ("/freed/~/a" "k" "{value}{number}")')
    slow.send(b"B1 NOOP\r\n")
    replies = slow.replies("B1")
    count = sum(reply[:2] == ["*", "CHANGE"] for reply in replies)
    same(replies[:count], [["*", "CHANGE", b"c", b"a", "1", "1", b"%s%d" % (value.encode(), number)] for number in range(count)])
    rest = [reply for reply in replies[count:] if reply[0] == "*"]
    rest += [] if rest else [slow.reply()]
    same(rest, [["*", "ALERT", b"Context freed: c"]])
    same(is_silent(slow, 0.3), True)
    same(answer(slow, 'UPDATECONTEXT "c"'), ["NO", b"No such context"])
    return f"after {count} notices"


@check("a ring for a session that has ended")
def _(server):
    other = server.client("joe")
    done(other, 'STORE ("/ring/~/a" "k" "1")')
    for number in range(200):
        ended = server.client("joe")
        found(ended, 'SEARCH "/ring/~/" MAKECONTEXT NOTIFY "c" RETURN ("k") ALL')
        other.send(b'B STORE ("/ring/~/a" "k" "%d")\r\n' % number)
        leave = reset if number % 2 else Client.close
        leave(ended)
        same(other.reply(), ["B", "OK", b"STORE done"])
        following = server.client("joe")
        same(answer(following, 'UPDATECONTEXT "c"'), ["NO", b"No such context"])
        same(bytes(following.heard), b"")
        following.close()


# ---- servers of their own

def check_end(program, folder):
    """A server that ends after three sessions."""
    with Server(program, folder, sessions=3) as server:
        done(server.client("joe"), 'STORE ("/option/~/a" "k" "1")')
        done(server.client("ann"), "LOGOUT")
        server.greeted()
        server.close_clients()
        same(server.end(), (listening(server.port), b"", 0))


def check_port(program, folder):
    """A server at port 0 prints the port that the system gave, and serves there."""
    with Server(program, folder, port=0) as server:
        line = server.process.stdout.readline()
        server.port = int(line.rpartition(b":")[2])
        same(line, listening(server.port))
        done(server.client("joe"), "LOGOUT")


STARTS = [  # what a start file holds, and which entries are there then
    (b"", []),
    (b'S1 STORE ("/start/a" "k" "1")\r\nS2 STORE ("/start/.b" "k" "1")\r\nS3 STORE ("/start/c" "k" {1}\r\n1)\r\n', [b"a", b"c"]),
    (b'S1 STORE ("/start/a" "k" "1")\r\nS2 STORE ("/start/b" "k" "1")', [b"a"]),
    (b'S1 STORE ("/start/a" "k" "1")\r\nS2 LOGOUT\r\nS3 STORE ("/start/b" "k" "1")\r\n', [b"a"]),
    (b'S1 STORE ("/start/a" "k" "1")\nS2 STORE ("/start/b" "k" "1")\n', []),
]


def check_start(program, folder):
    """Start files: refused commands are passed over; a LOGOUT, the end within a command, and lines without CR end the rest."""
    file = pathlib.Path(folder) / "start.acap"
    for octets, names in STARTS:
        file.write_bytes(octets)
        with Server(program, folder, start=file) as server:
            rows = server.client("joe").command('SEARCH "/start/" RETURN ("k") ALL')
            same((octets, [row[2] for row in rows if row[1] == "ENTRY"]), (octets, names))


def bad_settings(good):
    """Texts that are no settings, each with its name."""
    yield "no TOML", "listen ="
    yield "no workers", good.replace("workers", "#")
    yield "17 workers", good.replace("workers = 4", "workers = 17")
    yield "another key", "color = 1\n" + good
    yield "a bad name", good + 'anyone = "x"\n'


def check_faults(program, folder):
    """What is printed of faults."""
    def printed(fault):
        return b"", f"acapd: {fault}\n".encode(), 1

    nothing, bad = f"{folder}/nothing", pathlib.Path(folder) / "bad.toml"
    good = settings_file(folder, "127.0.0.1:0")
    same(run(program, "serve", nothing), printed("cannot read"))
    same(run(program, "serve", settings_file(folder, "127.0.0.1:0", start=nothing)), printed("cannot read"))
    for name, text in bad_settings(pathlib.Path(good).read_text(encoding="ascii")):
        bad.write_text(text, encoding="ascii")
        same((name, *run(program, "serve", str(bad))), (name, *printed("bad settings")))
    bad.write_bytes(b'listen = "\xff"')
    same(run(program, "serve", str(bad)), printed("bad settings"))
    with socket.create_server(("127.0.0.1", 0)) as taken:
        for place in (f"127.0.0.1:{taken.getsockname()[1]}", "nowhere"):
            same((place, *run(program, "serve", settings_file(folder, place))), (place, *printed("cannot listen")))


CALLS = [[], ["x"], ["pipe"], ["pipe", "a/b"], ["pipe", "joe", "more"], ["script", "more"], ["serve"], ["serve", "settings", "more"]]
LINE = b'* ACAP (IMPLEMENTATION "acapd") (SASL "CRAM-MD5") (CONTEXTLIMIT "200")\r\n'  # the greeting


def check_calls(program, _folder):
    """Words that are no call: the usage line on standard error alone, and status 2. Status 1 where that can't be written."""
    for words in CALLS:
        same((words, *run(program, *words)), (words, b"", b"usage: acapd pipe USER | script | serve FILE\n", 2))
    with open("/dev/full", "wb") as full:
        same([run(program, *words, stderr=full)[::2] for words in CALLS], [(b"", 1)] * len(CALLS))


def check_lines(program, folder):
    """The lines of faults, each with status 1: those of a server by `check_faults`, here all others, and memory. Nothing that is done to the
    program from outside makes it report `history unequal`, so that this line alone isn't tried."""
    def printed(fault, out=b""):
        return out, f"acapd: {fault}\n".encode(), 1

    unreadable = os.open(folder, os.O_RDONLY)
    same(run(program, "pipe", "joe", stdin=unreadable), printed("cannot read", LINE))
    same(run(program, "script", stdin=unreadable), printed("cannot read"))
    os.close(unreadable)
    with open("/dev/full", "wb") as full:
        same(run(program, "pipe", "joe", stdout=full), (None, *printed("cannot write")[1:]))
    for text, line in (b"x\n", 1), (b"user joe secret\nx\n", 2):
        same((text, *run(program, "script", input=text)[1:]), (text, *printed(f"bad script line {line}")[1:]))
    large = pathlib.Path(folder) / "large.toml"
    with open(large, "wb") as it:
        it.truncate(1 << 31)
    same(run(program, "serve", str(large), preexec_fn=lambda: resource.setrlimit(resource.RLIMIT_AS, (1 << 28, 1 << 28))), printed("no memory"))
    large.unlink()


def run(program, *words, **given):
    """What a call prints, and its status. It reads nothing and is held to no limit, but for what is given."""
    given = {"stdout": subprocess.PIPE, "stderr": subprocess.PIPE} | ({} if "input" in given else {"stdin": subprocess.DEVNULL}) | given
    ran = subprocess.run([program, *words], timeout=20, check=False, **given)
    return ran.stdout, ran.stderr, ran.returncode


OWN = {
    "start files": check_start,
    "the port that the system gives": check_port,
    "sessions = 3, and then status 0": check_end,
    "faults at the start": check_faults,
    "words that are no call": check_calls,
    "lines of faults": check_lines,
}


# ---- all of it

def stop(number, _frame):
    if number == signal.SIGTERM:
        sys.exit("stopped")
    raise TimeoutError("it took too long")


def report(name, function, *given):
    """Does a check within its time, and prints how it went."""
    begun = time.monotonic()
    signal.alarm(max(1, min(SECONDS, int(END - begun))))
    try:
        more = function(*given)
    except Exception as fault:
        sys.exit(f"{name}: NOT as wanted: {type(fault).__name__}: {fault}")
    finally:
        signal.alarm(0)
    print(f"{name}: as wanted{f' ({more})' if more else ''}, {time.monotonic() - begun:.1f} s", flush=True)


def settled(server, function):
    """Does a check between two moments when the server has no client."""
    server.settle()
    more = function(server)
    server.settle()
    return more


def main():
    if len(sys.argv) < 2:
        sys.exit(__doc__)
    program, wanted = str(pathlib.Path(sys.argv[1]).resolve()), sys.argv[2:]

    def is_wanted(name):
        return not wanted or any(word in name for word in wanted)

    for number in (signal.SIGALRM, signal.SIGTERM):
        signal.signal(number, stop)
    with tempfile.TemporaryDirectory() as folder:
        with Server(program, folder) as server:
            for name, function in CHECKS:
                if is_wanted(name):
                    report(name, settled, server, function)
        for name, function in OWN.items():
            if is_wanted(name):
                report(name, function, program, folder)


if __name__ == "__main__":
    main()
