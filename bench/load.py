#!/usr/bin/env python3
"""Measures `acapd serve` beside a plain server: round trips a second, how long one takes, processor time and memory.

    python3 bench/load.py PROGRAM [--other OTHER] [--row WORD] [--rounds N] [--times N]

`bench/load/plain.c` is the measure: a thread for each connection, and one map under one mutex. `bench/load/ping.c` is the client.
Both are built by `cc`. In each row the servers are measured by turns, each time one that was started anew, and of each the time with
the most round trips counts. No figure is judged here; docs/CHECKS.md says what is wanted.

    --other OTHER  measures another program by turns with it, in each row, and prints the ratio to it, too
    --row WORD  measures only the rows whose names have it, and no memory
    --rounds N  round trips of a row (64,000); of a SEARCH a 4th or a 20th part
    --times N   how often each server is measured in each row (3)
"""
import argparse
import contextlib
import os
import pathlib
import subprocess
import sys
import tempfile

LOAD = pathlib.Path(__file__).resolve().parent / "load"
sys.path.append(str(LOAD.parent.parent / "tools"))

from acap_client import Client
from serve import Server, done

TICK = os.sysconf("SC_CLK_TCK")
STORE = 'STORE ("/option/user/joe/e@" "k" "value @")'
SEARCH = 'SEARCH "/option/user/joe/" RETURN ("k") EQUAL "entry" "i;octet" "e@"'
ROWS = [  # what it is called, how many entries there are, the command, and which part of the round trips is made
    ("NOOP", 0, "NOOP", 1),
    ("STORE of one item, 1,000 entries", 1_000, STORE, 1),
    ("STORE of one item, 10,000 entries", 10_000, STORE, 1),
    ("SEARCH by EQUAL, 1,000 entries", 1_000, SEARCH, 4),
    ("SEARCH by EQUAL, 10,000 entries", 10_000, SEARCH, 20),
]
EVENTS = [("STORE of one item", STORE), ("MYRIGHTS", 'MYRIGHTS ("/option/user/joe/")')]


class Plain:
    """The plain server, with the part of `Server` that is used here."""

    def __init__(self, program):
        self.process = subprocess.Popen([program], stdout=subprocess.PIPE)
        self.port = int(self.process.stdout.readline())

    def __enter__(self):
        return self

    def __exit__(self, *_):
        self.process.kill()
        self.process.wait()
        self.process.stdout.close()

    def client(self, user):
        client = Client(self.port)
        client.reply()
        client.login(user, "any")
        return client


def fill(client, count):
    """Makes entries, 200 by a command."""
    for first in range(0, count, 200):
        done(client, "STORE " + " ".join(f'("/option/user/joe/e{number}" "k" "v")' for number in range(first, min(first + 200, count))))


def ping(program, clients, rounds, count, command):
    """Round trips, their seconds, and the times in microseconds: the middle, what 99 in 100 keep, the greatest."""
    for client in clients:
        client.socket.settimeout(None)  # so that it waits, also in another process
    files = [client.socket.fileno() for client in clients]
    words = [program, str(rounds // len(clients)), str(max(count, 1)), command, *map(str, files)]
    ran = subprocess.run(words, pass_fds=files, capture_output=True, check=False, timeout=300)
    if ran.returncode:
        sys.exit(f"ping: {ran.stderr.decode()}")
    return [float(word) for word in ran.stdout.split()]


def processor(server):
    """The processor time that a server has had, in seconds."""
    words = pathlib.Path(f"/proc/{server.process.pid}/stat").read_text(encoding="ascii").rsplit(")", 1)[1].split()
    return (int(words[11]) + int(words[12])) / TICK


def memory(server):
    """The octets of memory that a server has now."""
    text = pathlib.Path(f"/proc/{server.process.pid}/status").read_text(encoding="ascii")
    return int(text.split("VmRSS:")[1].split()[0]) * 1024


class Measure:
    """Starts the servers, and measures them."""

    def __init__(self, folder, asked):
        self.asked, self.ping = asked, f"{folder}/ping"
        self.kinds = {"acapd": lambda: Server(asked.program, folder), "plain": lambda: Plain(f"{folder}/plain")}
        if asked.other:
            self.kinds["other"] = lambda: Server(asked.other, folder)

    def once(self, make, sessions, count, command, part):
        """Round trips a second, the middle, 99 in 100 and greatest time, and the processor time of one, all in microseconds."""
        with make() as server:
            clients = [server.client("joe") for _ in range(sessions)]
            fill(clients[0], count)
            before = processor(server)
            trips, seconds, *times = ping(self.ping, clients, self.asked.rounds // part, count, command)
            return trips / seconds, *times, (processor(server) - before) / trips * 1e6

    def row(self, name, sessions, *given):
        best = {}
        for _ in range(self.asked.times):
            for kind, make in self.kinds.items():
                best[kind] = max(best.get(kind, (0,)), self.once(make, sessions, *given))
        for kind, (rate, *times) in best.items():
            print(f"{name:34} {sessions:2} {kind:6}{rate:9,.0f}" + "".join(f"{time:10,.1f}" for time in times), flush=True)
        for kind in list(best)[1:]:
            ratios = [acapd / other if other else 0 for acapd, other in zip(best["acapd"], best[kind])]
            print(f"{'':31} beside {kind}{ratios[0]:9.2f}" + "".join(f"{ratio:10.2f}" for ratio in ratios[1:]), flush=True)

    def idle(self):
        """Octets of an idle session that is logged in."""
        for kind, make in self.kinds.items():
            with make() as server:
                clients = [server.client("joe")]
                before = memory(server)
                clients += [server.client("joe") for _ in range(63)]
                print(f"memory of an idle session, {kind}: {(memory(server) - before) / 63:,.0f} octets", flush=True)

    def events(self):
        """Octets of an event, of 100,000."""
        for name, command in EVENTS:
            for kind in self.kinds.keys() - {"plain"}:
                self.event(kind, name, command)

    def event(self, kind, name, command):
        with self.kinds[kind]() as server:
            clients = [server.client("joe")]
            fill(clients[0], 1_000)
            ping(self.ping, clients, 1_000, 1_000, command)
            before = memory(server)
            ping(self.ping, clients, 100_000, 1_000, command)
            print(f"memory of an event, {name}, {kind}: {(memory(server) - before) / 100_000:,.0f} octets", flush=True)


def whole(program):
    """The whole name of a program's file."""
    return str(pathlib.Path(program).resolve())


def main():
    words = argparse.ArgumentParser(description=__doc__, formatter_class=argparse.RawDescriptionHelpFormatter)
    words.add_argument("program", type=whole)
    words.add_argument("--other", type=whole)
    words.add_argument("--row", default="")
    words.add_argument("--rounds", type=int, default=64_000)
    words.add_argument("--times", type=int, default=3)
    asked = words.parse_args()
    with tempfile.TemporaryDirectory() as folder, contextlib.suppress(KeyboardInterrupt):
        for name in ("ping", "plain"):
            subprocess.run(["cc", "-O2", "-pthread", "-o", f"{folder}/{name}", f"{LOAD}/{name}.c"], check=True)
        measure = Measure(folder, asked)
        print(f"{'':34}  sessions  trips/s" + "".join(f"{word:>10}" for word in ("p50 us", "p99 us", "most us", "cpu us")))
        for name, *given in ROWS:
            for sessions in (1, 64) if asked.row in name else ():
                measure.row(name, sessions, *given)
        if not asked.row:
            measure.idle()
            measure.events()


if __name__ == "__main__":
    main()
