#!/usr/bin/env python3
"""Measures `acapd serve` beside what people would use instead, Redis and OpenLDAP's slapd, in one run by turns.

    python3 bench/versus.py PROGRAM [--other OTHER] [--row WORD] [--rounds N] [--seconds S] [--sessions N] [--options N]

`redis-server` and `slapd` have to be on the path (`apt-get install redis-server slapd`): a run without both doesn't count, so it says so and
ends with status 1. bench/rivals.py says how each server is started and asked. One client asks all of them, bench/load/rounds.c, over plain
sockets of 127.0.0.1: over each connection it waits for an answer before it asks again, and checks each answer. bench/load/notices.c measures
how long after a write those that watch are notified. Both are built by `cc`. All servers run at once, and are asked by turns: a round
of one, a round of the next, begun at another one each time. Figures are medians of the rounds. Nothing is judged here.

    --other OTHER  measures another program of acapd's protocol by turns with them
    --row WORD     measures only the rows whose names have it
    --rounds N     how often each server is asked in each row (7)
    --seconds S    how long a round is (0.5)
    --sessions N   how many sessions the rows of many have (64, which is the most)
    --options N    with how many options memory is measured (60,000), in thousands

In the tables `cpu us` is the server's processor time of one round trip, or of one write and all that are notified of it. `spread` is the highest
rate less the lowest, to the median: measure on a machine with nothing beside it. `last` is the time until the last of those that watch is notified.
`once` and `once more` are octets an option, stored once, and stored once and then set once more. `ratio` is acapd's figure to this server's, of
round trips, of the time until the last is notified, and of octets. The ratios of round trips are printed once more, a line for each row.
"""
import argparse
import collections
import contextlib
import os
import statistics
import subprocess
import sys
import tempfile
import time

from load import LOAD, memory, processor, whole
from rivals import Acapd, Redis, Slapd
from serve import SEATS

JOES = {"hundred": 100, "thousand": 1_000, "written": 1_000, "myriad": 10_000}  # sets of joe's, and how many options each has
ROWS = {
    "no-op": lambda server: server.noop(),
    "set one of 1,000": lambda server: server.set("joe", "written"),
    "read one by name of 1,000": lambda server: server.read_one("thousand", 1_000),
    "read one by name of 10,000": lambda server: server.read_one("myriad", 10_000),
    "read 100": lambda server: server.read_all("hundred", 100),
    "find one by value of 1,000": lambda server: server.find_one("thousand", 1_000),
}
NOTICES, MEMORY, IDLE = "notice of a write to 1,000", "memory of an option", "memory of an idle session"
HEADS = {
    "trips": ["trips/s", "spread", "p50 us", "p99 us", "cpu us", "ratio"],
    NOTICES: ["writes/s", "answer us", "last p50", "last p99", "cpu us", "ratio"],
    MEMORY: ["once", "once more", "seconds", "ratio", "ratio"],
    IDLE: ["octets", "ratio"],
}


def print_line(row, count, name, cells):
    print(f"{row:27}{count:>9} {name:6}" + "".join(f"{cell:>11}" for cell in cells), flush=True)


def by_turns(servers, rounds):
    """Each server in each round. Each round begins at the next one, and each second one goes the other way."""
    for count in range(rounds):
        at = count % len(servers)
        turned = servers[at:] + servers[:at]
        yield from turned[::-1] if count % 2 else turned


def ratio(first, figure):
    """What acapd has, the first that is measured, to what this one has."""
    return f"{first / figure:.3f}" if figure else "-"


class Measure:
    """Starts the servers, and measures them."""

    def __init__(self, folder, asked):
        self.folder, self.asked, self.ratios = folder, asked, collections.defaultdict(dict)
        self.kinds = [type("Asked", (Acapd,), {"command": asked.program}), Redis, Slapd]
        if asked.other:
            self.kinds.insert(1, type("Other", (Acapd,), {"command": asked.other, "name": "other"}))

    def client(self, name, server, given, connections):
        """The numbers that a program of bench/load prints. What is given stands before the connections."""
        files = [connection.fileno() for connection in connections]
        words = [it.hex() if isinstance(it, bytes) else str(it) for it in (*given, *files)]
        words = [f"{self.folder}/{name}", server.protocol, *words]
        ran = subprocess.run(words, pass_fds=files, capture_output=True, check=False, timeout=600)
        if ran.returncode:
            raise AssertionError(f"{server.name}: {name}: {ran.stderr.decode(errors='replace').strip() or ran.returncode}")
        return [float(word) for word in ran.stdout.split()]

    def rounds(self, server, ask, connections, seconds=0, count=0):
        """Round trips, their seconds, the middle time, what 99 in 100 keep, and the server's processor time in seconds."""
        before = processor(server)
        given = [seconds, count, 2, ask.over, ask.rows, ask.request, ask.expected]
        return [*self.client("rounds", server, given, connections), processor(server) - before]

    def notices(self, server, connections, seconds):
        """Writes, the middle time of an answer, that until the last is notified, what 99 in 100 keep, and the processor time."""
        before = processor(server)
        given = [seconds, 1_000, server.replies, server.write()]
        return [*self.client("notices", server, given, connections), processor(server) - before]

    def filled(self, server, sets, owner="joe"):
        """Makes sets, and stores their options one by one. The connection that did so, and how many seconds that took."""
        for name in sets:
            server.make(owner, name)
        connection = server.session("joe" if owner == "joe" else "root")
        asked = [(server.add(owner, name), count) for name, count in sets.items()]
        return connection, sum(self.rounds(server, ask, [connection], count=count)[1] for ask, count in asked)

    # ---- round trips

    def trips(self):
        """The rows of one request and one answer, with one session and with many."""
        wanted = [row for row in ROWS if self.asked.row in row]
        if not wanted:
            return
        print()
        print_line("round trips", "sessions", "server", HEADS["trips"])
        with contextlib.ExitStack() as stack:
            servers = [stack.enter_context(kind(self.folder)) for kind in self.kinds]
            connections = {server: [self.filled(server, JOES)[0]] for server in servers}
            for count in sorted({1, self.asked.sessions}):
                for server, mine in connections.items():
                    mine += [server.session() for _ in range(count - len(mine))]
                for row in wanted:
                    self.trips_row(row, count, connections)
        self.print_ratios()

    def print_ratios(self):
        """How many round trips acapd makes where another makes one, a line for each row."""
        columns = [(kind.name, count) for kind in self.kinds[1:] for count in sorted({1, self.asked.sessions})]
        print(f"\n{'round trips, ratio':27}" + "".join(f"{f'{name}, {count}':>12}" for name, count in columns))
        for row, cells in self.ratios.items():
            print(f"{row:27}" + "".join(f"{cells[column]:>12}" for column in columns), flush=True)

    def trips_row(self, row, count, connections):
        """One row: a shorter round of each to warm up, and then rounds by turns."""
        found = {server: [] for server in connections}
        asks = {server: ROWS[row](server) for server in connections}
        for server, mine in connections.items():
            self.rounds(server, asks[server], mine, self.asked.seconds / 4)
        for server in by_turns(list(connections), self.asked.rounds):
            found[server].append(self.rounds(server, asks[server], connections[server], self.asked.seconds))
        rates = {server: [trips / seconds for trips, seconds, *_ in mine] for server, mine in found.items()}
        first = statistics.median(next(iter(rates.values())))
        for server, mine in found.items():
            rate = statistics.median(rates[server])
            spread = (max(rates[server]) - min(rates[server])) / rate
            p50, p99 = (statistics.median(it[at] for it in mine) for at in (2, 3))
            cost = sum(it[4] for it in mine) / sum(it[0] for it in mine) * 1e6
            self.ratios[row][server.name, count] = ratio(first, rate)
            cells = [f"{rate:,.0f}", f"{spread:.0%}", f"{p50:,.1f}", f"{p99:,.1f}", f"{cost:,.1f}", ratio(first, rate)]
            print_line(row, count, server.name, cells)

    # ---- those that are notified

    def notified(self):
        """The time from a write until those that watch are notified."""
        print()
        print_line(NOTICES, "watchers", "server", HEADS[NOTICES])
        with contextlib.ExitStack() as stack:
            servers = [stack.enter_context(kind(self.folder, is_watched=True)) for kind in self.kinds]
            connections = {server: [self.filled(server, {"watched": 1_000})[0]] for server in servers}
            for count in (1, 20):
                for server, mine in connections.items():
                    mine += [server.watch() for _ in range(count + 1 - len(mine))]
                self.told_row(count, connections)

    def told_row(self, count, connections):
        found = {server: [] for server in connections}
        for server, mine in connections.items():
            self.notices(server, mine, self.asked.seconds / 4)
        for server in by_turns(list(connections), self.asked.rounds):
            found[server].append(self.notices(server, connections[server], self.asked.seconds))
        times = {server: [statistics.median(it[at] for it in mine) for at in (1, 2, 3)] for server, mine in found.items()}
        first = next(iter(times.values()))[1]
        for server, mine in found.items():
            writes = sum(it[0] for it in mine)
            cost = sum(it[4] for it in mine) / writes * 1e6
            rate = writes / self.asked.rounds / self.asked.seconds
            cells = [f"{rate:,.0f}", *(f"{time:,.1f}" for time in times[server]), f"{cost:,.1f}", ratio(first, times[server][1])]
            print_line(NOTICES, count, server.name, cells)

    # ---- memory

    def options(self):
        """The octets of memory that an option takes, stored once, and how many more once each was set once more."""
        print()
        print_line(MEMORY, "options", "server", HEADS[MEMORY])
        owners, first = [f"u{number:02}" for number in range(max(self.asked.options // 1_000, 1))], None
        for kind in self.kinds:
            with kind(self.folder) as server:
                self.filled(server, {"warm": 1_000})
                before, begun = memory(server), time.monotonic()
                mine = [(owner, self.filled(server, {"": 1_000}, owner)[0]) for owner in owners]
                once = memory(server) - before
                for owner, connection in mine:
                    self.rounds(server, server.set(owner, ""), [connection], count=1_000)
                    connection.close()
                figures = [it / 1_000 / len(owners) for it in (once, memory(server) - before)]
                seconds = time.monotonic() - begun
            first = first or figures
            cells = [f"{it:,.0f}" for it in figures] + [f"{seconds:.0f}", *map(ratio, first, figures)]
            print_line(MEMORY, 1_000 * len(owners), server.name, cells)

    def idle(self):
        """The octets of memory that an idle session takes, once it is logged in."""
        print()
        print_line(IDLE, "sessions", "server", HEADS[IDLE])
        first = None
        for kind in self.kinds:
            with kind(self.folder) as server:
                self.rounds(server, server.noop(), [self.filled(server, {"warm": 1_000})[0]], count=2_000)
                before = memory(server)
                for _ in range(SEATS - 1):
                    server.session()
                time.sleep(0.3)
                each = (memory(server) - before) / (SEATS - 1)
            first = first or each
            print_line(IDLE, SEATS, server.name, [f"{each:,.0f}", ratio(first, each)])


def lacking():
    """Why a run wouldn't count: the servers that aren't here."""
    return [kind.command for kind in (Redis, Slapd) if not kind.program()]


def main():
    words = argparse.ArgumentParser(description=__doc__, formatter_class=argparse.RawDescriptionHelpFormatter)
    words.add_argument("program", type=whole)
    words.add_argument("--other", type=whole)
    words.add_argument("--row", default="")
    words.add_argument("--rounds", type=int, default=7)
    words.add_argument("--seconds", type=float, default=0.5)
    words.add_argument("--sessions", type=int, choices=range(1, SEATS + 1), default=SEATS, metavar="N")
    words.add_argument("--options", type=int, default=60_000)
    asked = words.parse_args()
    if lacking():
        sys.exit(f"not found: {', '.join(lacking())}. A run without both servers doesn't count")
    with tempfile.TemporaryDirectory() as folder:
        for name in ("rounds", "notices"):
            subprocess.run(["cc", "-O2", "-pthread", "-o", f"{folder}/{name}", f"{LOAD}/{name}.c"], check=True)
        measure = Measure(folder, asked)
        print(f"{os.cpu_count()} processors, load average {os.getloadavg()[0]:.1f} before; {asked.rounds} rounds of {asked.seconds} s")
        try:
            measure.trips()
            for name, part in {NOTICES: measure.notified, MEMORY: measure.options, IDLE: measure.idle}.items():
                if asked.row in name:
                    part()
        except (AssertionError, OSError) as fault:
            sys.exit(f"NOT measured: {fault}")
        print(f"\nload average {os.getloadavg()[0]:.1f} after")


if __name__ == "__main__":
    main()
