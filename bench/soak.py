#!/usr/bin/env python3
"""Keeps 64 clients at `acapd serve` over 127.0.0.1, and checks all that they are answered, until the server ends of itself.

    python3 bench/soak.py PROGRAM [MINUTES] [SEED]

MINUTES is 60 and SEED is 1 where they aren't given. The clients are kinds of their own, each in a thread (bench/crowd.py): some sit there with a
context, read or write; some share address books by rights, fail to log in, come and go, are killed in the middle of a literal, or read
slowly. A session lives at most 10,000 events, but for four that stay. What a context's client holds is compared with what a SEARCH
finds, where both are of one moment: at least 1,000 times in a run of a minute or more. The number of sessions that the server serves in all
(`sessions` of its settings) is set at the start: when the time is over the clients leave, and others come and go until it is reached. Then the
server has to end with status 0, which says that its history agrees with what its sessions were sent.

It prints memory over time, events a second, the times of each kind of event, the longest of them, and how many comparisons were made. Where all
was as wanted the last line says so. Else it names the first difference, and ends with status 1; with status 2 where it isn't called as above. A wait
of 20 seconds is a difference too, whatever else the machine does. Times hold what the client itself takes: the row `a sleep of 1 ms` says by how much
that was too long, and so what is to be taken off.
"""
import argparse
import os
import pathlib
import subprocess
import sys
import tempfile
import threading
import time

from load import memory, whole  # which finds tools/
from acap_client import Client
from actor import RATE, Times, World
from crowd import BIG, OPEN, QUIET, crowd
from serve import GREETING, SEATS, Server, done, listening, same, store_big

COMPARISONS = 1_000  # that are wanted
EPOCH = 500_000  # calls, at which the server begins a new history


class Clock(threading.Thread):
    """Sleeps, and measures by how much each sleep is too long: what the machine and the other threads take of any time."""

    def __init__(self, world):
        super().__init__(daemon=True)
        self.world, self.times = world, Times()

    def run(self):
        while not self.world.is_over():
            begun = time.perf_counter()
            time.sleep(0.001)
            self.times.add("a sleep of 1 ms", max(time.perf_counter() - begun - 0.001, 0))
            time.sleep(0.02)


def prepare(server):
    """Stores what is there at the beginning. How many sessions that took."""
    root, joe = server.client("root"), server.client("joe")
    for dataset in OPEN, QUIET:
        done(root, f'STORE ("{dataset}e0" "k" "5") ("{dataset}" "dataset.acl" ("value" ("anyone\txrwi")))')
    done(joe, 'STORE ("/option/~/killed/here" "k" "1")')
    store_big(joe, BIG)
    server.close_clients()
    return 2


def print_progress(world, clients):
    """Runs until the end, and prints sixty lines, or one each five seconds of a short run."""
    print(f"{'minute':>8}{'events/s':>10}{'MiB':>8}{'most MiB':>10}{'events':>12}", end="")
    print(f"{'of the four':>13}{'of all here':>13}{'sessions':>10}{'comparisons':>13}")
    step, before = max((world.end - world.begun) / 60, 5), 0
    while not world.is_over():
        time.sleep(0.2)
        if time.monotonic() < world.begun + (before + 1) * step and not world.is_over():
            continue
        before += 1
        print_line(world, clients)


def most_memory(server):
    """The most octets of memory that a server has had so far."""
    text = pathlib.Path(f"/proc/{server.process.pid}/status").read_text(encoding="ascii")
    return int(text.split("VmHWM:")[1].split()[0]) * 1024


def print_line(world, clients):
    events, passed = sum(it.count for it in clients), time.monotonic() - world.begun
    four, here = sum(it.count for it in clients if it.stays), sum(it.count - it.past for it in clients)
    compared = sum(it.compared for it in clients)
    has_ended = world.server.process.poll() is not None
    held, most = (0 if has_ended else octets(world.server) / 2**20 for octets in (memory, most_memory))
    print(f"{passed / 60:8.2f}{events / passed:10,.0f}{held:8,.0f}{most:10,.0f}{events:12,}", end="")
    print(f"{four:13,}{here:13,}{world.sessions:10,}{compared:13,}", flush=True)


def finish(world, sessions):
    """Begins and ends the sessions that are left, and waits until the server ends: what it prints, and its status."""
    while world.sessions < sessions:
        client = Client(world.server.port)
        world.sessions += client.reply() == GREETING
        client.close()
    out, err = world.server.process.communicate(timeout=300)
    same((out, err, world.server.process.returncode), (listening(world.server.port), b"", 0))


def print_times(world, clients):
    all_times = Times()
    for it in clients:
        all_times.merge(it.times)
    print(f"\n{'kind':30}{'events':>12}{'p50 us':>10}{'p99 us':>10}{'longest ms':>12}")
    for kind in sorted(all_times.counts):
        middle, most = (all_times.kept_by(kind, part) for part in (0.5, 0.99))
        print(f"{kind:30}{all_times.counts[kind].total():12,}{middle:10,.0f}{most:10,.0f}{all_times.longest[kind][0] * 1000:12,.1f}")
    if all_times.longest:
        kind = max(all_times.longest, key=all_times.longest.get)
        seconds, ended = all_times.longest[kind]
        print(f"the longest wait: {seconds * 1000:,.1f} ms, {kind}, in minute {(ended - world.begun) / 60:.2f}")
    return sum(counter.total() for counter in all_times.counts.values())


def run(program, folder, minutes, seed):
    """The run. Raises an AssertionError where something isn't as wanted."""
    seconds = 60 * minutes
    sessions = 2 * SEATS + int(RATE * seconds)  # more than begin before the end
    with Server(program, folder, sessions=sessions, turns=1_000_000_000) as server:
        count = prepare(server)
        world = World(server, seed, seconds)
        world.sessions = count
        clients = crowd(world)
        clock = Clock(world)
        for thread in [clock, *clients]:
            thread.start()
        print_progress(world, clients)
        for thread in clients:
            thread.join(60)
        spent, passed = sum(os.times()[:2]), time.monotonic() - world.begun
        least = print_times(world, [clock, *clients])
        if world.fault:
            status = server.process.poll()
            raise AssertionError(world.fault + (f"\nthe server has ended: {server.end()}" if status is not None else ""))
        finish(world, sessions)
        most = sum(it.count for it in clients) + 2 * sessions  # where each notice was sent by a drain of its own
        compared = sum(it.compared for it in clients)
        print(f"{compared:,} comparisons; {least // EPOCH} to {most // EPOCH} new epochs; {world.refused:,} times too many sessions; "
              f"the clients took {spent / passed:.2f} processors")
        print(f"the server ended with status 0, after {sessions:,} sessions")
        if compared < min(COMPARISONS, COMPARISONS * minutes):
            raise AssertionError(f"only {compared} comparisons")


def main():
    words = argparse.ArgumentParser(description=__doc__, formatter_class=argparse.RawDescriptionHelpFormatter)
    words.add_argument("program", type=whole)
    words.add_argument("minutes", nargs="?", type=float, default=60)
    words.add_argument("seed", nargs="?", type=int, default=1)
    asked = words.parse_args()
    sys.setswitchinterval(0.001)  # so that a thread with much to do holds up the others less
    with tempfile.TemporaryDirectory() as folder:
        try:
            run(asked.program, folder, asked.minutes, asked.seed)
        except (AssertionError, OSError, EOFError, subprocess.TimeoutExpired) as fault:
            sys.exit(f"NOT as wanted: {fault}")
    print("all was as wanted")


if __name__ == "__main__":
    main()
