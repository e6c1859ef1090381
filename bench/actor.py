"""What a client of bench/soak.py is, and what all of them share. The kinds of clients are in bench/crowd.py.

A client has a thread, and one session after another. It checks what it is answered. What isn't as wanted is an AssertionError, which
ends the run: `World.fail` keeps the first. What a client does follows from the seed, its kind and its number; how the events of all
come together doesn't.
"""
import collections
import math
import random
import threading
import time

from acap_client import Client
from serve import GREETING, SEATS, USERS, done, found, narrow, reset, same

EVENTS = 10_000  # that a session lives at most, but for the four that stay
RATE = 20  # sessions that begin each second


class Times:
    """Times by the kind of an event, in steps of a 64th of an octave, and the longest with the moment at which it ended."""

    def __init__(self):
        self.counts, self.longest = collections.defaultdict(collections.Counter), {}

    def add(self, kind, seconds):
        self.counts[kind][round(64 * math.log2(seconds * 1e6 + 1))] += 1
        self.longest[kind] = max(self.longest.get(kind, (0, 0)), (seconds, time.monotonic()))

    def merge(self, other):
        for kind in list(other.counts):
            self.counts[kind].update(other.counts[kind])
            self.longest[kind] = max(self.longest.get(kind, (0, 0)), other.longest[kind])

    def kept_by(self, kind, part):
        """The time in microseconds that so great a part of the events of a kind keep."""
        left = math.ceil(part * self.counts[kind].total())
        for step, count in sorted(self.counts[kind].items()):
            left -= count
            if left <= 0:
                return 2 ** (step / 64) - 1
        return 0


class World:
    """What the clients share: the server, when it all ends, how many sessions have begun, and the first fault."""

    def __init__(self, server, seed, seconds):
        self.server, self.seed, self.begun = server, seed, time.monotonic()
        self.end = self.begun + seconds
        self.lock, self.sessions, self.refused, self.fault = threading.Lock(), 0, 0, None

    def is_over(self):
        return self.fault is not None or time.monotonic() > self.end

    def fail(self, who, fault):
        with self.lock:
            self.fault = self.fault or f"{who}, after {time.monotonic() - self.begun:.1f} s: {type(fault).__name__}: {fault}"

    def may_begin(self):
        """Whether one more session may begin, which is counted: RATE each second, as the server ends after a number set before."""
        with self.lock:
            may = self.sessions < SEATS + RATE * (time.monotonic() - self.begun)
            self.sessions += may
            return may

    def connect(self, narrowed=False):
        """A client that is greeted, or None where it is all over. One that reads that there are too many sessions tries again, since
        the server may not have seen yet that another has gone."""
        while not self.is_over():
            if not self.may_begin():
                time.sleep(0.01)
                continue
            client = Client(self.server.port, connected=narrow(self.server.port) if narrowed else None)
            first = client.reply()
            if first == GREETING:
                return client
            same((first, client.rest()), (["*", "BYE", b"Too many sessions"], b""))
            with self.lock:
                self.sessions -= 1
                self.refused += 1
            time.sleep(0.01)
        return None


class Actor(threading.Thread):
    """A client. `act` does something in a session, `pause` is the middle time in seconds between two such, and `most` the events of a
    session."""

    kind, pause, most, narrowed = "", 0.02, EVENTS, False

    def __init__(self, world, number, stays=False):
        super().__init__(daemon=True)
        self.world, self.number, self.stays = world, number, stays
        self.random = random.Random(f"{world.seed} {self.kind} {number}")
        self.user = ["joe", "ann"][number % 2]
        self.client, self.times, self.compared, self.doing = None, Times(), 0, "nothing"
        self.past, self.count = 0, 0  # events of sessions before, and of all so far

    def __str__(self):
        return f"{self.kind} {self.number}{' that stays' * self.stays}, user {self.user}"

    def events(self):
        """The commands of this session, and what it was sent unasked."""
        return self.client.asked if self.client else 0

    def timed(self, kind, function, *given):
        self.doing, begun = kind, time.perf_counter()
        result = function(*given)
        self.times.add(kind, time.perf_counter() - begun)
        return result

    def ask(self, kind, text):
        """Sends a command that is to be done. Its replies but for the completion."""
        return self.timed(kind, done, self.client, text)

    def rows(self, kind, text):
        return self.timed(kind, found, self.client, text)

    def login(self, client=None, user=None):
        user = user or self.user
        answer = self.timed("login", (client or self.client).login, user, USERS[user])
        same(answer[1:], ["OK", b"AUTHENTICATE done"])

    def begin(self):
        """What begins a session after its greeting."""
        self.login()

    def act(self):
        raise NotImplementedError

    def leave(self):
        """Ends the session: by LOGOUT, by closing, or as one that is killed."""
        way = self.random.randrange(3)
        if way == 0:
            self.client.send(b"Z LOGOUT\r\n")
            if not self.client.rest().endswith(b'* BYE "Good bye"\r\nZ OK "LOGOUT done"\r\n'):
                raise AssertionError("a LOGOUT isn't answered")
        (reset if way == 1 else Client.close)(self.client)

    def live(self):
        """One session."""
        self.client = self.world.connect(self.narrowed)
        if self.client is None:
            return
        most = self.random.randint(1, self.most)
        self.begin()
        while not self.world.is_over() and (self.stays or self.events() < most):
            self.act()
            self.count = self.past + self.events()
            time.sleep(self.random.expovariate(1 / self.pause))
        self.leave()
        self.past, self.client = self.count, None

    def run(self):
        try:
            while not self.world.is_over():
                self.live()
        except Exception as fault:  # printed by bench/soak.py
            self.world.fail(f"{self}, last at {self.doing}", fault)
