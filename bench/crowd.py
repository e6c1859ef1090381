"""The kinds of clients of bench/soak.py, 64 in all. bench/actor.py says what each of them is."""
import time

from acap_client import Client, string
from actor import Actor
from serve import Viewer, reset, same

OPEN, QUIET = "/soak/", "/quiet/"  # datasets that all may write: one is written all the time, the other about once a second
KILLED = 'SEARCH "/option/user/joe/killed/" RETURN ("k")'  # joe's, with one entry
BIG = 4  # entries of 65,536 octets that a slow reader reads


class Follower(Actor):
    """Sits there with a context, and compares now and then what it holds with what it finds."""

    kind, pause, dataset = "follower", 0.5, OPEN
    view = None

    def begin(self):
        super().begin()
        self.view = self.timed("SEARCH that makes a context", Viewer, self.client, self.number, None, self.dataset)

    def events(self):
        return super().events() + (self.view.noticed if self.view else 0)

    def act(self):
        self.compared += self.timed("UPDATECONTEXT and SEARCH", self.view.compare)


class Reader(Actor):
    """Reads a dataset that others write."""

    kind, dataset = "reader", OPEN

    def act(self):
        name = b"e%d" % self.random.randrange(50)
        choice = self.random.random()
        if choice < 0.75:
            text = f'SEARCH "{self.dataset}" RETURN ("k") EQUAL "entry" "i;octet" "{name.decode()}"'
            rows = self.rows("SEARCH of one by its name", text)
            same([row[0] for row in rows], [name] * len(rows))
            same(len(rows) < 2, True)
        elif choice < 0.85:
            rows = self.rows("SEARCH with SORT and LIMIT", f'SEARCH "{self.dataset}" LIMIT 5 5 RETURN ("k") SORT ("k" "i;octet") ALL')
            same(len(rows) < 6, True)
        elif choice < 0.95:
            rows = self.rows("SEARCH of all", f'SEARCH "{self.dataset}" RETURN ("k" "modtime") ALL')
            same(len({row[0] for row in rows}), len(rows))
        else:
            same(self.ask("MYRIGHTS", f'MYRIGHTS ("{self.dataset}")')[0][2:], [b"xrwi"])


class Writer(Actor):
    """Stores into a set of its own, which it knows, and into the dataset that all write."""

    kind, dataset, part = "writer", OPEN, 0.3

    def __init__(self, *given, **more):
        super().__init__(*given, **more)
        self.held = {}

    def begin(self):
        super().begin()
        self.ask("STORE", f'STORE ("/option/~/w{self.number}/first" "k" "1")')  # so that the set is there
        self.held[b"first"] = b"1"

    def value(self):
        return self.random.choice([b"", b"a", b"two words", b'quo"ted', b"x" * 200]) + b"%d" % self.random.randrange(1_000)

    def act(self):
        choice = self.random.random()
        number = self.random.randrange(50)
        if choice < self.part:
            given = self.random.choice(['"k" "%d"'] * 8 + ['"k" DEFAULT', '"entry" NIL'])
            given = given % self.random.randrange(100) if "%" in given else given
            self.ask("STORE", f'STORE ("{self.dataset}e{number}" {given})')
        elif choice < 0.9:
            self.store_own(b"e%d" % number)
        else:
            rows = self.rows("SEARCH of its own", f'SEARCH "/option/~/w{self.number}/" RETURN ("k") NOT EQUAL "entry" "i;octet" ""')
            same(sorted(map(tuple, rows)), sorted(self.held.items()))

    def store_own(self, name):
        path = b"/option/~/w%d/%s" % (self.number, name)
        if self.random.random() < 0.2:
            self.ask("STORE", b'STORE ("%s" "entry" NIL)' % path)
            self.held.pop(name, None)
            return
        value = b"l" * 2_000 if self.random.random() < 0.02 else self.value()
        self.ask("STORE", b'STORE ("%s" "k" %s)' % (path, string(value)))
        self.held[name] = value


class Sharer(Actor):
    """Joe with a book of his own, and ann, whom he gives rights and takes them from: she has a context over it."""

    kind, pause = "sharer", 0.03

    def __init__(self, *given):
        super().__init__(*given)
        self.user, self.guest, self.view, self.held, self.rights = "joe", None, None, {}, ""
        self.book = f"/book/user/joe/{self.number}/"

    def __str__(self):
        return f"{self.kind} {self.number}, ann's rights {self.rights or 'none'}"

    def events(self):
        return super().events() + (self.guest.asked if self.guest else 0) + (self.view.noticed if self.view else 0)

    def begin(self):
        super().begin()
        self.ask("STORE", f'STORE ("{self.book}a" "k" "0")')
        self.held[b"a"] = b"0"
        self.guest = self.world.connect()
        if self.guest:
            self.login(self.guest, "ann")
            self.view = Viewer(self.guest, self.number, None, self.book)

    def act(self):
        if not self.guest:
            return
        self.share()
        self.try_to_write()
        replies = self.guest_asks("SEARCH by rights", f'SEARCH "{self.book}" RETURN ("k") NOT EQUAL "entry" "i;octet" ""')
        rows = sorted(tuple(reply[2:]) for reply in replies if reply[1] == "ENTRY")
        same((self.rights, rows), (self.rights, sorted(self.held.items()) if "r" in self.rights else []))
        self.compared += self.timed("UPDATECONTEXT and SEARCH", self.view.compare)

    def guest_asks(self, kind, text):
        """What ann is answered. The notices that come among that are heeded."""
        replies = self.timed(kind, self.guest.command, text)
        self.view.heed(replies)
        return [reply for reply in replies if reply[0] != "*"]

    def share(self):
        """Gives ann other rights, or none."""
        self.rights = self.random.choice([it for it in ("", "xr", "xrw", "xrwi") if it != self.rights])
        if self.rights:
            self.ask("SETACL", f'SETACL ("{self.book}") "ann" "{self.rights}"')
        else:
            self.ask("DELETEACL", f'DELETEACL ("{self.book}") "ann"')

    def try_to_write(self):
        """Ann writes what is there, which needs w, and joe writes another entry."""
        value = b"%d" % self.random.randrange(1_000)
        answer = self.guest_asks("STORE by rights", b'STORE ("%sa" "k" "%s")' % (self.book.encode(), value))
        may = "w" in self.rights
        same((self.rights, answer[-1][1]), (self.rights, "OK" if may else "NO"))
        self.held |= {b"a": value} if may else {}
        name = b"e%d" % self.random.randrange(20)
        self.ask("STORE", b'STORE ("%s%s" "k" "%s")' % (self.book.encode(), name, value))
        self.held[name] = value

    def leave(self):
        if self.guest:
            self.guest.close()
        super().leave()
        self.guest = self.view = None


class Stranger(Actor):
    """Fails to log in."""

    kind, pause, most = "stranger", 0.05, 4

    def begin(self):
        """It isn't logged in."""

    def act(self):
        choice = self.random.randrange(4)
        if choice == 0:
            same(self.timed("login that fails", self.client.login, self.user, "wrong")[1:], ["NO", b"Login failed"])
        elif choice == 1:
            same(self.timed("login that fails", self.client.login, "nobody", "secret")[1:], ["NO", b"Login failed"])
        elif choice == 2:
            same(self.client.command('SEARCH "/soak/" ALL')[-1][1:], ["BAD", b"Log in first"])
        else:
            same(self.client.command('AUTHENTICATE "PLAIN"')[-1][1:], ["NO", b"Mechanism not offered"])


class Visitor(Actor):
    """Comes and goes."""

    kind, pause, most = "visitor", 0.01, 12

    def act(self):
        if self.random.random() < 0.5:
            self.ask("NOOP", "NOOP")
        else:
            rows = self.rows("SEARCH of one by its name", f'{KILLED} EQUAL "entry" "i;octet" "here"')
            same(rows, [[b"here", b"1"]] if self.user == "joe" else [])


class Killed(Actor):
    """Is killed in the middle of a literal: what it wanted to store must not be there."""

    kind, pause, most = "killed", 0.05, 6

    def begin(self):
        self.user = "joe"
        super().begin()

    def act(self):
        same(self.rows("SEARCH of all", f"{KILLED} ALL"), [[b"here", b"1"]])

    def leave(self):
        if self.random.random() < 0.5:
            self.client.send(b'B STORE ("/option/~/killed/never" "k" {100}\r\n')
            same(self.client.reply(), ["+", b"Ready"])
            self.client.send(b"half of it")
        else:
            self.client.send(b'B STORE ("/option/~/killed/never" "k" {5000+}\r\n' + b"x" * 3_000)
        self.random.choice([reset, Client.close])(self.client)


class Slow(Actor):
    """Reads a quarter of a megabyte slowly, over a connection of which the system holds little."""

    kind, pause, most, narrowed = "slow reader", 0.5, 30, True

    def begin(self):
        self.user = "joe"
        super().begin()

    def act(self):
        self.client.asked += 1
        self.client.send(b'S SEARCH "/option/~/big/" RETURN ("v") ALL\r\n')
        end = time.monotonic() + self.random.random()
        heard = bytearray()
        while time.monotonic() < end:
            heard += self.client.socket.recv(500)
            if heard.endswith(b'S OK "SEARCH done"\r\n'):
                break
            time.sleep(0.005)
        self.client.heard[:0] = heard
        rows = [reply[2:] for reply in self.client.replies("S") if reply[1] == "ENTRY"]
        same(rows, [[b"%02d" % number, bytes([97 + number]) * 65_536] for number in range(BIG)])


def crowd(world):
    """All clients: 64 seats, since a sharer has two."""
    stay = [Follower(world, 100, True), Follower(world, 101, True), Reader(world, 100, True), Writer(world, 100, True)]
    for it in stay:
        it.dataset, it.pause, it.part = QUIET, 1, 0.9
    kinds = [(Follower, 16), (Reader, 12), (Writer, 12), (Sharer, 4), (Stranger, 3), (Visitor, 3), (Killed, 2), (Slow, 4)]
    return stay + [kind(world, number) for kind, count in kinds for number in range(count)]
