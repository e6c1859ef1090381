"""Three servers that keep a user's options, for bench/versus.py: acapd, Redis, and OpenLDAP's slapd. Each is started in a folder of its own.

A set of options is a dataset in acapd, a hash in Redis, and the entries beneath an entry in slapd. Requests are octets, in which `ENTRY` and
`VALUE` stand for numbers, as bench/load/frames.h says. Names of options have 6 octets and values 11, in each server. Nothing is made
durable: acapd keeps nothing on disk, so slapd doesn't wait for its disk (`dbnosync`, `writemap`), and Redis writes neither snapshots nor a log.
Everybody is logged in, as `joe`, who may touch what is joe's alone: as its owner in acapd, by a pattern of keys in Redis, by an access rule in
slapd. An administrator stores the options of others. There is no TLS.
"""
import collections
import os
import pathlib
import shutil
import socket
import subprocess
import tempfile
import time

from serve import USERS, Server, done, free_port

ENTRY, VALUE = b"e@@@@@", b"v##########"
FIRST = b"v00000@@@@@"  # the value that an entry is stored with
SECRET = USERS["joe"]

# What is asked: how, in words; the request; of how many entries one is taken; how many rows each answer has, and what it holds
Ask = collections.namedtuple("Ask", "how request over rows expected", defaults=(1, 0, b""))


class Acapd(Server):
    """acapd, with four workers."""

    name, protocol, command = "acapd", "acap", None
    replies = 1

    def __init__(self, folder, is_watched=False):
        super().__init__(self.command, folder, turns=1_000_000_000)

    def session(self, user="joe"):
        """A connection that is logged in. It waits for an answer as long as that takes."""
        connection = self.client(user).socket
        connection.settimeout(None)
        return connection

    def place(self, owner, name):
        return f"/option/~/{name}/".encode() if owner == "joe" else f"/option/user/{owner}/".encode()

    def make(self, _owner, _name):
        """Makes a set: a STORE makes the dataset that isn't there."""

    def store(self, value, owner, name):
        return Ask("STORE", b'A STORE ("%s%s" "option.value" "%s")\r\n' % (self.place(owner, name), ENTRY, value), 1_000)

    def add(self, owner, name):
        return self.store(FIRST, owner, name)

    def set(self, owner, name):
        return self.store(VALUE, owner, name)

    def search(self, name, count, key, rows):
        request = b'A SEARCH "%s" RETURN ("option.value") %s\r\n' % (self.place("joe", name), key)
        return Ask("SEARCH", request, count, rows, b'ENTRY "%s" "%s"\r\n' % (ENTRY, FIRST))

    def noop(self):
        return Ask("NOOP", b"A NOOP\r\n")

    def read_one(self, name, count):
        return self.search(name, count, b'EQUAL "entry" "i;octet" "%s"' % ENTRY, 1)

    def read_all(self, name, count):
        return self.search(name, count, b"ALL", count)

    def find_one(self, name, count):
        """What walks a whole set: one entry by its value."""
        return self.search(name, count, b'EQUAL "option.value" "i;octet" "%s"' % FIRST, 1)

    def write(self):
        """What a writer sends, of which watchers are notified."""
        return self.set("joe", "watched").request

    def watch(self):
        """A connection that is notified of changes: its context has NOTIFY."""
        client = self.client("joe")
        done(client, b'SEARCH "%s" MAKECONTEXT NOTIFY "live" RETURN ("option.value") ALL' % self.place("joe", "watched"))
        return client.socket


class Rival:
    """A server that isn't acapd's: how it is started, and ended."""

    def __init__(self, folder, is_watched=False):
        self.port, self.folder, self.connections = free_port(), tempfile.mkdtemp(dir=folder), []
        with open(f"{self.folder}/log", "wb") as log:
            words = self.words(is_watched)
            self.process = subprocess.Popen(words, stdin=subprocess.DEVNULL, stdout=log, stderr=log, cwd=self.folder)

    def __enter__(self):
        return self

    def __exit__(self, *_):
        for connection in self.connections:
            connection.close()
        self.process.kill()
        self.process.wait()

    @classmethod
    def program(cls):
        """Its program, or None. slapd is often where only the superuser looks."""
        return shutil.which(cls.command, path=os.environ.get("PATH", "") + ":/usr/local/sbin:/usr/sbin:/usr/local/libexec:/usr/libexec")

    def file(self, text):
        """A file of settings."""
        file = pathlib.Path(self.folder) / "settings"
        file.write_text(text, encoding="ascii")
        return str(file)

    def connect(self):
        end = time.monotonic() + 20
        while True:
            try:
                connection = socket.create_connection(("127.0.0.1", self.port))
                break
            except ConnectionRefusedError:
                if self.process.poll() is not None or time.monotonic() > end:
                    log = pathlib.Path(f"{self.folder}/log").read_text(encoding="utf-8", errors="replace")
                    raise AssertionError(f"{self.name} doesn't listen: {log[-500:]}") from None
                time.sleep(0.02)
        connection.setsockopt(socket.IPPROTO_TCP, socket.TCP_NODELAY, 1)
        self.connections.append(connection)
        return connection

    def expect(self, whether, heard):
        if not whether:
            raise AssertionError(f"{self.name} answers {heard!r}")


# ---- Redis

def words_of(*words):
    """A command of Redis."""
    words = [word if isinstance(word, bytes) else word.encode() for word in words]
    return b"*%d\r\n" % len(words) + b"".join(b"$%d\r\n%s\r\n" % (len(word), word) for word in words)


WALK = ("local all = redis.call('HGETALL', KEYS[1]) local found = {} for at = 2, #all, 2 do "
        "if all[at] == ARGV[1] then found[#found + 1] = all[at - 1] found[#found + 1] = all[at] end end return found")


class Redis(Rival):
    """Redis: an option is a field of a hash, and a writer publishes what it has written."""

    name, protocol, command = "Redis", "resp", "redis-server"
    replies = 2  # to a write of which watchers are notified

    def words(self, _is_watched):
        users = f"user default on >{SECRET} ~* &* +@all\nuser joe on >{SECRET} ~joe:* &joe:* +@all\n"
        return [self.program(), self.file(f'port {self.port}\nbind 127.0.0.1\nsave ""\nappendonly no\ndir "{self.folder}"\n{users}')]

    def session(self, user="joe"):
        connection = self.connect()
        connection.sendall(words_of("AUTH", "default" if user == "root" else user, SECRET))
        reply = connection.recv(1_000)
        self.expect(reply == b"+OK\r\n", reply)
        return connection

    def place(self, owner, name):
        return f"{owner}:{name}"

    def make(self, _owner, _name):
        """Makes a set: its first HSET does."""

    def add(self, owner, name):
        return Ask("HSET", words_of("HSET", self.place(owner, name), ENTRY, FIRST), 1_000)

    def set(self, owner, name):
        return Ask("HSET", words_of("HSET", self.place(owner, name), ENTRY, VALUE), 1_000)

    def noop(self):
        return Ask("PING", words_of("PING"))

    def read_one(self, name, count):
        return Ask("HGET", words_of("HGET", self.place("joe", name), ENTRY), count, 1, FIRST)

    def read_all(self, name, count):
        return Ask("HGETALL", words_of("HGETALL", self.place("joe", name)), count, 2 * count, b"%s\r\n$11\r\n%s\r\n" % (ENTRY, FIRST))

    def find_one(self, name, count):
        """Redis has no such search, so a script in the server walks the hash."""
        return Ask("EVAL", words_of("EVAL", WALK, "1", self.place("joe", name), FIRST), count, 2, b"%s\r\n$11\r\n%s\r\n" % (ENTRY, FIRST))

    def write(self):
        return self.set("joe", "watched").request + words_of("PUBLISH", self.place("joe", "watched"), ENTRY + b" " + VALUE)

    def watch(self):
        connection = self.session()
        connection.sendall(words_of("SUBSCRIBE", self.place("joe", "watched")))
        reply = connection.recv(1_000)
        self.expect(reply.startswith(b"*3\r\n$9\r\nsubscribe\r\n"), reply)
        return connection


# ---- slapd

SUFFIX = "cn=versus"
SYNC = "1.3.6.1.4.1.4203.1.9.1.1"  # the control of syncrepl (RFC 4533)
BIND, SEARCH, MODIFY, ADD, EQUAL, PRESENT = 0x60, 0x63, 0x66, 0x68, 0xa3, 0x87
SEARCH_ENTRY, INTERMEDIATE = 0x64, 0x79
SLAPD = """moduleload back_mdb
moduleload syncprov
attributetype ( 1.3.6.1.4.1.4203.666.99.1 NAME 'optionValue' EQUALITY octetStringMatch SYNTAX 1.3.6.1.4.1.1466.115.121.1.40 SINGLE-VALUE )
objectclass ( 1.3.6.1.4.1.4203.666.99.2 NAME 'optionSet' SUP top STRUCTURAL MUST cn MAY userPassword )
objectclass ( 1.3.6.1.4.1.4203.666.99.3 NAME 'option' SUP top STRUCTURAL MUST cn MAY optionValue )
loglevel 0
sizelimit unlimited
timelimit unlimited
database mdb
suffix "{suffix}"
rootdn "cn=root,{suffix}"
rootpw {secret}
directory "{folder}"
maxsize 2147483648
dbnosync
envflags writemap
index objectClass eq
access to dn.subtree="cn=joe,{suffix}" by dn.exact="cn=joe,{suffix}" write by anonymous auth by * none
{overlay}
"""


def encoded(tag, *parts):
    """What is encoded by BER, with that tag."""
    content = b"".join(parts)
    size = bytes([len(content)]) if len(content) < 128 else b"\x82" + len(content).to_bytes(2, "big")
    return bytes([tag]) + size + content


def strings(*given, tag=4):
    return b"".join(encoded(tag, it if isinstance(it, bytes) else it.encode()) for it in given)


def number(it, tag=2):
    return encoded(tag, bytes([it]))


def message(*parts):
    """A message of LDAP, with a place for its number."""
    return encoded(0x30, b"\x02\x04%%%%", *parts)


def attribute(name, *values):
    return encoded(0x30, strings(name), encoded(0x31, strings(*values)))


def adding(name, kind, **attributes):
    given = [attribute(*item) for item in attributes.items()]
    return message(encoded(ADD, strings(name), encoded(0x30, attribute("objectClass", kind), *given)))


ANY = strings("objectClass", tag=PRESENT)


def searching(base, scope, *attributes, wanted=ANY, controls=b""):
    limits = number(0, 10) + number(0) + number(0) + number(0, 1)  # aliases, entries, seconds, names alone
    return message(encoded(SEARCH, strings(base), number(scope, 10), limits, wanted, encoded(0x30, strings(*attributes))), controls)


class Slapd(Rival):
    """slapd: an option is an entry, and a watcher has a search by syncrepl that persists."""

    name, protocol, command = "slapd", "ldap", "slapd"
    replies = 1

    def words(self, is_watched):
        overlay = "overlay syncprov" * is_watched
        file = self.file(SLAPD.format(suffix=SUFFIX, secret=SECRET, folder=self.folder, overlay=overlay))
        return [self.program(), "-f", file, "-h", f"ldap://127.0.0.1:{self.port}", "-d", "0"]

    def heard(self, connection):
        """The operation of the next message, and its content."""
        head = connection.recv(2, socket.MSG_WAITALL)
        size = head[1]
        if size & 128:
            size = int.from_bytes(connection.recv(size & 127, socket.MSG_WAITALL), "big")
        content = connection.recv(size, socket.MSG_WAITALL)
        operation = content[2 + content[1]:]
        return operation[0], operation

    def asked(self, connection, request):
        """Sends what is answered by its success alone."""
        connection.sendall(request)
        tag, operation = self.heard(connection)
        self.expect(tag not in (SEARCH_ENTRY, INTERMEDIATE) and b"\x0a\x01\x00" in operation[:5], operation)

    def session(self, user="joe"):
        connection = self.connect()
        self.asked(connection, message(encoded(BIND, number(3), strings(f"cn={user},{SUFFIX}"), strings(SECRET, tag=0x80))))
        return connection

    def place(self, owner, name):
        return f"cn={name},cn=joe,{SUFFIX}" if owner == "joe" else f"cn={owner},{SUFFIX}"

    def make(self, owner, name):
        """Makes the entry of a set, and those above it that aren't there."""
        root = self.session("root")
        above = [(SUFFIX, "optionSet", {"cn": "versus"}), (f"cn=joe,{SUFFIX}", "optionSet", {"cn": "joe", "userPassword": SECRET})]
        for place, kind, attributes in above:
            root.sendall(adding(place, kind, **attributes))  # refused where it is there
            self.heard(root)
        self.asked(root, adding(self.place(owner, name), "optionSet", cn=name or owner))
        root.close()

    def entry(self, owner, name):
        return b"cn=%s,%s" % (ENTRY, self.place(owner, name).encode())

    def add(self, owner, name):
        return Ask("add", adding(self.entry(owner, name), "option", cn=ENTRY, optionValue=FIRST), 1_000)

    def set(self, owner, name):
        change = encoded(0x30, number(2, 10), attribute("optionValue", VALUE))  # 2: replace
        return Ask("modify", message(encoded(MODIFY, strings(self.entry(owner, name)), encoded(0x30, change))), 1_000)

    def noop(self):
        return Ask("search of the root", searching("", 0, "1.1"), 1, 1)

    def read_one(self, name, count):
        return Ask("search of one", searching(self.entry("joe", name), 0, "optionValue"), count, 1, FIRST)

    def read_all(self, name, count):
        return Ask("search beneath", searching(self.place("joe", name), 1, "optionValue"), count, count, FIRST)

    def find_one(self, name, count):
        """There is no index of values."""
        wanted = encoded(EQUAL, strings("optionValue", FIRST))
        return Ask("search by value", searching(self.place("joe", name), 1, "optionValue", wanted=wanted), count, 1, FIRST)

    def write(self):
        return self.set("joe", "watched").request

    def watch(self):
        connection = self.session()
        refresh_and_persist = strings(encoded(0x30, number(3, 10)))
        control = encoded(0xa0, encoded(0x30, strings(SYNC), number(255, 1), refresh_and_persist))
        connection.sendall(searching(self.place("joe", "watched"), 1, "optionValue", controls=control))
        tags = [self.heard(connection)[0]]
        while tags[-1] == SEARCH_ENTRY:
            tags.append(self.heard(connection)[0])
        self.expect((len(tags), tags[-1]) == (1_001, INTERMEDIATE), tags[-3:])
        return connection
