"""A client of an ACAP server (RFC 2244), for the programs in tools/ and bench/: it logs in, sends commands and reads replies.

A reply is a list of tokens: a word is a str, a string is bytes, and a parenthesis is a list. So `A1 ENTRY "a" ("x" NIL)` is
`["A1", "ENTRY", b"a", [b"x", "NIL"]]`.
"""
import hmac
import re
import socket

TOKEN = re.compile(rb' ?(?:(?P<open>\()|(?P<close>\))|"(?P<quoted>(?:[^"\\]|\\.)*)"|\{(?P<literal>\d+)\}\Z|(?P<word>[^ ()"]+))')
QUOTED = 1_024  # octets that a quoted string has at most, escapes counted


def quoted(value):
    """A string between quotes, or None where it has to be a literal."""
    escaped = re.sub(rb'(["\\])', rb"\\\1", value)
    if len(escaped) > QUOTED or re.search(rb"[\0\r\n]", value):
        return None
    try:
        value.decode()
    except UnicodeDecodeError:
        return None
    return b'"' + escaped + b'"'


def string(value):
    """A string as it is sent."""
    return quoted(value) or b"{%d+}\r\n" % len(value) + value


class Client:
    """A client's side of a session. Nothing that it waits for may take longer than `seconds`."""

    def __init__(self, port, host="127.0.0.1", seconds=20, connected=None):
        self.socket = connected or socket.create_connection((host, port), timeout=seconds)
        self.socket.settimeout(seconds)
        self.socket.setsockopt(socket.IPPROTO_TCP, socket.TCP_NODELAY, 1)
        self.heard = bytearray()
        self.asked = 0

    def close(self):
        self.socket.close()

    def send(self, octets):
        self.socket.sendall(octets)

    def _hear(self):
        octets = self.socket.recv(65_536)
        if not octets:
            raise EOFError("the server has closed the session")
        self.heard += octets

    def octets(self, count):
        """The next octets that come."""
        while len(self.heard) < count:
            self._hear()
        taken = bytes(self.heard[:count])
        del self.heard[:count]
        return taken

    def line(self):
        """The next line, without its CR LF."""
        sought = 0
        while (end := self.heard.find(b"\r\n", sought)) < 0:
            sought = max(len(self.heard) - 1, 0)
            self._hear()
        return self.octets(end + 2)[:-2]

    def rest(self):
        """All that comes until the server closes the session."""
        try:
            while True:
                self._hear()
        except EOFError:
            return self.octets(len(self.heard))

    def reply(self):
        """The tokens of the next reply."""
        levels = [[]]
        while True:
            count = _read_line(self.line(), levels)
            if count is None:
                return levels[0]
            levels[-1].append(self.octets(count))

    def replies(self, tag):
        """The replies up to the completion of the command with that tag."""
        heard = [self.reply()]
        while heard[-1][0] != tag or heard[-1][1] not in ("OK", "NO", "BAD"):
            heard.append(self.reply())
        return heard

    def command(self, text):
        """Sends a command, and reads the replies up to its completion, which is the last."""
        return self.commands(text)[0]

    def commands(self, *texts):
        """Sends commands at once, and reads the replies to each."""
        tags = [f"A{self.asked + number}" for number in range(1, len(texts) + 1)]
        self.asked += len(texts)
        octets = [text.encode() if isinstance(text, str) else text for text in texts]
        self.send(b"".join(b"%s %s\r\n" % (tag.encode(), text) for tag, text in zip(tags, octets)))
        return [self.replies(tag) for tag in tags]

    def login(self, user, secret):
        """Logs in by CRAM-MD5 (RFC 2195), after the greeting. The completion."""
        self.asked += 1
        self.send(b'A%d AUTHENTICATE "CRAM-MD5"\r\n' % self.asked)
        first = self.reply()
        if first[0] != "+":
            return first
        digest = hmac.new(secret.encode(), first[1], "md5").hexdigest()
        self.send(string(f"{user} {digest}".encode()) + b"\r\n")
        return self.replies(f"A{self.asked}")[-1]


def _read_line(line, levels):
    """Adds the tokens of a line to the lists that are open. The octets of the literal that follows it, if one does."""
    at = 0
    while at < len(line):
        token = TOKEN.match(line, at)
        if not token:
            raise ValueError(f"no token at octet {at} of {line[:200]!r}")
        at, kind, text = token.end(), token.lastgroup, token[token.lastgroup]
        if kind == "literal":
            return int(text)
        if kind == "open":
            levels.append([])
            levels[-2].append(levels[-1])
        elif kind == "close":
            levels.pop()
        else:
            levels[-1].append(text.decode() if kind == "word" else re.sub(rb"\\(.)", rb"\1", text))
    return None
