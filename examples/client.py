#!/usr/bin/env python3
"""A client of acapd: stores a value, searches for it, and prints what is answered.

    python3 examples/client.py PROGRAM           # a session of joe with a program that it starts, as crates/acapd/out/acapd
    python3 examples/client.py HOST:PORT USER    # a session with a server, after a login

The secret of USER is what the environment variable ACAP_SECRET holds; without one it is asked for. Where the server closes the session,
refuses the login or says BYE, the client says so and ends with status 1.
"""
import getpass
import hmac
import os
import re
import socket
import subprocess
import sys

SECONDS = 30  # how long a server may take to answer


class Ended(Exception):
    """The session is over before all is done."""


class Session:
    """A session, by what the client writes to and what it reads from."""

    def __init__(self, said, heard):
        self.said, self.heard = said, heard

    def say(self, line):
        self.said.write(f"{line}\r\n".encode())
        self.said.flush()

    def hear(self):
        """The next line, printed. It reads lines alone, no literals."""
        octets = self.heard.readline()
        if not octets.endswith(b"\r\n"):
            raise Ended("the server has closed the session")
        line = octets.decode(errors="replace").rstrip("\r\n")
        print(line, flush=True)
        return line

    def answer(self, tag, *more):
        """The line that ends the answer to a command, or one that begins as one of these."""
        while True:
            line = self.hear()
            if line.startswith((f"{tag} OK ", f"{tag} NO ", f"{tag} BAD ", *more)):
                return line
            if line.startswith("* BYE "):
                raise Ended("the server says BYE")

    def ask(self, tag, command):
        """Sends a command and prints its answer."""
        self.say(f"{tag} {command}")
        return self.answer(tag)

    def greeting(self):
        if not self.answer("*", "* ACAP ").startswith("* ACAP "):
            raise Ended("the server doesn't greet")

    def log_in(self, user, secret):
        """CRAM-MD5 (RFC 2195): the digest of the challenge, by the secret."""
        self.say('A0 AUTHENTICATE "CRAM-MD5"')
        challenge = re.fullmatch(r'\+ "(.*)"', self.answer("A0", "+ "))
        if not challenge:
            raise Ended("the server doesn't let anybody log in")
        digest = hmac.new(secret.encode(), challenge[1].encode(), "md5").hexdigest()
        self.say(f'"{user} {digest}"')
        if not self.answer("A0").startswith("A0 OK "):
            raise Ended("the login is refused")

    def log_out(self):
        self.say("A3 LOGOUT")
        self.hear()  # the BYE
        self.answer("A3")


def started(program):
    """A session of joe with a program."""
    server = subprocess.Popen([program, "pipe", "joe"], stdin=subprocess.PIPE, stdout=subprocess.PIPE)
    return Session(server.stdin, server.stdout)


def connected(place):
    """A session with a server."""
    host, _, port = place.rpartition(":")
    if not host or not port.isdigit():
        raise Ended(f"{place} is no HOST:PORT")
    both = socket.create_connection((host.strip("[]"), int(port)), timeout=SECONDS).makefile("rwb")
    return Session(both, both)


def run(place, user=None):
    """The whole session."""
    secret = user and (os.environ.get("ACAP_SECRET") or getpass.getpass(f"Secret of {user}: "))
    session = connected(place) if user else started(place)
    session.greeting()
    if user:
        session.log_in(user, secret)
    session.ask("A1", 'STORE ("/option/~/font" "option.value" "mono")')
    session.ask("A2", 'SEARCH "/option/~/" RETURN ("option.value") ALL')
    session.log_out()


def main():
    if len(sys.argv) not in (2, 3):
        print(__doc__, file=sys.stderr)
        sys.exit(2)
    try:
        run(*sys.argv[1:])
    except (Ended, OSError, EOFError) as why:
        sys.exit(f"client: {str(why) or 'no secret is given'}")


if __name__ == "__main__":
    main()
