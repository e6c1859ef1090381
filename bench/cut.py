#!/usr/bin/env python3
"""Cuts a session's input after each of its octets, and checks what is answered.

    python3 bench/cut.py PROGRAM

`PROGRAM pipe joe` is given each prefix of a session of a STORE with a literal and a SEARCH. Whatever the prefix is, it must end with status
0, and print a prefix of what it prints for the whole.
"""
import subprocess
import sys

INPUT = (b'A1 STORE ("/option/~/font" "option.value" {4}\r\nmono) ("/option/~/size" "option.value" "10")\r\n'
         b'A2 SEARCH "/option/~/" RETURN ("option.value" "modtime") ALL\r\nA3 LOGOUT\r\n')


def answered(program, octets):
    """What the program prints for these octets, and its status."""
    done = subprocess.run([program, "pipe", "joe"], input=octets, capture_output=True, timeout=20)
    return done.stdout, done.returncode


def main():
    program = sys.argv[1]
    whole, status = answered(program, INPUT)
    if status != 0 or not whole.endswith(b'A3 OK "LOGOUT done"\r\n'):
        sys.exit(f"the whole session ended with status {status} and printed {whole!r}")
    for end in range(len(INPUT)):
        prefix, status = answered(program, INPUT[:end])
        if status != 0 or not whole.startswith(prefix):
            sys.exit(f"cut after {end} octets: status {status}, printed {prefix!r}")
    print(f"{len(INPUT)} prefixes: each is answered by a prefix of the answers, with status 0")


if __name__ == "__main__":
    main()
