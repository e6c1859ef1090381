#!/usr/bin/env python3
"""Fills a store to its limit of 65,536 records through `acapd pipe`, and checks what is answered there.

    python3 bench/full_store.py PROGRAM

The own entries of three datasets count, and so does a deleted entry; a removed one doesn't. What counts is how many records
a command would leave.
"""
import subprocess
import sys

LIMIT = 65_536
OWN = 3
DONE, FULL = 'OK "STORE done"', 'NO "Limit reached"'


def entry(name, item='"k" "1"'):
    return f'("/option/~/{name}" {item})'


def cases():
    """Commands, and what each is answered."""
    names = [f"e{number:05}" for number in range(LIMIT - OWN)]
    for start in range(0, len(names), 200):
        yield "STORE " + " ".join(entry(name) for name in names[start:start + 200]), DONE
    yield "STORE " + entry("new"), FULL
    yield "STORE " + entry("e00000", '"k" "2" "l" "3"'), DONE
    yield "STORE " + entry("e00000", '"entry" NIL'), DONE
    yield "STORE " + entry("new"), FULL
    yield "STORE " + entry("e00001", '"entry" DEFAULT'), DONE
    yield "STORE " + entry("new"), DONE
    yield "STORE " + entry("newer"), FULL
    yield "STORE " + entry("e00002", '"entry" DEFAULT') + " " + entry("newer"), DONE
    yield "STORE " + entry("e00003", '"entry" DEFAULT') + " " + entry("one") + " " + entry("two"), FULL
    yield 'SEARCH "/option/~/" LIMIT 0 0 ALL', f'OK (TOOMANY {LIMIT - OWN - 1}) "SEARCH done"'


def main():
    if len(sys.argv) != 2:
        sys.exit(__doc__)
    wanted = ['* ACAP (IMPLEMENTATION "acapd") (SASL "CRAM-MD5") (CONTEXTLIMIT "200")']
    sent = []
    for number, (command, answer) in enumerate(cases()):
        sent.append(f"A{number} {command}\r\n")
        wanted.append(f"A{number} {answer}")
    done = subprocess.run([sys.argv[1], "pipe", "joe"], input="".join(sent).encode(), capture_output=True, check=True)
    got = done.stdout.decode().splitlines()
    for command, want, have in zip([""] + sent, wanted, got):
        if want != have:
            sys.exit(f"sent:   {command[:100].rstrip()}\nwanted: {want}\ngot:    {have}")
    if len(got) != len(wanted):
        sys.exit(f"{len(got)} lines are answered, and {len(wanted)} are wanted")
    print(f"{len(sent)} commands over a full store, each answered as wanted")


if __name__ == "__main__":
    main()
