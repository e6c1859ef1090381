#!/usr/bin/env python3
"""Refuses each allocation of `acapd pipe` or `acapd script` in turn, and checks what is answered then.

    python3 bench/refuse.py PROGRAM FILE [--script] [--from N] [--seconds S]

FILE has one command a line, tags A1, A2, .., and is sent with CR LF; or it is a script, whose `send` lines are commands with
tags that stand once each, and the answers to challenges. The Nth allocation alone is refused, by a library that is loaded before
the C library's. Allowed is: the honest answers (where the program did without); one command answered `NO (TRYLATER) "No memory"`,
and every other one as if that command were never sent (for the answer to a challenge: as if there had been no login); or a
prefix of the honest answers, with status 1 and `acapd: no memory` (of a script: the honest answers to all lines before one, and
nothing of that one's); or status 2 where the arguments couldn't be read. A command that is refused so is sent once more, in a
run of its own: then it and all others must be answered honestly. It ends when a run asks for fewer allocations than N, or after
as many seconds, and then prints the number to go on from.
"""
import argparse
import os
import subprocess
import sys
import tempfile
import time

REFUSER = r"""
#define _GNU_SOURCE
#include <dlfcn.h>
#include <errno.h>
#include <stdio.h>
#include <stdlib.h>
static long asked, at = -1;
static void *(*real_malloc)(size_t), *(*real_realloc)(void *, size_t), *(*real_calloc)(size_t, size_t);
static int (*real_align)(void **, size_t, size_t);
static void *(*real_aligned)(size_t, size_t);
#define REAL(x, name) if (!x) x = dlsym(RTLD_NEXT, name)
static int refused(void) { if (at < 0) { char *n = getenv("REFUSE_AT"); at = n ? atol(n) : 0; } return ++asked == at; }
void *malloc(size_t n) { REAL(real_malloc, "malloc"); return refused() ? NULL : real_malloc(n); }
void *realloc(void *p, size_t n) { REAL(real_realloc, "realloc"); return refused() ? NULL : real_realloc(p, n); }
int posix_memalign(void **p, size_t a, size_t n) { REAL(real_align, "posix_memalign"); return refused() ? ENOMEM : real_align(p, a, n); }
void *aligned_alloc(size_t a, size_t n) { REAL(real_aligned, "aligned_alloc"); return refused() ? NULL : real_aligned(a, n); }
__attribute__((destructor)) static void report(void) {
    long count = asked;
    at = 0;
    FILE *to = fopen(getenv("REFUSE_REPORT"), "w");
    if (to) { fprintf(to, "%ld", count); fclose(to); }
}
/* a program that may start threads ends by this call, which runs no destructor */
__attribute__((noreturn)) void _exit(int status) {
    void (*real)(int) = dlsym(RTLD_NEXT, "_exit");
    report();
    real(status);
    __builtin_unreachable();
}
"""


class Pipe:
    """A session between standard input and output."""

    words = ["pipe", "joe"]
    end = b"\r\n"

    @staticmethod
    def commands(lines):
        """For each command: its name, the lines that it takes, and what its refusal prints."""
        for at, line in enumerate(lines):
            tag = line.split()[0]
            yield tag, (at,), tag + b' NO (TRYLATER) "No memory"\r\n'

    @staticmethod
    def rest(out, refusal):
        """What is printed but for that refusal."""
        return out.replace(refusal, b"", 1)

    @staticmethod
    def ended(honest, fronts, out):
        """What is said of an end for want of memory, or None where it isn't allowed."""
        return b"the end" if honest.startswith(out) else None


class Script:
    """A script of several sessions."""

    words = ["script"]
    end = b"\n"

    @staticmethod
    def commands(lines):
        asked = {}
        for at, line in enumerate(lines):
            word, *parts = line.split(b" ", 2)
            if word != b"send":
                continue
            seat, text = parts
            tag, login = text.split()[0], None
            if text.startswith(b'"'):
                tag, login = asked[seat]
            elif b" AUTHENTICATE " in text:
                asked[seat] = tag, at
            took = (at,) if login is None else (login, at)
            yield tag, took, seat + b": " + tag + b' NO (TRYLATER) "No memory"\n'

    @staticmethod
    def rest(out, refusal):
        """What is printed but for that refusal, and for the challenge before it if it is that of a login."""
        before, after = out.split(refusal, 1)
        shown = before.splitlines(keepends=True)
        if shown and shown[-1].startswith(refusal[:refusal.index(b":")] + b": + "):
            shown.pop()
        return b"".join(shown) + after

    @staticmethod
    def ended(honest, fronts, out):
        return b"the end at " + fronts[out].split()[0] if out in fronts else None


class Trial:
    """The runs of some lines."""

    def __init__(self, program, kind, lines):
        self.program, self.kind, self.lines = program, kind, lines
        self.honest, _, status = self.run(lines)
        if status:
            sys.exit(f"without a refusal the status is {status}")
        # what is printed before each line, and the last line before which it is
        self.fronts = {self.run(lines[:at])[0]: line for at, line in enumerate(lines)}
        self.without = {}

    def run(self, lines, **env):
        """What is printed, said of a fault, and the status."""
        given = b"".join(line + self.kind.end for line in lines)
        words = [self.program, *self.kind.words]
        done = subprocess.run(words, input=given, capture_output=True, env={**os.environ, **env})
        return done.stdout, done.stderr, done.returncode

    def is_left_out(self, took, refusal, out):
        """Whether what is printed is that refusal and, else, what is printed without the lines of the command."""
        if refusal not in out:
            return False
        if took not in self.without:
            left = [line for at, line in enumerate(self.lines) if at not in took]
            self.without[took] = self.run(left)[0]
        return self.kind.rest(out, refusal) == self.without[took]

    def goes_on(self, took, refusal, env):
        """Whether the command that is refused, sent once more, is answered honestly, and all others are."""
        end = took[-1] + 1
        out, _, _ = self.run(self.lines[:end] + [self.lines[at] for at in took] + self.lines[end:], **env)
        return refusal in out and self.kind.rest(out, refusal) == self.honest

    def judged(self, outcome, env):
        """What was refused, or None where the outcome isn't allowed."""
        out, err, status = outcome
        if status == 2:
            return b"the arguments"
        if status == 1:
            return self.kind.ended(self.honest, self.fronts, out) if err == b"acapd: no memory\n" else None
        if out == self.honest:
            return b"nothing"
        for name, took, refusal in self.kind.commands(self.lines):
            if self.is_left_out(took, refusal, out):
                return name if self.goes_on(took, refusal, env) else None
        return None


def arguments():
    words = argparse.ArgumentParser()
    words.add_argument("program")
    words.add_argument("file")
    words.add_argument("--script", action="store_true")
    words.add_argument("--from", dest="first", type=int, default=1)
    words.add_argument("--seconds", type=float, default=500)
    return words.parse_args()


def refuse_all(trial, folder, first, end):
    """Refuses one allocation after the other. How many, what was refused how often, and whether it came to its end."""
    source, refuser, report = f"{folder}/refuser.c", f"{folder}/refuser.so", f"{folder}/report"
    with open(source, "w", encoding="ascii") as it:
        it.write(REFUSER)
    subprocess.run(["cc", "-O1", "-shared", "-fPIC", "-o", refuser, source, "-ldl"], check=True)
    counts, n = {}, first
    while time.monotonic() < end:
        env = {"LD_PRELOAD": refuser, "REFUSE_AT": str(n), "REFUSE_REPORT": report}
        outcome = trial.run(trial.lines, **env)
        with open(report, encoding="ascii") as it:
            if int(it.read()) < n:
                return n, counts, True
        name = trial.judged(outcome, env)
        if name is None:
            out, err, status = outcome
            sys.exit(f"allocation {n}: not allowed: status {status}, {err!r}\n{out.decode('latin-1')}")
        counts[name] = counts.get(name, 0) + 1
        n += 1
    return n, counts, False


def main():
    asked = arguments()
    with open(asked.file, "rb") as it:
        lines = [line.rstrip(b"\r\n") for line in it if line.strip()]
    end = time.monotonic() + asked.seconds
    trial = Trial(asked.program, Script if asked.script else Pipe, lines)
    with tempfile.TemporaryDirectory() as folder:
        n, counts, is_whole = refuse_all(trial, folder, asked.first, end)
    refused = ", ".join(f"{name.decode()} {count}" for name, count in counts.items())
    print(f"{n - asked.first} allocations refused, each with an allowed outcome. Refused: {refused or 'nothing'}")
    if not is_whole:
        print(f"not ended: go on with --from {n}")


if __name__ == "__main__":
    main()
