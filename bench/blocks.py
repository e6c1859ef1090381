#!/usr/bin/env python3
"""Runs the blocks of commands of README.md and docs/RUNNING.md, each in a new shell at the top of a fresh clone of what is committed.

    python3 bench/blocks.py [--list] [--minutes N] [WORD..]     # WORD: only the blocks that have it

A block is commands that are indented by four spaces or stand in a fence of `sh`. It has to end with status 0 within 25 minutes, or as many as
are said. Where the next block of the section is text, what the commands print must have its lines, in their order. Blocks that prove or
install something, or need what such a block makes, are not run: each is printed with the reason. Fails where a block fails. `rt try` builds
the program anew in each block, a minute or two of processor time. It ends only what it started.
"""
import argparse
import contextlib
import os
import pathlib
import re
import signal
import subprocess
import sys
import tempfile

TOP = pathlib.Path(__file__).resolve().parent.parent
PAGES = ["README.md", "docs/RUNNING.md"]

# How a line of commands begins.
COMMAND = re.compile(r"\(|(cat|cd|echo|export|for|install|ldd|printf|python3|rt|until|acapc|acapd)\s|[A-Z_]+=\S+\s|ACAP_SECRET=")

# Why a block isn't run, by what stands in it.
REASONS = [
    (r"\brt ci\b", "the gate"),
    (r"\brt run\b|\brt check\b", "a proved build"),
    (r"/out/acap[cd]\b", "needs a proved build"),
    (r"^\[Unit\]|systemctl", "systemd"),
    (r"\binstall\b|/usr/local/", "installs"),
    (r"(^|\s)acap[cd] ", "needs an installed program"),
    (r"stunnel|SO_KEEPALIVE", "stunnel"),
]


class Block:
    """Lines of a page that stand together, indented or in a fence."""

    def __init__(self, page, number, section, kind, lines):
        self.page, self.number, self.section, self.kind, self.lines = page, number, section, kind, lines

    def text(self):
        return "\n".join(self.lines)

    def is_commands(self):
        return self.kind in ("", "sh") and bool(COMMAND.match(self.lines[0]))

    def reason(self):
        """Why it isn't run; nothing where it is."""
        return next((why for pattern, why in REASONS if re.search(pattern, self.text(), re.MULTILINE)), None)

    def name(self):
        return f"{self.page}:{self.number}: {self.lines[0]}"


def blocks_of(page):
    """The blocks of a page, in their order."""
    section, kind, lines, start, fenced = "", "", [], 0, False
    for number, line in enumerate([*(TOP / page).read_text().split("\n"), "#"], 1):
        fence = re.match(r"```(\w*)$", line)
        inside = fenced and not fence
        if inside or (not fenced and line.startswith("    ")):
            start = start or number
            lines.append(line if inside else line[4:])
            continue
        if not fenced and not line.strip() and lines:
            continue
        if lines:
            yield Block(page, start, section, kind, lines)
        lines, start = [], 0
        if fence:
            fenced, kind = not fenced, fence[1] if not fenced else ""
        section = line if line.startswith("#") else section


def wanted_after(blocks, at):
    """The lines that a block of commands has to print: those of the next block of its section, if that is text."""
    after = blocks[at + 1] if at + 1 < len(blocks) else None
    if after and after.section == blocks[at].section and not after.is_commands() and not after.kind:
        return [line for line in after.lines if line.strip()]
    return []


def missing(wanted, printed):
    """The first of some lines that isn't printed after those before it."""
    lines = iter(printed.replace("\r", "").split("\n"))
    return next((line for line in wanted if line not in lines), None)


def ran(block, wanted, minutes):
    """Runs a block, and says what is wrong; nothing where nothing is."""
    with tempfile.TemporaryDirectory() as folder:
        clone = f"{folder}/clone"
        subprocess.run(["git", "clone", "-q", TOP, clone], check=True)
        shell = subprocess.Popen(["bash", "-e", "-c", block.text()], cwd=clone, stdin=subprocess.DEVNULL, stdout=subprocess.PIPE,
                                 stderr=subprocess.STDOUT, text=True, errors="replace", start_new_session=True)
        try:
            printed, _ = shell.communicate(timeout=60 * minutes)
        except subprocess.TimeoutExpired:
            return f"isn't done in {minutes} minutes"
        finally:
            with contextlib.suppress(ProcessLookupError):
                os.killpg(shell.pid, signal.SIGTERM)
        tail = "\n".join(printed.rstrip().split("\n")[-12:])
        if shell.returncode:
            return f"status {shell.returncode}:\n{tail}"
        line = missing(wanted, printed)
        return f"doesn't print {line!r}:\n{tail}" if line else None


def main():
    parser = argparse.ArgumentParser(description=__doc__, formatter_class=argparse.RawDescriptionHelpFormatter)
    parser.add_argument("--list", action="store_true", help="run nothing")
    parser.add_argument("--minutes", type=int, default=25, help="how long a block may take")
    parser.add_argument("words", nargs="*")
    args = parser.parse_args()
    failed = 0
    for page in PAGES:
        blocks = list(blocks_of(page))
        for at, block in enumerate(blocks):
            if args.words and not any(word in block.text() for word in args.words):
                continue
            why = block.reason()
            if why and (block.is_commands() or block.kind == "ini"):
                print(f"{block.name()}: not run: {why}", flush=True)
            elif block.is_commands():
                wrong = None if args.list else ran(block, wanted_after(blocks, at), args.minutes)
                failed += bool(wrong)
                print(f"{block.name()}: {'to be run' if args.list else wrong or 'as wanted'}", flush=True)
    return 1 if failed else 0


if __name__ == "__main__":
    sys.exit(main())
