#!/usr/bin/env python3
"""How long the gate takes: runs `rt ci --anew` in a clone of what is committed, and prints where its processor time went.

    python3 bench/gate.py [PROCESSORS]

It may use that many processors, 2 where nothing is said. Nothing else should run beside it. It prints what `rt ci` says at its end, then the shares, and
for each crate the processor minutes of its proof and of its tests, and when these began and ended, in minutes from the start; it looks each second.
The whole log is left in /tmp/gate.log. It fails where `rt ci` fails.
"""
import os
import pathlib
import resource
import subprocess
import sys
import tempfile
import time

LOG = "/tmp/gate.log"

TICKS = os.sysconf("SC_CLK_TCK")


def look(checks, session, start):
    """Notes each check of that session: what it is, when it was seen first and last, and what it and its own children have used."""
    for at in pathlib.Path("/proc").glob("[0-9]*"):
        try:
            fields = (at / "stat").read_text().rsplit(")", 1)[1].split()
            words = (at / "cmdline").read_text().split("\0")
            folder = os.readlink(at / "cwd")
        except OSError:
            continue
        # a check's forked copies are counted with it, once they have ended
        parent, first_tick = fields[1], fields[19]
        is_check = words[0].endswith("/rattle") and "--crate-name" in words and int(fields[3]) == session
        if not is_check or any(parent == pid for pid, _ in checks):
            continue
        now = (time.time() - start) / 60
        crate = words[words.index("--crate-name") + 1]
        check = checks.setdefault((at.name, first_tick), {"kind": kind_of(words, folder), "crate": crate, "from": now})
        check |= {"to": now, "minutes": sum(map(int, fields[11:15])) / TICKS / 60}


def kind_of(words, folder):
    """What a check is for."""
    if "rt-edit" in folder:
        return "edits"
    if "--test" in words:
        return "tests"
    return "builds" if "--crate-checked" in words else "proofs"


def watched(clone, processors):
    """The gate's status, its processor minutes, its minutes, and its checks."""
    checks, start = {}, time.time()
    own = lambda: os.sched_setaffinity(0, range(processors))
    with open(LOG, "w") as log:
        gate = subprocess.Popen(["rt", "ci", "--anew"], cwd=clone, stdout=log, stderr=log, preexec_fn=own, start_new_session=True)
        while gate.poll() is None:
            look(checks, gate.pid, start)
            time.sleep(1)
    used = resource.getrusage(resource.RUSAGE_CHILDREN)
    return gate.returncode, (used.ru_utime + used.ru_stime) / 60, (time.time() - start) / 60, list(checks.values())


def report(minutes, wall, checks):
    """The shares, and the table of crates."""
    print(f"{minutes:.1f} minutes of processor time in {wall:.1f}\n\n| share | minutes |\n|---|---|")
    shares = {kind: sum(it["minutes"] for it in checks if it["kind"] == kind) for kind in ("proofs", "builds", "tests", "edits")}
    for kind, share in [*shares.items(), ("`rt` itself, links, and what it runs", minutes - sum(shares.values()))]:
        print(f"| {kind} | {share:.1f} |")
    print("\n| crate | | minutes | from - to |\n|---|---|---|---|")
    for it in sorted(checks, key=lambda it: it["from"]):
        if it["kind"] in ("proofs", "tests"):
            print(f"| `{it['crate']}` | {it['kind']} | {it['minutes']:.1f} | {it['from']:.0f} - {it['to']:.0f} |")


def main():
    processors = int(sys.argv[1]) if len(sys.argv) > 1 else 2
    top = pathlib.Path(__file__).resolve().parent.parent
    with tempfile.TemporaryDirectory(prefix="gate-") as room:
        os.chmod(room, 0o755)
        subprocess.run(["git", "clone", "--quiet", top, f"{room}/clone"], check=True)
        before = resource.getrusage(resource.RUSAGE_CHILDREN)
        status, minutes, wall, checks = watched(f"{room}/clone", processors)
        minutes -= (before.ru_utime + before.ru_stime) / 60
    print(*pathlib.Path(LOG).read_text().splitlines()[-2:], "", sep="\n")
    report(minutes, wall, checks)
    sys.exit(status)


if __name__ == "__main__":
    main()
