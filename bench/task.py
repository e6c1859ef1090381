#!/usr/bin/env python3
"""Refuses each allocation of one session that runs as a task (`acap_task`), in turn, and checks that it leaves its seat.

    python3 bench/task.py build PROGRAM       # proves the program, and builds it without checks
    python3 bench/task.py refuse PROGRAM

The session logs in by CRAM-MD5 over a wire in memory, asks for its rights, and logs out; or its user is given, so that it enters before its
greeting. It is written in a clone of the repository, over the stage of `acap_serving_tests`. Of each run this must hold: what was written is a
prefix of what it is sent without a refusal, or a command is answered `NO (TRYLATER)`, and where an Enter was answered Ok, the last call
is a Leave, or a Leave was asked and refused. At least one run must be one in which the seat was entered and the line that says so, the
login's OK or the greeting, wasn't written for want of memory.
"""
import argparse
import collections
import pathlib
import shutil
import subprocess
import sys
import tempfile

import locked

LINE = "task_runs: acap_commands acap_entries acap_login acap_rights acap_machine acap_locked acap_task acap_serving futures"

PROGRAM = r"""
//! A session that logs in over a wire in memory, and how it ended.
#![tactic(auto)]

mod stage;

use crate::stage::{Done, Play, Visit, is_true, no_bell, run, wire};
use acap_entries::{Moment, UserName};
use acap_locked::{Pass, Served, Site};
use acap_login::Users;
use acap_task::TaskEnd;
use std::alloc::{AllocGlobal, Global};
use std::{env, io};
use std::random::RandomSource;
use std::sync::Wait;
use std::sync::ledger::Ledger;

const LOGIN: &[u8] =
    b"A1 AUTHENTICATE \"CRAM-MD5\"\r\n\"tim b913a602c7eda7a495b4e6e7334d3890\"\r\nA2 MYRIGHTS (\"/option/~/\")\r\nA3 LOGOUT\r\n";

// Tim and his secret.
fn tim(alloc: Global) -> io::Result<Users> {
    let mut users = Vec::new(alloc);
    if let Ok(name) = UserName::read(alloc, b"tim") {
        users.push((name, Vec::from_slice(alloc, b"tanstaaftanstaaf")?))?;
    }
    Ok(Users::new(users))
}

fn end_word(end: TaskEnd) -> &'static str {
    match end {
        TaskEnd::Ended => "ended",
        TaskEnd::ReadFault => "read fault",
        TaskEnd::WriteFault => "write fault",
        TaskEnd::TurnsSpent => "turns spent",
        TaskEnd::Memory => "memory",
    }
}

fn report<R: Print + AllocGlobal, S: Site>(rt: &R, done: io::Result<Done<S>>) -> io::Result<()> {
    let Ok(done) = done else {
        return println!(rt; "not run");
    };
    let Done { lease, output, end, entered, left, .. } = done;
    println!(rt; "{}", end_word(end))?;
    println!(rt; "entered {entered} left {left} owes {}", lease.owes_leave)?;
    let text = String::from_utf8(output).unwrap_or(String::new(rt.alloc()));
    println!(rt; "{text}")
}

/// A session of that user, or of nobody.
#[derive(Drop)]
struct Session<'a> {
    user: Option<&'a [u8]>,
}

impl<R: Wait + RandomSource + Print + AllocGlobal> Play<R> for Session<'_> {
    fn comes_true<S: Site, L: Ledger>(
        &self,
        rt: &R,
        served: Served<S, L>,
        passes: Vec<Pass<S>>,
    ) -> io::Result<bool> {
        let alloc = rt.alloc();
        let users = tim(alloc)?;
        let mut passes = passes;
        let Some(pass) = passes.pop() else {
            return Ok(false);
        };
        let visit = Visit {
            user: self.user,
            wire: wire(alloc, LOGIN, 1_000)?,
            bell: no_bell(alloc)?,
            clock: Moment::new(697_170_952_000_000).unwrap_or(Moment::first()),
            turns: 1_000,
        };
        println!(rt; "-- now")?;
        let done = run(rt, &served, pass, &users, visit);
        println!(rt; "-- done")?;
        report(rt, done)?;
        Ok(true)
    }
}

fn main(rt: HostRuntime) -> io::Result<()> {
    let tim: &[u8] = b"tim";
    let user = if env::args(&rt)?.count() > 1 {
        Some(tim)
    } else {
        None
    };
    let session = Session { user };
    if is_true(&rt, &session) {
        return Ok(());
    }
    println!(rt; "no machine")
}
"""

PROOFS = {
    "Lib.antt": "",
    "stage/is_true/Invariants.antt": r"""
use Rattle.task_runs.proofs.stage.is_true.Given as goal

abbrev pub ghosts-is_true_over-S-Site : goal.ghosts-is_true_over-S-Site
ghosts-is_true_over-S-Site g a = record { base = a.state.machine }

abbrev pub ghosts-is_true_over-S-Ledger : goal.ghosts-is_true_over-S-Ledger
ghosts-is_true_over-S-Ledger g a = record { name = a.blank.name; parts = a.blank.parts }

abbrev pub ghosts-is_true_over-L-Ledger : goal.ghosts-is_true_over-L-Ledger
ghosts-is_true_over-L-Ledger g a = record { name = a.counter.name; parts = a.counter.parts }
""",
}

# The sessions: the words of the program, and the beginning of the line by which the client knows that its user has entered.
SESSIONS = {"a login": ((), 'A1 OK "AUTHENTICATE done"'), "a session of a user": (("entered",), "* ACAP ")}


def build(top, program):
    with tempfile.TemporaryDirectory() as folder:
        clone, crate = locked.add_program(top, folder, LINE, PROGRAM, PROOFS)
        shutil.copy(clone / "crates/acap_serving_tests/src/stage.rt", crate / "src/stage.rt")
        locked.give_libraries(top, clone)
        subprocess.run(["rt", "run"], cwd=crate, check=True)
        shutil.copy(crate / "out/task_runs", program)


def answered(program, words, at):
    """Of a run in which that allocation of the session is refused: how it ended, whether it entered, left and owes a Leave, what it wrote,
    and how many allocations it asked for."""
    done, asked = program.run_alone(at, *words)
    lines = done.split("-- done\n", 1)[1].splitlines()
    if lines[0] == "not run":
        return None, asked
    _, entered, _, left, _, owes = lines[1].split()
    return (lines[0], entered == "true", left == "true", owes == "true", [line for line in lines[2:] if line]), asked


def is_right(run, honest):
    """Whether such a run is one that is allowed."""
    end, entered, left, owes, wrote = run
    kept = not entered or left or owes
    if any("NO (TRYLATER)" in line for line in wrote):
        return kept
    # the wire in memory fails where it is refused memory itself
    return kept and wrote == honest[:len(wrote)] and end in ("ended", "memory", "write fault")


def refuse_each(program, name, words, first):
    """Refuses each allocation of a session in turn. How many runs ended for want of memory when the seat was entered and no line said so."""
    whole, count = answered(program, words, 0)
    honest, counts, unsaid = whole[4], collections.Counter(), 0
    if whole[:4] != ("ended", True, True, False) or not any(line.startswith(first) for line in honest):
        sys.exit(f"bench/task.py: {name}, without a refusal: {whole}")
    for at in range(1, count + 1):
        run, _ = answered(program, words, at)
        if run is None:
            counts["not run"] += 1
            continue
        if not is_right(run, honest):
            sys.exit(f"bench/task.py: {name}, allocation {at}: WRONG: {run}")
        counts["TRYLATER" if any("TRYLATER" in line for line in run[4]) else run[0]] += 1
        unsaid += run[0] == "memory" and run[1] and not any(line.startswith(first) for line in run[4])
    print(f"{name}: {count} allocations refused: " + ", ".join(f"{n} {word}" for word, n in sorted(counts.items())) + ", all as wanted")
    print(f"    {unsaid} of them when the seat was entered and its client wasn't sent that: each asked Leave")
    return unsaid


def refuse(path):
    with tempfile.TemporaryDirectory() as folder:
        program = locked.Program(path, folder)
        unsaid = [refuse_each(program, name, *given) for name, given in SESSIONS.items()]
    if not any(unsaid):
        sys.exit("bench/task.py: no run shows the printing of the line that says so")


def main():
    words = argparse.ArgumentParser()
    words.add_argument("what", choices=["build", "refuse"])
    words.add_argument("program")
    given = words.parse_args()
    top = pathlib.Path(__file__).resolve().parent.parent
    build(top, given.program) if given.what == "build" else refuse(given.program)


if __name__ == "__main__":
    main()
