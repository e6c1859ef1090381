#!/usr/bin/env python3
"""Makes calls through the passes of one served machine (`acap_locked`), and checks what is answered and what closing reports: where no
further epoch can begin, and where memory is refused. Rows of calls to which neither happens are tests (`acap_serving_tests`, `calls.rt`).

    python3 bench/locked.py last              # what is answered where no further epoch can begin
    python3 bench/locked.py build PROGRAM     # proves the program, and builds it without checks
    python3 bench/locked.py refuse PROGRAM    # each allocation of a call, or of closing, is refused in turn
    python3 bench/locked.py figures PROGRAM   # time and memory
    python3 bench/locked.py calls PROGRAM [OTHER]   # instructions within a call, while every other session waits; needs valgrind

It clones the repository and adds a program to the clone. `last` runs it there by `rt try`: unproved, with checks at run time. `build`
uses what `rt check` has proved of the crates below.

A row is a list of lines. `N enter USER`, `N drain`, `N drains COUNT`, `N leave` and `N COMMAND` are calls through pass N; what is
printed of one is the pass, the epoch, the place, the seats that are rung (a bit for each), and the reply. `now CALL` prints the time of
the call, and makes it once more where memory is refused; `once CALL` doesn't. At the end the book is closed with all passes, and with
`now close` the closing is marked as `now` marks a call.
"""
import argparse
import difflib
import os
import pathlib
import re
import shutil
import subprocess
import sys
import tempfile

PROGRAM = r"""
//! What lines say is done through the passes of one served machine, and what it answers is printed.
#![tactic(auto)]

ghost use Rattle.std.specs.Prelude.{◌≡◌, ◌<◌};

use acap_commands::{Command, Event, Fault, Reply};
use acap_entries::{Memory, Moment, Steps, UserName};
use acap_grammar::{parse, render};
use acap_lexer::{Lexed, Lexer, Mode};
use acap_locked::{Answer, CloseFault, Entry, Held, Pass, Report, Served, Site};
use acap_machine::State;
use acap_rights::Realm;
use std::alloc::Global;
use std::marker::Brand;
use std::process::ExitCode;
use std::sync::Wait;
use std::sync::ledger::{Blank, Ledger};
use std::time::Instant;
use std::{env, fs, io};

fn command_of(alloc: Global, line: &[u8]) -> Result<Command, Memory> {
    let mut lexer = Lexer::new(alloc);
    if lexer.push(line).is_err() || lexer.push(b"\r\n").is_err() {
        return Err(Memory);
    }
    match lexer.next(Mode::Command) {
        Ok(Lexed::Line(tokens)) => parse(alloc, &tokens).map_err(|_| Memory),
        _ => Err(Memory),
    }
}

fn event_of(alloc: Global, text: &[u8]) -> Result<Event, Memory> {
    if let Some(user) = text.strip_prefix(b"enter ") {
        let user = UserName::read(alloc, user).map_err(|_| Memory)?;
        return Ok(Event::Enter(user));
    }
    if text == b"drain".as_slice() {
        return Ok(Event::Drain);
    }
    if text == b"leave".as_slice() {
        return Ok(Event::Leave);
    }
    Ok(Event::Command(command_of(alloc, text)?))
}

// The event, once more where memory is refused.
fn event_again(alloc: Global, text: &[u8]) -> Result<Event, Memory> {
    match event_of(alloc, text) {
        Ok(event) => Ok(event),
        Err(_) => event_of(alloc, text),
    }
}

// The answer of a call, once more where memory is refused.
fn call_again<S: Site, L: Ledger>(
    rt: &impl Wait,
    alloc: Global,
    served: &Served<S, L>,
    pass: &mut Pass<S>,
    text: &[u8],
) -> Result<Answer, Fault> {
    match served.call(rt, pass, event_again(alloc, text)?, Moment::first()) {
        Err(Fault::Memory) => served.call(rt, pass, event_again(alloc, text)?, Moment::first()),
        answer => answer,
    }
}

fn fault_word(fault: Fault) -> &'static str {
    match fault {
        Fault::Memory => "memory",
        Fault::NotEntered => "not entered",
        Fault::AlreadyEntered => "already entered",
        Fault::HistoryFull => "history full",
    }
}

fn printed(alloc: Global, reply: &Reply) -> Option<String> {
    let mut out = Vec::new(alloc);
    render(reply, &mut out).ok()?;
    String::from_utf8(out).ok()
}

fn report(rt: &HostRuntime, number: usize, answer: Result<Answer, Fault>) -> io::Result<()> {
    match answer {
        Ok(answer) => {
            let text = printed(rt.alloc(), &answer.reply).unwrap_or(String::new(rt.alloc()));
            println!(rt; "{number}: {} {} {} {text}", answer.epoch, answer.place, answer.rings)
        }
        Err(fault) => println!(rt; "{number}: {}", fault_word(fault)),
    }
}

// One call, between two lines that say so, and how many nanoseconds it took.
fn timed_call<S: Site, L: Ledger>(
    rt: &HostRuntime,
    handle: &impl Wait,
    served: &Served<S, L>,
    pass: &mut Pass<S>,
    event: Event,
) -> io::Result<(Result<Answer, Fault>, u128)> {
    println!(rt; "-- now")?;
    let begin = Instant::now(rt)?;
    let answer = served.call(handle, pass, event, Moment::first());
    let took = match begin.elapsed(rt) {
        Ok(took) => took.as_nanos(),
        Err(_) => 0,
    };
    let _ = println!(rt; "-- done");
    Ok((answer, took))
}

// One call that is marked. Where it is refused memory and is to be made again, it is.
fn marked_call<S: Site, L: Ledger>(
    rt: &HostRuntime,
    handle: &impl Wait,
    served: &Served<S, L>,
    pass: &mut Pass<S>,
    number: usize,
    text: &[u8],
    again: bool,
) -> io::Result<()> {
    let Ok(event) = event_of(rt.alloc(), text) else {
        return println!(rt; "unread");
    };
    let (answer, took) = timed_call(rt, handle, served, pass, event)?;
    let is_refused = matches!(answer, Err(Fault::Memory));
    report(rt, number, answer)?;
    println!(rt; "took {took}")?;
    if !is_refused || !again {
        return Ok(());
    }
    let Ok(event) = event_of(rt.alloc(), text) else {
        return println!(rt; "unread");
    };
    report(rt, number, served.call(handle, pass, event, Moment::first()))
}

// Drains, `times` times. Gives the last answer.
fn drains<S: Site, L: Ledger>(
    rt: &impl Wait,
    served: &Served<S, L>,
    pass: &mut Pass<S>,
    count: u64,
) -> Result<Answer, Fault> {
    let mut last = served.call(rt, pass, Event::Drain, Moment::first());
    for _ in 1..count {
        last = served.call(rt, pass, Event::Drain, Moment::first());
        if last.is_err() {
            return last;
        }
    }
    last
}

// The calls of a short history.
fn tell_history(rt: &HostRuntime, history: &[Entry]) -> io::Result<()> {
    if history.len() > 100 {
        return Ok(());
    }
    for entry in history {
        let text = printed(rt.alloc(), &entry.exchange.call().reply).unwrap_or(String::new(rt.alloc()));
        println!(rt; "was {}: {text}", entry.seat.number())?;
    }
    Ok(())
}

fn tell_held(rt: &HostRuntime, held: &Held) -> io::Result<()> {
    if held.items.len() > 0 || held.retired > 0 {
        println!(rt; "pass {}: {} items, {} retired", held.seat.number(), held.items.len(), held.retired)?;
    }
    Ok(())
}

fn tell_fault(rt: &HostRuntime, fault: CloseFault) -> io::Result<()> {
    match fault {
        CloseFault::PassMissing(seat) => println!(rt; "missing {}", seat.number()),
        CloseFault::Unequal(seat) => println!(rt; "unequal {}", seat.number()),
        CloseFault::Memory => println!(rt; "close: memory"),
    }
}

fn tell_report(rt: &HostRuntime, report: Result<Report, CloseFault>) -> io::Result<()> {
    let report = match report {
        Ok(report) => report,
        Err(fault) => return tell_fault(rt, fault),
    };
    println!(rt; "closed: epoch {}, {} calls", report.epoch, report.history.len())?;
    for held in report.passes.as_slice() {
        tell_held(rt, held)?;
    }
    for count in report.retired.as_slice() {
        if *count > 0 {
            println!(rt; "retired: {count}")?;
        }
    }
    tell_history(rt, report.history.as_slice())
}

fn run_line<S: Site, L: Ledger>(
    rt: &HostRuntime,
    handle: &impl Wait,
    served: &Served<S, L>,
    passes: &mut [Pass<S>],
    line: &str,
) -> io::Result<()> {
    let Some((word, text)) = line.split_once(" ") else {
        return Ok(());
    };
    let (word, text, mark) = match (word, text.split_once(" ")) {
        ("now" | "once", Some((number, text))) => (number, text, word),
        _ => (word, text, ""),
    };
    let number = word.parse::<usize>().unwrap_or(0);
    let Some(pass) = passes.get_mut(number) else {
        return println!(rt; "no pass");
    };
    if mark != "" {
        return marked_call(rt, handle, served, pass, number, text.as_bytes(), mark == "now");
    }
    let answer = match text.strip_prefix("drains ") {
        Some(count) => drains(handle, served, pass, count.parse::<u64>().unwrap_or(0)),
        None => call_again(handle, rt.alloc(), served, pass, text.as_bytes()),
    };
    report(rt, number, answer)
}

fn run<S: Site, L: Ledger, R: Wait>(
    rt: &HostRuntime,
    handle: &R,
    blank: Blank,
    state: State,
    counter: Blank,
    text: String,
) -> io::Result<()>
    requires name { blank.name ≡ S.name }
    requires parts { blank.parts ≡ S.parts }
    requires seats { blank.parts ≡ 64 }
    requires base { state.machine ≡ S.base }
    requires counter_name { counter.name ≡ L.name }
    requires counter_parts { counter.parts ≡ L.parts }
    requires some { 0 < L.parts }
{
    let steps = Steps::<L>::new(counter);
    let Ok((served, mut passes)) = Served::<S, L>::new(rt.alloc(), blank, state, steps) else {
        return println!(rt; "no memory to begin");
    };
    let mut marked = false;
    for line in text.as_str().lines() {
        if line == "now close" {
            marked = true;
        } else {
            run_line(rt, handle, &served, &mut passes, line)?;
        }
    }
    if marked {
        println!(rt; "-- now")?;
    }
    let begin = Instant::now(rt)?;
    let report = served.close(passes);
    let took = begin.elapsed(rt)?;
    if marked {
        println!(rt; "-- done")?;
    }
    tell_report(rt, report)?;
    println!(rt; "took {}", took.as_nanos())
}

// The calls of one file.
fn one_day<R: Wait>(rt: &HostRuntime, handle: &R, file: &str) -> io::Result<()> {
    let alloc = rt.alloc();
    let state = State::new(alloc, Realm::new(Vec::new(alloc), Vec::new(alloc)));
    println!(rt; "-- {file}")?;
    let text = fs::read_to_string(rt, file)?;
    run::<Brand, Brand, R>(rt, handle, Blank::new(64), state, Blank::new(1), text)
}

fn days<R: Wait>(rt: &HostRuntime, handle: &R) -> io::Result<()> {
    let mut words = env::args(rt)?;
    let _program = words.next();
    for word in words {
        one_day(rt, handle, word.as_str())?;
    }
    Ok(())
}

fn main(rt: HostRuntime) -> io::Result<ExitCode> {
    days(&rt, &rt)?;
    Ok(ExitCode::SUCCESS)
}
"""

PROOFS = {
    "Lib.antt": "",
    "one_day/Invariants.antt": r"""
use Rattle.locked_runs.proofs.one_day.Given as goal

abbrev pub ghosts-run-S-Site : goal.ghosts-run-S-Site
ghosts-run-S-Site g a = record { base = a.state.machine }

abbrev pub ghosts-run-S-Ledger : goal.ghosts-run-S-Ledger
ghosts-run-S-Ledger g a = record { name = a.blank.name; parts = a.blank.parts }

abbrev pub ghosts-run-L-Ledger : goal.ghosts-run-L-Ledger
ghosts-run-L-Ledger g a = record { name = a.counter.name; parts = a.counter.parts }
""",
}

HELLO = '* ACAP (IMPLEMENTATION "acapd") (SASL "CRAM-MD5") (CONTEXTLIMIT "200")'

# Joe stores at one seat, and finds it at another.
CALLS = [
    "0 enter joe",
    '0 A1 STORE ("/option/~/font" "option.value" "mono")',
    "0 leave",
    "1 enter joe",
    '1 A2 SEARCH "/option/~/" RETURN ("option.value") ALL',
    "1 leave",
]

# The history is never emptied: the book begins at the last epoch.
LAST = ("epoch: 0,\n            base,", "epoch: MOST,\n            base,")
MOST = 2 ** 62

LAST_ROWS = {
    # the 1,000,000th call is the last one, and before it faults are reported as ever
    "the last epoch": ([("0 enter joe", f"0: {MOST} 0 0 {HELLO}"), ("0 drains 999998", f"0: {MOST} 999998 0"), ("1 drain", "1: not entered"),
                        ("0 enter joe", "0: already entered"), ("0 drain", f"0: {MOST} 999999 0"), ("0 drain", "0: history full"),
                        ("1 drain", "1: history full"), ("0 enter joe", "0: history full"), ("0 leave", "0: history full"),
                        ('0 A1 STORE ("/option/~/n" "option.value" "mono")', "0: history full"), ("0 leave", "0: history full")],
                       [f"closed: epoch {MOST}, 1000000 calls", "pass 0: 1000000 items, 0 retired"]),
}

# ---- each allocation of one call is refused in turn

# Joe's entries, three contexts that show them, one of them by way of inheritance, and notices that wait for two seats.
PREPARED = [
    "0 enter joe",
    "1 enter ann",
    '0 A1 STORE ("/option/~/a" "k" "1" "l" "x") ("/option/~/b" "k" "2" "l" ("value" ("y" "z"))) ("/option/~/c" "k" "3")',
    '0 A2 SETACL ("/option/~/") "ann" "r"',
    '1 B1 STORE ("/option/~/" "dataset.inherit" "/option/user/joe/") ("/option/~/own" "k" "2")',
    '0 A3 SEARCH "/option/~/" MAKECONTEXT ENUMERATE NOTIFY "v" RETURN ("k" "l") SORT ("k" "i;ascii-numeric") ALL',
    '1 B2 SEARCH "/option/~/" MAKECONTEXT ENUMERATE NOTIFY "v" RETURN ("k") SORT ("k" "-i;octet") ALL',
    '1 B3 SEARCH "/option/user/joe/" DEPTH 0 MAKECONTEXT NOTIFY "w" RETURN ("*") NOT EQUAL "k" "i;octet" "9"',
    '0 A4 STORE ("/option/~/a" "k" "5") ("/option/~/f" "k" "6")',
]
# What is looked at afterwards: whose bell a change rings, what waits, what is found, what the contexts show.
AFTER = [
    '0 A6 STORE ("/option/~/c" "k" "8")',
    "1 drain",
    '0 A7 STORE ("/option/~/c" "k" "7")',
    '0 A8 SEARCH "/option/~/" RETURN ("*") ALL',
    '0 A9 SEARCH "v" RETURN ("k") ALL',
    '1 B6 SEARCH "v" RETURN ("k") ALL',
    '1 B7 SEARCH "w" RETURN ("k") ALL',
    '1 B8 UPDATECONTEXT "v"',
    "0 drain",
    "1 drain",
    "2 drain",
    '1 B9 MYRIGHTS ("/option/user/joe/" "entry" "a")',
]
REFUSED = {
    "a STORE that changes three contexts":
        '0 A5 STORE ("/option/~/a" "k" "4") ("/option/~/b" "entry" NIL) ("/option/~/c" "k" "9") ("/option/~/d" "k" "0")',
    "MAKECONTEXT over an old name": '1 B5 SEARCH "/option/~/" MAKECONTEXT ENUMERATE NOTIFY "v" RETURN ("k" "modtime") SORT ("k" "i;octet") ALL',
    "UPDATECONTEXT of two names": '1 B5 UPDATECONTEXT "v" "w"',
    "SETACL": '0 A5 SETACL ("/option/~/" "entry" "a") "ann" "x"',
    "Enter": "2 enter joe",
    "Drain": "1 drain",
    "Leave": "1 leave",
    "FREECONTEXT": '1 B5 FREECONTEXT "w"',
    "a SEARCH of a context": '1 B5 SEARCH "v" RETURN ("k") ALL',
}
# 500,000 calls, so that the next one begins an epoch.
LONG = ["0 enter joe", '0 A1 STORE ("/option/~/n" "option.value" "mono")', "0 drains 499998"]

REFUSER = r"""
#define _GNU_SOURCE
#include <dlfcn.h>
#include <errno.h>
#include <malloc.h>
#include <stdio.h>
#include <stdlib.h>
#include <string.h>
#include <unistd.h>
static long asked, at = -1, is_open;
static void *(*real_malloc)(size_t), *(*real_realloc)(void *, size_t), *(*real_calloc)(size_t, size_t);
static int (*real_align)(void **, size_t, size_t);
static void *(*real_aligned)(size_t, size_t);
static ssize_t (*real_write)(int, const void *, size_t);
#define REAL(x, name) if (!x) x = dlsym(RTLD_NEXT, name)
static int refused(void) {
    if (!is_open) return 0;
    if (at < 0) { char *n = getenv("REFUSE_AT"); at = n ? atol(n) : 0; }
    return ++asked == at;
}
void *malloc(size_t n) { REAL(real_malloc, "malloc"); return refused() ? NULL : real_malloc(n); }
void *realloc(void *p, size_t n) { REAL(real_realloc, "realloc"); return refused() ? NULL : real_realloc(p, n); }
int posix_memalign(void **p, size_t a, size_t n) { REAL(real_align, "posix_memalign"); return refused() ? ENOMEM : real_align(p, a, n); }
void *aligned_alloc(size_t a, size_t n) { REAL(real_aligned, "aligned_alloc"); return refused() ? NULL : real_aligned(a, n); }
static void report(void) {
    FILE *to = fopen(getenv("REFUSE_REPORT"), "w");
    struct mallinfo2 used = mallinfo2();
    if (to) { fprintf(to, "%ld %zu", asked, used.uordblks + used.hblkhd); fclose(to); }
}
ssize_t write(int file, const void *text, size_t n) {
    REAL(real_write, "write");
    if (n >= 7 && !memcmp(text, "-- done", 7)) { is_open = 0; report(); }
    ssize_t wrote = real_write(file, text, n);
    if (n >= 6 && !memcmp(text, "-- now", 6)) is_open = 1;
    return wrote;
}
"""


class Program:
    """A built program, and a library that refuses it one allocation between the lines `-- now` and `-- done`."""

    def __init__(self, program, folder):
        self.program, self.calls, self.report = os.path.abspath(program), pathlib.Path(folder) / "calls", pathlib.Path(folder) / "report"
        source, self.refuser = f"{folder}/refuser.c", f"{folder}/refuser.so"
        pathlib.Path(source).write_text(REFUSER)
        subprocess.run(["cc", "-O1", "-shared", "-fPIC", "-o", self.refuser, source, "-ldl"], check=True)

    def run_alone(self, refused, *words):
        """What the program prints, and how many allocations it asks for between the lines. One of them is refused, or none where that is 0."""
        self.report.write_text("0 0")
        loaded = {} if refused is None else {"LD_PRELOAD": self.refuser, "REFUSE_AT": str(refused), "REFUSE_REPORT": str(self.report)}
        done = subprocess.run([self.program, *words], capture_output=True, text=True, env={**os.environ, **loaded})
        if done.returncode:
            sys.exit(f"{done.stdout[-2000:]}{done.stderr}\n{self.program}: status {done.returncode}, allocation {refused}")
        return done.stdout, int(self.report.read_text().split()[0])

    def run(self, calls, refused=None):
        """What is printed, and of the last marked call, where one allocation may be refused: how many it asks for, and how many octets are
        in use after it."""
        self.calls.write_text("".join(call + "\n" for call in calls))
        text, asked = self.run_alone(refused, str(self.calls))
        if "\nclosed: " not in text and "\nclose: memory" not in text:
            sys.exit(f"{text[-2000:]}\nbench/locked.py: the program didn't run to its end, allocation {refused}")
        return [line for line in text.splitlines()[1:] if line.strip()], asked, int(self.report.read_text().split()[1])

    def lines(self, calls, refused=0):
        """What is printed but for times, and how many allocations the marked call asks for."""
        lines, asked, _ = self.run(calls, refused)
        return [line for line in lines if not line.startswith("took ")], asked

    def times(self, calls):
        """How long each marked call and the closing took, in nanoseconds."""
        return [int(line.split()[1]) for line in self.run(calls)[0] if line.startswith("took ")]

    def used(self, calls):
        """How many octets are in use at the end."""
        return self.run(calls + ["now 0 drain"], 0)[2]


def number_of(call):
    return call.split()[0]


def refuse_each(program, name, before, call, after):
    """Refuses each allocation of the call in turn: made again it is answered as without a refusal, and left out it has done nothing."""
    wanted, count = program.lines(before + ["now " + call] + after)
    at = wanted.index("-- done") + 1
    without, _ = program.lines(before + after)
    memory, went_on = f"{number_of(call)}: memory", 0
    for n in range(1, count + 1):
        again, _ = program.lines(before + ["now " + call] + after, n)
        if again == wanted:
            went_on += 1
            continue
        once, _ = program.lines(before + ["once " + call] + after, n)
        if again != wanted[:at] + [memory] + wanted[at:] or once != without[:at - 2] + ["-- now", "-- done", memory] + without[at - 2:]:
            sys.exit("\n".join([f"{name}: allocation {n}: WRONG", *difflib.ndiff(wanted, again), *difflib.ndiff(without, once)]))
    print_refused(name, count, went_on)


def refuse_close(program, name, calls):
    """Refuses each allocation of the closing after these calls in turn: what is printed is that memory was refused."""
    wanted, count = program.lines(calls + ["now close"])
    memory, went_on = wanted[:wanted.index("-- done") + 1] + ["close: memory"], 0
    for n in range(1, count + 1):
        lines, _ = program.lines(calls + ["now close"], n)
        went_on += lines == wanted
        if lines not in (wanted, memory):
            sys.exit("\n".join([f"{name}: allocation {n}: WRONG", *difflib.ndiff(memory, lines)]))
    print_refused(name, count, went_on)


def print_refused(name, count, went_on):
    kinds = f"{count - went_on} times `memory`, {went_on} times done without"
    print(f"{name}: {count} allocations refused: {kinds}, all as wanted", flush=True)


def refuse_run(program, calls):
    """The same of each call of a run, and of its closing."""
    for number, call in enumerate(calls):
        name = f"served by calls, {number_of(call)} {re.search('enter|leave|[A-Z]{2,}', call)[0]}"
        refuse_each(program, name, calls[:number], call, calls[number + 1:])
    refuse_close(program, "served by calls, closing", calls)


def refuse_epoch(program):
    """The same of the call that begins an epoch: where the copy is refused, it stands in the old history, and the next one begins the epoch."""
    calls = ["now 0 drain", "0 drain", '0 A2 SEARCH "/option/~/" RETURN ("option.value") ALL', "0 leave"]
    wanted, count = program.lines(LONG + calls)
    at = wanted.index("-- done") + 1
    kept = counts = 0
    for n in range(1, count + 1):
        lines, _ = program.lines(LONG + calls, n)
        if lines == wanted[:at] + ["0: memory"] + wanted[at:]:
            counts += 1
        elif lines[at:at + 2] == ["0: 0 500000 0 ", "0: 1 0 0 "] and "retired: 500001" in lines:
            kept += 1
        else:
            sys.exit("\n".join([f"an epoch begins: allocation {n}: WRONG", *lines]))
    kinds = f"{counts} times `memory`, {kept} times in the old history"
    print(f"a Drain that begins an epoch: {count} allocations refused: {kinds}, all as wanted", flush=True)


def refuse(path):
    with tempfile.TemporaryDirectory() as folder:
        program = Program(path, folder)
        for name, call in REFUSED.items():
            refuse_each(program, name, PREPARED, call, AFTER)
        refuse_epoch(program)
        refuse_run(program, CALLS)


# ---- figures

def print_times(what, times):
    times = sorted(times)
    print(f"{what}: {times[0] / 1000:,.1f} us at least, the middle {times[len(times) // 2] / 1000:,.1f}", flush=True)


def print_memory(program, before, what, call, count):
    """What the history and the pass hold of one of many equal calls that come after others. The program holds the lines that it
    is given: those of the other run are as long, and are passed over, since they have no space."""
    used = program.used(before + [call] * count) - program.used(before + ["-" * len(call)] * count)
    print(f"memory of one of {count:,} {what}: {used / count:.0f} octets", flush=True)


def tell_epoch(program, enter, entries, rounds=7):
    """What the call costs that begins an epoch, and others after it."""
    stores = [f'0 A1 STORE ("/option/~/e{i:06}" "option.a0" "{i:08}")' for i in range(entries)]
    marked = ["now 0 drain"] * 6 + ['now 0 A1 STORE ("/option/~/e000000" "option.a0" "00000000")'] * 6
    rounds = [program.times([enter, *stores, f"0 drains {499_999 - entries}", *marked]) for _ in range(rounds)]
    print_times(f"the Drain that begins an epoch, {entries:,} entries", [times[0] for times in rounds])
    print_times("    a Drain after it", [time for times in rounds for time in times[2:6]])
    print_times("    a STORE of one item after it", [time for times in rounds for time in times[7:12]])


def tell_other_seat(program, rounds=3):
    """What the call costs that begins an epoch where another seat made most calls of the one before, and what the first calls of that seat
    cost then, and those among which the last of its old calls goes."""
    searches, old = 100_000, 499_978
    rows = [f'1 A1 STORE ("/option/~/e{i:06}" "option.a0" "{i:08}")' for i in range(20)]
    search = '1 A1 SEARCH "/option/~/" RETURN ("option.a0") ALL'
    before = ["0 enter ann", "1 enter joe", *rows, f"1 drains {old - searches}", *[search] * searches]
    last = f"1 drains {old // 2 - 10}"
    rounds = [program.times([*before, "now 0 drain", *["now 1 drain"] * 6, last, *["now 1 drain"] * 40]) for _ in range(rounds)]
    print_times(f"the Drain that begins an epoch, another seat made {searches:,} SEARCHes of 20 rows", [times[0] for times in rounds])
    print_times("    the first Drain of that seat", [times[1] for times in rounds])
    print_times("    a Drain after it, with two of these SEARCHes or Drains", [time for times in rounds for time in times[2:7]])
    print_times("    the longest of those among which the room goes", [max(times[7:47]) for times in rounds])


def figures(path):
    enter, store = "0 enter joe", '0 A1 STORE ("/option/~/e000000" "option.a0" "00000000")'
    with tempfile.TemporaryDirectory() as folder:
        program = Program(path, folder)
        hundred = [f'0 A1 STORE ("/option/~/e{i:06}" "option.a0" "{i:08}")' for i in range(100)]
        print_memory(program, [enter], "Drains that send nothing", "0 drain", 100_000)
        print_memory(program, [enter], "MYRIGHTS", '0 A1 MYRIGHTS ("/option/~/")', 100_000)
        print_memory(program, [enter], "STOREs of one item", store, 100_000)
        search = '0 A1 SEARCH "/option/~/" RETURN ("option.a0") ALL'
        print_memory(program, [enter, *hundred], "SEARCHes of a hundred rows", search, 2_000)
        print_times("`close` at 500,000 calls of one seat", [program.times([enter, "0 drains 499999"])[-1] for _ in range(7)])
        tell_epoch(program, enter, 0)
        tell_epoch(program, enter, 10_000)
        tell_other_seat(program)


# ---- instructions within a call

COUNT = 10_000
FIND = '0 A1 SEARCH "/option/~/" {}RETURN ("option.a") ALL'


def stores(count, value):
    """STOREs of this many entries, a hundred to a command."""
    entries = [f'("/option/~/e{k:06}" "option.a" "{value}{k}")' for k in range(count)]
    return ["0 A1 STORE " + " ".join(entries[k:k + 100]) for k in range(0, count, 100)]


FILLED = ["0 enter joe", *stores(COUNT, "v")]
WATCHED = [*FILLED, FIND.format('MAKECONTEXT ENUMERATE NOTIFY "v" ')]
COUNTED = {
    "SEARCH of 10,000 rows": (FILLED, FIND.format("")),
    "UPDATECONTEXT, 4,000 notices wait": (WATCHED + stores(4_000, "w"), '0 A1 UPDATECONTEXT "v"'),
    "UPDATECONTEXT, none waits": (WATCHED, '0 A1 UPDATECONTEXT "v"'),
    "MYRIGHTS": (FILLED, '0 A1 MYRIGHTS ("/option/~/")'),
    "STORE of one item": (FILLED, '0 A1 STORE ("/option/~/e000001" "option.a" "x")'),
}


def counted(program, calls, folder):
    """The instructions within the calls of one run."""
    file, out = pathlib.Path(folder) / "calls", f"{folder}/counts"
    file.write_text("".join(call + "\n" for call in calls))
    valgrind = ["valgrind", "--tool=callgrind", "--toggle-collect=*Served::call*", f"--callgrind-out-file={out}"]
    subprocess.run([*valgrind, os.path.abspath(program), str(file)], capture_output=True, check=True)
    return int(re.search(r"^(?:totals|summary): (\d+)", pathlib.Path(out).read_text(), re.M)[1])


def count_calls(programs):
    """What one more call takes, in each program, and the ratio of the first to the second."""
    with tempfile.TemporaryDirectory() as folder:
        for name, (before, call) in COUNTED.items():
            counts = [counted(it, before + [call], folder) - counted(it, before, folder) for it in programs]
            ratio = f"{counts[0] / counts[1]:8.2f}" if len(counts) > 1 else ""
            print(f"{name:40}" + "".join(f"{count:16,}" for count in counts) + ratio, flush=True)


# ---- the rows

LINE = "locked_runs: acap_lexer acap_entries acap_commands acap_grammar acap_rights acap_machine acap_locked"


def add_program(top, folder, line=LINE, program=PROGRAM, proofs=PROOFS):
    """A clone with a program, and the program's folder. The line is that of crates.txt."""
    clone = pathlib.Path(folder) / "clone"
    subprocess.run(["git", "clone", "-q", str(top), str(clone)], check=True)
    crate = clone / "crates" / line.partition(":")[0]
    (crate / "src").mkdir(parents=True)
    (crate / "src/main.rt").write_text(program.lstrip())
    for name, text in proofs.items():
        (crate / "proofs" / name).parent.mkdir(parents=True, exist_ok=True)
        (crate / "proofs" / name).write_text(text.lstrip())
    with open(clone / "crates.txt", "a") as crates:
        crates.write(line + "\n")
    return clone, crate


def give_libraries(top, clone):
    """Gives the clone what `rt check` has proved of the crates."""
    for out in top.glob("crates/*/out"):
        shutil.copytree(out, clone / out.relative_to(top), symlinks=True)


def tell_rows(top, rows, patch):
    """Whether the program prints of each row what is wanted, run in a clone where the book is patched."""
    with tempfile.TemporaryDirectory() as folder:
        clone, crate = add_program(top, folder)
        book = clone / "crates/acap_locked/src/book.rt"
        text = book.read_text()
        if text.count(patch[0]) != 1:
            sys.exit("bench/locked.py: what is patched doesn't stand in book.rt")
        book.write_text(text.replace(*patch))
        files = []
        for number, (calls, _) in enumerate(rows.values()):
            file = pathlib.Path(folder) / f"row{number}"
            file.write_text("".join(call[0] + "\n" for call in calls))
            files.append(str(file))
        done = subprocess.run(["rt", "try", "--seconds", "600", "--", *files], cwd=crate, capture_output=True, text=True)
    texts = re.split(r"^-- /.*\n", done.stdout, flags=re.M)[1:]
    if len(texts) != len(rows):
        sys.exit(f"{done.stdout}\n{done.stderr}\nbench/locked.py: the program didn't run to its end")
    right = [is_row(name, row, text) for (name, row), text in zip(rows.items(), texts)]
    return all(right)


def is_row(name, row, text):
    """Whether what is printed of a row begins with what is wanted."""
    calls, closed = row
    lines = [line.strip() for line in text.splitlines() if line.strip()]
    wanted = [line for call in calls for line in call[1:]] + closed
    right = lines[:len(wanted)] == wanted
    print(f"{name}: {'as wanted' if right else 'WRONG'}", flush=True)
    if not right:
        print("\n".join(f"    wanted {want}\n    got    {got}" for want, got in zip(wanted, lines) if want != got))
    return right


def build(top, program):
    with tempfile.TemporaryDirectory() as folder:
        clone, crate = add_program(top, folder)
        give_libraries(top, clone)
        subprocess.run(["rt", "run"], cwd=crate, check=True)
        shutil.copy(crate / "out/locked_runs", program)


def main():
    words = argparse.ArgumentParser()
    words.add_argument("what", choices=["last", "build", "refuse", "figures", "calls"])
    words.add_argument("program", nargs="?")
    words.add_argument("other", nargs="?")
    given = words.parse_args()
    top = pathlib.Path(__file__).resolve().parent.parent
    if given.what == "last":
        sys.exit(not tell_rows(top, LAST_ROWS, LAST))
    if not given.program:
        words.error("no program is named")
    if given.what == "build":
        build(top, given.program)
    elif given.what == "refuse":
        refuse(given.program)
    elif given.what == "calls":
        count_calls([given.program] + [given.other] * bool(given.other))
    else:
        figures(given.program)


if __name__ == "__main__":
    main()
