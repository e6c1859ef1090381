#!/usr/bin/env python3
"""Wrong bodies of the server that no contract refuses: in a clone each is put in place of the right one, and a test must then fail.
Then bodies whose workers end: a server with them must still greet its clients, for as long as a worker is left.

    python3 bench/threads.py [BODY..]

The tests are those of `acap_serving_tests` on several workers (`together.rt`), run by `rt try --test`. Without an edit all of them must
say `ok`. BODY is part of the name of a body: then those alone are tried.
"""
import contextlib
import os
import pathlib
import re
import signal
import socket
import subprocess
import sys
import tempfile
import time

SRC = "crates/acap_serving/src"
SESSIONS, DEAL, WORKERS_FILE = f"{SRC}/worker_sessions.rt", f"{SRC}/deal.rt", f"{SRC}/workers.rt"
TOGETHER = {"lib", "gate", "stage", "together", "workers"}
GATE, FLAGS = "a_session_waits_within_a_literal_until_another_is_answered", "two_sessions_are_polled_at_one_time"

ONE_THREAD = (DEAL, "    loads.rotate_left(1);\n", "")
ONE_THREAD_BACK = (DEAL, "    loads.rotate_right(1);\n", "")
ONE_AT_A_TIME = (WORKERS_FILE, "const FUTURES: usize = 128;", "const FUTURES: usize = 1;")

# One lock for the sessions of all workers.
FLAG = "std::sync::atomic::AtomicBool"
LOADS = "/// The sessions of one worker while they are polled."
RUN_LOAD = "        &|_, load| run_load(rt, load),\n"
LOCK = [
    (SESSIONS, LOADS, f"""fn hold(held: &{FLAG}) {{
    for _ in 0..1_000_000_000u32 {{
        if !held.swap(true, std::sync::atomic::Ordering::SeqCst) {{
            return;
        }}
        thread::yield_now();
    }}
}}

fn let_go(held: &{FLAG}) {{
    held.store(false, std::sync::atomic::Ordering::SeqCst);
}}

{LOADS}"""),
    (SESSIONS, "    let threads = loads.len().max(1);\n", f"    let threads = loads.len().max(1);\n    let held = {FLAG}::new(false);\n"),
    (SESSIONS, RUN_LOAD, RUN_LOAD.replace("(rt, load)", "(rt, load, &held)")),
    (SESSIONS, "fn run_load<R, T>(rt: &R, load: &mut Vec<T>)\n", f"fn run_load<R, T>(rt: &R, load: &mut Vec<T>, held: &{FLAG})\n"),
    (SESSIONS, "(rt, sessions);\n", "(rt, sessions, held);\n"),
    (SESSIONS, "    sessions: Vec<T>,\n)", f"    sessions: Vec<T>,\n    held: &{FLAG},\n)"),
]
RUN = "    let _ = poll_all(rt, &all, count);\n"
# It is held for as long as a session is polled: while it reads, parses and prints.
WHILE_POLLED = LOCK + [
    (SESSIONS, RUN, RUN.replace("count", "count, held")),
    (SESSIONS, "    count: usize,\n) -> io::Result<()> {", f"    count: usize,\n    held: &{FLAG},\n) -> io::Result<()> {{"),
    (SESSIONS, "futures_of(rt.alloc(), all, count)?", "futures_of(rt.alloc(), all, count, held)?"),
    (SESSIONS, "    count: usize,\n) -> io::Result<Vec", f"    count: usize,\n    held: &'a {FLAG},\n) -> io::Result<Vec"),
    (SESSIONS, "WorkerSession { all, number }", "WorkerSession { all, number, held }"),
    (SESSIONS, "    number: usize,\n}", f"    number: usize,\n    held: &'a {FLAG},\n}}"),
    (SESSIONS, "            Ok(mut all) => all.advance(self.number, cx),\n", """            Ok(mut all) => {
                hold(self.held);
                let polled = all.advance(self.number, cx);
                let_go(self.held);
                polled
            }
"""),
]
# It is held from the first poll of a worker's sessions until the last of them has ended: also while a session waits for more octets.
WHILE_OPEN = LOCK + [(SESSIONS, RUN, f"    hold(held);\n{RUN}    let_go(held);\n")]

# What is changed, and the tests that must fail then.
BODIES = {
    "as it is": ([], set()),
    "all sessions on one thread": ([ONE_THREAD, ONE_THREAD_BACK], {GATE, FLAGS}),
    "one session after the other": ([ONE_THREAD, ONE_THREAD_BACK, ONE_AT_A_TIME], {GATE, FLAGS}),
    "a lock is held while a session is polled": (WHILE_POLLED, {GATE, FLAGS}),
    "a lock is held from a session's beginning to its end": (WHILE_OPEN, {GATE, FLAGS}),
}

COUNT = "    let all = stream.buffer_unordered(rt.alloc(), FUTURES)?.count();\n"
THIRD = (WORKERS_FILE, COUNT, COUNT.replace("stream.", "stream.take(3)."))
FIRST = (WORKERS_FILE, COUNT, COUNT.replace(".count()", ".take(1).count()"))
GREETING, FULL = b"* ACAP ", b'* BYE "Too many sessions"\r\n'
WORKERS, SEATS = 16, 64


def leave(clone):
    """Leaves of the tests those of several workers, and what they stand on: the others take long without a proof."""
    src = clone / "crates/acap_serving_tests/src"
    root = (src / "lib.rt").read_text()
    for file in src.glob("*.rt"):
        if file.stem not in TOGETHER:
            file.unlink()
            root = root.replace(f"#[cfg(test)]\nmod {file.stem};\n", "")
    (src / "lib.rt").write_text(root)


def failed(clone):
    """The tests that fail, of those of several workers."""
    leave(clone)
    done = subprocess.run(["rt", "try", "--test", "--seconds", "1200"], cwd=clone / "crates/acap_serving_tests", capture_output=True, text=True)
    results = dict(re.findall(r"^test together::(\w+) \.\.\. (\w+)", done.stdout + done.stderr, flags=re.M))
    if not {GATE, FLAGS} <= results.keys():
        sys.exit(f"{done.stdout[-2000:]}{done.stderr[-2000:]}\nbench/threads.py: the tests didn't run")
    return {name for name, word in results.items() if word != "ok"}


@contextlib.contextmanager
def cloned(edits, top):
    """A clone with edits."""
    with tempfile.TemporaryDirectory() as folder:
        clone = pathlib.Path(folder) / "clone"
        subprocess.run(["git", "clone", "-q", str(top), str(clone)], check=True)
        for file, old, new in edits:
            text = (clone / file).read_text()
            if text.count(old) != 1:
                sys.exit(f"bench/threads.py: what is changed doesn't stand in {file}: {old}")
            (clone / file).write_text(text.replace(old, new))
        yield clone


def report(name, edits, wanted, top):
    """Whether exactly these tests fail of a clone with the edits."""
    with cloned(edits, top) as clone:
        found = failed(clone)
    right = found == wanted
    print(f"{name}: {', '.join(sorted(found)) or 'no test'} fails: {'as wanted' if right else 'WRONG'}", flush=True)
    return right


# ---- workers that end

def hear(client):
    """The first line that a client is sent, or what came before the server closed."""
    line = b""
    with contextlib.suppress(ConnectionResetError):
        while not line.endswith(b"\n") and (octets := client.recv(1)):
            line += octets
    return line


class Server:
    """A server of a clone, which `rt try` builds without a proof and runs."""

    def __init__(self, clone):
        with socket.socket() as it:
            it.bind(("127.0.0.1", 0))
            self.port = it.getsockname()[1]
        file = clone / "settings.toml"
        words = [f'listen = "127.0.0.1:{self.port}"', 'host = "localhost"', f"workers = {WORKERS}", "turns = 1000000", "sessions = 0"]
        file.write_text("\n".join(words + ['administrators = ["root"]', "[users]", 'joe = "secret"']) + "\n")
        command = ["rt", "try", "--seconds", "600", "--", "serve", str(file)]
        self.process = subprocess.Popen(command, cwd=clone / "crates/acapd", stdout=subprocess.PIPE, stderr=subprocess.STDOUT, text=True, start_new_session=True)

    def connect(self):
        """A client, and the first line that it is sent. It waits until the server listens."""
        for _ in range(60_000):
            with contextlib.suppress(ConnectionRefusedError):
                client = socket.create_connection(("127.0.0.1", self.port), timeout=20)
                return client, hear(client)
            if self.process.poll() is not None:
                break
            time.sleep(0.02)
        sys.exit(f"{self.process.communicate()[0][-2000:]}\nbench/threads.py: the server didn't listen")

    def end(self):
        """What it prints when it ends of itself."""
        return self.process.communicate(timeout=60)[0]

    def close(self):
        """Ends what was started here, and nothing else."""
        if self.process.poll() is None:
            os.killpg(self.process.pid, signal.SIGTERM)
            self.process.communicate()


def ends_at_the_third(server):
    """Forty clients come one after the other, and then others until no worker is left: the server ends as it does without memory."""
    for _ in range(40):
        client, line = server.connect()
        with client:
            if not line.startswith(GREETING):
                return f"a client is sent {line}"
            client.sendall(b"A1 LOGOUT\r\n")
            while client.recv(4_096):
                pass
    for _ in range(40):
        with contextlib.suppress(OSError):
            client = socket.create_connection(("127.0.0.1", server.port), timeout=5)
            with client:
                hear(client)
                client.sendall(b"A1 LOGOUT\r\n")
                while client.recv(4_096):
                    pass
    output = server.end()
    return None if "acapd: no memory" in output and "status=1" in output else f"it ends with {output[-500:]}"


def ends_at_the_first(server):
    """Each worker ends once its first session has. Its others are cut off, and their seats come back."""
    clients = [server.connect() for _ in range(3 * WORKERS)]
    for client, _ in clients[:WORKERS - 1]:
        client.sendall(b"A1 LOGOUT\r\n")
        while client.recv(4_096):
            pass
    left = clients[WORKERS - 1::WORKERS]
    for client in clients[WORKERS:]:
        if client not in left and client[0].recv(1) != b"":
            return "a session goes on whose worker has ended"
    time.sleep(1)
    more = [server.connect() for _ in range(SEATS - len(left) + 1)]
    lines = [line for _, line in more]
    if not all(line.startswith(GREETING) for line in lines[:-1]) or lines[-1] != FULL:
        return f"{sum(line.startswith(GREETING) for line in lines)} of {len(lines) - 1} seats have come back"
    return None


# What is changed, and what must be true of a server then.
SERVED = {
    "each worker ends at its third session": ([THIRD], ends_at_the_third),
    "each worker ends when its first session does": ([FIRST], ends_at_the_first),
}


def serves(name, edits, check, top):
    """Whether a server of a clone with the edits does what it should."""
    with cloned(edits, top) as clone:
        server = Server(clone)
        try:
            fault = check(server)
        finally:
            server.close()
    print(f"{name}: {'as wanted' if fault is None else f'WRONG: {fault}'}", flush=True)
    return fault is None


def main():
    top, wanted = pathlib.Path(__file__).resolve().parent.parent, sys.argv[1:]

    def is_wanted(name):
        return not wanted or any(word in name for word in wanted)

    right = [report(name, *body, top) for name, body in BODIES.items() if is_wanted(name)]
    right += [serves(name, *body, top) for name, body in SERVED.items() if is_wanted(name)]
    sys.exit(not all(right))


if __name__ == "__main__":
    main()
