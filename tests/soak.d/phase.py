"""Runs one phase: a server, the relay, and queries that ask the server through the relay. Then ends each, and checks
what they wrote."""

import atexit
import collections
import os
import signal
import subprocess
import time

import check
import log

# Its name, how long it runs, a list of Plan, the relay's options, and the address that the server listens on.
Phase = collections.namedtuple("Phase", "name seconds plans treatment address")
# Of a query: how many times as fast its uptime runs, the constant that the relay adds, how many servers it knows,
# whether it keeps a ledger, and whether a state file.
Plan = collections.namedtuple("Plan", "hasten constant servers ledger state")

LIMIT = 1 << 32  # half units that a ledger pays in a second of uptime, the most that the rules allow
ENDING = 10  # seconds in which a program is to end after SIGTERM
NO_ROOM = 0.01  # the largest share of asks that may be left unchecked because the kernel dropped packets


class Result:
    """What came of a phase, or of several together."""

    def __init__(self, name, seconds=0):
        self.name, self.seconds, self.queries = name, seconds, 0
        self.violations = []
        self.relay, self.server = collections.Counter(), collections.Counter()
        self.events, self.refusals = collections.Counter(), collections.Counter()
        self.share = 0.0

    def violation(self, kind, words):
        self.violations.append(check.Violation(kind, self.name, 0, words))

    def add_query(self, checker):
        self.queries += 1
        self.violations += checker.violations
        self.events += checker.counts
        self.refusals += checker.refusals
        self.share = max(self.share, checker.share)

    def add(self, other):
        self.seconds += other.seconds
        self.queries += other.queries
        self.violations += other.violations
        for name in ("relay", "server", "events", "refusals"):
            getattr(self, name).update(getattr(other, name))
        self.share = max(self.share, other.share)


class Clock:
    """Whether somebody sets the system's clock: then it no longer goes with the one that nobody sets. Both are slewed
    alike."""

    def __init__(self):
        self.first, self.width = self.difference()
        self.set_by = 0

    @staticmethod
    def difference():
        """Of the two clocks in nanoseconds, and how far it may be off, from the narrowest of some readings."""
        readings = []
        for _ in range(5):
            before = time.clock_gettime_ns(time.CLOCK_MONOTONIC)
            system = time.clock_gettime_ns(time.CLOCK_REALTIME)
            readings.append((time.clock_gettime_ns(time.CLOCK_MONOTONIC) - before, system - before))
        width, difference = min(readings)
        return difference, width

    def look(self):
        difference, width = self.difference()
        if abs(difference - self.first) > width + self.width:
            self.set_by = difference - self.first


def start(command, **options):
    """Starts a program, which is killed where this one ends before it."""
    process = subprocess.Popen(command, text=True, stdin=subprocess.DEVNULL, **options)
    atexit.register(lambda: process.poll() is None and process.kill())
    return process


def lines_until(process, wanted):
    """The lines that a program writes, up to the first that begins like this."""
    lines = []
    for line in process.stdout:
        lines.append(line.rstrip("\n"))
        if line.startswith(wanted):
            return lines
    raise SystemExit(f"soak: {process.args[0]} ended before it wrote '{wanted}'")


def end(process, result):
    """Ends a program by SIGTERM: it must have gone on until now, and end with status 0. Returns what it wrote since."""
    name = os.path.basename(process.args[0])
    if process.poll() is not None:
        result.violation("process", f"{name} ended by itself, with status {process.returncode}")
        return ""
    process.send_signal(signal.SIGTERM)
    try:
        written, _ = process.communicate(timeout=ENDING)
    except subprocess.TimeoutExpired:
        process.kill()
        process.communicate()
        result.violation("process", f"{name} did not end {ENDING} s after SIGTERM")
        return ""
    if process.returncode != 0:
        result.violation("process", f"{name} ended with status {process.returncode}")
    return written or ""


def counts_in(text):
    """Of lines `WORDS NUMBER`, with or without a colon and more words behind."""
    counts = collections.Counter()
    for line in text.splitlines():
        words, _, number = line.partition(":")[0].rpartition(" ")
        if number.isdigit():
            counts[words] = int(number)
    return counts


class Run:
    """A phase with its processes and the files that they write."""

    def __init__(self, phase, programs, folder, seed):
        self.phase, self.programs, self.seed = phase, programs, seed
        self.result = Result(phase.name, phase.seconds)
        self.base = f"{folder}/{phase.name}"
        self.queries = []
        self.log = None
        self.ended = 0

    def csv_name(self, number):
        return f"{self.base}-{number}.csv"

    def start_relay(self, server):
        """Returns its process, and for each link the address that a query is to ask."""
        options = dict(self.phase.treatment, seed=self.seed, log=self.base + ".log", server=server)
        texts = [f"{plan.constant},{check.GIVE_UP * 10**6 // plan.hasten},{plan.servers}" for plan in self.phase.plans]
        command = [self.programs + "/soak-relay"] + [f"--{name}={value}" for name, value in options.items()]
        relay = start(command + ["--"] + texts, stdout=subprocess.PIPE)
        return relay, [line.split()[2] for line in lines_until(relay, "ready") if line.startswith("link ")]

    def start_query(self, number, addresses):
        plan = self.phase.plans[number]
        command = [self.programs + "/pongulvesz-query", "--watch", "--csv", "--hasten", str(plan.hasten)]
        command += ["--limit", str(LIMIT)] if plan.ledger else ["--measure"]
        command += ["--state", f"{self.base}-{number}.state"] if plan.state else []
        with open(self.csv_name(number), "w", encoding="ascii") as file:
            return start(command + addresses, stdout=file)

    def start_queries(self, addresses):
        processes, first = [], 0
        for number, plan in enumerate(self.phase.plans):
            time.sleep(0.005)  # not all at once: the first would wait for the others' start
            links = range(first, first + plan.servers)
            name, limit = f"{self.phase.name}-{number}", LIMIT if plan.ledger else 0
            self.queries.append(check.Query(name, links, plan.constant, plan.hasten, limit))
            processes.append(self.start_query(number, [addresses[link] for link in links]))
            first += plan.servers
        return processes

    def go(self, clock):
        """The relay ends after the queries, and the server last, so that no packet comes to where nobody listens."""
        command = [self.programs + "/pongulvesz-server", "--synchronised", self.phase.address]
        server = start(command, stdout=subprocess.PIPE)
        relay, addresses = self.start_relay(lines_until(server, "listening on ")[-1].removeprefix("listening on "))
        until = time.monotonic() + self.phase.seconds
        queries = self.start_queries(addresses)
        while time.monotonic() < until:
            time.sleep(min(0.5, self.phase.seconds / 10))
            clock.look()
        self.ended = time.time_ns()
        for query in queries:
            end(query, self.result)
        self.result.relay = counts_in(end(relay, self.result))
        self.result.server = counts_in(end(server, self.result))
        clock.look()
        return self.result

    def check(self, slack):
        self.log = log.Log(self.base + ".log")
        told = set()
        for number, query in enumerate(self.queries):
            checker = check.Checker(query, self.log, slack)
            with open(self.csv_name(number), encoding="ascii") as lines:
                checker.check(lines, self.ended)
            self.result.add_query(checker)
            told |= checker.tokens
        for token in self.log.asked.keys() - told:
            self.result.violation("line", f"a request with token {token} was sent, and no event tells of it")
        if self.result.events["no room"] > NO_ROOM * self.result.events["asked"]:
            self.result.violation("no room", "the kernel dropped packets, and too many exchanges were not checked")
        self.check_counts()
        return self.result

    def check_counts(self):
        """The server answered what the relay received, and no call of either failed."""
        relay, server = self.result.relay, self.result.server
        zero = ((relay, "errors"), (relay, "unknown_replies"), (server, "not sent"), (server, "receive errors"))
        for counts, name in zero:
            if name not in counts or counts[name] != 0:
                self.result.violation("process", f"{name}: {counts[name]}")
        received = relay["replies"] + relay["flood_replies"]
        if server["answered"] != received and not self.log.overflown:
            self.result.violation("process", f"the server answered {server['answered']}, and {received} replies came")

    def remove_files(self):
        os.remove(self.base + ".log")
        for number, plan in enumerate(self.phase.plans):
            os.remove(self.csv_name(number))
            if plan.state:
                os.remove(f"{self.base}-{number}.state")
                os.remove(f"{self.base}-{number}.state.lock")
