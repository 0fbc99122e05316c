"""Holds the events of one query to what the relay did and to the rules (docs/RULES.md), in whole numbers.

The bound is demand 3's, with nothing added for ticks. Query and server read one clock, and turn nanoseconds into units
by one rule, by which a later time never has the earlier timestamp. Take for true time what that rule makes of that
clock. Then all four readings are exact; the client's constant is its correction, rounded down to the unit; the server's
is what the relay adds to its timestamps; so the true difference is known to the unit. That sent, received, answered and
arrived fall in that order, the other premise, is tested for each exchange by the times that the relay wrote down. This
needs a clock that nobody sets back; a clock that is slewed is one clock all the same."""

import collections

UNITS = 1 << 32  # in a second
CIRCLE = 1 << 64
FROM_1900_TO_1970 = 2208988800
NANOSECONDS = 10**9
PATIENCE = 2 * NANOSECONDS  # how late an ask may be on a busy machine
GIVE_UP = 16  # seconds of uptime
COLUMNS = "time,event,server,in_use,number,code,offset,half,delay,t1,t4,token,correction,uptime".split(",")

Violation = collections.namedtuple("Violation", "kind query line words")
# A query: its name, its links in the relay's log, the constant of its server's clock, how many times as fast its uptime
# runs, and the most that its ledger pays in a second of uptime, 0 where it keeps none.
Query = collections.namedtuple("Query", "name links constant hasten limit")


def signed(number):
    return (number + CIRCLE // 2) % CIRCLE - CIRCLE // 2


def timestamp(nanoseconds):
    """Of a Unix time, its fraction rounded up."""
    return -(-nanoseconds * UNITS // NANOSECONDS) + FROM_1900_TO_1970 * UNITS


def nanoseconds_of(stamp):
    """The Unix time of a timestamp, rounded down."""
    return (stamp - FROM_1900_TO_1970 * UNITS) * NANOSECONDS // UNITS


def answer(t1, t2, t3, t4):
    """Offset, half and delay."""
    total = signed(t2 - t1) + signed(t3 - t4)
    return total >> 1, total & 1, signed(t4 - t1) - signed(t3 - t2)


def time_of(event):
    seconds, _, nanoseconds = event["time"].partition(".")
    return int(seconds) * NANOSECONDS + int(nanoseconds)


class Record:
    """An association, as far as the events tell."""

    def __init__(self):
        self.exponent = 6
        self.stopped = False
        self.last_ask = None  # uptime

    def back_off(self):
        self.exponent = min(14, self.exponent + 1)

    def too_soon(self, uptime):
        """Whether 6 refuses an ask."""
        return self.last_ask is not None and uptime < self.last_ask + 2**self.exponent


class Checker:
    def __init__(self, query, log, slack):
        self.query, self.log, self.slack = query, log, slack
        self.records = [Record() for _ in query.links]
        self.in_use = 1
        self.waiting = None  # the event `asked` that has not ended
        self.expected = collections.deque()  # what is to follow at once: an event's name and some of its columns
        self.tokens = set()
        self.correction = self.debt = 0  # half units
        self.last_ask = None  # nanoseconds of the system's clock
        self.line, self.number = "", 0
        self.violations = []
        self.counts, self.refusals = collections.Counter(), collections.Counter()
        self.share = 0.0  # the largest of an error in its bound

    def violation(self, kind, words):
        self.violations.append(Violation(kind, self.query.name, self.number, f"{words}: {self.line}"))

    def check(self, lines, end):
        """All lines of a query that was ended at this time."""
        if next(lines, "").rstrip("\n") != ",".join(COLUMNS):
            self.violation("line", "the first line does not name the columns")
        for number, line in enumerate(lines, 2):
            self.number, self.line = number, line.rstrip("\n")
            self.take(self.line.split(","))
        self.number, self.line = 0, "at the end"
        if self.last_ask is None:
            self.violation("stuck", "nothing was asked")
        else:
            self.asks_in_time(end)

    def take(self, columns):
        event = dict(zip(COLUMNS, columns))
        name = event.get("event")
        if len(columns) != len(COLUMNS) or name not in EVENTS:
            self.violation("line", "not a line that is known")
            return
        self.counts[name] += 1
        if self.expected and name != self.expected[0][0]:
            self.violation("use", f"{self.expected[0]} is to come first")
            self.expected.clear()
        if name != "entered":
            self.has_correction(event)
        EVENTS[name](self, event)
        if int(event["in_use"]) != self.in_use:
            self.violation("use", f"server {self.in_use} is to be in use")

    def has_correction(self, event):
        if int(event["correction"]) != self.correction:
            self.violation("ledger", f"the correction is to be {self.correction}")
            self.correction = int(event["correction"])

    def asks_in_time(self, time):
        """Whether no more has passed since the last ask than the exponent says."""
        allowed = (2 ** self.records[self.in_use - 1].exponent + 2) * NANOSECONDS // self.query.hasten + PATIENCE
        if time - self.last_ask > allowed:
            self.violation("stuck", f"the last ask was {(time - self.last_ask) / NANOSECONDS:.3f} s ago")

    def asked(self, event):
        record = self.records[self.in_use - 1]
        time, uptime = time_of(event), int(event["uptime"])
        if self.waiting is not None:
            self.violation("ask", "the ask before has not ended")
        if int(event["server"]) != self.in_use or record.stopped:
            self.violation("use", f"server {self.in_use} is in use, and one that has stopped is not asked")
        if record.too_soon(uptime):
            self.violation("ask", f"too soon, after uptime {record.last_ask} with exponent {record.exponent}")
        self.has_new_token(int(event["token"]), time)
        if self.last_ask is not None:
            self.asks_in_time(time)
        record.last_ask, self.last_ask, self.waiting = uptime, time, event

    def has_new_token(self, token, time):
        """Whether the token is new, and the relay has a request with it on this link."""
        if token == 0 or token in self.tokens:
            self.violation("ask", "the token is zero or was used before")
        link, _ = self.log.asked.get(token, (None, None))
        if link != self.query.links[self.in_use - 1] and not self.log.had_no_room(time - self.slack, time + self.slack):
            self.violation("ask", "the request did not reach the relay")
        self.tokens.add(token)

    def ends_ask(self, event):
        """Whether the event ends an ask, of the same token and T1 where it has them."""
        asked, self.waiting = self.waiting, None
        if asked and all(event[column] in ("", asked[column]) for column in ("token", "t1")):
            return True
        self.violation("token", f"it ends no ask but {asked and asked['token']}, made at {asked and asked['t1']}")
        return False

    def accepted(self, event):
        if not self.ends_ask(event):
            return
        self.records[self.in_use - 1].exponent = 6
        token, t1, t4 = int(event["token"]), int(event["t1"]), int(event["t4"])
        given = int(event["offset"]), int(event["half"]), int(event["delay"])
        replies = [reply for reply in self.log.replied.get(token, ()) if reply[0] == self.query.links[self.in_use - 1]]
        fitting = [reply for reply in replies if answer(t1, reply[1], reply[2], t4) == given]
        if not replies:
            self.violation("reply", "no true reply with this originate timestamp went to the query")
        elif not fitting:
            self.violation("answer", f"the rules give {[answer(t1, reply[1], reply[2], t4) for reply in replies]}")
        elif not any(self.in_order(event, reply) for reply in fitting):
            self.violation("order", f"the relay has {self.log.asked.get(token)}, {self.log.sent.get(token)}, {fitting}")
        self.keeps_bound(*given)
        if self.query.limit != 0:
            self.expected.append(("entered", event["offset"], event["half"]))

    def in_order(self, event, reply):
        """Whether the readings and the relay's times fall in the order in which they were read."""
        token, correction, constant = int(event["token"]), self.correction >> 1, self.query.constant
        if token not in self.log.asked or token not in self.log.sent:
            return False
        _, receive, transmit, came, went = reply
        times = [
            int(event["t1"]) - correction,
            timestamp(self.log.asked[token][1]),
            timestamp(self.log.sent[token]),
            receive - constant,
            transmit - constant,
            timestamp(came),
            timestamp(went),
            int(event["t4"]) - correction,
            timestamp(time_of(event)),
        ]
        return all(signed(later - earlier) >= 0 for earlier, later in zip(times, times[1:]))

    def keeps_bound(self, offset, half, delay):
        """Demand 3: twice the offset plus the half differs from twice the true difference by at most the delay."""
        error = abs(2 * offset + half - 2 * (self.query.constant - (self.correction >> 1)))
        if error > delay:
            self.violation("bound", f"twice the offset plus the half is off by {error}, and the delay is {delay}")
        elif delay > 0:
            self.share = max(self.share, error / delay)

    def kiss(self, event):
        if not self.ends_ask(event):
            return
        sent = self.log.kissed.get(int(event["token"]), [])
        if (self.query.links[self.in_use - 1], event["code"]) not in sent:
            self.violation("kiss", f"the relay sent {sent}")
        at, count = self.in_use - 1, len(self.records)
        alternates = [i % count for i in range(at + 1, at + count) if not self.records[i % count].stopped]
        if not alternates:
            self.records[at].back_off()
            return
        self.records[at].stopped = True
        self.in_use = alternates[0] + 1
        self.last_ask = time_of(event)
        self.expected.extend([("stopped", str(at + 1)), ("moved", str(self.in_use))])

    def follows(self, event):
        """An event that only a kiss leads to."""
        if not self.expected or self.expected.popleft()[1:] != (event["server"],):
            self.violation("use", "no kiss led to this")

    def gave_up(self, event):
        """Whether no true reply had gone to the query before the uptime was read that it gave up with. A reply of the
        last moment may be overlooked; where the kernel had no room, it may have been dropped."""
        asked = self.waiting
        if not self.ends_ask(event):
            return
        self.records[self.in_use - 1].back_off()
        waited = int(event["uptime"]) - int(asked["uptime"])
        if waited < GIVE_UP:
            self.violation("ask", f"given up too soon, asked at uptime {asked['uptime']}")
        # both uptimes are rounded down to the second
        decided = self.system_time(asked["t1"]) + (waited - 1) * NANOSECONDS // self.query.hasten
        went = min((reply[4] for reply in self.log.replied.get(int(asked["token"]), ())), default=None)
        if went is None or went > time_of(event):
            self.counts["lost or late"] += 1
        elif self.log.had_no_room(time_of(asked) - self.slack, time_of(event)):
            self.counts["no room"] += 1
        elif went + self.slack > decided:
            self.counts["last moment"] += 1
        else:
            self.violation("given up", f"a true reply went to the query {(decided - went) / 1e6:.3f} ms before")

    def system_time(self, reading):
        """What the system's clock read, in nanoseconds, at a reading of the query."""
        return nanoseconds_of(int(reading) - (self.correction >> 1))

    def refused(self, event):
        """A packet that is refused changes nothing. No ask is refused here, for none comes too soon, and no entry, for
        no ledger is given a constant that is too large for it."""
        self.refusals[int(event["number"])] += 1
        if event["t4"] == "":
            self.violation("ask", "an ask or an entry is refused")
        elif self.waiting is None or event["token"] != self.waiting["token"]:
            self.violation("token", "not the token of the request that is waited for")

    def entered(self, event):
        if not self.expected or self.expected.popleft()[1:] != (event["offset"], event["half"]):
            self.violation("ledger", "nothing was accepted that this enters")
        entry = 2 * int(event["offset"]) + int(event["half"])
        self.correction += entry
        self.debt += entry
        self.has_correction(event)

    def paid(self, event):
        paid = max(-self.query.limit, min(self.query.limit, self.debt))
        self.debt -= paid
        if int(event["offset"]) != paid:
            self.violation("ledger", f"{paid} is to be paid")

    def error(self, event):
        self.violation("error", "no call of the system is to fail")


EVENTS = {
    "asked": Checker.asked,
    "accepted": Checker.accepted,
    "kiss": Checker.kiss,
    "stopped": Checker.follows,
    "moved": Checker.follows,
    "gave_up": Checker.gave_up,
    "refused": Checker.refused,
    "entered": Checker.entered,
    "paid": Checker.paid,
    "error": Checker.error,
}
