"""Lists of servers, of which some have just started: what use does, and what the operator can do."""
import asking
import ours
import peers
import servers

FIRST, SECOND = ("127.0.0.1", 11123), ("127.0.0.1", 11124)
BOTH = [f"{address}:{port}" for address, port in (FIRST, SECOND)]
ZERO = servers.ZERO


def start(outcomes, name, server, *lines):
    """Starts a chronyd: with the time where a line gives it its own clock, else without."""
    daemon = peers.chronyd(outcomes.folder, name, lines, server[1])
    asking.wait_until_up(server)
    return daemon


def ask(outcomes, what, expected, *options, addresses=None):
    """Asks the servers, and compares the events and the status; the events."""
    found, status = ours.events(addresses or BOTH, *options)
    outcomes.check(what, expected, f"{ours.numbered(found)}, status {status}")
    return found


def state_of(outcomes):
    """A state file, so that one run goes on from the one before."""
    return ["--state", str(outcomes.folder / "state")]


def until_accepted(outcomes):
    """Options for a run that asks as often as the records allow, until a reply is accepted."""
    return [*state_of(outcomes), "--watch", "--measure", "--count", "1"]


def first_starts(outcomes):
    """The first server has no time yet, the second has: the first is stopped, and the second is asked at once."""
    start(outcomes, "first", FIRST)
    start(outcomes, "second", SECOND, peers.OWN_CLOCK)
    expected = f"{ZERO} (1), stopped (1), moved (2), accepted (2), status 0"
    ask(outcomes, "list, first server has no time yet", expected)


def all_start(outcomes):
    """No server has the time yet: all but the last are stopped. The last is asked again, and taken once it has it."""
    start(outcomes, "first", FIRST)
    second = start(outcomes, "second", SECOND)
    expected = f"{ZERO} (1), stopped (1), moved (2), {ZERO} (2), status 1"
    ask(outcomes, "list, no server has the time yet", expected, *state_of(outcomes))
    second.stop()
    start(outcomes, "second", SECOND, peers.OWN_CLOCK)
    ask(outcomes, "list, the last server has the time now", "accepted (2), status 0", *until_accepted(outcomes))


def stopped_and_fresh(outcomes):
    """A server that was stopped is not asked again, though it has the time now. The operator hands in a fresh record
    for it, and it is the alternate again."""
    first = start(outcomes, "first", FIRST)
    second = start(outcomes, "second", SECOND, peers.OWN_CLOCK)
    watch = until_accepted(outcomes)
    ours.events(BOTH, *state_of(outcomes))
    first.stop()
    start(outcomes, "first", FIRST, peers.OWN_CLOCK)
    ask(outcomes, "list, the stopped server has the time now", "accepted (2), status 0", *watch)
    ask(outcomes, "list, a fresh record for the first", "fresh (1), accepted (2), status 0", *watch, "--fresh", "1")
    second.stop()
    start(outcomes, "second", SECOND)
    expected = f"{ZERO} (2), stopped (2), moved (1), accepted (1), status 0"
    ask(outcomes, "list, the second server starts anew", expected, *watch)


def refused_stays(outcomes):
    """A reply that is refused moves nothing: only a kiss does."""
    servers.chrony_that_loses(outcomes, "first", FIRST[1])
    start(outcomes, "second", SECOND, peers.OWN_CLOCK)
    asking.wait_until(FIRST, "refused 34", 30)
    ask(outcomes, "list, first server is refused", "refused 34 (1), gave_up (1), status 1")


def one_restarts(outcomes):
    """A list of one: a kiss stops nothing. The server is asked again 128 s later, and taken once it has the time."""
    only = start(outcomes, "first", FIRST)
    before = ask(outcomes, "one server, no time yet", f"{ZERO} (1), status 1", *state_of(outcomes), addresses=BOTH[:1])
    only.stop()
    start(outcomes, "first", FIRST, peers.OWN_CLOCK)
    watch = until_accepted(outcomes)
    after = ask(outcomes, "one server, has the time now", "accepted (1), status 0", *watch, addresses=BOTH[:1])
    asked = [int(event["uptime"]) for event in before + after if event["event"] == "asked"]
    apart = [later - earlier for earlier, later in zip(asked, asked[1:])]
    outcomes.check("one server, seconds of uptime from ask to ask", [128], apart)
