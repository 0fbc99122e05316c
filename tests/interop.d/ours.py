"""Our two programs: starts pongulvesz-server, asks by pongulvesz-query, and reads the events that the query writes."""
import csv
import io

import places
from daemons import Daemon, run

PORT = 11123
# 16 s of uptime, after which a client may give up, pass in 1 s
HASTE = ["--hasten", "16"]


def server(folder, name, *options, at=f"127.0.0.1:{PORT}"):
    """Our server at loopback, once it listens."""
    daemon = Daemon(folder, name, [places.SERVER, *options, at])
    if daemon.wait_for("listening on", seconds=5) is None:
        raise RuntimeError(f"pongulvesz-server does not listen: {daemon.log()}")
    return daemon


def events(servers, *options):
    """Asks servers by our query: the events, each a dictionary, and the exit status."""
    status, text = run([places.QUERY, "--csv", *HASTE, *options, *servers], seconds=120)
    lines = [line for line in text.splitlines() if line.count(",") == 13]
    return list(csv.DictReader(io.StringIO("\n".join(lines)))), status


def words(event):
    """An event in words, without its numbers that differ from run to run."""
    kind = event["event"]
    if kind == "kiss":
        return f"kiss {event['code']}"
    return f"refused {event['number']}" if kind == "refused" else kind


def numbered(found):
    """Events in words with the numbers of their servers, without the asks."""
    return ", ".join(f"{words(event)} ({event['server']})" for event in found if event["event"] != "asked")


def one_exchange(address, *options):
    """What one exchange with a server comes to."""
    found, status = events([address], *options)
    outcome = ", ".join(words(event) for event in found if event["event"] != "asked")
    if status != (0 if outcome == "accepted" else 1):
        return f"{outcome} with status {status}"
    if outcome == "accepted" and not is_near(found[-1]):
        return f"accepted with a false offset of {found[-1]['offset']} units"
    return outcome


def is_near(event):
    """Whether an accepted offset is right. Both sides read one clock, so that it is at most half the delay; a
    millisecond more is left for what the server estimates."""
    twice_offset = 2 * int(event["offset"]) + int(event["half"])
    return abs(twice_offset) <= int(event["delay"]) + 2 * 2**32 // 1000


def outcome_of(verdict):
    """What one exchange comes to where the archive has this verdict of the reply. A refused reply leaves the client
    waiting, so that it gives up in the end."""
    if verdict == "silent":
        return "gave_up"
    return f"{verdict}, gave_up" if verdict.startswith("refused") else verdict
