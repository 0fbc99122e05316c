"""How a server is asked: its replies are captured, and our query has to come to the archive's verdict of them."""
import time

import ours
import packets
import replies


def in_this_state(outcomes, name, server):
    """Captures what the server sends, asks it by our query, and captures again; the verdict. Where the server stayed in
    its state the query is held to the verdict, and the capture is kept."""
    address, port = server
    first = packets.exchange(address, port)
    found = ours.one_exchange(f"{address}:{port}")
    last = packets.exchange(address, port).verdict()
    if last != first.verdict():
        return f"{first.verdict()}, and then {last}"
    outcomes.check(f"pongulvesz-query, {name}, {last}", ours.outcome_of(last), found)
    outcomes.keep(name, first)
    if first.reply:
        outcomes.note(f"{name} sends: {replies.in_words(first.reply)}")
    return last


def steadily(outcomes, name, server, expected):
    """Asks a server whose state lasts."""
    wait_until_up(server)
    outcomes.check(name, expected, in_this_state(outcomes, name, server))


def from_now_on(outcomes, name, server, expected, seconds):
    """Asks a server whose state changes, until the last expected verdict, so many seconds at most: the verdicts one
    after another, when each of them begins, and our query in each."""
    start = time.monotonic()
    wait_until_up(server)
    found, begun = [], []
    while found[-1:] != expected[-1:] and time.monotonic() - start < seconds:
        verdict = packets.exchange(*server).verdict()
        if verdict in found[-1:]:
            time.sleep(0.2)
            continue
        begun.append(f"{verdict} from {time.monotonic() - start:.1f} s")
        found.append(in_this_state(outcomes, name, server))
    outcomes.check(f"{name}, one after another", " then ".join(expected), " then ".join(found))
    outcomes.note(f"{name}: {', '.join(begun)}")


def in_versions_1_to_4(outcomes, name, server, expected):
    for version in "1234":
        found = ours.one_exchange(f"{server[0]}:{server[1]}", "--version-number", version)
        outcomes.check(f"pongulvesz-query, {name}, version {version}", expected, found)


def in_a_row(outcomes, name, server, expected):
    """Asks without a pause, 60 times at most, until the verdict is the expected one."""
    for _ in range(60):
        if packets.exchange(*server, seconds=0.1).verdict() == expected:
            break
    outcomes.check(name, expected, in_this_state(outcomes, name, server))


def wait_until_up(server):
    """Waits for the first packet that comes back, 10 s at most."""
    end = time.monotonic() + 10
    while time.monotonic() < end and not packets.exchange(*server, seconds=0.2).reply:
        time.sleep(0.05)


def wait_until(server, verdict, seconds):
    """Waits until the server's replies have this verdict, so many seconds at most; the last verdict."""
    end = time.monotonic() + seconds
    found = packets.exchange(*server).verdict()
    while time.monotonic() < end and found != verdict:
        time.sleep(0.5)
        found = packets.exchange(*server).verdict()
    return found
