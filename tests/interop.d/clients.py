"""Each client against our server: synchronised it is taken, not synchronised it is not."""
import json

import asking
import ours
import peers
import places
from daemons import other_machine, run

TAKEN, NOT_TAKEN, ENDS = "takes the time", "does not take it", "ends by an error of its own"
# Our server's options, the name of its state, and what a client is to make of it.
STATES = [(["--synchronised"], "synchronised", TAKEN), ([], "not synchronised", NOT_TAKEN)]
# openntpd, ntpdig and ntpdate ask no other port than 123.
AT_123 = "127.0.0.1:123"
OPENNTPD_ASKS = "127.0.0.2"


def in_both_states(outcomes, client, ask, **at):
    """A client against our server in both of its states. `ask` gives TAKEN, NOT_TAKEN, or what else was found."""
    for options, state, expected in STATES:
        server = ours.server(outcomes.folder, f"server-{state}", *options, **at)
        outcomes.check(f"{client}, our server {state}", expected, ask())
        server.stop()


# ---- chrony

def chronyd_once(outcomes, *server_options, lines=()):
    """chronyd -Q measures once, says the offset and sets nothing."""
    server = " ".join([f"server 127.0.0.1 port {ours.PORT} iburst", *server_options])
    path = peers.chrony_file(outcomes.folder, "client", [server, *lines])
    status, text = run([places.CHRONYD, "-Q", "-u", "root", "-f", path])
    if status == 0 and "System clock wrong by" in text:
        return TAKEN
    return NOT_TAKEN if status == 1 and "No suitable source for synchronisation" in text else text


def chrony(outcomes):
    in_both_states(outcomes, "chronyd -Q", lambda: chronyd_once(outcomes))


def chrony_options(outcomes):
    """Interleaved mode, chrony's experimental extension field: our server has neither, and the client does without."""
    ours.server(outcomes.folder, "server", "--synchronised")
    for options in ["xleave"], ["extfield F323"], ["xleave", "extfield F323"], ["version 3"]:
        found = chronyd_once(outcomes, *options)
        outcomes.check(f"chronyd -Q with {' '.join(options)}, our server synchronised", TAKEN, found)


def chrony_key(outcomes):
    """A client with a key: our server answers without an authenticator, and the client must not take that. Of a chronyd
    that has the key it takes the time."""
    keys = f"keyfile {peers.key_file(outcomes.folder, 'HEX:')}"
    theirs = peers.chronyd(outcomes.folder, "chrony", [peers.OWN_CLOCK, keys])
    asking.wait_until_up(("127.0.0.1", peers.PORT))
    with_keys(outcomes, "chronyd -Q", "a chronyd with it", TAKEN,
              lambda number: chronyd_once(outcomes, f"key {number}", lines=[keys]))
    theirs.stop()
    ours.server(outcomes.folder, "server", "--synchronised")
    with_keys(outcomes, "chronyd -Q", "our server synchronised", NOT_TAKEN,
              lambda number: chronyd_once(outcomes, f"key {number}", lines=[keys]))


def with_keys(outcomes, client, server, expected, ask):
    """A client with each of the two keys."""
    for number, name in peers.HASHES.items():
        outcomes.check(f"{client} with a key ({name}), {server}", expected, ask(number))


# ---- ntpsec

def ntpdig_once(*options):
    """ntpdig asks, and prints what it found as JSON."""
    command = [places.PYTHON, places.NTPDIG, "-j", *options, "127.0.0.1"]
    status, text = run(command, PYTHONPATH=str(places.NTPSEC_PYTHON))
    lines = [line for line in text.splitlines() if line.startswith("{")]
    if status == 0 and lines and abs(json.loads(lines[0])["offset"]) < 0.1:
        return TAKEN
    if status == 1 and "in verify_mac" in text and "struct.error: unpack requires a buffer of 4 bytes" in text:
        return ENDS
    return NOT_TAKEN if status == 1 and "no eligible servers" in text else f"status {status}: {text}"


def ntpdate_once():
    """ntpdate -q asks by ntpdig, and sets nothing."""
    path = f"{places.NTPDIG.parent}:/usr/sbin:/usr/bin:/sbin:/bin"
    status, text = run([places.NTPDATE, "-q", "127.0.0.1"], PYTHONPATH=str(places.NTPSEC_PYTHON), PATH=path)
    if status == 0 and "127.0.0.1 s1 no-leap" in text:
        return TAKEN
    return NOT_TAKEN if status == 1 and "no eligible servers" in text else f"status {status}: {text}"


def ntpdig(outcomes):
    in_both_states(outcomes, "ntpdig", ntpdig_once, at=AT_123)
    in_both_states(outcomes, "ntpdate -q", ntpdate_once, at=AT_123)


def ntpdig_leap(outcomes):
    """The leap indicators that our server can be set to reach the client."""
    for leap, expected in ("0", "no-leap"), ("1", "add-leap"), ("2", "del-leap"):
        server = ours.server(outcomes.folder, "server", "--synchronised", "--leap", leap, at=AT_123)
        _, text = run([places.PYTHON, places.NTPDIG, "127.0.0.1"], PYTHONPATH=str(places.NTPSEC_PYTHON))
        outcomes.check(f"ntpdig, our server with --leap {leap}", expected, text.split()[-1])
        server.stop()


def ntpdig_key(outcomes):
    """As chrony_key; but ntpdig 1.2.2 reads a key's number behind the 48 octets, whether there is one or not."""
    keys = peers.key_file(outcomes.folder, "")
    server = ours.server(outcomes.folder, "server", "--synchronised", at=AT_123)
    with_keys(outcomes, "ntpdig", "our server synchronised", ENDS,
              lambda number: ntpdig_once("-a", str(number), "-k", str(keys)))
    server.stop()
    lines = [peers.NTPSEC_OWN_CLOCK, peers.NO_LIMIT, f"keys {keys}", "trustedkey 1 2"]
    peers.ntpsec(outcomes.folder, "ntpsec", lines)
    asking.wait_until(("127.0.0.1", 123), "accepted", 90)
    with_keys(outcomes, "ntpdig", "ntpd of ntpsec with it", TAKEN,
              lambda number: ntpdig_once("-a", str(number), "-k", str(keys)))


def ntpsec_in_state(outcomes, options, state, expected):
    """ntpd has taken the time where it serves it on, which its own replies tell; until then they are INIT."""
    other_machine(outcomes.folder, "server", [places.SERVER, *options, "192.0.2.2:123"])
    peers.ntpsec(outcomes.folder, "client", ["server 192.0.2.2 iburst", peers.NO_LIMIT])
    found = asking.wait_until(("127.0.0.1", 123), "accepted", 30)
    found = {"accepted": TAKEN, "kiss INIT": NOT_TAKEN}.get(found, found)
    outcomes.check(f"ntpd of ntpsec, our server {state}", expected, found)


def ntpsec(outcomes):
    ntpsec_in_state(outcomes, *STATES[0])


def ntpsec_unsynchronised(outcomes):
    ntpsec_in_state(outcomes, *STATES[1])


# ---- openntpd

def openntpd_once(outcomes):
    """ntpd -d -v says of each reply whether it is taken."""
    offset, alarm = (f"reply from {OPENNTPD_ASKS}: {words}" for words in ("offset", "not synced (alarm)"))
    client = peers.openntpd(outcomes.folder, "client", [f"server {OPENNTPD_ASKS}"])
    found = client.wait_for(offset, alarm, seconds=30)
    client.stop()
    return {offset: TAKEN, alarm: NOT_TAKEN}.get(found, client.log())


def openntpd(outcomes):
    in_both_states(outcomes, "ntpd of openntpd", lambda: openntpd_once(outcomes), at=f"{OPENNTPD_ASKS}:123")


# ---- Python's ntplib

ASK_BY_NTPLIB = """
import ntplib, sys
reply = ntplib.NTPClient().request("127.0.0.1", port=int(sys.argv[1]), version=int(sys.argv[2]))
identifier = reply.ref_id.to_bytes(4, "big").rstrip(bytes(1)).decode()
print(f"LI {reply.leap}, stratum {reply.stratum}, {identifier},", "near" if abs(reply.offset) < 0.1 else "far")
"""


def ntplib(outcomes):
    """ntplib tests nothing of a reply: it hands out the fields, and an offset of whatever they are."""
    for options, state, expected in (
            (["--synchronised", "--identifier", "GPS"], "synchronised", "LI 0, stratum 1, GPS, near"),
            ([], "not synchronised", "LI 3, stratum 0, INIT, far")):
        server = ours.server(outcomes.folder, f"server-{state}", *options)
        for version in 2, 3, 4:
            command = [places.PYTHON, "-c", ASK_BY_NTPLIB, ours.PORT, version]
            _, text = run(command, PYTHONPATH=str(places.NTPLIB))
            outcomes.check(f"ntplib, version {version}, our server {state}", expected, text.strip())
        server.stop()
