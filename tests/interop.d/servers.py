"""Our query against each server, in each state that the server can be brought to."""
import time

import asking
import ours
import packets
import peers

CHRONY = ("127.0.0.1", peers.PORT)
# ntpsec and openntpd know no other port.
PORT_123 = ("127.0.0.1", 123)
ZERO = r"kiss \x00\x00\x00\x00"
SOURCE_PORT = 11200


def chrony_source(outcomes):
    """A second chronyd, with its own clock as reference, for the first to follow."""
    source = peers.chronyd(outcomes.folder, "source", [peers.OWN_CLOCK], SOURCE_PORT)
    asking.wait_until_up(("127.0.0.1", SOURCE_PORT))
    return source


# ---- chrony

def chrony_local(outcomes):
    peers.chronyd(outcomes.folder, "chrony", [peers.OWN_CLOCK])
    asking.steadily(outcomes, "chrony-local", CHRONY, "accepted")
    asking.in_versions_1_to_4(outcomes, "chrony-local", CHRONY, "accepted")


def chrony_stratum_15(outcomes):
    """The last stratum that is taken."""
    peers.chronyd(outcomes.folder, "chrony", ["local stratum 15"])
    asking.steadily(outcomes, "chrony-stratum-15", CHRONY, "accepted")


def chrony_ipv6(outcomes):
    peers.chronyd(outcomes.folder, "chrony", [peers.OWN_CLOCK], address="::1")
    time.sleep(1)
    outcomes.check("pongulvesz-query, chrony-local, IPv6", "accepted", ours.one_exchange(f"[::1]:{peers.PORT}"))


def chrony_none(outcomes):
    peers.chronyd(outcomes.folder, "chrony", [])
    asking.steadily(outcomes, "chrony-unsynchronised", CHRONY, ZERO)


def chrony_following(outcomes):
    """As Debian sets it up, with iburst; then its source falls silent, and it goes on with what it has."""
    source = chrony_source(outcomes)
    peers.chronyd(outcomes.folder, "chrony", [f"server 127.0.0.1 port {SOURCE_PORT} iburst"])
    asking.from_now_on(outcomes, "chrony-start-following", CHRONY, [ZERO, "accepted"], 60)
    asking.steadily(outcomes, "chrony-following", CHRONY, "accepted")
    source.stop()
    time.sleep(5)
    asking.steadily(outcomes, "chrony-source-lost", CHRONY, "accepted")


def chrony_following_slowly(outcomes):
    """Without iburst, it exchanges with its source every 64 s."""
    chrony_source(outcomes)
    peers.chronyd(outcomes.folder, "chrony", [f"server 127.0.0.1 port {SOURCE_PORT}"])
    asking.from_now_on(outcomes, "chrony-start-following-slowly", CHRONY, [ZERO, "accepted"], 400)


def chrony_that_loses(outcomes, name, port):
    """A chronyd whose source falls silent, and whose root dispersion grows by a tenth of the time since then. Where
    nothing is set it grows by a millionth at least (maxclockerror), and a second takes days."""
    source = chrony_source(outcomes)
    lines = [f"server 127.0.0.1 port {SOURCE_PORT} iburst minpoll 0 maxpoll 0", "maxclockerror 100000"]
    peers.chronyd(outcomes.folder, name, lines, port)
    asking.wait_until(("127.0.0.1", port), "accepted", 30)
    source.stop()


def chrony_long_lost(outcomes):
    chrony_that_loses(outcomes, "chrony", peers.PORT)
    asking.from_now_on(outcomes, "chrony-source-long-lost", CHRONY, ["accepted", "refused 34"], 60)


def chrony_denies(outcomes):
    """Where chrony allows nobody its port is closed. The kernel says so; the query gives up at its time as ever."""
    peers.chronyd(outcomes.folder, "chrony", [peers.OWN_CLOCK, "deny all"])
    time.sleep(1)
    outcomes.check("pongulvesz-query, chrony-denies", "error, gave_up", ours.one_exchange(f"127.0.0.1:{peers.PORT}"))


def chrony_limit(outcomes):
    """chrony 4.3 sends no kiss: past the limit it is silent, save for one request in 16 of chance (leak 4)."""
    peers.chronyd(outcomes.folder, "chrony", [peers.OWN_CLOCK, "ratelimit interval 10 burst 16 leak 4"])
    asking.wait_until_up(CHRONY)
    found = [packets.exchange(*CHRONY, seconds=0.1).verdict() for _ in range(40)]
    outcomes.check("chrony-rate-limit, the first 8 of a row", "accepted", " ".join(set(found[:8])))
    silent = found[16:].count("silent")
    outcomes.check("chrony-rate-limit, silent past 16", "mostly", "mostly" if silent > 12 else f"{silent} of 24 times")
    tries = {ours.one_exchange(f"127.0.0.1:{peers.PORT}") for _ in range(4)}
    outcomes.check("pongulvesz-query, chrony-rate-limit, in 4 tries", "gave_up", " ".join(tries - {"accepted"}))


# ---- ntpsec

def ntpsec_none(outcomes):
    peers.ntpsec(outcomes.folder, "ntpsec", [peers.NO_LIMIT])
    asking.steadily(outcomes, "ntpsec-unsynchronised", PORT_123, "kiss INIT")


def ntpsec_local(outcomes):
    peers.ntpsec(outcomes.folder, "ntpsec", [peers.NTPSEC_OWN_CLOCK, peers.NO_LIMIT])
    asking.from_now_on(outcomes, "ntpsec-start-local", PORT_123, ["kiss INIT", "refused 34", "accepted"], 90)
    asking.steadily(outcomes, "ntpsec-local", PORT_123, "accepted")
    asking.in_versions_1_to_4(outcomes, "ntpsec-local", PORT_123, "accepted")


def ntpsec_following(outcomes):
    """As Debian sets it up, with iburst."""
    peers.source(outcomes.folder)
    peers.ntpsec(outcomes.folder, "ntpsec", ["server 192.0.2.2 iburst", peers.NO_LIMIT])
    asking.from_now_on(outcomes, "ntpsec-start-following", PORT_123, ["kiss INIT", "accepted"], 60)
    asking.steadily(outcomes, "ntpsec-following", PORT_123, "accepted")


def ntpsec_following_slowly(outcomes):
    """Without iburst, it exchanges with its source every 64 s."""
    peers.source(outcomes.folder)
    peers.ntpsec(outcomes.folder, "ntpsec", ["server 192.0.2.2", peers.NO_LIMIT])
    asking.from_now_on(outcomes, "ntpsec-start-following-slowly", PORT_123, ["kiss INIT", "accepted"], 400)


def ntpsec_limit(outcomes):
    """After 20 requests in a row the kiss RATE, some ten times, and then silence; without kod silence at once."""
    peers.ntpsec(outcomes.folder, "ntpsec", ["restrict default limited kod"])
    asking.wait_until_up(PORT_123)
    found = [packets.exchange(*PORT_123).verdict() for _ in range(10)]
    outcomes.check("ntpsec-rate-limit, the first 10 of a row", "kiss INIT", " ".join(set(found)))
    asking.in_a_row(outcomes, "ntpsec-rate-limit", PORT_123, "kiss RATE")
    asking.in_a_row(outcomes, "ntpsec-rate-limit-exceeded", PORT_123, "silent")


def ntpsec_denies(outcomes):
    peers.ntpsec(outcomes.folder, "ntpsec", ["restrict default noserve kod limited"])
    time.sleep(2)
    outcomes.check("ntpsec-denies", "silent", asking.in_this_state(outcomes, "ntpsec-denies", PORT_123))


# ---- openntpd

def openntpd_none(outcomes):
    peers.openntpd(outcomes.folder, "openntpd", ["listen on 127.0.0.1"])
    asking.steadily(outcomes, "openntpd-unsynchronised", PORT_123, ZERO)
    asking.in_versions_1_to_4(outcomes, "openntpd-unsynchronised", PORT_123, ZERO)


def openntpd_following(outcomes):
    peers.source(outcomes.folder)
    peers.openntpd(outcomes.folder, "openntpd", ["listen on 127.0.0.1", "server 192.0.2.2"])
    asking.from_now_on(outcomes, "openntpd-start-following", PORT_123, [ZERO, "refused 12", "accepted"], 900)
    asking.steadily(outcomes, "openntpd-following", PORT_123, "accepted")
