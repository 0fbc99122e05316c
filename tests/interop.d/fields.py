"""Requests with extension fields and authenticators: what each server makes of them, and what our client makes of its
replies. Our query sends neither; customers' clients do."""
import hashlib
import os

import asking
import ours
import packets
import peers
import servers

# chrony's experimental field of type F323 begins with this number; the rest of a request's is zero.
CHRONY_FIELD = bytes.fromhex("F5BEDD9A") + bytes(20)


def authenticated(packet, number):
    """The packet with an authenticator of a key behind it."""
    digest = hashlib.new(peers.HASHES[number].lower(), peers.KEY + packet).digest()
    return packet + number.to_bytes(4, "big") + digest


def requests():
    """Requests by name, their fields added by the archive. The last breaks the rules of docs/RULES.md, "Extension
    fields"."""
    plain = packets.request()
    one = packets.with_field(plain, 0xF323, CHRONY_FIELD)
    return {
        "no field": plain,
        "chrony's field F323": one,
        "a field of no meaning": packets.with_field(plain, 0xF502, os.urandom(32)),
        "two fields": packets.with_field(one, 0xF502, os.urandom(32)),
        "a field of 900 octets": packets.with_field(plain, 0xF502, bytes(896)),
        "the field 0104 of NTS alone": packets.with_field(plain, 0x0104, os.urandom(32)),
        "a known key, 20 octets": authenticated(plain, 1),
        "a known key, 24 octets": authenticated(plain, 2),
        "a field and a known key": authenticated(one, 2),
        "an unknown key": plain + (9).to_bytes(4, "big") + bytes(20),
        "8 octets that are neither": plain + bytes(8),
    }


def send_each(outcomes, peer, server, usual, exceptions):
    """Sends each request, and compares the verdict of the reply and its length with what is usual, or with the
    exception. A reply with a tail is kept."""
    for name, packet in requests().items():
        exchange = packets.exchange(*server, packet)
        found = f"{exchange.verdict()}, {len(exchange.reply)} octets" if exchange.reply else "silent"
        outcomes.check(f"{peer}, request with {name}", exceptions.get(name, usual), found)
        if len(exchange.reply) > 48:
            outcomes.keep(f"{peer}-tails", exchange)


def chrony(outcomes):
    """It answers its own field with one, and a key that it knows with an authenticator."""
    keys = peers.key_file(outcomes.folder, "HEX:")
    peers.chronyd(outcomes.folder, "chrony", [peers.OWN_CLOCK, f"keyfile {keys}"])
    asking.wait_until_up(servers.CHRONY)
    send_each(outcomes, "chrony", servers.CHRONY, "accepted, 48 octets", {
        "chrony's field F323": "accepted, 76 octets",
        "two fields": "accepted, 76 octets",
        "the field 0104 of NTS alone": "silent",
        "a known key, 20 octets": "accepted, 68 octets",
        "a known key, 24 octets": "accepted, 72 octets",
        "a field and a known key": "accepted, 100 octets",
        "an unknown key": "silent",
        "8 octets that are neither": "silent",
    })


def ntpsec(outcomes):
    """It answers a key that it knows with an authenticator, and nothing else that is longer than 48 octets."""
    keys = peers.key_file(outcomes.folder, "")
    lines = [peers.NTPSEC_OWN_CLOCK, peers.NO_LIMIT, f"keys {keys}", "trustedkey 1 2"]
    peers.ntpsec(outcomes.folder, "ntpsec", lines)
    asking.wait_until(servers.PORT_123, "accepted", 90)
    send_each(outcomes, "ntpsec", servers.PORT_123, "silent", {
        "no field": "accepted, 48 octets",
        "a known key, 20 octets": "accepted, 68 octets",
        "a known key, 24 octets": "accepted, 72 octets",
    })


def openntpd(outcomes):
    """It looks at the 48 octets alone, and knows no keys."""
    peers.openntpd(outcomes.folder, "openntpd", ["listen on 127.0.0.1"])
    asking.wait_until_up(servers.PORT_123)
    usual = f"{servers.ZERO}, 48 octets"
    send_each(outcomes, "openntpd", servers.PORT_123, usual, {"8 octets that are neither": "silent"})


def pongulvesz(outcomes):
    """It looks at the 48 octets alone, and knows no keys."""
    ours.server(outcomes.folder, "server", "--synchronised")
    server = ("127.0.0.1", ours.PORT)
    send_each(outcomes, "pongulvesz-server", server, "accepted, 48 octets", {"8 octets that are neither": "silent"})
