"""Capture files made in memory, for tests/edge-capture: SNTP packets, datagrams, link layers, pcap and pcapng.

A record is a time, in nanoseconds of Unix time, its octets, and where the snap length cut them the original length."""
import ipaddress
import struct

SECOND = 10**9


# ---- SNTP packets.

def timestamp(nanoseconds):
    """NTP's timestamp of a Unix time, its fraction rounded up (docs/RULES.md, "Unix time")."""
    seconds, part = divmod(nanoseconds, SECOND)
    return ((seconds + 2208988800) << 32) + -(-(part << 32) // SECOND) & (2**64 - 1)


def request(token, version=4, mode=3):
    return bytes([version << 3 | mode]) + bytes(39) + struct.pack(">Q", token)


def reply(token, t2, t3, version=4, stratum=1, code=b"GPS\0"):
    head = bytes([version << 3 | 4, stratum, 0, 236]) + bytes(8) + code
    return head + struct.pack(">QQQQ", t2, token, t2, t3)


# ---- UDP and IP. What a header tells of lengths may be set wrong.

def udp(source, destination, payload, length=None):
    told = len(payload) + 8 if length is None else length
    return struct.pack(">HHHH", source, destination, told, 0) + payload


def packed(*addresses):
    return b"".join(ipaddress.ip_address(address).packed for address in addresses)


def ipv4(source, destination, payload, options=b"", flags=0, protocol=17, total=None):
    header = 20 + len(options)
    told = header + len(payload) if total is None else total
    head = struct.pack(">BBHHHBBH", 0x40 | header // 4, 0, told, 7, flags, 64, protocol, 0)
    return head + packed(source, destination) + options + payload


def ipv6(source, destination, payload, next_header=17):
    return struct.pack(">IHBB", 6 << 28, len(payload), next_header, 64) + packed(source, destination) + payload


def datagram(source, source_port, destination, destination_port, payload):
    """An IP packet of the addresses' version, with a datagram."""
    ip = ipv6 if ":" in source else ipv4
    return ip(source, destination, udp(source_port, destination_port, payload))


# ---- Link layers: the number of each, and what makes a record of an IP packet.

def is_ipv6(packet):
    return packet[0] >> 4 == 6


def ether_type(packet):
    return b"\x86\xDD" if is_ipv6(packet) else b"\x08\x00"


def ethernet(tags, trailer=b""):
    return lambda packet: bytes(12) + tags + ether_type(packet) + packet + trailer


def family(order, number_of_ipv6):
    return lambda packet: struct.pack(order + "I", number_of_ipv6 if is_ipv6(packet) else 2) + packet


LINKS = {
    "ethernet": (1, ethernet(b"", b"\xEE" * 4)),
    "ethernet, VLAN": (1, ethernet(b"\x81\0\0\x05")),
    "ethernet, two VLAN tags": (1, ethernet(b"\x88\xA8\0\x05\x81\0\0\x06")),
    "SLL": (113, lambda packet: bytes(14) + ether_type(packet) + packet),
    "SLL2": (276, lambda packet: ether_type(packet) + bytes(18) + packet),
    "raw": (101, lambda packet: packet),
    "raw, old number": (12, lambda packet: packet),
    "null, little-endian": (0, family("<", 30)),
    "null, big-endian": (0, family(">", 24)),
    "loop": (108, family(">", 28)),
}


# ---- Files.

def pcap(records, order="<", nano=False, link=101):
    file = struct.pack(order + "IHHIIII", 0xA1B23C4D if nano else 0xA1B2C3D4, 2, 4, 0, 0, 65535, link)
    for time, octets, *original in records:
        part = time % SECOND if nano else time % SECOND // 1000
        whole = original[0] if original else len(octets)
        file += struct.pack(order + "IIII", time // SECOND, part, len(octets), whole) + octets
    return file


def block(order, kind, body):
    body += bytes(-len(body) % 4)
    length = struct.pack(order + "I", len(body) + 12)
    return struct.pack(order + "I", kind) + length + body + length


def section_header(order="<", magic=0x1A2B3C4D, version=1):
    return block(order, 0x0A0D0D0A, struct.pack(order + "IHHq", magic, version, 0, -1))


def interface_description(order="<", link=101, resolution=None, offset=0):
    options = b""
    if resolution is not None:
        options += struct.pack(order + "HHB3x", 9, 1, resolution)
    if offset:
        options += struct.pack(order + "HHq", 14, 8, offset)
    return block(order, 1, struct.pack(order + "HHI", link, 0, 0) + options + bytes(4))


def enhanced_packet(octets, order="<", count=0, interface=0, captured=None, original=None):
    lengths = [len(octets) if length is None else length for length in (captured, original)]
    return block(order, 6, struct.pack(order + "IIIII", interface, count >> 32, count & 0xFFFFFFFF, *lengths) + octets)


def pcapng(records, order="<", resolution=None, offset=0, link=101):
    """resolution is the octet of if_tsresol, whose upper bit means a power of 2; offset is if_tsoffset, in seconds."""
    code = 6 if resolution is None else resolution
    units = 2**(code & 127) if code & 128 else 10**code
    passed_over = block(order, 5, bytes(8))
    file = section_header(order) + interface_description(order, link, resolution, offset) + passed_over
    for time, octets in records:
        file += enhanced_packet(octets, order, -(-(time - offset * SECOND) * units // SECOND))
    return file
