"""Replies in words, and the answers of a replay program in words."""
import struct


def is_printable(octet):
    return 32 <= octet < 127


def code_in_characters(code):
    """Four octets, as pongulvesz-query --csv writes them."""
    plain = [is_printable(octet) and chr(octet) not in ',"\\' for octet in code]
    return "".join(chr(octet) if is_plain else f"\\x{octet:02X}" for octet, is_plain in zip(code, plain))


def identifier(reply):
    """The reference identifier: zero, in characters where it is printable, else as an address."""
    octets = reply[12:16]
    text = octets.rstrip(b"\0")
    if not text:
        return "zero"
    return text.decode("ascii") if all(map(is_printable, text)) else ".".join(map(str, octets))


def columns(reply):
    """What the tables have of a reply: leap indicator, version, stratum, identifier, root delay and root dispersion in
    seconds, octets behind the 48."""
    root_delay, root_dispersion = (f"{number / 65536:.6f}" for number in struct.unpack(">iI", reply[4:12]))
    first = [str(reply[0] >> 6), str(reply[0] >> 3 & 7), str(reply[1]), identifier(reply)]
    return [*first, root_delay, root_dispersion, str(len(reply) - 48)]


def in_words(reply):
    """The same in a line."""
    names = ["LI", "version", "stratum", "identifier", "root delay", "root dispersion", "octets behind the 48:"]
    return ", ".join(f"{name} {value}" for name, value in zip(names, columns(reply)))


def verdict(answer):
    """A replay program's answer to an arrival (docs/RULES.md, "Replay lines"), in the words of a verdict."""
    if answer[:2] == "E0":
        return f"kiss {code_in_characters(bytes.fromhex(answer[2:]))}"
    number = int(answer[:2], 16)
    return f"refused {number}" if number else "accepted"


def exchanges(frames, answers):
    """The reply and the verdict of each exchange of a replay. A give-up right after an ask is an exchange without a
    reply; one after an arrival only ends the waiting."""
    before = ""
    for frame, answer in zip(frames.splitlines(), answers.splitlines()):
        if frame.startswith("A2"):
            yield bytes.fromhex(frame)[17:], verdict(answer)  # a kind, an uptime and a clock stand before the packet
        elif frame.startswith("A3") and before.startswith("A1"):
            yield b"", "silent"
        before = frame
