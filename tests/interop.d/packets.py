"""Requests and replies as octets: sends a request, and keeps request, reply, T1 and T4."""
import os
import socket
import subprocess
import time
from dataclasses import dataclass

import places
from replies import code_in_characters

SECONDS_1900_TO_1970 = 2208988800


@dataclass
class Exchange:
    """A request and the reply to it, which is empty where none came."""

    request: bytes
    reply: bytes
    t1: int
    t4: int

    @property
    def token(self):
        return self.request[40:48]

    def verdict(self):
        """What the archive makes of the reply: accepted, kiss CODE, refused NUMBER; or silent."""
        if not self.reply:
            return "silent"
        answer = ask_archive(f"arrival {self.t1:016X} {self.token.hex()} {self.t4:016X} {self.reply.hex()}")
        kind, value, *_ = answer.split()
        if kind == "accepted":
            return kind
        return f"kiss {code_in_characters(bytes.fromhex(value))}" if kind == "kiss" else answer


def ask_archive(line):
    """The answer of archive.c to a line."""
    run = subprocess.run([places.ARCHIVE], input=line + "\n", capture_output=True, text=True, check=True)
    return run.stdout.strip()


def timestamp():
    """What the machine's clock reads, as a timestamp of NTP, its fraction rounded up (docs/RULES.md, "Unix time")."""
    seconds, nanoseconds = divmod(time.time_ns(), 10**9)
    return (seconds + SECONDS_1900_TO_1970) % 2**32 << 32 | -(-nanoseconds * 2**32 // 10**9)


def request():
    """The 48 octets of a request of version 4, as pongulvesz_ask writes them, with a token of chance."""
    return bytes([4 << 3 | 3]) + bytes(39) + os.urandom(8)


def with_field(packet, field_type, body):
    """The packet with an extension field that the archive adds."""
    return bytes.fromhex(ask_archive(f"add {field_type:04X} {body.hex() or '-'} {packet.hex()}"))


def exchange(address, port, packet=None, seconds=1.0):
    """Sends a request and waits so many seconds for the reply."""
    packet = packet or request()
    with socket.socket(socket.AF_INET, socket.SOCK_DGRAM) as client:
        client.settimeout(seconds)
        client.connect((address, port))
        t1 = timestamp()
        try:
            client.send(packet)
            reply = client.recv(2048)
        except OSError:  # silence, or nobody listens there
            reply = b""
        return Exchange(packet, reply, t1, timestamp())
