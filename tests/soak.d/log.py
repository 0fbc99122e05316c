"""The relay's log: records of 48 octets, as log.h has them."""

import struct

ASKED, SENT, REPLIED, KISSED, REFUSABLE, OVERFLOWN = range(1, 7)
RECORD = struct.Struct("=HH4xQQQQQ")


class Log:
    """What the relay did, by token. Times are nanoseconds of the system's clock: `came` after the relay received,
    `went` before it sent."""

    def __init__(self, name):
        self.asked = {}  # token: (link, came)
        self.sent = {}  # token: `went` of the first request with it that the server answers
        self.replied = {}  # token: a list of the true replies to the query, (link, receive, transmit, came, went)
        self.kissed = {}  # token: a list of the kisses to the query, (link, code)
        self.overflown = []  # (came, went): the kernel dropped packets between these times
        with open(name, "rb") as file:
            octets = file.read()
        for record in RECORD.iter_unpack(octets):
            self.take(*record)

    def take(self, kind, link, token, receive, transmit, came, went):
        if kind == ASKED:
            self.asked[token] = (link, came)
        elif kind == SENT:
            self.sent[token] = min(went, self.sent.get(token, went))
        elif kind == REPLIED:
            self.replied.setdefault(token, []).append((link, receive, transmit, came, went))
        elif kind == KISSED:
            self.kissed.setdefault(token, []).append((link, receive.to_bytes(4, "big").decode("ascii")))
        elif kind == OVERFLOWN:
            self.overflown.append((came, went))

    def had_no_room(self, start, end):
        """Whether the kernel dropped packets, of any socket, between these times."""
        return any(came <= end and start <= went for came, went in self.overflown)
