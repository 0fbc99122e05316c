"""What a case finds: a line for each outcome, and the replies that it captured."""


class Outcomes:
    """The outcomes of one case; `folder` is its own, for settings, logs and captured replies."""

    def __init__(self, folder):
        self.folder = folder
        self.captured = {}

    def check(self, what, expected, found):
        """One outcome."""
        if found == expected:
            print(f"passed: {what}: {found}", flush=True)
        else:
            print(f"failed: {what}: expected {expected}; found {found}", flush=True)

    def note(self, what):
        print(f"note: {what}", flush=True)

    def keep(self, name, exchange):
        """Keeps an exchange for the replay, under the name of its peer and state. A name takes several, in order."""
        self.captured.setdefault(name, []).append(exchange)
        write_lines(self.folder / f"{name}.frames", replay_lines(self.captured[name]))
        write_lines(self.folder / f"{name}.verdicts", [kept.verdict() for kept in self.captured[name]])


def write_lines(path, lines):
    path.write_text("".join(line + "\n" for line in lines), encoding="ascii")


def replay_lines(exchanges):
    """The frames of docs/RULES.md, "Replay lines": for each exchange an ask, an arrival where a reply came, and a
    give-up where the client still waits then. The uptimes are 2^14 s apart, so that no ask comes too soon."""
    lines = []
    for number, exchange in enumerate(exchanges):
        uptime = number << 14
        lines.append(f"A1{uptime:016X}{exchange.t1:016X}{exchange.token.hex()}")
        if exchange.reply:
            lines.append(f"A2{uptime + 1:016X}{exchange.t4:016X}{exchange.reply.hex()}")
        if exchange.verdict() == "silent" or exchange.verdict().startswith("refused"):
            lines.append(f"A3{uptime + 16:016X}{exchange.t4:016X}")
    return [line.upper() for line in lines]
