"""Whether the checker finds what is wrong: alterations of a query's lines, each with a kind of violation that it must
lead to. An alteration is given the lines as dictionaries by column, and a function that draws from a list; it returns
other lines."""

import check

SECOND = 1 << 32


def places(lines, event):
    """The lines of an event, the first and the last tenth left out."""
    margin = len(lines) // 10
    return [at for at, line in enumerate(lines) if line["event"] == event and margin <= at < len(lines) - margin]


def changed(lines, at, **columns):
    return lines[:at] + [dict(lines[at], **columns)] + lines[at + 1 :]


def plus(line, column, number, modulus=None):
    total = int(line[column]) + number
    return str(total if modulus is None else total % modulus)


def column_plus(column, number, modulus=None):
    """An accepted exchange with a number added to one of its columns."""

    def alteration(lines, draw):
        at = draw(places(lines, "accepted"))
        return changed(lines, at, **{column: plus(lines[at], column, number, modulus)})

    return alteration


def other_half(lines, draw):
    at = draw(places(lines, "accepted"))
    return changed(lines, at, half=str(1 - int(lines[at]["half"])))


def past_its_line(line):
    """By how much T4 must be later to be later than the time of its line."""
    return check.timestamp(check.time_of(line)) + 1 - int(line["t4"])


def whole_exchange_later(later):
    """T1 and T4 later by what a function of the line gives, and the offset less by as much: all of it agrees but for
    the true difference."""

    def alteration(lines, draw):
        at = draw(places(lines, "accepted"))
        by = -later(lines[at])
        asked = max(i for i in range(at) if lines[i]["event"] == "asked")
        t1 = plus(lines[at], "t1", -by, check.CIRCLE)
        moved = [dict(line, t1=t1) if line["t1"] else line for line in lines[asked:at]]
        t4 = plus(lines[at], "t4", -by, check.CIRCLE)
        accepted = dict(lines[at], t1=t1, t4=t4, offset=plus(lines[at], "offset", by))
        return lines[:asked] + moved + [accepted] + lines[at + 1 :]

    return alteration


def accepted_twice(lines, draw):
    at = draw(places(lines, "accepted"))
    return lines[: at + 1] + lines[at:]


def accepted_without_reply(lines, draw):
    """The exchange has a token that no request had, and so no reply."""
    at = draw(places(lines, "accepted"))
    asked = max(i for i in range(at) if lines[i]["event"] == "asked")
    token = plus(lines[at], "token", 1, check.CIRCLE)
    other = [dict(line, token=token) if line["token"] else line for line in lines[asked : at + 1]]
    return lines[:asked] + other + lines[at + 1 :]


def given_up_instead(lines, draw):
    """Given up a second after a true reply came, and some thousand of uptime."""
    at = draw(places(lines, "accepted"))
    seconds, fraction = lines[at]["time"].split(".")
    later = {"time": f"{int(seconds) + 1}.{fraction}", "uptime": plus(lines[at], "uptime", 1000)}
    return changed(lines, at, event="gave_up", token="", t1="", t4="", **later)


def event_put_in(name):
    def alteration(lines, draw):
        at = draw(places(lines, "asked"))
        return lines[: at + 1] + [dict(lines[at], event=name)] + lines[at + 1 :]

    return alteration


def nothing_after(lines, _):
    return lines[: places(lines, "accepted")[0] + 1]


def other_in_use(lines, draw):
    at = draw(places(lines, "asked"))
    return changed(lines, at, in_use=str(int(lines[at]["in_use"]) + 1))


def too_soon(event, before, seconds):
    """An event one second of uptime earlier than the rules allow after the one before it."""

    def alteration(lines, draw):
        at = draw(places(lines, event))
        last = max(i for i in range(at) if lines[i]["event"] == before)
        return changed(lines, at, uptime=plus(lines[last], "uptime", seconds - 1))

    return alteration


def ask_left_out(lines, draw):
    at = draw(places(lines, "asked"))
    return lines[:at] + lines[at + 1 :]


ALTERATIONS = [
    ("offset one unit more", "answer", column_plus("offset", 1)),
    ("offset one unit less", "answer", column_plus("offset", -1)),
    ("the other half", "answer", other_half),
    ("delay one unit more", "answer", column_plus("delay", 1)),
    ("T4 one unit more", "answer", column_plus("t4", 1, check.CIRCLE)),
    ("T1 one unit more", "token", column_plus("t1", 1, check.CIRCLE)),
    ("another token", "token", column_plus("token", 1, check.CIRCLE)),
    ("readings a second earlier", "bound", whole_exchange_later(lambda line: -SECOND)),
    ("readings a second later", "bound", whole_exchange_later(lambda line: SECOND)),
    ("readings later than they were told of", "order", whole_exchange_later(past_its_line)),
    ("accepted twice", "token", accepted_twice),
    ("accepted without a reply", "reply", accepted_without_reply),
    ("given up after the reply", "given up", given_up_instead),
    ("a kiss that nobody sent", "kiss", event_put_in("kiss")),
    ("stopped without a kiss", "use", event_put_in("stopped")),
    ("moved without a kiss", "use", event_put_in("moved")),
    ("an error", "error", event_put_in("error")),
    ("an unknown event", "line", event_put_in("guessed")),
    ("nothing after an exchange", "stuck", nothing_after),
    ("asked too soon", "ask", too_soon("asked", "asked", 64)),
    ("given up too soon", "ask", too_soon("gave_up", "asked", check.GIVE_UP)),
    ("another server in use", "use", other_in_use),
    ("an ask left out", "token", ask_left_out),
    ("another correction", "ledger", column_plus("correction", 2)),
]


def missed(query, log, slack, name, end, draw):
    """Alters the lines of a query in each way, and returns the ways that the checker did not find. A way that needs an
    event which does not occur is one of them."""
    with open(name, encoding="ascii") as file:
        header, *texts = file.read().splitlines()
    lines = [dict(zip(check.COLUMNS, text.split(","))) for text in texts]
    not_found = []
    for words, kind, alteration in ALTERATIONS:
        checker = check.Checker(query, log, slack)
        try:
            altered = alteration(lines, draw)
        except IndexError:
            altered = lines
        checker.check(iter([header] + [",".join(line[column] for column in check.COLUMNS) for line in altered]), end)
        found = {violation.kind for violation in checker.violations}
        if kind not in found:
            not_found.append(f"{words}: {kind} is not among {sorted(found)}")
    return not_found
