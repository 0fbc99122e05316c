"""run.py [NAME...]: runs the cases of tests/interop, each in namespaces of its own (network, mounts, processes),
several at a time, and counts their outcomes. tests/interop starts it."""
import subprocess
import sys
import time
from concurrent.futures import ThreadPoolExecutor
from pathlib import Path

import clients
import daemons
import fields
import lists
import places
import servers
from outcomes import Outcomes

# Those that take long come first.
CASES = [
    servers.openntpd_following, servers.ntpsec_following_slowly, servers.chrony_following_slowly,
    servers.ntpsec_local, servers.ntpsec_following, servers.ntpsec_none, servers.ntpsec_limit, servers.ntpsec_denies,
    servers.chrony_following, servers.chrony_long_lost, servers.chrony_local, servers.chrony_stratum_15,
    servers.chrony_ipv6, servers.chrony_none, servers.chrony_limit, servers.chrony_denies,
    servers.openntpd_none,
    clients.ntpsec, clients.ntpsec_unsynchronised, clients.ntpdig_key, clients.ntpdig, clients.ntpdig_leap,
    clients.chrony, clients.chrony_options, clients.chrony_key,
    clients.openntpd, clients.ntplib,
    fields.ntpsec, fields.chrony, fields.openntpd, fields.pongulvesz,
    lists.stopped_and_fresh, lists.all_start, lists.one_restarts, lists.refused_stays, lists.first_starts,
]
AT_A_TIME = 8
NAMESPACES = ["unshare", "--net", "--mount", "--pid", "--fork", "--kill-child", "--mount-proc"]


def name_of(case):
    return f"{case.__module__}.{case.__name__}"


def folder_of(case):
    return places.CACHE / "cases" / name_of(case)


def chosen(names):
    """The cases of these names, or of these modules; all where no name is given."""
    return [case for case in CASES if not names or name_of(case) in names or case.__module__ in names]


def run_here(name):
    """Runs one case, in the namespaces that were made for it."""
    (case,) = chosen([name])
    daemons.must("ip", "link", "set", "lo", "up")
    case(Outcomes(folder_of(case)))


def run_in_namespaces(case):
    """Runs one case in a process of its own, with which all that it started ends; the lines that it printed."""
    folder_of(case).mkdir(parents=True, exist_ok=True)
    for old in folder_of(case).iterdir():
        old.unlink()
    command = [*NAMESPACES, sys.executable, __file__, "--case", name_of(case)]
    ended = subprocess.run(command, stdout=subprocess.PIPE, stderr=subprocess.STDOUT, text=True, check=False)
    text = ended.stdout
    if ended.returncode != 0:
        text += f"failed: {name_of(case)} ended with status {ended.returncode}\n"
    print(text, end="", flush=True)
    return text.splitlines()


def may_set_the_clock():
    """Whether this process, or one that it starts, can have the right to set the machine's clock (CAP_SYS_TIME, 25)."""
    status = Path("/proc/self/status").read_text(encoding="ascii").splitlines()
    (bounds,) = (line.split()[1] for line in status if line.startswith("CapBnd:"))
    return int(bounds, 16) >> 25 & 1 == 1


def clock_past_uptime():
    """What the machine's clock reads past the clock that nobody sets."""
    return time.clock_gettime(time.CLOCK_REALTIME) - time.clock_gettime(time.CLOCK_MONOTONIC)


def run_all(cases):
    """Runs the cases, and counts. That nobody set the machine's clock is an outcome too."""
    before = clock_past_uptime()
    with ThreadPoolExecutor(AT_A_TIME) as pool:
        lines = sum(pool.map(run_in_namespaces, cases), [])
    moved = abs(clock_past_uptime() - before)
    verdict = "passed" if moved < 0.1 else "failed"
    lines.append(f"{verdict}: this machine's clock was set by less than 0.1 s: {moved:.3f} s")
    print(lines[-1])
    passed, failed = (sum(line.startswith(word) for line in lines) for word in ("passed: ", "failed: "))
    print(f"{passed} passed, {failed} failed")
    return 0 if failed == 0 else 1


def main(arguments):
    if may_set_the_clock():
        print("The right to set the machine's clock is to be taken away first; tests/interop does so.", file=sys.stderr)
        return 2
    if arguments[:1] == ["--case"]:
        return run_here(arguments[1])
    cases = chosen(arguments)
    if not cases:
        print("There is no such case; these are there:", *map(name_of, CASES), file=sys.stderr)
        return 2
    return run_all(cases)


if __name__ == "__main__":
    sys.exit(main(sys.argv[1:]))
