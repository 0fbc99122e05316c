"""Starts the peers. None of them can set the machine's clock: tests/interop takes that right from them, chronyd is told
not to (-x), and the others get a library that does nothing."""
import shutil
from pathlib import Path

import places
from daemons import Daemon, must, other_machine

PORT = 11123  # of chronyd

# Lines for chronyd: its own clock is the reference.
OWN_CLOCK = "local stratum 1"

# Lines for ntpsec. Its limit of 1 request a second, 20 at once, is on by itself; the cases ask more often.
NO_LIMIT = "unrestrict default limited kod"
# Its own clock is the reference: without `prefer` it would wait 300 s for a better one.
NTPSEC_OWN_CLOCK = "refclock local stratum 1 prefer minpoll 3 maxpoll 3"

# Keys 1 and 2, whose authenticators have 20 and 24 octets.
HASHES = {1: "MD5", 2: "SHA1"}
KEY = bytes(range(20))


def file(folder, name, lines):
    path = folder / name
    path.write_text("".join(line + "\n" for line in lines), encoding="ascii")
    return path


def key_file(folder, prefix):
    """A file with both keys. chrony wants a prefix before hexadecimal digits, ntpsec none."""
    return file(folder, "keys", [f"{number} {name} {prefix}{KEY.hex()}" for number, name in HASHES.items()])


def chrony_file(folder, name, lines):
    """Settings for chronyd. Its sockets for commands are off, so that several can run."""
    return file(folder, f"{name}.conf", ["cmdport 0", "bindcmdaddress /", f"pidfile {folder}/{name}.pid", *lines])


def chronyd_command(path):
    return [places.CHRONYD, "-x", "-u", "root", "-n", "-f", path]


def chronyd(folder, name, lines, port=PORT, address="127.0.0.1"):
    """chronyd as a server at loopback, at an unprivileged port."""
    listening = [f"port {port}", f"bindaddress {address}", "allow"]
    return Daemon(folder, name, chronyd_command(chrony_file(folder, name, [*listening, *lines])))


def source(folder):
    """A chronyd with its own clock as reference, at 192.0.2.2: what the others follow."""
    path = chrony_file(folder, "source", ["bindaddress 192.0.2.2", "allow", OWN_CLOCK])
    return other_machine(folder, "source", chronyd_command(path))


def ntpsec(folder, name, lines):
    """ntpd of ntpsec, which takes port 123 of all addresses."""
    path = file(folder, f"{name}.conf", lines)
    return Daemon(folder, name, [places.NTPSEC, "-n", "-g", "-c", path], LD_PRELOAD=str(places.NO_CLOCK))


def openntpd(folder, name, lines):
    """ntpd of openntpd, which knows no other port than 123."""
    make_user_of_openntpd(folder)
    path = file(folder, f"{name}.conf", lines)
    return Daemon(folder, name, [places.OPENNTPD, "-d", "-v", "-f", path], LD_PRELOAD=str(places.NO_CLOCK))


def make_user_of_openntpd(folder):
    """openntpd wants a user of its own, and its folders: they are made once, in the case's mount namespace alone."""
    if (folder / "passwd").exists():
        return
    for name, line in ("passwd", "ntpd:x:64123:64123::/run/openntpd:/usr/sbin/nologin"), ("group", "ntpd:x:64123:"):
        accounts = shutil.copy(f"/etc/{name}", folder / name)
        accounts.write_text(f"{accounts.read_text()}{line}\n")
        must("mount", "--bind", str(accounts), f"/etc/{name}")
    for place in "/var/lib", "/run":
        must("mount", "-t", "tmpfs", "tmpfs", place)
    for place in "/run/openntpd", "/var/lib/openntpd/run", "/var/lib/openntpd/db":
        Path(place).mkdir(parents=True)
