"""Where the peers, our programs and the working folder are: tests/interop passes them in the environment."""
import os
from pathlib import Path

CACHE = Path(os.environ["INTEROP_CACHE"])
PROGRAMS = Path(os.environ["INTEROP_PROGRAMS"])
PACKAGES = CACHE / "packages"
CHRONYD = PACKAGES / "chrony/usr/sbin/chronyd"
NTPSEC = PACKAGES / "ntpsec/usr/sbin/ntpd"
NTPSEC_PYTHON = PACKAGES / "ntpsec/usr/lib/python3/dist-packages"
NTPDIG = PACKAGES / "ntpsec/usr/bin/ntpdig"
NTPDATE = PACKAGES / "ntpsec/usr/sbin/ntpdate"
OPENNTPD = PACKAGES / "openntpd/usr/sbin/ntpd"
NTPLIB = PACKAGES / "ntplib/usr/lib/python3/dist-packages"
NO_CLOCK = CACHE / "no-clock.so"
ARCHIVE = CACHE / "archive"
SERVER = PROGRAMS / "pongulvesz-server"
QUERY = PROGRAMS / "pongulvesz-query"
# Debian's own, for which its packages of Python are made
PYTHON = "/usr/bin/python3"


def libraries():
    """The environment in which the peers find the shared libraries that were fetched beside them."""
    found = [*PACKAGES.glob("libraries/usr/lib/*"), *PACKAGES.glob("ntpsec/usr/lib/*/ntp")]
    return {**os.environ, "LD_LIBRARY_PATH": ":".join(str(folder) for folder in found)}
