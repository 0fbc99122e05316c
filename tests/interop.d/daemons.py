"""Starts programs in the namespaces of a case, with what they print kept in the case's folder."""
import os
import subprocess
import time

import places


class Daemon:
    """A program that runs until it is stopped, or until the case ends."""

    def __init__(self, folder, name, command, **environment):
        self.path = folder / f"{name}.log"
        with open(self.path, "wb") as log:
            self.process = subprocess.Popen(
                list(map(str, command)), stdin=subprocess.PIPE, stdout=log, stderr=log, cwd=folder,
                env={**places.libraries(), **environment})

    def log(self):
        return self.path.read_text(errors="replace")

    def stop(self):
        self.process.terminate()
        self.process.wait(10)

    def wait_for(self, *texts, seconds):
        """The first of the texts that the log has, or None after so many seconds."""
        end = time.monotonic() + seconds
        while time.monotonic() < end:
            found = [text for text in texts if text in self.log()]
            if found:
                return found[0]
            time.sleep(0.1)
        return None


def run(command, seconds=60, **environment):
    """Runs a program to its end: its exit status, and all that it printed."""
    ended = subprocess.run(
        list(map(str, command)), stdout=subprocess.PIPE, stderr=subprocess.STDOUT, timeout=seconds, check=False,
        env={**places.libraries(), **environment}, text=True, errors="replace")
    return ended.returncode, ended.stdout


def must(*command):
    """Runs a program that has to succeed."""
    subprocess.run(command, check=True)


def other_machine(folder, name, command):
    """Starts a daemon in a network of its own, at 192.0.2.2, one hop from here, which is 192.0.2.1. For servers beside
    a daemon that takes port 123 of every address of its network."""
    script = 'ip link set lo up; read -r _; ip addr add 192.0.2.2/24 dev there; ip link set there up; exec "$@"'
    daemon = Daemon(folder, name, ["unshare", "--net", "bash", "-c", script, "there", *command])
    network = f"/proc/{daemon.process.pid}/ns/net"
    while os.readlink(network) == os.readlink("/proc/self/ns/net"):
        time.sleep(0.01)
    link = ["type", "veth", "peer", "name", "there", "netns", str(daemon.process.pid)]
    must("ip", "link", "add", "here", *link)
    must("ip", "addr", "add", "192.0.2.1/24", "dev", "here")
    must("ip", "link", "set", "here", "up")
    daemon.process.stdin.write(b"\n")
    daemon.process.stdin.flush()
    time.sleep(0.5)
    return daemon
