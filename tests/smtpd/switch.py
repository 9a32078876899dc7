"""Machines on one switch, each with a folder and an address of its own, for tests/takeover,
tests/package and tests/upgrade."""
import socket
import subprocess
import time

# the administrator's host, on which all of this runs
ADMINISTRATOR = "192.0.2.9"
# seconds after which whatever hasn't come is missing, and after which a command is ended
SECONDS, LONGEST = 60, 300


def call(*words, check=True):
    return subprocess.run(
        [str(word) for word in words],
        check=check,
        stdin=subprocess.DEVNULL,
        capture_output=True,
        text=True,
        timeout=LONGEST,
    )


def make_switch():
    call("ip", "link", "set", "lo", "up")
    # (the names of network namespaces)
    call("mount", "-t", "tmpfs", "tmpfs", "/run")
    call("ip", "link", "add", "switch", "type", "bridge")
    call("ip", "address", "add", f"{ADMINISTRATOR}/24", "dev", "switch")
    call("ip", "link", "set", "switch", "up")


def wait_until(holds, seconds=SECONDS):
    """Waits until this holds; says whether it does."""
    end = time.monotonic() + seconds
    while not holds():
        if time.monotonic() > end:
            return False
        time.sleep(0.05)
    return True


def exchange(address, frame):
    """What the quota server at this address answers a frame."""
    with socket.create_connection((address, 7025), timeout=20) as peer:
        peer.sendall(frame)
        peer.shutdown(socket.SHUT_WR)
        return b"".join(iter(lambda: peer.recv(4_096), b""))


class OnSwitch:
    """A machine on the switch."""

    def __init__(self, name, address, root):
        self.name, self.address, self.root = name, address, root

    def connect(self, device):
        """Gives it a network namespace with this device."""
        call("ip", "netns", "add", self.name)
        call(
            "ip",
            "link",
            "add",
            self.name,
            "type",
            "veth",
            "peer",
            "name",
            device,
            "netns",
            self.name,
        )
        call("ip", "link", "set", self.name, "master", "switch", "up")
        for words in (
            ["address", "add", f"{self.address}/24", "dev", device],
            ["link", "set", device, "up"],
            ["link", "set", "lo", "up"],
        ):
            call("ip", "-n", self.name, *words)

    def write(self, path, text, mode=0o644):
        file = self.root / path.lstrip("/")
        file.parent.mkdir(parents=True, exist_ok=True)
        file.write_text(text)
        file.chmod(mode)
