"""Machines with Debian 13 on one switch, each in a folder of its own: booted by systemd-nspawn, or,
where systemd doesn't boot there, without it."""
import os
import signal
import subprocess
from pathlib import Path

from switch import LONGEST, SECONDS, OnSwitch, call, wait_until

HERE = Path(__file__).resolve().parent
BASES, WORK = Path(os.environ["BASES"]), Path(os.environ["WORK"])
# Where the system has its control groups: of version 2, or of both versions side by side.
GROUPS = ["/sys/fs/cgroup/unified", "/sys/fs/cgroup/systemd", "/sys/fs/cgroup"]


class NoBoot(Exception):
    """Why systemd doesn't boot."""


class Machine(OnSwitch):
    """A machine that systemd boots."""

    has_systemd = True
    # the signal at which it shuts down
    ends_at = signal.SIGTERM
    spaces = ["--mount", "--uts", "--ipc", "--net", "--pid", "--cgroup"]

    def __init__(self, name, address, base):
        super().__init__(name, address, WORK / name)
        # (an overlay would do but for systemd's mounts, which give a folder to another user there)
        call("cp", "-a", BASES / base, self.root)
        self.write("/etc/hostname", f"{name}\n")
        self.write("/etc/mailname", f"{name}.example.org\n")
        self.log = open(WORK / f"{name}.log", "wb")
        try:
            self.boot()
        except BaseException:
            self.end()
            raise

    def boot(self):
        words = [
            "systemd-nspawn",
            "--quiet",
            "--register=no",
            "--keep-unit",
            f"--machine=mailquota-{self.name}",
            f"--directory={self.root}",
            "--network-bridge=switch",
            "--resolv-conf=off",
            "--console=pipe",
            "--boot",
        ]
        environment = {**os.environ, "SYSTEMD_NSPAWN_UNIFIED_HIERARCHY": "1"}
        try:
            self.process = subprocess.Popen(
                words,
                env=environment,
                stdin=subprocess.DEVNULL,
                stdout=self.log,
                stderr=self.log,
                preexec_fn=self.join_group,
            )
        except (OSError, subprocess.SubprocessError) as error:
            raise NoBoot(str(error)) from error
        if not wait_until(self.is_up):
            raise NoBoot((WORK / f"{self.name}.log").read_text(errors="replace")[-2000:])
        for words in (
            ["address", "add", f"{self.address}/24", "dev", "host0"],
            ["link", "set", "host0", "up"],
        ):
            self.shown("ip", *words)

    def join_group(self):
        """Puts this process, and what it starts, into a control group of its own."""
        for group in GROUPS:
            if os.path.exists(f"{group}/cgroup.procs"):
                its = f"{group}/mailquota-{self.name}"
                os.makedirs(its, exist_ok=True)
                with open(f"{its}/cgroup.procs", "w", encoding="ascii") as file:
                    file.write("0")

    def leader(self):
        """The process that systemd is on this machine."""
        with open(
            f"/proc/{self.process.pid}/task/{self.process.pid}/children", encoding="ascii"
        ) as file:
            return next(iter(file.read().split()), None)

    def is_up(self):
        if self.process.poll() is not None:
            raise NoBoot((WORK / f"{self.name}.log").read_text(errors="replace")[-2000:])
        return self.leader() and self.run("systemctl", "is-system-running")[1] in (
            "running\n",
            "degraded\n",
        )

    def words(self, *words):
        return [
            "nsenter",
            "--target",
            self.leader(),
            *self.spaces,
            "env",
            "-i",
            "--chdir=/root",
            "HOME=/root",
            "PATH=/usr/local/sbin:/usr/local/bin:/usr/sbin:/usr/bin",
            "LC_ALL=C.UTF-8",
            "DEBIAN_FRONTEND=noninteractive",
            *words,
        ]

    def run(self, *words):
        """The status, and what is printed and said, in the order in which it is."""
        try:
            run = subprocess.run(
                self.words(*words),
                stdin=subprocess.DEVNULL,
                stdout=subprocess.PIPE,
                stderr=subprocess.STDOUT,
                text=True,
                timeout=LONGEST,
            )
        except subprocess.TimeoutExpired as late:
            raise SystemExit(
                f"{self.name}: {' '.join(words)} hasn't ended in"
                f" {LONGEST} s:\n{(late.stdout or b'').decode(errors='replace')}"
            ) from late
        return run.returncode, run.stdout

    def shown(self, *words):
        """What a command prints that has to go well."""
        status, said = self.run(*words)
        if status:
            raise SystemExit(f"{self.name}: {' '.join(words)} ended with status {status}:\n{said}")
        return said

    def by_shell(self, lines):
        return self.run("sh", "-e", "-c", "\n".join(lines))

    def read(self, path):
        return self.shown("cat", path)

    def edit(self, path, old, new):
        """Changes a text that stands once in a file."""
        text = self.read(path)
        if text.count(old) != 1:
            raise SystemExit(f"{self.name}: {path} has {old!r} {text.count(old)} times")
        self.write(path, text.replace(old, new))

    def main_pid(self, unit):
        return int(self.shown("systemctl", "show", "--property=MainPID", "--value", unit))

    def end(self):
        process = getattr(self, "process", None)
        if process:
            process.send_signal(self.ends_at)
            try:
                process.wait(timeout=SECONDS)
            except subprocess.TimeoutExpired:
                process.kill()
                process.wait()
        for group in GROUPS:
            for at, _, _ in os.walk(f"{group}/mailquota-{self.name}", topdown=False):
                try:
                    os.rmdir(at)
                except OSError:
                    pass
        self.log.close()


# What a machine without systemd does for itself, at its start: its own processes, devices and
# network. Its first process takes in those that ended.
HOLDER = """mount -t proc proc "$1/proc"
mount --rbind /dev "$1/dev"
mount -t tmpfs tmpfs "$1/run"
mkdir -p "$1/run/systemd/system" "$1/run/lock"
exec chroot "$1" sh -c 'while :; do sleep 1 & wait; done'
"""


class PlainMachine(Machine):
    """A machine without systemd: maintainer scripts and pages find the script `systemctl` in its
    place, which starts what the units say."""

    has_systemd = False
    # (unshare, which is its first process's parent, heeds no other, and all of it ends with that)
    ends_at = signal.SIGKILL
    spaces = ["--mount", "--uts", "--ipc", "--net", "--pid", "--root"]

    def boot(self):
        self.write("/usr/bin/systemctl", (HERE / "systemctl").read_text(), 0o755)
        self.connect("host0")
        words = [
            "nsenter",
            f"--net=/run/netns/{self.name}",
            "unshare",
            "--mount",
            "--uts",
            "--ipc",
            "--pid",
            "--fork",
            "--kill-child",
            "sh",
            "-e",
            "-c",
            HOLDER,
            "holder",
            self.root,
        ]
        self.process = subprocess.Popen(
            words, stdin=subprocess.DEVNULL, stdout=self.log, stderr=self.log
        )
        # (until then its first process has the root of this system)
        if not wait_until(
            lambda: self.leader() and self.run("cat", "/etc/hostname") == (0, f"{self.name}\n")
        ):
            raise SystemExit(
                f"{self.name} doesn't"
                f" start:\n{(WORK / f'{self.name}.log').read_text(errors='replace')[-2000:]}"
            )
