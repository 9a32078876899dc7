"""The processes of a test: smtpd in its folder and the quota server, each ended with the test."""
import os
import smtplib
import socket
import ssl
import subprocess
import time
from pathlib import Path

ROOT = Path(os.environ["SMTPD_ROOT"])
PROGRAM = "/usr/sbin/mailquota"
# host 3 has contrib's filter for logins before mailquota
PORTS = {1: 2501, 2: 2502, 3: 2503}


def wait_for(port, address="127.0.0.1", seconds=10):
    for _ in range(seconds * 20):
        try:
            socket.create_connection((address, port), timeout=1).close()
            return
        except OSError:
            time.sleep(0.05)
    raise SystemExit(f"nothing listens at port {port}")


def start(name, *words):
    log = open(log_of(name), "wb")
    return subprocess.Popen(
        ["chroot", str(ROOT), *words], stdout=log, stderr=log, stdin=subprocess.DEVNULL
    )


def log_of(name):
    return ROOT / "var/log" / f"mailquota-{name}.log"


def start_server(settings, *options, address="127.0.0.1"):
    server = start("server", PROGRAM, "server", "--config", settings, *options)
    wait_for(7025, address)
    return server


def start_smtpd(
    settings="/etc/mailquota/smtpd.conf", address="127.0.0.1", ports=(2501, 2502, 2503)
):
    smtpd = start("smtpd", "/usr/sbin/smtpd", "-d", "-f", settings)
    for port in ports:
        wait_for(port, address)
    return smtpd


def stop(process):
    process.terminate()
    process.wait(timeout=10)


def session(host, login=None):
    """A sitting at one of the hosts, with or without a login."""
    return session_at(PORTS[host], login)


def session_at(port, login=None, address="127.0.0.1"):
    smtp = smtplib.SMTP(address, port, timeout=30)
    smtp.ehlo("client.test")
    if login:
        context = ssl.create_default_context()
        context.check_hostname = False
        context.verify_mode = ssl.CERT_NONE
        smtp.starttls(context=context)
        smtp.ehlo("client.test")
        smtp.login(login, "secret")
    return smtp


def command(*words):
    """What the program prints for one of its administrator's commands."""
    run = subprocess.run(
        ["chroot", str(ROOT), PROGRAM, *words], capture_output=True, text=True, timeout=60
    )
    return (run.stdout + run.stderr).strip(), run.returncode
