"""Signals that end the server and the filter: at once, and what was answered before was counted."""
import signal
import subprocess

from cases.filters import INPUT, PROCEED, REGISTRATION, answer
from ends import SECONDS, Server
from wire import page, page_reply, row

DAY = 1_576_146_009 // 86_400


def run(world, checks):
    for name in ("SIGTERM", "SIGINT", "SIGHUP"):
        number = signal.Signals[name]
        with Server(world) as server:
            words = [
                world.program,
                "filter",
                "--config",
                world.filter_file(server.address),
                "--run",
                "1",
            ]
            process = subprocess.Popen(
                words, stdin=subprocess.PIPE, stdout=subprocess.PIPE, stderr=subprocess.DEVNULL
            )
            wanted = REGISTRATION + answer(PROCEED)
            process.stdin.write(INPUT)
            process.stdin.flush()
            checks.equal(f"a filter before {name}", process.stdout.read(len(wanted)), wanted)
            process.send_signal(number)
            checks.equal(f"a filter at {name}: its end", process.wait(timeout=SECONDS), -number)
            process.stdin.close()
            process.stdout.close()
            stays = page_reply([row(b"alice", 0, 1, 3)], day=DAY)
            checks.equal(
                f"a filter at {name}: what it reserved stays", server.ask(page(day=DAY)), stays
            )
            server.process.send_signal(number)
            checks.equal(f"a server at {name}: its end", server.status(), -number)
