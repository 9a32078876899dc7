"""A start over a file that may not fit into the memory that the process may have: the server says
so first, with the figure that `status` has too, and starts all the same. The groups of the system
are files of this test, in a name space of their own, so it wants root."""
import os
import re
import subprocess

import wire
from cases.figures import taken
from cases.retiring import of_version, written
from ends import ledger_settings, listening_port, toml, wait_until

LINE = re.compile(r"\[WARN  server\] (.*)")
# in a name space of its own: this file for that of the process's group, this folder for the
# system's groups, and then the words
APART = (
    'mount --bind "$1" /proc/$$/cgroup && mount --bind "$2" /sys/fs/cgroup && shift 2 && exec "$@"'
)


def run(world, checks):
    if os.geteuid():
        print("    (left out: it wants root)", flush=True)
        return
    # (of so many limits that half of the file would take less)
    path = written(
        world,
        "fits",
        *of_version(3, taken(3, (wire.limit(n, 1, 5, login=b"%05d" % n) for n in range(1, 6_001)))),
    )
    bytes_of = os.path.getsize(path)
    most = bytes_of // 333_333 + 14
    warned = (
        f"{path}: a start takes up to about {most} MB, and this process may have %d bytes; if it is"
        f" killed, set MemoryMax={most}M"
    )
    own, below = "0::/system.slice/mailquota.service\n", "system.slice/mailquota.service"
    for what, groups, folder, limit, wanted in [
        ("no limit", own, below, "max\n", []),
        ("as much as it takes", own, below, f"{most * 1_000_000}\n", []),
        (
            "one byte less",
            own,
            below,
            f"{most * 1_000_000 - 1}\n",
            [warned % (most * 1_000_000 - 1)],
        ),
        ("a limit of nothing", own, below, "0\n", [warned % 0]),
        ("the group at the top", "0::/\n", "", "1048576\n", [warned % 1_048_576]),
        ("another group's limit", own, "user.slice", "0\n", []),
        ("several hierarchies", f"4:memory:/\n{own}", below, "0\n", []),
        ("what is no number", own, below, "much\n", []),
    ]:
        checks.equal(f"a start, {what}", lines_of_start(world, path, groups, folder, limit), wanted)
    less = most * 1_000_000 - 1
    checks.equal(
        "a start with keep, one byte less",
        lines_of_start(world, path, own, below, f"{less}\n", keep=2),
        [warned % less],
    )
    _, told, _ = world.run("status", "--config", ledger_settings(world, path))
    checks.equal(
        "status says as much of the same file",
        told.splitlines()[-1:],
        [b"a start takes up to about 1 s and %d MB" % most],
    )


def lines_of_start(world, path, groups, folder, limit, **more):
    """What a server over this file says of memory as it starts in such a group."""
    top = world.new_file("") + ".groups"
    os.makedirs(os.path.join(top, folder))
    with open(os.path.join(top, folder, "memory.max"), "w", encoding="ascii") as it:
        it.write(limit)
    settings = world.new_file(
        toml({"listen": "127.0.0.1:0", "store": path, "default": 3, "offset": 0, **more})
    )
    words = [
        "unshare",
        "--mount",
        "sh",
        "-c",
        APART,
        "sh",
        world.new_file(groups),
        top,
        world.program,
        "server",
        "--config",
        settings,
    ]
    with open(world.new_file(""), "w+b") as log:
        server = subprocess.Popen(words, stdin=subprocess.DEVNULL, stdout=log, stderr=log)
        wait_until(lambda: listening_port(server) or server.poll() is not None)
        serves = server.poll() is None
        server.terminate()
        server.wait(timeout=60)
        with open(log.name, encoding="utf-8") as said:
            lines = said.read().splitlines()
    found = [it[1] for it in map(LINE.fullmatch, lines) if it]
    return found if serves else ["it ended", *lines]
