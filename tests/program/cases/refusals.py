"""What the program says where a subcommand does nothing, or ends for want of something."""
from ends import NO_FILE, fault, of_settings, toml


def run(world, checks):
    for subcommand in ("filter", "server", "audit"):
        for path, cause in [("/", "Is a directory (os error 21)"), ("/no/such/file", NO_FILE)]:
            more = ["--run=1"] if subcommand == "filter" else []
            came = world.run(subcommand, "--config", path, *more)
            checks.equal(
                f"{subcommand} with settings at {path}",
                came,
                fault("settings can't be read", log=of_settings(path, cause)),
            )
    no_file_to_wait_by(world, checks)


def no_file_to_wait_by(world, checks):
    """A server that may open its listener and no further file can't wait for connections."""
    file = world.new_file(
        toml({"listen": "127.0.0.1:0", "store": "memory", "default": 3, "offset": 0})
    )
    came = world.run("server", "--config", file, limit=("RLIMIT_NOFILE", 4))
    log = "[ERROR connections] waiting for connections: Too many open files (os error" " 24)\n"
    checks.equal("a server with four files", came, fault("accept failed", log=log))
