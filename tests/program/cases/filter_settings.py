"""Settings of the filter: accepted ones end in the refusal of an empty input, so that nothing is
asked."""
from cases.texts_of_settings import NOT_TOML, is_no_toml, log_of
from ends import NO_FILE, NO_NUMERIC_ADDRESS, NO_PORT, PORT_TOO_LARGE, apart, fault, of_settings

ACCEPTED = "input ended before config ready"
# how a filter ends whose input is empty
ENDED = f"[ERROR filter] the filter ends: {ACCEPTED}\n"
GOOD = {"host": '"mx1"', "server": '"127.0.0.1:7025"'}


# addresses that none can be asked at, and what each lacks
ADDRESSES = {
    '"localhost:7025"': NO_NUMERIC_ADDRESS,
    '"127.0.0.1"': NO_PORT,
    '"127.0.0.1:65536"': PORT_TOO_LARGE,
    '"127.0.0.1:x"': NO_PORT,
    '"127.0.1:1"': NO_NUMERIC_ADDRESS,
    '":7025"': NO_NUMERIC_ADDRESS,
    '""': NO_PORT,
    "7025": None,
}


def text_of(**settings):
    return "".join(
        f"{key} = {value}\n" for key, value in {**GOOD, **settings}.items() if value is not None
    )


def run(world, checks):
    files(world, checks)
    order(world, checks)
    values(world, checks)


def expect(world, checks, what, content, wanted, lacks=None, log=None):
    """What a filter comes to by this file of settings, and what its log says before: of an address
    its fault, where it is a text, or this log."""
    path = world.new_file(content)
    came = world.run("filter", "--config", path, "--run", "1")
    if wanted == NOT_TOML:
        checks.holds(
            f"filter settings, {what}", is_no_toml(path, came), "refused, with the place", came
        )
        return
    if log is None:
        log = ENDED if wanted == ACCEPTED else log_of(path, wanted, lacks)
    checks.equal(f"filter settings, {what}", came, fault(wanted, log=log))


def files(world, checks):
    for what, path, cause in [
        ("no file", f"{world.folder}/none", NO_FILE),
        ("a folder", world.folder, "Is a directory (os error 21)"),
        ("an empty path", "", NO_FILE),
    ]:
        checks.equal(
            f"filter settings, {what}",
            world.run("filter", "--config", path),
            fault("settings can't be read", log=of_settings(path, cause)),
        )
    text = text_of()
    expect(world, checks, "65,536 bytes", text + "#" * (65_536 - len(text)), ACCEPTED)
    expect(world, checks, "65,537 bytes", text + "#" * (65_537 - len(text)), "settings too large")
    came = world.run("filter", "--config", "/dev/zero")
    checks.equal(
        "filter settings, a file without end",
        came,
        fault("settings too large", log=of_settings("/dev/zero", "settings too large")),
    )
    for what, content in [
        ("no TOML", "host"),
        ("bytes that are no text", b'host = "\xff\xfe"\n'),
        ("a key twice", text_of() + 'host = "mx2"\n'),
        ("random bytes", bytes(range(256))),
        ("an open string", 'host = "mx1\n'),
    ]:
        expect(world, checks, what, content, NOT_TOML)
    for what, content, place in [
        ("no TOML in line 3", "# first\n\n= 1\n", "line 3, column 1: "),
        ("a key twice, in line 3", 'host = "mx1"\n\nhost = "mx2"\n', "line 3, column 1: "),
        (
            "a string that is open behind two characters of two bytes",
            'host = "\u00e9\u00e9\n',
            "line 1, column 11: ",
        ),
        ("bytes that are no text, in line 2", b'\nhost = "\xff"\n', "line 2, column 9: "),
    ]:
        path = world.new_file(content)
        log, _ = apart(world.run("filter", "--config", path)[2])
        checks.holds(
            f"filter settings, {what}: the log",
            len(log) == 1 and f"{path}: {place}" in log[0],
            f"one line with {place}",
            log,
        )


def order(world, checks):
    expect(world, checks, "empty", "", "setting host: missing")
    expect(world, checks, "host alone", 'host = "mx1"\n', "setting server: missing")
    expect(world, checks, "host and server", text_of(), ACCEPTED)
    expect(world, checks, "an unknown key", text_of(hots=1), "setting hots: unknown")
    expect(
        world,
        checks,
        "two unknown keys, the least in byte order",
        text_of(zone=1, Zone=2, y=3),
        "setting Zone: unknown",
    )
    strange = b'"a b\\u001b[2J\xc3\xa9" = 1\n'
    expect(
        world,
        checks,
        "an unknown key of any characters",
        strange,
        "setting a\\x20b\\x1b[2J\\xc3\\xa9: unknown",
    )
    expect(
        world,
        checks,
        "an unknown key before what is missing",
        "hots = 1\n",
        "setting hots: unknown",
    )
    expect(world, checks, "no TOML before an unknown key", "hots = 1\nhots = 2\n", NOT_TOML)
    expect(
        world,
        checks,
        "a key of the server",
        text_of(listen='"127.0.0.1:1"'),
        "setting listen: unknown",
    )
    expect(world, checks, "a subtable", text_of() + "[more]\na = 1\n", "setting more: unknown")
    expect(
        world,
        checks,
        "a subtable under a key",
        text_of(tries=None) + "[tries]\na = 1\n",
        "setting tries: bad value",
    )
    expect(world, checks, "host bad, server missing", "host = 1\n", "setting host: bad value")
    expect(world, checks, "server bad, host missing", 'server = "x"\n', "setting host: missing")
    expect(
        world,
        checks,
        "server, tries, timeout and log bad",
        text_of(server="1", tries=0, timeout=0, log="0"),
        "setting server: bad value",
    )
    expect(
        world,
        checks,
        "tries, timeout and log bad",
        text_of(tries=0, timeout=0, log="0"),
        "setting tries: bad value",
    )
    expect(
        world,
        checks,
        "timeout and log bad",
        text_of(timeout=0, log="0"),
        "setting timeout: bad value",
    )
    expect(
        world,
        checks,
        "timeout and pause bad",
        text_of(timeout=0, pause=-1),
        "setting timeout: bad value",
    )
    expect(
        world,
        checks,
        "pause, hold and log bad",
        text_of(pause=-1, hold=-1, log="0"),
        "setting pause: bad value",
    )
    expect(
        world,
        checks,
        "hold, keep_connection and log bad",
        text_of(hold=-1, keep_connection="1", log="0"),
        "setting hold: bad value",
    )
    expect(
        world,
        checks,
        "keep_connection and log bad",
        text_of(keep_connection="1", log="0"),
        "setting keep_connection: bad value",
    )
    expect(
        world,
        checks,
        "log and metrics bad",
        text_of(log="0", metrics="0"),
        "setting log: bad value",
    )
    expect(world, checks, "permits", text_of(permits='"a"'), "setting permits: unknown")


def values(world, checks):
    host_64, host_65 = '"' + "a" * 64 + '"', '"' + "a" * 65 + '"'
    accepted = [
        ("host", [host_64, '"a"', '"Mx-1.example.org"']),
        ("server", ['"127.0.0.1:7026"', '"[::1]:7025"', '"127.0.0.1:65535"', "'10.0.0.1:1'"]),
        ("tries", ["1", "10", "0x0a"]),
        ("timeout", ["1", "60000", "60_000"]),
        ("pause", ["0", "3600", "0x0a"]),
        ("hold", ["0", "60"]),
        ("keep_connection", ["true", "false"]),
        ("log", ['"off"', '"error"', '"warn"', '"info"']),
        ("metrics", [f'"{world.folder}/mailquota.prom"', f"'{world.folder}/a'"]),
    ]
    refused = [
        ("host", ['""', host_65, '"a_b"', '"mx1 "', '"m\u00fc"', "1", "true", '["mx1"]', "{}"]),
        ("server", ADDRESSES),
        ("tries", ["0", "11", "-1", '"3"', "3.0", "true", "[3]", "9223372036854775807"]),
        ("timeout", ["0", "60001", "-1", '"2000"', "2000.0", "1979-05-27"]),
        ("pause", ["3601", "-1", '"10"', "10.0", "true"]),
        ("hold", ["61", "-1", '"5"', "5.0", "[5]"]),
        ("keep_connection", ['"true"', "1", "0", "[true]"]),
        ("log", ['"debug"', '"trace"', '"WARN"', '"warning"', '""', "1", "true"]),
        ("metrics", ['""', "1", "true", "['a']", "{}"]),
    ]
    # (with "info" its run is logged too, and with "off" nothing)
    begins = (
        "[INFO  filter] the filter of host mx1 begins its run 1, with the"
        " server 127.0.0.1:7025\n"
    )
    logs = {'"off"': "", '"info"': begins + ENDED}
    for key, spellings in accepted:
        for value in spellings:
            expect(
                world,
                checks,
                f"{key} = {value[:30]}",
                text_of(**{key: value}),
                ACCEPTED,
                log=logs.get(value),
            )
    for key, spellings in refused:
        for value in spellings:
            expect(
                world,
                checks,
                f"{key} = {value[:30]}",
                text_of(**{key: value}),
                f"setting {key}: bad value",
                lacks=ADDRESSES.get(value) if key == "server" else None,
            )
