"""What the program says of its words: whole texts of help, and of faults of usage."""

# words and the help for them
HELPS = [
    (
        ["--help"],
        """Daily recipient limits for smtpd, shared by all outgoing hosts

Usage: mailquota <COMMAND>

Commands:
  init    Make the ledger of a server's settings
  server  Serve the ledger to filters
  filter  Answer smtpd on standard input and output
  status  Say whether the quota server answers
  limit   Set the limit of a login from a day on
  stop    Let a login have nothing more, today and on each later day
  resume  Let a login have more again, today and on each later day
  day     Print a day's number and, on a terminal, its date
  retire  Retire a host's earlier filters: what they reserved counts as sent
  report  Print what logins used on a day
  limits  Print the limits that are set in the ledger in a file
  audit   Check the books of the ledger in a file
  forget  Make a new ledger file without the days before a day
  replay  Answer frames in hexadecimal from standard input over a new ledger

Options:
  -h, --help     Print help
  -V, --version  Print version
""",
    ),
    (
        ["replay", "--help"],
        """Answer frames in hexadecimal from standard input over a new ledger

Usage: mailquota replay [OPTIONS]

Options:
      --default <N>  Limit of a login that has none of its own [default: 100]
      --east <M>     Minutes that a day begins before UTC's [default: 0]
      --west <M>     Minutes that a day begins after UTC's [default: 0]
      --rule <RULE>  Zone rule of the days, such as CET-1CEST,M3.5.0,M10.5.0/3
      --sql          Keep the ledger in tables in memory
  -h, --help         Print help
""",
    ),
    (
        ["filter", "--help"],
        """Answer smtpd on standard input and output

Usage: mailquota filter [OPTIONS]

Options:
      --config <FILE>  Settings [default: /etc/mailquota/filter.toml]
      --run <N>        Number of the run; else the clock's milliseconds
      --check          Check the settings, ask the server, and end
  -h, --help           Print help
""",
    ),
    (
        ["server", "--help"],
        """Serve the ledger to filters

Usage: mailquota server [OPTIONS]

Options:
      --config <FILE>    Settings [default: /etc/mailquota/server.toml]
      --create           Make a new ledger; one in memory is always new
      --connections <N>  End after so many connections [default: 1000000]
      --endless          Serve any number of connections
  -h, --help             Print help
""",
    ),
    (
        ["init", "--help"],
        """Make the ledger of a server's settings

Usage: mailquota init [OPTIONS]

Options:
      --config <FILE>  Settings [default: /etc/mailquota/server.toml]
  -h, --help           Print help
""",
    ),
    (
        ["status", "--help"],
        """Say whether the quota server answers

Usage: mailquota status [OPTIONS]

Options:
      --server <ADDRESS>  Numeric address and port of a server; may be repeated
      --host <HOST>       Also ask whether this mail host's requests are taken
      --config <FILE>     Settings of the server: read its file if it's silent
      --json              Print JSON, an object a line
  -h, --help              Print help
""",
    ),
    (
        ["limits", "--help"],
        """Print the limits that are set in the ledger in a file

Usage: mailquota limits [OPTIONS]

Options:
      --config <FILE>  Settings [default: /etc/mailquota/server.toml]
      --json           Print JSON
  -h, --help           Print help
""",
    ),
    (
        ["forget", "--help"],
        """Make a new ledger file without the days before a day

Usage: mailquota forget [OPTIONS] --before <DAY> --into <FILE>

Options:
      --config <FILE>  Settings [default: /etc/mailquota/server.toml]
      --before <DAY>   First day that is kept: its date or its number
      --into <FILE>    Database file to make, which must not be there
  -h, --help           Print help
""",
    ),
    (
        ["limit", "--help"],
        """Set the limit of a login from a day on

Usage: mailquota limit [OPTIONS] <LOGIN> <CAP>

Arguments:
  [LOGIN]  Login, as a report prints it
  [CAP]    Recipients a day, or default

Options:
      --server <ADDRESS>   Numeric address and port of a server; repeatable
      --config <FILE>      Settings of the server: its address and its days
      --host <HOST>        Name under which it asks [default: admin]
      --login <LOGIN>      Login as smtpd reports it, in place of LOGIN
      --login-text <TEXT>  Login as a report prints it, in place of LOGIN
      --from <DAY>         The limit's first day, as 2026-11-30; else today
      --ago <N>            That many days before today
      --cap <N>            Recipients a day, in place of CAP
      --run <N>            Number of the run; else the clock's milliseconds
  -h, --help               Print help
""",
    ),
    (
        ["stop", "--help"],
        """Let a login have nothing more, today and on each later day

Usage: mailquota stop [OPTIONS] <LOGIN>

Arguments:
  [LOGIN]  Login, as a report prints it

Options:
      --server <ADDRESS>   Numeric address and port of a server; repeatable
      --config <FILE>      Settings of the server: its address and its days
      --host <HOST>        Name under which it asks [default: admin]
      --login <LOGIN>      Login as smtpd reports it, in place of LOGIN
      --login-text <TEXT>  Login as a report prints it, in place of LOGIN
      --day <DAY>          Date as 2026-11-30, number or yesterday; else today
      --ago <N>            That many days before today
      --force              Also on another day, or if it sent nothing lately
      --all                Also from each later day with a limit of its own
      --wait               Ask a server that is away again, for up to an hour
  -h, --help               Print help
""",
    ),
    (
        ["resume", "--help"],
        """Let a login have more again, today and on each later day

Usage: mailquota resume [OPTIONS] <LOGIN>

Arguments:
  [LOGIN]  Login, as a report prints it

Options:
      --server <ADDRESS>   Numeric address and port of a server; repeatable
      --config <FILE>      Settings of the server: its address and its days
      --host <HOST>        Name under which it asks [default: admin]
      --login <LOGIN>      Login as smtpd reports it, in place of LOGIN
      --login-text <TEXT>  Login as a report prints it, in place of LOGIN
      --day <DAY>          Date as 2026-11-30, number or yesterday; else today
      --ago <N>            That many days before today
      --cap <N>            Recipients more, each day; else the limit it had
  -h, --help               Print help
""",
    ),
    (
        ["day", "--help"],
        """Print a day's number and, on a terminal, its date

Usage: mailquota day [OPTIONS] [DAY]

Arguments:
  [DAY]  Date as 2026-11-30, number, or yesterday, today, tomorrow

Options:
      --config <FILE>  Settings [default: /etc/mailquota/server.toml]
      --at <SECONDS>   Second since 1970-01-01 UTC; else now
      --json           Print JSON
  -h, --help           Print help
""",
    ),
    (
        ["retire", "--help"],
        """Retire a host's earlier filters: what they reserved counts as sent

Usage: mailquota retire [OPTIONS]

Options:
      --server <ADDRESS>  Numeric address and port of the server
      --config <FILE>     Settings of the server, where --host is given
      --host <HOST>       Mail host; else that of /etc/mailquota/filter.toml
      --run <N>           Retire runs below this; else below the clock's time
  -h, --help              Print help
""",
    ),
    (
        ["report", "--help"],
        """Print what logins used on a day

Usage: mailquota report [OPTIONS] [LOGIN]

Arguments:
  [LOGIN]  Login, as a report prints it

Options:
      --server <ADDRESS>   Numeric address and port of a server; repeatable
      --config <FILE>      Settings of the server: its address and its days
      --day <DAY>          Date as 2026-11-30, number or yesterday; else today
      --ago <N>            That many days before today
      --login <LOGIN>      Login as smtpd reports it, in place of LOGIN
      --login-text <TEXT>  Login as a report prints it, in place of LOGIN
      --top <N>            The N logins that used most, most first
      --each               Show several servers apart, not their sums
      --json               Print JSON; of several servers the sums
  -h, --help               Print help
""",
    ),
    (
        ["audit", "--help"],
        """Check the books of the ledger in a file

Usage: mailquota audit [OPTIONS]

Options:
      --config <FILE>  Settings [default: /etc/mailquota/server.toml]
      --json           Print JSON
  -h, --help           Print help
""",
    ),
]

# words and what is said of them
FAULTS = [
    (
        ["check"],
        """error: unrecognized subcommand 'check'

Usage: mailquota <COMMAND>

For more information, try '--help'.
""",
    ),
    (
        ["audit", "--config=s", "--create"],
        """error: unexpected argument '--create' found

Usage: mailquota audit --config <FILE>

For more information, try '--help'.
""",
    ),
    (
        ["forget", "--config=s", "--before=1"],
        """error: the following required arguments were not provided:
  --into <FILE>

Usage: mailquota forget --before <DAY> --into <FILE> --config <FILE>

For more information, try '--help'.
""",
    ),
    (
        ["forget", "--into=f"],
        """error: the following required arguments were not provided:
  --before <DAY>

Usage: mailquota forget --before <DAY> --into <FILE>

For more information, try '--help'.
""",
    ),
    (
        ["status", "--server=a", "--config=s"],
        """error: the argument '--server <ADDRESS>' cannot be used with '--config <FILE>'

Usage: mailquota status --server <ADDRESS>

For more information, try '--help'.
""",
    ),
    (
        ["status", "--config=s", "--host=h"],
        """error: the argument '--config <FILE>' cannot be used with '--host <HOST>'

Usage: mailquota status --config <FILE>

For more information, try '--help'.
""",
    ),
    (
        ["replay", "--list"],
        """error: unexpected argument '--list' found

Usage: mailquota replay [OPTIONS]

For more information, try '--help'.
""",
    ),
    (
        ["server", "--endless", "--connections=4"],
        """error: the argument '--endless' cannot be used with '--connections <N>'

Usage: mailquota server --endless

For more information, try '--help'.
""",
    ),
    (
        ["server", "--connections=4", "--endless"],
        """error: the argument '--connections <N>' cannot be used with '--endless'

Usage: mailquota server --connections <N>

For more information, try '--help'.
""",
    ),
    (
        ["limit", "--host=mx1", "--from=1", "u"],
        """error: the following required arguments were not provided:
  <CAP|--cap <N>>

Usage: mailquota limit [OPTIONS] <LOGIN> <CAP>

For more information, try '--help'.
""",
    ),
    (
        ["limit", "--cap=1"],
        """error: the following required arguments were not provided:
  <LOGIN|--login <LOGIN>|--login-text <TEXT>>

Usage: mailquota limit [OPTIONS] <LOGIN> <CAP>

For more information, try '--help'.
""",
    ),
    (
        ["limit", "u", "5", "--cap=6"],
        """error: the argument '[CAP]' cannot be used with '--cap <N>'

Usage: mailquota limit [OPTIONS] <LOGIN> <CAP>

For more information, try '--help'.
""",
    ),
    (
        ["limit", "5", "--login=u"],
        """error: the argument '[LOGIN]' cannot be used with '--login <LOGIN>'

Usage: mailquota limit [OPTIONS] <LOGIN> <CAP>

For more information, try '--help'.
""",
    ),
    (
        ["limit", "u", "1000001"],
        """error: invalid value '1000001' for '[CAP]': 1000001 is not in 0..=1000000

For more information, try '--help'.
""",
    ),
    (
        ["limit", "u", "many"],
        """error: invalid value 'many' for '[CAP]': no number of recipients, and not default

For more information, try '--help'.
""",
    ),
    (
        ["limit", "u", "5", "--from=1", "--ago=1"],
        """error: the argument '--from <DAY>' cannot be used with '--ago <N>'

Usage: mailquota limit [OPTIONS] <LOGIN> <CAP>

For more information, try '--help'.
""",
    ),
    (
        ["limit", "u", "5", "6"],
        """error: unexpected argument '6' found

Usage: mailquota limit [OPTIONS] <LOGIN> <CAP>

For more information, try '--help'.
""",
    ),
    (
        ["stop", "--server=a", "--host=mx1", "--day=1"],
        """error: the following required arguments were not provided:
  <LOGIN|--login <LOGIN>|--login-text <TEXT>>

Usage: mailquota stop [OPTIONS] <LOGIN>

For more information, try '--help'.
""",
    ),
    (
        ["stop", "--server=a", "--host=mx1", "--day=1", "--login=u", "--login-text=u"],
        """error: the argument '--login <LOGIN>' cannot be used with '--login-text <TEXT>'

Usage: mailquota stop [OPTIONS] <LOGIN>

For more information, try '--help'.
""",
    ),
    (
        ["stop", "u", "--login=u"],
        """error: the argument '[LOGIN]' cannot be used with '--login <LOGIN>'

Usage: mailquota stop [OPTIONS] <LOGIN>

For more information, try '--help'.
""",
    ),
    (
        ["stop", "u", "--login-text=u"],
        """error: the argument '[LOGIN]' cannot be used with '--login-text <TEXT>'

Usage: mailquota stop [OPTIONS] <LOGIN>

For more information, try '--help'.
""",
    ),
    (
        ["stop", "u", "--day=1", "--ago=1"],
        """error: the argument '--day <DAY>' cannot be used with '--ago <N>'

Usage: mailquota stop [OPTIONS] <LOGIN>

For more information, try '--help'.
""",
    ),
    (
        ["stop", "u", "v"],
        """error: unexpected argument 'v' found

Usage: mailquota stop [OPTIONS] <LOGIN>

For more information, try '--help'.
""",
    ),
    (
        ["resume", "-x"],
        """error: unexpected argument '-x' found

  tip: to pass '-x' as a value, use '-- -x'

Usage: mailquota resume [OPTIONS] <LOGIN>

For more information, try '--help'.
""",
    ),
    (
        ["resume", "u", "--ago=1", "--day=1"],
        """error: the argument '--ago <N>' cannot be used with '--day <DAY>'

Usage: mailquota resume [OPTIONS] <LOGIN>

For more information, try '--help'.
""",
    ),
    (
        ["report", "--server=a", "--day=1", "--login-text=u", "--login=u"],
        """error: the argument '--login-text <TEXT>' cannot be used with '--login <LOGIN>'

Usage: mailquota report --server <ADDRESS> --day <DAY> --login-text <TEXT> [LOGIN]

For more information, try '--help'.
""",
    ),
    (
        ["report", "u", "--login=u"],
        """error: the argument '[LOGIN]' cannot be used with '--login <LOGIN>'

Usage: mailquota report <LOGIN>

For more information, try '--help'.
""",
    ),
    (
        ["report", "u", "--top=5"],
        """error: the argument '--top <N>' cannot be used with:
  [LOGIN]
  --login <LOGIN>
  --login-text <TEXT>

Usage: mailquota report --top <N> [LOGIN]

For more information, try '--help'.
""",
    ),
    (
        ["report", "--top=5", "--login=u"],
        """error: the argument '--top <N>' cannot be used with:
  [LOGIN]
  --login <LOGIN>
  --login-text <TEXT>

Usage: mailquota report --top <N> [LOGIN]

For more information, try '--help'.
""",
    ),
    (
        ["report", "--top=5", "--login-text=u"],
        """error: the argument '--top <N>' cannot be used with:
  [LOGIN]
  --login <LOGIN>
  --login-text <TEXT>

Usage: mailquota report --top <N> [LOGIN]

For more information, try '--help'.
""",
    ),
    (
        ["report", "--day=1", "--day=2"],
        """error: the argument '--day <DAY>' cannot be used multiple times

Usage: mailquota report [OPTIONS] [LOGIN]

For more information, try '--help'.
""",
    ),
    (
        ["report", "--day=1", "--ago=2"],
        """error: the argument '--day <DAY>' cannot be used with '--ago <N>'

Usage: mailquota report --day <DAY> [LOGIN]

For more information, try '--help'.
""",
    ),
    (
        ["retire", "mx1"],
        """error: unexpected argument 'mx1' found

Usage: mailquota retire [OPTIONS]

For more information, try '--help'.
""",
    ),
    (
        ["retire", "--config=f"],
        """error: the following required arguments were not provided:
  --host <HOST>

Usage: mailquota retire --host <HOST> --config <FILE>

For more information, try '--help'.
""",
    ),
]
