"""What the log says of a file of settings that can't be used: mailquota.toml(5) has what each value
has to be."""
import re

from ends import of_settings

WANTED = {
    "host": "1 to 64 letters, digits, '.' and '-', in quotes",
    "server": "a numeric address with a port, in quotes",
    "listen": "a numeric address with a port, in quotes",
    "tries": "a whole number from 1 to 10",
    "timeout": "a whole number of milliseconds from 1 to 60000",
    "pause": "a whole number of seconds from 0 to 3600",
    "hold": "a whole number of seconds from 0 to 60",
    "keep_connection": "true or false, without quotes",
    "idle": "a whole number of seconds from 1 to 3600",
    "log": "off, error, warn or info, in quotes",
    "store": "'memory' or the path of a file, in quotes",
    "default": "a whole number from 0 to 1000000",
    "offset": "a whole number of minutes from -1439 to 1439",
    "keep": "a whole number of days from 1 to 366",
    "rule": "a zone rule of at most 64 bytes, in quotes, in place of an offset",
    "permits": "the path of a file, in quotes",
    "metrics": "the path of a file, in quotes",
}
NOT_TOML = "settings are not TOML"


def log_of(path, said, lacks=None):
    """The line for a file of which the last line says this; `lacks` is what an address lacks, where
    its value is a text."""
    bad = re.fullmatch(r"setting (\w+): bad value", said)
    if bad:
        return of_settings(
            path,
            f"setting {bad[1]}: {lacks}" if lacks else f"{said}, it has to be {WANTED[bad[1]]}",
        )
    return of_settings(path, said)


def is_no_toml(path, came):
    """Whether a file is refused since it isn't TOML, with the place where it isn't, counted from
    1."""
    status, output, errors = came
    begins = re.escape(of_settings(path, "")[:-1])
    return (status, output) == (1, b"") and bool(
        re.fullmatch(
            rf"{begins}line [1-9]\d*, column [1-9]\d*: \S.*\nmailquota: {NOT_TOML}\n", errors
        )
    )
