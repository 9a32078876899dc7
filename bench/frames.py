"""Frames of the quota link in hexadecimal, for the benchmarks."""


def id_of(sequence):
    return "0161" + "0000000000000001" + f"{sequence:08x}"


def reserve(sequence, transaction, login, day=1, count=1):
    fields = (
        f"{transaction:08x}"
        + f"{86_400 * day:016x}"
        + f"{len(login):02x}"
        + login.encode().hex()
        + f"{count:08x}"
    )
    body = "01" + id_of(sequence) + fields
    return f"{len(body) // 2:04x}" + body


USAGE = "0007" + "05017500000001"
