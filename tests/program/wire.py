"""Frames of the quota link, as bytes: docs/FRAMES.md has the format."""


def text(value):
    return bytes([len(value)]) + value


def number(value, size=4):
    return value.to_bytes(size, "big")


def frame(body):
    return number(len(body), 2) + body


def identity(sequence, host=b"a", run=1):
    return text(host) + number(run, 8) + number(sequence)


def transaction(number_of, login, at):
    return number(number_of) + number(at, 8) + text(login)


def reserve(sequence, txn=1, login=b"u", count=1, at=86_400, **sender):
    return frame(
        b"\x01" + identity(sequence, **sender) + transaction(txn, login, at) + number(count)
    )


def settle(sequence, txn=1, login=b"u", count=1, at=86_400, **sender):
    return frame(
        b"\x02" + identity(sequence, **sender) + transaction(txn, login, at) + number(count)
    )


def release(sequence, txn=1, login=b"u", at=86_400, **sender):
    return frame(b"\x03" + identity(sequence, **sender) + transaction(txn, login, at))


def limit(sequence, from_day, cap, login=b"u", **sender):
    return frame(
        b"\x04" + identity(sequence, **sender) + number(from_day) + number(cap) + text(login)
    )


def retire(sequence, **sender):
    return frame(b"\x07" + identity(sequence, **sender))


def usage(login=b"u", day=1):
    return frame(b"\x05" + text(login) + number(day))


def page(after=b"", day=1):
    return frame(b"\x06" + number(day) + text(after))


def granted(sequence, used, **sender):
    return frame(b"\x81" + identity(sequence, **sender) + number(used))


def full(sequence, used, cap, **sender):
    return frame(b"\x82" + identity(sequence, **sender) + number(used) + number(cap))


def settled(sequence, count, **sender):
    return frame(b"\x83" + identity(sequence, **sender) + number(count))


def released(sequence, held, **sender):
    return frame(b"\x84" + identity(sequence, **sender) + number(held))


def retired(sequence, **sender):
    return frame(b"\x8f" + identity(sequence, **sender))


def old(sequence, **sender):
    return frame(b"\x90" + identity(sequence, **sender))


def row(login, in_settled, in_reserved, cap):
    return text(login) + number(in_settled) + number(in_reserved) + number(cap)


def page_reply(rows, day=1):
    return frame(b"\x8c" + number(day) + bytes([len(rows)]) + b"".join(rows))


RETRY = frame(b"\x8d")
BAD = frame(b"\x8e")
