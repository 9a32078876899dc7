"""What a connection's replies may be where one request wasn't taken, by the model of the ledger."""
import ledger
import wire


def bodies(stream):
    """The whole frames of these bytes, and what is left over."""
    whole = []
    while len(stream) >= 2 and len(stream) >= 2 + int.from_bytes(stream[:2], "big"):
        size = 2 + int.from_bytes(stream[:2], "big")
        whole.append(stream[:size])
        stream = stream[size:]
    return whole, stream


def replies(book, requests, untaken=None):
    """The replies of a ledger to these frames; the one of this place is to be sent again."""
    return [
        wire.RETRY if place == untaken else wire.frame(book.apply(ledger.decode(request[2:])))
        for place, request in enumerate(requests)
    ]


def new_book():
    return ledger.Ledger(0, 3)


def untaken_of(came, requests):
    """Which request wasn't taken, by the replies that came, of which all may not have come: a
    place, or None.

    Fails where these are no replies of a ledger that took all others.
    """
    untaken = came.index(wire.RETRY) if wire.RETRY in came else None
    wanted = replies(new_book(), requests, untaken)
    assert (
        came == wanted[: len(came)]
    ), f"replies {b''.join(came).hex()}, wanted {b''.join(wanted).hex()}"
    return untaken


def possible(came, requests):
    """The ledgers that may lie under these replies: the request that got none may be taken or
    not."""
    untaken = untaken_of(came, requests)
    books = []
    for taken in {len(came), min(len(came) + 1, len(requests))}:
        books.append(new_book())
        replies(
            books[-1],
            [request for place, request in enumerate(requests[:taken]) if place != untaken],
        )
    return books
