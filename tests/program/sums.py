"""The sums at the ends of a database's pages, as SQLite's extension cksumvfs has them."""
import struct

# A page of a file with sums has so many bytes for them, and its header says so.
LENGTH, RESERVED = 8, 20
LOW = 0xFFFF_FFFF


def sum_of(page):
    """Of all bytes of a page but those of the sum."""
    words = struct.unpack(f"<{(len(page) - LENGTH) // 4}I", page[:-LENGTH])
    one = two = 0
    for first, second in zip(words[::2], words[1::2]):
        one = one + first + two & LOW
        two = two + second + one & LOW
    return struct.pack("<II", one, two)


def content_of(path):
    with open(path, "rb") as file:
        return file.read()


def has_sums(content):
    return content[RESERVED] == LENGTH


def pages_of(content):
    (size,) = struct.unpack(">H", content[16:18])
    size = 65_536 if size == 1 else size
    return [content[place : place + size] for place in range(0, len(content), size)]


def wrong_pages(content):
    """The pages whose sums aren't theirs, counted from 1."""
    return [
        number for number, page in enumerate(pages_of(content), 1) if page[-LENGTH:] != sum_of(page)
    ]


def renew(path):
    """Gives each page of a file with sums its sum: SQLite without the extension leaves that of the
    page as it was."""
    content = content_of(path)
    if has_sums(content):
        with open(path, "wb") as file:
            file.write(b"".join(page[:-LENGTH] + sum_of(page) for page in pages_of(content)))
