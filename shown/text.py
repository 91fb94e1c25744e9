"""Bytes as text. A byte that is not shown is None, and a dot in the text."""

SHOWN = 16  # so many bytes of a long row are shown
SHORTEST_KEY = 8  # the shortest passphrase of WPA


def number(data, order="little"):
    return int.from_bytes(bytes(b or 0 for b in data), order)


def signed(data):
    return int.from_bytes(bytes(b or 0 for b in data), "little", signed=True)


def count(n, what):
    return f"{n:,} {what}" if n == 1 else f"{n:,} {what}s"


def row(data):
    """The bytes in hexadecimal, of a long row the first."""
    shown = " ".join(".." if b is None else f"{b:02x}" for b in data[:SHOWN])
    return f"{shown} and {count(len(data) - SHOWN, 'byte')} more" if len(data) > SHOWN else shown or "nothing"


def address(data):
    return ":".join(".." if b is None else f"{b:02x}" for b in data)


def letter(byte):
    if byte is None:
        return "."
    return chr(byte) if 0x20 <= byte < 0x7F and byte not in b'"\\' else f"\\x{byte:02x}"


def quoted(data):
    return '"' + "".join(map(letter, data)) + '"'


def dots(n):
    return f"{'.' * n} ({count(n, 'byte')})" if n else "of no bytes"


def values(data):
    """One or two words as numbers, other bytes as a row."""
    if len(data) not in (4, 8) or None in data:
        return row(data)
    words = (number(data[i : i + 4]) for i in range(0, len(data), 4))
    return ", ".join(f"{word} (0x{word:08x})" for word in words)


def duration(nanoseconds):
    """In the largest unit that it fills, exactly."""
    for unit, size in ("s", 10**9), ("ms", 10**6), ("us", 1000), ("ns", 1):
        if nanoseconds >= size:
            whole, rest = divmod(nanoseconds, size)
            decimals = f"{rest:0{len(str(size)) - 1}}".rstrip("0") if rest else ""
            return f"{whole:,}{'.' if decimals else ''}{decimals} {unit}"
    return "0 us"


def blotted(data, keys):
    """The bytes, those of a passphrase none, wherever it stands in them."""
    data, left = bytes(data), list(data)
    for key in keys:
        at = data.find(key)
        while at >= 0:
            left[at : at + len(key)] = [None] * len(key)
            at = data.find(key, at + 1)
    return left
