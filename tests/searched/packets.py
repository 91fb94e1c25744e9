"""The packets of these tests. A poll reads them in any count of bytes: what does not come is as the work buffer has it."""
from counted.numbers import DATA, EVENT, HEADER
from counted.recordings import le16, packet, partial, pending

LARGEST = 1536  # the bytes of a packet
COUNTS = (1, *range(8, LARGEST + 1, 4))  # one for each length of a transfer: other counts have as many words as one of these
# with a header length of 0: where an event's type stands, and the fewest bytes of an event
AT_TYPE, EVENT_SIZE = 36, 48
SSID_SET, AUTH, DEAUTH, DISASSOC = 0, 3, 5, 11  # types of events
FRAME_SIZE = 1100  # leaves a frame of at least 14 bytes, wherever its data begins


def be32(number):
    return number.to_bytes(4, "big")


def event(kind, status=0):
    """With a header length of 0. The type stands before its place too: a read lays its last four bytes once more behind them."""
    payload = bytes(AT_TYPE - HEADER - 4) + be32(kind) + be32(kind) + be32(status) + bytes(4)
    return packet(EVENT_SIZE, EVENT, 0, header=0, payload=payload)


# The state Disconnecting is over. The others end as this one, so that after each the work buffer holds it, but for the header.
LEFT = event(DISASSOC)
EMPTY_EVENT = packet(HEADER, EVENT, 0) + LEFT[HEADER:]
BEYOND_EVENT = packet(HEADER, EVENT, 0, header=HEADER + 1) + LEFT[HEADER:]
FRAME = packet(FRAME_SIZE, DATA, 0) + LEFT[HEADER:]
MISMATCHED = le16(HEADER) + le16(HEADER) + LEFT[4:]
NO_PACKET = le16(0) + le16(0) + LEFT[4:]


def transferred(count, data):
    """The answer to a read of so many bytes, without the status before it."""
    return partial(count, data.ljust(count, b"\0"))[len(pending(count)) :]
