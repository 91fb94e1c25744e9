"""The words of recordings: answers to a driver's operations."""
from shown.session import words_of
from .numbers import CLOCK, CONTROL, DATA, FAULT, HEADER, INTERRUPT, OTHER, PACKET, ROUND, STATUS, TICK, WRITE
from .rust import padded


def le16(number):
    return number.to_bytes(2, "little")


def packet(size, channel, credit, flow=0, header=HEADER, payload=b""):
    return le16(size) + le16(0xFFFF - size) + bytes([0, channel, 0, header, flow, credit % ROUND, 0, 0]) + payload


def interrupt(bits):
    return [(INTERRUPT << 28) + bits]


def status(value):
    return [STATUS << 28, value]


def clock(time):
    return [CLOCK << 28, time, 0]


def pending(count):
    return status(READY + PENDING + (count << 9))


def reading(count, transfer):
    return pending(count) + [(PACKET << 28) + count, *words_of(transfer)]


def coming(data):
    return reading(len(data), bytes(4) + padded(data))


def partial(count, data):
    """A read of less than a header: behind its bytes stands what the transfer has at these places, if it goes so far."""
    transfer = bytearray((data + bytes(4))[: 4 + (count + 3) // 4 * 4])
    transfer[4 : 4 + count] = data[:count]
    return reading(count, transfer)


READY, PENDING, AVAILABLE = 0x20, 0x100, 0x20
EMPTY = 16  # data of so many bytes is none, though its credit is stored
DONE, FAULTY, TICKED = [WRITE << 28], [(FAULT << 28) + 3], [TICK << 28, 0, 0]
WOKEN = interrupt(AVAILABLE) + DONE  # how a poll begins without an earlier good packet
TAKEN = status(READY) + DONE  # the radio takes what is written
STALL = 1_000_000
STARTED = clock(150_000)  # init's start-up is over


def granting(credit, flow=0):
    """A packet that brings a credit and nothing else."""
    return coming(packet(EMPTY, DATA, credit, flow, payload=bytes(4)))


def unstored(credit):
    """The same on a channel whose credits are not stored."""
    return coming(packet(EMPTY, OTHER, credit, payload=bytes(4)))


def dropped(credit):
    """A frame of one byte, after which a poll goes on."""
    return coming(packet(EMPTY + 1, DATA, credit, payload=bytes(5)))


def reply(ident, credit):
    return coming(packet(HEADER + 16, CONTROL, credit, payload=bytes(10) + le16(ident) + bytes(4)))


def short(count):
    """A read of 1 to 4 bytes that brings the credit which the work buffer holds, and nothing else."""
    return partial(count, packet(EMPTY, DATA, 0))


def exchange(ident, credit):
    """A request is written, and its reply comes at once."""
    return TAKEN + clock(0) + clock(0) + reply(ident, credit)


def exchanges(ident, count, credit):
    """Each reply brings the credit for one more request."""
    return [word for n in range(count) for word in exchange(ident + n, credit + n)]
