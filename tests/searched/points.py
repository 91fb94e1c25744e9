"""The points at which a poll can stand, by document 01: the operation at each, the answers that it takes, and what follows them.

Nothing is counted here. A point adds its operation to the log, an answer the waits after it; answers are words of a recording.
"""
from collections import namedtuple
from functools import lru_cache

from counted.numbers import INTERRUPT, PACKET, STATUS, TICK, TRIES, WAIT
from counted.recordings import AVAILABLE, DONE, FAULTY, PENDING, TICKED, interrupt, pending, status
from .packets import BEYOND_EVENT, EMPTY_EVENT, FRAME, LARGEST, LEFT, MISMATCHED, NO_PACKET, transferred

WRITE_BACK, FRAME_CONTROL = 8, 9  # kinds of operations
OTHER_BITS = 0x1  # an interrupt without a packet
UNREADY = 0xFFFFFFFF  # the status is read again
UNDERFLOW, ONE_PENDING = 0x2, 0x200
ABORT = 1  # what is written to frame control
MICROSECOND = 1000  # in nanoseconds
LATE = [TICK << 28, 1000, 0]  # the tick at which the disconnecting is over
RUBBISH = [0]  # a word of no kind

# The operation's head word; how often the status may still be read; whether the state is Disconnecting with a start tick.
Point = namedtuple("Point", "operation tries leaving")
# The answer's words, the waits that are logged after it, the next point.
Answer = namedtuple("Answer", "words waits next")
END = None


def begun(mark, leaving):
    """A poll of the device begins: at the interrupt, after an earlier good packet at the status."""
    return Point(STATUS << 28, TRIES, leaving) if mark else Point(INTERRUPT << 28, 0, leaving)


def stopped(leaving):
    """The device has nothing, and the poll ends; one that is leaving looks at the tick first."""
    return Point(TICK << 28, 0, leaving) if leaving else END


def goes_on(leaving):
    """A packet came that is not reported. The mark is set, and the device is polled again."""
    return begun(True, leaving)


# ---- the answers at each point


def at_interrupt(point, _):
    yield Answer(interrupt(0), [], stopped(point.leaving))
    for bits in OTHER_BITS, AVAILABLE:
        yield Answer(interrupt(bits), [], Point((WRITE_BACK << 28) + bits, 0, point.leaving))


def at_write_back(point, _):
    status_is_read = Point(STATUS << 28, TRIES, point.leaving)
    yield Answer(DONE, [], status_is_read if point.operation & AVAILABLE else stopped(point.leaving))


def at_status(point, counts):
    """64 words answer 32 of the 1,000 tries; the last one is here all the same."""
    again = point._replace(tries=point.tries - 1)
    yield Answer(status(UNREADY), [(WAIT << 28) + MICROSECOND], again if again.tries else stopped(point.leaving))
    yield Answer(status(0), [], stopped(point.leaving))
    for bad in pending(0), pending(LARGEST + 1), status(PENDING + ONE_PENDING + UNDERFLOW):
        yield Answer(bad, [], Point((FRAME_CONTROL << 28) + ABORT, 0, point.leaving))
    for count in counts:
        yield Answer(pending(count), [], Point((PACKET << 28) + count, 0, point.leaving))


def at_frame_control(point, _):
    yield Answer(DONE, [], stopped(point.leaving))


def at_packet(point, _):
    """One packet for each way in which a poll can go on or end."""
    for data, following in (
        (NO_PACKET, stopped(point.leaving)),  # the mark is cleared
        (MISMATCHED, stopped(point.leaving)),  # it is set; so with all others of which nothing is made
        (EMPTY_EVENT, goes_on(point.leaving)),  # so with replies, frames below 14 bytes and most events
        (LEFT, goes_on(False)),  # so with all events after which the state is not Disconnecting; none makes it so
        (FRAME, END),
        (BEYOND_EVENT, END),  # refusal 10
    ):
        yield Answer(transferred(point.operation & 0xFFFF, data), [], following)


def at_tick(*_):
    yield Answer(TICKED, [], END)
    yield Answer(LATE, [], END)


ANSWERS = {
    INTERRUPT: at_interrupt,
    WRITE_BACK: at_write_back,
    STATUS: at_status,
    FRAME_CONTROL: at_frame_control,
    PACKET: at_packet,
    TICK: at_tick,
}
REFUSED = [Answer(FAULTY, [], END), Answer(RUBBISH, [], END)]  # 7 and 9; for the tick a fault is 9 too


@lru_cache(None)
def answers_at(point, counts):
    """All answers that are wholly there; packets are pending in these counts of bytes."""
    return [*ANSWERS[point.operation >> 28](point, counts), *REFUSED]
