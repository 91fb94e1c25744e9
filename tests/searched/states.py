"""The states in which a poll can begin, as far as its operations depend on them, and the calls that bring the driver into each."""
from collections import namedtuple

from shown.session import Call
from counted.numbers import HEADER, OTHER, POLL
from counted.recordings import TICKED, WOKEN, coming, exchange, packet, status
from .packets import LEFT
from .points import begun

LEAVE = 4
DOWN, DISCONNECTING = 0, 3
# whether the good-packet mark is set; whether the state is Disconnecting, with a start tick
Start = namedtuple("Start", "mark leaving")
STARTS = [Start(mark, leaving) for mark in (False, True) for leaving in (False, True)]


def poll(recording):
    return Call(0, POLL, b"", recording)


def leave(number):
    """The session's first, second, ... request. The mark must be set; the reply brings the credit for the next."""
    return Call(0, LEAVE, b"", exchange(number, number + 1) + TICKED)


UNHEARD = coming(packet(HEADER, OTHER, 0))  # of another channel: it sets the mark, and the poll ends
# each is rolled back if the mark is so already, since its first answer is wrong then
MARK = poll(WOKEN + UNHEARD)
UNMARK = poll(status(0) + TICKED)
# sets the mark too; the state is not Disconnecting then, and the work buffer holds the event
HOLD = poll(WOKEN + coming(LEFT) + UNHEARD)


def bringing(start, number):
    """The calls that bring the driver there, whatever polls were before. `number` counts the session's requests, from 1."""
    calls = [UNMARK, HOLD]
    if start.leaving:
        calls.append(leave(number))
    if not start.mark:
        calls.append(UNMARK)
    return calls


def first_point(start):
    return begun(start.mark, start.leaving)
