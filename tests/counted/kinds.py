"""What the written sessions must meet."""
from collections import namedtuple

from shown.session import operations
from .numbers import BEYOND, FAULTED, INVALID, LOG_FULL, TIMEOUT, UNRECORDED, WRONG_ANSWER
from .numbers import INIT, LIMIT, POLL, ROUND, SEND, STATUS, VARIABLE, WRITE
from .history import Packet, Sent, histories_of
from .count import Count, RIGHT, ahead, counts, steps

Met = namedtuple("Met", "number refusal stalled left last spent failed came aheads held")
KINDS = {
    "a stall ended by a credit": lambda met: met.stalled and not met.refusal and met.spent and met.came,
    "a stall ended by the flow": lambda met: met.stalled and not met.refusal and met.spent and not met.came,
    "a stall that lasts too long": lambda met: met.stalled and met.refusal == TIMEOUT and not met.spent,
    "a stall with a round of credits left": lambda met: met.stalled and met.left >= ROUND,
    "a frame too long to be written": lambda met: met.number == SEND and met.refusal == INVALID and met.spent,
    "a frame too long for the buffer": lambda met: met.number == SEND and met.refusal == INVALID and not met.spent,
    "a variable too long to be written": lambda met: met.number == VARIABLE and met.refusal == INVALID and met.spent,
    "a variable too long for the buffer": lambda met: met.number == VARIABLE and met.refusal == INVALID and not met.spent,
    "a fault at the write": lambda met: met.refusal == FAULTED and met.last == WRITE,
    "a fault at the write's status": lambda met: met.refusal == FAULTED and met.last == STATUS and met.spent,
    "a status that is never ready": lambda met: met.refusal == TIMEOUT and met.last == STATUS and met.spent,
    "three failed writes that are ignored": lambda met: met.number == INIT and not met.refusal and met.failed == 3,
    "an event's header beyond its size": lambda met: met.refusal == BEYOND and met.came,
    "a short read that brings a packet's credit": lambda met: met.number == POLL and met.held,
    "a short read that brings a failed write's": lambda met: met.number == INIT and met.failed and met.held,
}
for n in (UNRECORDED, WRONG_ANSWER, LOG_FULL):
    KINDS[f"refusal {n} before anything came"] = lambda met, n=n: met.refusal == n and not met.spent and not met.came
    KINDS[f"refusal {n} after a number was spent"] = lambda met, n=n: met.refusal == n and met.spent
    KINDS[f"refusal {n} after a credit came"] = lambda met, n=n: met.refusal == n and met.came
for n in range(LIMIT + 2):
    KINDS[f"a credit {n} ahead"] = lambda met, n=n: n in met.aheads
WHOLE = {
    "three wraps of the sequence": lambda count: count.spent >= 3 * ROUND,
    "three wraps of the credit": lambda count: count.advances >= 3 * ROUND,
}


def met_by(call, end, history, count):
    """What a call met, begun with these counts."""
    found = list(steps(count, history.events, RIGHT))
    numbers = [event for event, _, _ in found if isinstance(event, Sent)]
    packets = [(event, before, after) for event, before, after in found if isinstance(event, Packet)]
    asked = operations(end.log)
    return Met(
        number=call.number,
        refusal=end.refusal,
        stalled=history.stalled,
        left=1 + count.advances - count.spent,
        last=asked[-1][0] >> 28 if asked else None,
        spent=len(numbers),
        failed=sum(not event.written for event in numbers),
        came=any(before.advances < after.advances for _, before, after in packets),
        aheads={ahead(header, before, RIGHT) for event, before, _ in packets for header in event.headers},
        held=any(event.short and before.advances < after.advances for event, before, after in packets),
    )


def kinds_of(calls, ends):
    histories = histories_of(calls, ends)
    reached = [Count(0, 0), *counts(histories, RIGHT)]
    met = [met_by(*parts) for parts in zip(calls, ends, histories, reached)]
    kinds = {kind for kind, is_met in KINDS.items() if any(map(is_met, met))}
    return kinds | {kind for kind, is_met in WHOLE.items() if is_met(reached[-1])}
