"""A call's history: the packets that came and the numbers that were spent, in their order."""
from collections import namedtuple
from contextlib import contextmanager
from itertools import groupby
from operator import itemgetter

from shown.session import answers, bytes_of, operations
from .numbers import CLOCK, FAULT, HEADER, INVALID, LAID, PACKET, ROLLED_BACK, ROUND, SEQUENCE, SHORT, STATUS, TRIES, WAIT, WRITE
from .rust import FRESH, padded

Read = namedtuple("Read", "count transfer came")
Unready = namedtuple("Unready", "writes")  # status reads by which so many writes may have failed
Written = namedtuple("Written", "sequence tail done")
Packet = namedtuple("Packet", "headers short")
Sent = namedtuple("Sent", "written")
History = namedtuple("History", "refusal sequence credit stalled events")


class Wrong(Exception):
    """What is wrong, in a line."""


class Undecided(Exception):
    """A packet's credit depends on where in the call a header was laid, and log and recording do not tell."""


def is_fault(answer):
    return answer is not None and answer[0] >> 28 == FAULT


def reads(head, answer):
    """The packet read, if its answer is there; a faulted one leaves zeros behind the command word."""
    count = head & 0xFFFF
    if is_fault(answer):
        return [Read(count, bytes(4) + padded(bytes(count)), False)]
    return [Read(count, bytes_of(answer[1:]), True)] if answer and answer[0] == head else []


def happened(call, end):
    """What can change credit, sequence and the front of the work buffer."""
    left, found = iter(answers(call.recording)), []
    asked = [(head >> 28, head, data, next(left, None) if head >> 28 != WAIT else None) for head, data in operations(end.log)]
    for kind, run in groupby(asked, key=itemgetter(0)):
        run = list(run)
        if kind == STATUS:
            failed = sum(is_fault(answer) for *_, answer in run) + len(run) // TRIES
            found += [Unready(failed)] if failed else []
        for _, head, data, answer in run:
            if kind == PACKET:
                found += reads(head, answer)
            if kind == WRITE:
                found.append(Written(data[SEQUENCE], data[SHORT:HEADER], answer is not None and answer[0] >> 28 == WRITE))
    return found


def stretches(found):
    """What comes before each write, with it; then what comes after the last."""
    stretch = []
    for event in found:
        if isinstance(event, Written):
            yield stretch, event
            stretch = []
        else:
            stretch.append(event)
    yield stretch, None


def laid(read, tail):
    """The front of the work buffer after a read, by document 01's rule; a transfer of 8 bytes leaves its tail as it was."""
    front = [read.transfer[i + 4] if i < read.count else read.transfer[i] for i in range(min(HEADER, len(read.transfer)))]
    return (bytes(front) + tail)[:HEADER]


def received(stretch, tails, lost):
    """The packets of a stretch, and what the front's tail may then be.

    `lost` numbers were spent in it and not written; none where a rolled-back call hides how many. Their headers were laid before
    status reads that failed: if there is one run of these, then there.
    """
    packets, places = [], sum(isinstance(event, Unready) for event in stretch)
    for event in stretch:
        if isinstance(event, Read):
            headers = {laid(event, tail) for tail in tails}
            packets += [Packet(headers, len(event.transfer) == SHORT)] if event.came else []
            tails = {header[SHORT:] for header in headers}
        elif lost and places == 1:
            tails = {LAID}
        elif lost != 0:
            tails = tails | {LAID}
    return packets, tails


def history_of(entry, call, end):
    """Written numbers are in the log; the others are those that the next written one, or the Rust's sequence at the end, leaves out."""
    rolled_back = end.refusal in ROLLED_BACK
    events, sequence, tails = [], entry.sequence, {entry.front[SHORT:]}
    for stretch, write in stretches(happened(call, end)):
        number = write.sequence if write else end.sequence
        lost = (number - sequence) % ROUND if write or not rolled_back else None
        packets, tails = received(stretch, tails, lost)
        reasons = sum(event.writes for event in stretch if isinstance(event, Unready))
        if lost and lost > reasons + (end.refusal == INVALID and not write):
            raise Wrong(f"sequence {number} where {sequence % ROUND} is next, and at most {reasons} writes failed")
        if lost and not reasons:  # by the size, with which the call ends
            tails = {LAID}
        events += packets + [Sent(False)] * (lost or 0)
        if write:
            events.append(Sent(write.done))
            tails = {write.tail}
        sequence = number + 1
    if rolled_back:
        tails = {entry.front[SHORT:]}
        if (end.sequence, end.credit) != (entry.sequence, entry.credit):
            raise Wrong("the call is rolled back, but sequence or credit is not")
    if end.front[SHORT:] not in tails:
        raise Wrong("bytes 8 to 11 of the work buffer are not what was laid there")
    return History(end.refusal, end.sequence, end.credit, end.log[:1] == [CLOCK << 28], events)


@contextmanager
def at_call(number):
    try:
        yield
    except Wrong as wrong:
        raise Wrong(f"call {number}: {wrong}") from None


def histories_of(calls, ends):
    histories = []
    for at, (entry, call, end) in enumerate(zip([FRESH, *ends], calls, ends)):
        with at_call(at):
            histories.append(history_of(entry, call, end))
    return histories
