"""Numbers spent and advances, counted along the histories of calls: the right way, and wrong ones."""
from collections import namedtuple

from .numbers import CHANNEL, CREDIT, HEADER, LAID, LIMIT, REFUSALS, ROLLED_BACK, ROUND, SHORT
from .rust import FRESH
from .history import Packet, Undecided, Wrong, at_call

Count = namedtuple("Count", "spent advances")
# the first credit; which differences are advances; which headers bring one; whether the tail held by a short read and the numbers
# of failed writes count; the refusals of calls that do not
Rule = namedtuple("Rule", "first limit signed channels smallest matched held failed dropped")
RIGHT = Rule(1, LIMIT, signed=False, channels=3, smallest=HEADER, matched=True, held=True, failed=True, dropped=ROLLED_BACK)
WRONG = {
    "the first credit forgotten": RIGHT._replace(first=0),
    "21 ahead counted": RIGHT._replace(limit=LIMIT + 1),
    "the difference signed": RIGHT._replace(signed=True),
    "other channels counted": RIGHT._replace(channels=16),
    "sizes below 12 counted": RIGHT._replace(smallest=0),
    "complements not looked at": RIGHT._replace(matched=False),
    "credit 0 in short reads": RIGHT._replace(held=False),
    "failed writes not counted": RIGHT._replace(failed=False),
    "rolled-back calls counted": RIGHT._replace(dropped=()),
    "all refused calls dropped": RIGHT._replace(dropped=REFUSALS),
}


def ahead(header, count, rule):
    """How far a packet's credit is ahead of the stored one, which the advances tell; none if the packet brings no credit."""
    size, complement = int.from_bytes(header[:2], "little"), int.from_bytes(header[2:4], "little")
    if rule.matched and size + complement != 0xFFFF or size < rule.smallest or header[CHANNEL] % 16 >= rule.channels:
        return None
    difference = (header[CREDIT] - (FRESH.credit + count.advances)) % ROUND
    return difference - ROUND if rule.signed and difference >= ROUND // 2 else difference


def advance(header, count, rule):
    difference = ahead(header, count, rule)
    return difference if difference is not None and difference <= rule.limit else 0


def steps(count, events, rule):
    """Each packet and each number spent, with the counts before and after it."""
    for event in events:
        before = count
        if isinstance(event, Packet):
            headers = event.headers if rule.held or not event.short else {header[:SHORT] + LAID for header in event.headers}
            found = {advance(header, count, rule) for header in headers}
            if len(found) > 1:
                raise Undecided
            count = Count(count.spent, count.advances + found.pop())
        elif event.written or rule.failed:
            count = Count(count.spent + 1, count.advances)
        yield event, before, count


def within(count, rule):
    if count.spent > rule.first + count.advances:
        raise Wrong(f"more spent than granted: {told(count)}")


def covered(count, history):
    if (1 + count.advances - count.spent - (history.credit - history.sequence)) % ROUND:
        raise Wrong(f"another gap than credit {history.credit} and sequence {history.sequence}: {told(count)}")


def told(count):
    return f"{count.spent} spent, {count.advances} advanced"


def counted(count, history, rule):
    """The counts after a call; at each number spent the bound holds."""
    after = count
    try:
        for _, _, after in steps(count, history.events, rule):
            within(after, rule)
    except Undecided:
        if history.refusal not in rule.dropped:
            raise
    return count if history.refusal in rule.dropped else after


def counts(histories, rule):
    """The counts after each call, where both sentences hold."""
    count = Count(0, 0)
    for at, history in enumerate(histories):
        with at_call(at):
            count = counted(count, history, rule)
            within(count, rule)
            covered(count, history)
        yield count


def noticed(histories, rule):
    try:
        for _ in counts(histories, rule):
            pass
    except Wrong:
        return True
    except Undecided:
        pass
    return False
