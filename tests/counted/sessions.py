"""Sessions that meet every kind of stall, wrap, failed write and roll-back."""
from shown.session import answers
from .numbers import DATA, EVENT, GET, HEADER, INIT, JOIN, LIMIT, LOG, OTHER, POLL, ROUND, SEND, TRIES, VARIABLE
from .rust import Call, padded, played
from .recordings import EMPTY, FAULTY, READY, STALL, STARTED, TAKEN, TICKED, WOKEN, clock, pending, status
from .recordings import coming, dropped, exchange, exchanges, granting, packet, partial, reply, short, unstored


def call(number, args, recording):
    return Call(LOG, number, args, recording)


def poll(recording):
    return call(POLL, b"", recording)


def send(recording, frame=14):
    return call(SEND, bytes(4) + bytes(frame), recording)


def get(recording):
    return call(GET, padded(b"\2") + bytes(4), recording)


def variable(size, recording):
    return call(VARIABLE, bytes(4) + b"a\0" + bytes(size - 2), recording)


def init(recording):
    return call(INIT, bytes(4), recording)


MARK = poll(WOKEN + coming(packet(HEADER, OTHER, 1)))  # the first good packet


def raised(credit, to):
    """Polls that bring the credit up, by 20 at most."""
    reached = [*range(credit + LIMIT, to, LIMIT), to]
    return [poll(granting(number)) for number in reached]


def wraps():
    """Whenever no credit is left one comes, 0 to 21 ahead: by a poll, or in the next send's stall."""
    calls, credit, left, turns = [MARK], 1, 1, 0
    while len(calls) < 4 * ROUND:
        if left:
            calls.append(send(TAKEN))
            left -= 1
            continue
        turn, step = divmod(turns, LIMIT + 2)
        stalled = (turn + step) % 2
        stored = step if step <= LIMIT else 0
        if not stalled:
            calls.append(poll(granting(credit + step)))
        elif stored:
            calls.append(send(clock(0) + granting(credit + step) + TAKEN))
        else:
            stored = 1
            calls.append(send(clock(0) + granting(credit + step) + clock(STALL) + granting(credit + 1) + TAKEN))
        credit, left, turns = credit + stored, stored - stalled, turns + 1
    return calls


def round_ahead():
    """Credits come for more than a round of numbers: sends stall although 256 are left."""
    late = send(clock(0) + granting(261) + clock(STALL + 1))
    return [MARK, *raised(1, 261), *[send(TAKEN)] * 5, late, send(clock(0) + granting(262) + TAKEN)]


def stalls():
    """They end by a credit, by the flow, by a timeout, a fault and an event's bad header; a reply does not end one."""
    beyond = coming(packet(HEADER, EVENT, 14, header=HEADER + 1))
    return [
        MARK,
        send(TAKEN),
        send(clock(0) + granting(2) + TAKEN),
        send(clock(0) + granting(4, flow=1) + clock(STALL) + granting(4) + TAKEN),
        send(TAKEN),
        send(clock(0) + status(0) + clock(STALL + 1)),
        send(clock(0) + FAULTY),
        send(clock(0) + WOKEN + granting(9, flow=1) + clock(STALL + 1)),
        send(clock(0) + granting(9) + TAKEN),
        *[send(TAKEN)] * 4,
        get(clock(0) + reply(1, 9) + granting(12) + TAKEN),
        *[send(TAKEN)] * 2,
        send(clock(0) + beyond),
        *[send(TAKEN)] * 2,
        send(clock(0) + granting(14) + clock(STALL + 1)),
    ]


def limits():
    """Around the last credit 250; then a credit that a wrong header, size or channel does not bring, and one by each channel."""
    good = packet(EMPTY, DATA, 15)
    unheard = (good[:2] * 2 + good[4:], packet(HEADER - 1, DATA, 15), packet(EMPTY, OTHER, 15))
    return [
        MARK,
        *raised(1, 250),
        *[poll(granting(credit)) for credit in (250 + LIMIT + 1, 249, 250 + 128, 250 + LIMIT)],
        *[poll(coming(data)) for data in unheard],
        poll(coming(packet(EMPTY, 0xF0 + DATA, 16))),
        poll(coming(packet(HEADER, EVENT, 17)) + reply(0, 18) + status(0)),
        poll(WOKEN + coming(bytes(HEADER))),
        poll(WOKEN + coming(packet(HEADER, EVENT, 19, header=HEADER + 1))),
    ]


def short_reads():
    """The credit is what the work buffer held: of another packet, of a header that was sent, of a read that was faulted."""
    held = [poll(part) for count in (1, 2, 3, 4) for part in (unstored(1 + 3 * count), short(count))]
    # reads of 6 to 9 bytes have the channel's byte in the credit's place
    shifted = [poll(partial(count, packet(EMPTY, credit, 14))) for count, credit in enumerate((0, 0x10, 0x12, 0x20, 0x22), 5)]
    return [
        MARK,
        *held,
        send(TAKEN),
        poll(short(4)),
        *shifted,
        *[poll(partial(count, packet(EMPTY, DATA, 26 + count))) for count in (10, 11)],
        *raised(37, 250),
        *[poll(part) for part in (unstored(252), dropped(254), short(4))],
        *[poll(part) for part in (unstored(253), pending(4) + FAULTY, short(3))],
        *[poll(part) for part in (pending(EMPTY) + FAULTY, short(2))],
        *raised(256, 500),
        send(TAKEN),
        poll(short(1)),
    ]


def failed_writes():
    """Frames of 2,022 bytes are written; up to 2,030, and for variables 2,020, a number is spent. Then faults and timeouts."""
    never, late = status(0) * TRIES, status(0) * (TRIES - 1) + TAKEN
    return [
        MARK,
        *raised(1, 22),
        send(TAKEN, 2022),
        *[send([], frame) for frame in range(2023, 2032)],
        *[variable(size, []) for size in range(2013, 2022)],
        *[send(recording) for recording in (FAULTY, status(READY) + FAULTY, never, late, TAKEN)],
        send(clock(0) + granting(23) + FAULTY),
        send(clock(0) + granting(24) + TAKEN),
    ]


def failed_tries():
    """Init ignores that three of its requests are not written."""
    tries = FAULTY + status(READY) + FAULTY + status(0) * TRIES + exchanges(6, 2, 21)
    return [MARK, *raised(1, 21), init(exchanges(1, 2, 21) + tries + STARTED + exchanges(8, 2, 23))]


def header_found():
    """Init's third request is not written, and the fourth stalls: a short read finds the third's header with credit 0."""
    begun = exchange(1, 250) + exchange(2, 250) + FAULTY + clock(0) + short(4)
    return [MARK, *raised(1, 250), *[send(TAKEN)] * 247, init(begun + exchanges(4, 4, 257) + STARTED + exchanges(8, 2, 261))]


def undone(calls, whole):
    """The call ended by 8 and 9 at each of its answers and by 12 at each word of its log; then whole."""
    given = answers(whole.recording)
    begun = [[word for answer in given[:n] for word in answer] for n in range(len(given))]
    length = len(played([[*calls, whole]])[0][-1].log)
    return [
        *[whole._replace(recording=recording) for recording in begun],
        *[whole._replace(recording=recording + TICKED) for recording in begun],
        *[whole._replace(capacity=capacity) for capacity in range(length)],
        whole,
    ]


def rolled_back():
    """Calls of every shape; each has credits come and, but for the poll, numbers spent before it ends."""
    calls = [MARK]
    for before, whole in [
        ([], poll(dropped(5) + granting(8))),
        ([send(TAKEN)] * 8, send(clock(0) + granting(10, flow=1) + clock(STALL) + granting(12) + TAKEN)),
        ([], get(TAKEN + clock(0) + clock(0) + granting(13) + clock(0) + reply(1, 15))),
        ([], init(exchanges(2, 7, 16) + STARTED + exchanges(9, 2, 23))),
        ([], call(JOIN, padded(b"") + bytes(4) + padded(b"\1") + b"A", exchanges(11, 10, 26))),
    ]:
        calls += before
        calls += undone(calls, whole)
    return calls


SESSIONS = (wraps, round_ahead, stalls, limits, short_reads, failed_writes, failed_tries, header_found, rolled_back)
