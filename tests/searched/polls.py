"""Random polls, made without the points: recordings as a chip could give them, and others, cut at any word."""
from shown.names import LINK, SCAN_RESULT, SUPPLICANT
from shown.session import Call
from counted.numbers import DATA, EVENT, HEADER, JOIN, STATUS, TICK
from counted.recordings import DONE, EMPTY, FAULTY, PENDING, WOKEN
from counted.recordings import coming, dropped, exchanges, interrupt, packet, partial, reply, status, unstored
from .packets import AUTH, DEAUTH, DISASSOC, SSID_SET, event
from .states import MARK, UNMARK, leave, poll
from .table import LENGTHS
from .tries import Try

NOT_READY = status(0xFFFFFFFF)
SMALLEST_FRAME = 14  # the fewest bytes of a frame that is reported
FAILED, KEYED = 1, 6  # an event's status
LEAVING = (DEAUTH, DISASSOC, LINK)  # they end the state Disconnecting
EVENTS = [(SSID_SET, 0), (SSID_SET, FAILED), (AUTH, FAILED), (SUPPLICANT, KEYED), (SCAN_RESULT, 0), *[(kind, 0) for kind in LEAVING]]
IDS = (0, 1, 10)  # the last request's in a session that began afresh, by leaving, by joining
TICKS = (0, 0, 0, 999, 1000)  # the start tick is 0; at 1,000 the disconnecting is over

# ---- answers after which a poll goes on, in most cases


def any_event(rng):
    return coming(event(*rng.choice(EVENTS)))


def empty_event(rng):
    return coming(packet(HEADER, EVENT, 0, payload=bytes(rng.randrange(20))))


def control(rng):
    return reply(rng.choice(IDS), rng.randrange(20))


def dropped_data(rng):
    return dropped(rng.randrange(20))


def short_data(rng):
    size = EMPTY + rng.randrange(1, SMALLEST_FRAME)
    return coming(packet(size, DATA, 0, payload=bytes(size - HEADER)))


def short_read(rng):
    return partial(rng.randrange(1, HEADER), packet(rng.choice((HEADER, 300)), rng.randrange(4), 0))


GOING_ON = [any_event, empty_event, empty_event, empty_event, control, dropped_data, short_data, short_read, short_read]

# ---- answers that end it, in most cases


def frame(rng):
    size = EMPTY + rng.randrange(SMALLEST_FRAME, 60)
    return coming(packet(size, DATA, 0, payload=bytes(size - HEADER)))


def no_packet(rng):
    return coming(bytes(rng.randrange(1, 30)))


def unheard(rng):
    return unstored(rng.randrange(20))


def beyond(rng):
    return coming(packet(HEADER, EVENT, 0, header=rng.randrange(HEADER + 1, 256)))


def none_pending(rng):
    return status(rng.getrandbits(32) & ~PENDING)


def any_pending(rng):
    """Most counts are too large, or come with an underflow: frame control is written."""
    return status(rng.getrandbits(32) | PENDING) + DONE


def fault(_):
    return FAULTY


def rubbish(rng):
    return rng.choice(([rng.getrandbits(32)], [(STATUS << 28) + 1, 0]))


ENDING = [frame, no_packet, unheard, beyond, none_pending, none_pending, any_pending, any_pending, fault, rubbish]


def tick(rng):
    return [TICK << 28, rng.choice(TICKS), 0]


def any_interrupt(rng):
    return interrupt(rng.choice((0, 1, rng.getrandbits(16)))) + DONE


# ---- recordings and sessions


def piece(rng, unready):
    if rng.random() < unready:
        return NOT_READY
    if rng.random() < 0.7:
        return rng.choice(GOING_ON)(rng)
    return rng.choice(ENDING)(rng) + rng.choice(([], tick(rng)))


def recording(rng, marked):
    """Each has its own share of statuses that are not ready, from none to all."""
    words = [] if marked else rng.choice((WOKEN, WOKEN, WOKEN, any_interrupt(rng) + tick(rng)))
    unready = rng.choice((0, 0.3, 0.7, 0.9, 1, 1))
    while len(words) < len(LENGTHS):
        words = words + piece(rng, unready)
    return words[: rng.choice(LENGTHS)]


JOINING = Call(0, JOIN, bytes(4) + (1).to_bytes(4, "little") + b"A", exchanges(1, 10, 2))  # an open network
BEGINNINGS = [[], [MARK, leave(1)], [MARK, leave(1)], [MARK, JOINING]]


def random_tries(rng, count):
    """A session of so many polls; before some the mark is set or cleared."""
    tries, before = [], rng.choice(BEGINNINGS)
    for _ in range(count):
        setting = rng.choice(([], [MARK], [UNMARK]))
        marked = setting == [MARK] if setting else rng.choice((False, True))
        tries.append(Try([*before, *setting], poll(recording(rng, marked))))
        before = []
    return tries
