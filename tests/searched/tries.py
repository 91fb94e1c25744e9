"""Polls, each with the calls before it, and what the programs make of them."""
from collections import namedtuple

from shown.session import Bad, played
from .states import DOWN

PLAYER, RUST = "target/bin/player", "target/oracle/release/oracle-player"
Try = namedtuple("Try", "before poll")
Seen = namedtuple("Seen", "state end")  # the state in which the poll began; how it ended


def seen_by(program, tries):
    """Each poll, in one session of all the tries."""
    calls = [call for before, poll in tries for call in (*before, poll)]
    try:
        ends = played(program, calls)
    except (Bad, ValueError) as error:
        raise Bad(f"{program}: {error}") from None
    states = [DOWN, *[end.state for end in ends]]
    seen, at = [], -1
    for before, _ in tries:
        at += len(before) + 1
        seen.append(Seen(states[at], ends[at]))
    return seen
