"""Calls, and what the unchanged Rust shows after each."""
import subprocess
import sys
from collections import namedtuple

from shown.session import bytes_of, words_of
from .numbers import HEADER

RUST = ["target/oracle/release/oracle-player", "--full", "--session"]
# the words between the calls of a session file
ANEW, CAPACITY, CALL = 0xD0000000, 0xE0000000, 0xF0000000

Call = namedtuple("Call", "capacity number args recording")
End = namedtuple("End", "refusal sequence credit log front")
FRESH = End(0, 0, 1, [], bytes(HEADER))


def padded(data):
    return data + bytes(-len(data) % 4)


def file_of(sessions):
    words = []
    for calls in sessions:
        words.append(ANEW)
        for capacity, number, args, recording in calls:
            words += [CAPACITY + capacity, CALL + number, len(args), *words_of(padded(args)), len(recording), *recording]
    return bytes_of(words)


def sessions_in(words):
    sessions, at = [], 0
    while at < len(words):
        if words[at] == ANEW:
            sessions.append([])
            at += 1
            continue
        capacity, number, count = words[at] - CAPACITY, words[at + 1] - CALL, words[at + 2]
        recorded = at + 3 + (count + 3) // 4
        end = recorded + 1 + words[recorded]
        args = bytes_of(words[at + 3 : recorded])[:count]
        sessions[-1].append(Call(capacity, number, args, words[recorded + 1 : end]))
        at = end
    return sessions


def end_of(lines):
    """Takes the lines of one call."""
    _, refusal, _, _, sequence, credit, _, _, length = next(lines).split()
    if not refusal.isdigit():
        sys.exit("credits: the Rust panicked")
    log = [int(next(lines), 16) for _ in range(int(length))]
    _, buffer = next(words for words in map(str.split, lines) if words[0] == "buffer")
    next(lines)  # the output
    return End(int(refusal), int(sequence), int(credit), log, bytes.fromhex(buffer[: 2 * HEADER]))


def played(sessions):
    """For each session how each of its calls ended."""
    text = subprocess.run(RUST, input=file_of(sessions), stdout=subprocess.PIPE, check=True).stdout.decode()
    lines = iter(text.splitlines())
    return [[end_of(lines) for _ in calls] for calls in sessions]
