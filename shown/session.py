"""A session's words: the calls of a file, and what the player prints of them."""
import re
import subprocess
from collections import namedtuple

Call = namedtuple("Call", "line number args recording")
End = namedtuple("End", "refusal value state sequence credit flow id log")
WORD = re.compile("[0-9A-Fa-f]{1,8}")


class Bad(Exception):
    """What is wrong with an input, in a line. It names no word of the input, which may be one of a passphrase."""


def words_of(data):
    return [int.from_bytes(data[i : i + 4], "little") for i in range(0, len(data), 4)]


def bytes_of(words):
    return b"".join(word.to_bytes(4, "little") for word in words)


# ---- the file


def words_in(path):
    """The words of a file, each with its line; and what is wrong with the first that is none."""
    try:
        with open(path, encoding="latin-1") as file:
            lines = file.read().split("\n")
    except OSError as error:
        raise Bad(f"cannot be read: {error.strerror}") from None
    words = []
    for line, text in enumerate(lines, 1):
        for place, word in enumerate([] if text.startswith("#") else text.split(), 1):
            if not WORD.fullmatch(word):
                return words, f"line {line}: word {place} is no hexadecimal number of at most eight digits"
            words.append((line, int(word, 16)))
    return words, None


class Reader:
    """Reads words one after the other; `wrong` is what is wrong behind the last of them."""

    def __init__(self, words, wrong):
        self.words, self.wrong, self.at = words, wrong, 0

    def take(self, n, start, what):
        if len(self.words) - self.at < n:
            raise Bad(self.wrong or f"line {start}: the call that begins here is cut short in its {what}")
        self.at += n
        return [word for _, word in self.words[self.at - n : self.at]]

    def count(self, limit, start, what):
        (n,) = self.take(1, start, what)
        if n > limit:
            raise Bad(f"line {self.words[self.at - 1][0]}: the count of {what} is above {limit:,}")
        return n

    def call(self):
        line, head = self.words[self.at]
        if not 0xF0000001 <= head <= 0xF000000E:
            raise Bad(f"line {line}: no call begins with this word; they begin with F0000001 to F000000E")
        self.at += 1
        number, count = head & 0xF, self.count(2048, line, "argument bytes")
        args = bytes_of(self.take((count + 3) // 4, line, "argument bytes"))[:count]
        if number == 8 and count == 4 and int.from_bytes(args, "little") > 2048:
            raise Bad(f"line {line}: take's output length is above 2,048")
        recorded = self.count(4096, line, "recorded words")
        return Call(line, number, args, self.take(recorded, line, "recorded words"))


def calls_in(path):
    """The calls of a file up to the first that is none, and what is wrong with that."""
    words, wrong = words_in(path)
    reader, calls = Reader(words, wrong), []
    try:
        while reader.at < len(words):
            calls.append(reader.call())
    except Bad as bad:
        return calls, str(bad)
    return calls, wrong


# ---- the player


def input_of(call):
    args = call.args + bytes(-len(call.args) % 4)
    return [0xF0000000 + call.number, len(call.args), *words_of(args), len(call.recording), *call.recording]


def played(player, calls):
    """What the player prints of each call."""
    words = [word for call in calls for word in input_of(call)]
    try:
        text = subprocess.run([player], input=bytes_of(words), stdout=subprocess.PIPE, check=True).stdout.decode()
    except (OSError, subprocess.CalledProcessError):
        raise Bad("the player does not run") from None
    ends, lines = [], text.splitlines()
    while lines:
        _, *numbers, length = map(int, lines[0].split())
        ends.append(End(*numbers, [int(word, 16) for word in lines[1 : 1 + length]]))
        lines = lines[1 + length :]
    if len(ends) != len(calls):
        raise Bad("the player did not end all calls")
    return ends


# ---- operations and answers


def operations(log):
    """The operations of a log: head word and, of a write, its packet."""
    found = []
    while log:
        size = (log[0] & 0xFFFF) // 4 if log[0] >> 28 == 6 else 0
        found.append((log[0], bytes_of(log[1 : 1 + size])))
        log = log[1 + size :]
    return found


def answers(recording):
    """The answers of a recording that are wholly there."""
    found = []
    while recording:
        kind, low = recording[0] >> 28, recording[0] & 0xFFFF
        size = {2: 2, 3: 2 + (low + 3) // 4, 4: 3, 5: 3}.get(kind, 1)
        if len(recording) < size:
            break
        found.append(recording[:size])
        recording = recording[size:]
    return found
