"""A call in lines: its arguments, its bus operations with their answers, its result.

What is not shown: the passphrase in join's arguments; the bytes of a written packet past its declared size; the places of a key
packet where join laid the passphrase; once one was laid, the payload of a reply that does not answer the request before it in
its call, and a value that no shown reply brought; and wherever a passphrase of eight bytes or more stands in other bytes.
"""
import itertools

from . import arguments, bus, names, packets, session
from .text import blotted, count

KEY_WAIT = 0xA0000000 + 2_000_000  # 2 ms: join waits so long beside each key that it lays
SCAN, POLL, MAC, GET = 2, 6, 10, 11
# what a failed scan's status did, by whether a scan was in progress
FAILED = {
    True: "scan: failed, so it is over and another may begin; the networks heard stay",
    False: "scan: failed, but none is in progress: nothing changes",
    None: "scan: failed, so one in progress is over",
}


class View:
    def __init__(self, calls):
        self.keys = arguments.keys(calls)
        self.laid = False  # a passphrase, by some join
        self.scanning = False  # whether a scan is in progress; None where that cannot be told

    def call(self, number, call, end):
        self.asked = None  # the id of the request that was last written in this call, if it is no key's
        self.replies = []  # the payloads that were shown
        self.places = iter(arguments.key_places(call))
        self.place = None  # of the key in the next written packet
        self.rolled_back = end.refusal in names.ROLLED_BACK
        head = f"{number}. {names.CALLS[call.number]} {arguments.arguments(call, self.keys)}".rstrip()
        lines = [f"{head}  [line {call.line}]", *once(self.operations(call, end)), *self.result(call, end)]
        if call.number == SCAN and end.refusal == 0 and end.log:
            self.scanning = True
        return lines

    # ---- operations

    def operations(self, call, end):
        """A list of lines for each operation, with the wait after it."""
        found = session.answers(call.recording)
        answers, left = iter(found), len(call.recording) - sum(map(len, found))
        shown = []
        for op in session.operations(end.log):
            lines = self.operation(call, op, answers, left)
            if shown and op[0] >> 28 == bus.WAIT:
                shown[-1] += lines
            else:
                shown.append(lines)
        unused = sum(1 for _ in answers)
        return shown + ([[f"    {count(unused, 'recorded answer')} not used"]] if unused else [])

    def operation(self, call, op, answers, left):
        head, written = op
        if head >> 28 == bus.WAIT:
            self.waited(call, head)
            return ["    " + bus.operation(head)]
        answer = next(answers, None)
        lines = [f"    {bus.operation(head):26}{bus.answer_text(head, answer, left)}"]
        if head >> 28 == bus.WRITE:
            lines += self.written(call, written)
        if head >> 28 == bus.PACKET and answer and bus.is_answer(head, answer):
            lines += self.received(session.bytes_of(answer[1:])[4 : 4 + (head & 0xFFFF)])
        return lines[:1] + ["        " + line for line in lines[1:]]

    def waited(self, call, head):
        if head == KEY_WAIT and call.number == arguments.JOIN:
            self.laid, self.place = True, next(self.places)

    def written(self, call, data):
        """A key packet without the passphrase."""
        shown, is_key = blotted(data, self.keys), self.place is not None
        if is_key:
            end = min(self.place + len(arguments.passphrase(call)), len(shown))
            shown[self.place : end] = [None] * (end - self.place)
        ioctl = packets.ioctl_in(data)
        self.asked = ioctl.id if ioctl and not is_key else None
        self.place = None
        return packets.packet(data, shown)

    def received(self, data):
        shown, ioctl = blotted(data, self.keys), packets.ioctl_in(data)
        if ioctl and self.payload_shown(ioctl.id):
            self.replies.append(shown[ioctl.payload_at : packets.size_of(data)])
        return packets.packet(data, shown, self.payload_shown) + self.scanned(packets.scan_status(data))

    def scanned(self, status):
        """What a scan's status did; a network has its own line."""
        if status is None or status == names.PARTIAL:
            return []
        if status == packets.UNKNOWN:
            if self.scanning and not self.rolled_back:
                self.scanning = None
            return []
        done = status == names.SUCCESS
        if self.rolled_back:
            return [f"scan: {'done' if done else 'failed'}, but the call is rolled back: nothing changes"]
        before, self.scanning = self.scanning, False
        return ["scan: done" if done else FAILED[before]]

    def payload_shown(self, ident):
        return not self.laid or ident == self.asked

    # ---- the result

    def result(self, call, end):
        kept = ", as before the call" if self.rolled_back else ""
        left = (end.credit - end.sequence) % 256  # of the credit
        credit = f"sequence {end.sequence}, credit {end.credit} ({left} left)"
        state = f"state {names.named(names.STATES, end.state)}, {credit}, flow {end.flow}, id {end.id}{kept}"
        return [f"    = {self.outcome(call, end)}", f"      {state}", *self.log_length(call, end)]

    def log_length(self, call, end):
        """Of a poll, how long its log is, and how long one can get with such a recording."""
        if call.number != POLL:
            return []
        recorded = len(call.recording)
        most = f"at most {longest_log(recorded):,} for a recording of {count(recorded, 'word')}"
        return [f"      log of {count(len(end.log), 'word')}, {most}"]

    def outcome(self, call, end):
        if end.refusal:
            place = f", place {names.named(names.PLACES, end.value)}" if end.refusal == 7 else ""
            return f"refused {end.refusal}, {names.REFUSALS[end.refusal]}{place}"
        if call.number == POLL:
            return names.POLLED[end.value]
        if call.number == arguments.TAKE:
            return f"a frame of {count(end.value, 'byte')}"
        if call.number == GET:
            return self.value(list(end.value.to_bytes(4, "little")), f"value {end.value} (0x{end.value:08x})")
        if call.number == MAC:
            mac = list(end.value.to_bytes(6, "big"))
            return self.value(mac, "address " + packets.address(mac))
        return "done"

    def value(self, data, text):
        brought = any(payload[: len(data)] == data for payload in self.replies)
        return text if brought or not self.laid else "a value, not shown: no reply above has it, and a passphrase may lie there"


def longest_log(recorded):
    """The longest log that a poll can leave, by the words of its recording: `most` of crates/definition/specs/Longest.antt."""
    return 2 if recorded == 1 else recorded // 2 * 2 + 1


def once(groups):
    """The lines of each operation; of three or more that are alike in a row, the first, and how many follow."""
    lines = []
    for group, alike in itertools.groupby(groups):
        more = len(list(alike)) - 1
        lines += group if more != 1 else group + group
        if more > 1:
            lines.append(f"        and {more:,} times more")
    return lines
