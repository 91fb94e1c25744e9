"""Bus operations and their answers in words."""
from .names import INTERRUPTS, PLACES, STATUS_BITS, bits, named
from .text import count, duration

INTERRUPT, STATUS, PACKET, CLOCK, TICK, WRITE, FAULT = range(1, 8)
CLEAR_INTERRUPT, FRAME_CONTROL, WAIT = 8, 9, 10
ANSWERS = {1: "an interrupt", 2: "a status", 3: "a packet", 4: "a clock", 5: "a tick", 6: "a write done", 7: "a bus fault"}


def operation(head):
    kind, low = head >> 28, head & 0xFFFF
    return {
        INTERRUPT: "read interrupt",
        STATUS: "read status",
        PACKET: f"read packet of {low:,}",
        CLOCK: "read clock",
        TICK: "read tick",
        WRITE: f"write packet of {low:,}",
        CLEAR_INTERRUPT: f"clear interrupt 0x{low:04x}",
        FRAME_CONTROL: f"write frame control {low}",
        WAIT: f"wait {duration(head & 0xFFFFFFF)}",
    }[kind]


def answers_kind(head):
    """The kind of answer that an operation takes."""
    kind = head >> 28
    return WRITE if kind in (WRITE, CLEAR_INTERRUPT, FRAME_CONTROL) else kind


def is_answer(head, answer):
    """Whether a recorded answer is one to the operation, a fault not counted."""
    kind = answers_kind(head)
    if kind == INTERRUPT:
        return answer[0] >> 16 == INTERRUPT << 12
    return answer[0] == (head if kind == PACKET else kind << 28)


def is_fault(head, answer):
    return answers_kind(head) not in (CLOCK, TICK) and 0x70000000 <= answer[0] <= 0x70000009


def answer_text(head, answer, left):
    """left: how many words of an answer are there that is not whole."""
    if answer is None:
        return "the recording is cut within the answer" if left else "the recording ends before the answer"
    if is_fault(head, answer):
        return f"bus fault, place {named(PLACES, answer[0] & 15)}"
    if not is_answer(head, answer):
        return f"not answered: the recording has {other(head, answer)} here"
    return VALUES[answers_kind(head)](answer)


def other(head, answer):
    """What stands in the place of an answer."""
    kind, asked = answer[0] >> 28, answers_kind(head)
    if kind == asked == PACKET and answer[0] >> 16 == PACKET << 12:
        return f"a packet of {count(answer[0] & 0xFFFF, 'byte')}"
    if kind == asked or kind == FAULT and asked not in (CLOCK, TICK):
        return f"{ANSWERS[kind]} with bits that must be zero"
    return ANSWERS.get(kind, "a word of no kind")


def listed(word, digits, names):
    return f"0x{word:0{digits}x}" + (": " + ", ".join(names) if names else "")


def interrupt_text(answer):
    return listed(answer[0] & 0xFFFF, 4, bits(INTERRUPTS, answer[0]))


def status_text(answer):
    word = answer[1]
    if word == 0xFFFFFFFF:
        return "0xffffffff: not ready"
    pending = (word & 0x000FFE00) >> 9
    return listed(word, 8, bits(STATUS_BITS, word) + ([f"{count(pending, 'byte')} pending"] if pending else []))


def time_of(answer):
    return answer[1] + (answer[2] << 32)


VALUES = {
    INTERRUPT: interrupt_text,
    STATUS: status_text,
    PACKET: lambda answer: f"{count(answer[0] & 0xFFFF, 'byte')} came",
    CLOCK: lambda answer: duration(1000 * time_of(answer)),
    TICK: lambda answer: f"{time_of(answer):,}",
    WRITE: lambda answer: "done",
}
