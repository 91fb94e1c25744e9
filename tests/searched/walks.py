"""Random ways through a poll's points, not only the longest ones: they show whether the points are the driver's."""
from .points import END, answers_at
from .search import LEFT_OVER

SOME_COUNTS = (1, 8, 12, 32, 36, 40, 44, 48, 52, 120)  # packets up to, around and past an event's type and end
ONWARD = 0.9  # how often an answer is chosen after which the poll goes on, where there is one


def some_answer(rng, point):
    answers = answers_at(point, SOME_COUNTS)
    onward = [answer for answer in answers if answer.next is not END]
    return rng.choice(onward if onward and rng.random() < ONWARD else answers)


def walk(rng, point, length):
    """A log, and the recording of so many words that leaves it."""
    log, recording = [], []
    while point is not END:
        answer = some_answer(rng, point)
        log.append(point.operation)
        recording += answer.words
        if len(recording) > length:
            return log, recording[:length]
        log += answer.waits
        point = answer.next
    return log, recording + [LEFT_OVER] * (length - len(recording))
