"""The longest log that a recording of so many words can leave, found in two ways."""
from functools import lru_cache
from itertools import accumulate

from .packets import COUNTS
from .points import END, answers_at

LEFT_OVER = 0  # a word of the recording behind the poll's end


@lru_cache(None)
def best(point, left):
    """Backwards: the longest log from a point on, and a recording of exactly `left` words that leaves it."""
    if point is END:
        return (), (LEFT_OVER,) * left
    found = [onward(answer, left) for answer in answers_at(point, COUNTS)]
    log, recording = max(found, key=lambda pair: len(pair[0]))
    return (point.operation, *log), recording


def onward(answer, left):
    """With this answer first. Where it is not wholly recorded the poll ends with refusal 8."""
    if len(answer.words) > left:
        return (), tuple(answer.words[:left])
    log, recording = best(answer.next, left - len(answer.words))
    return (*answer.waits, *log), (*answer.words, *recording)


def greatest(start, longest):
    """Forwards: for each length up to the longest, the most words that are in a log when no more of the recording is used."""
    reached = [{} for _ in range(longest + 1)]  # by the words used: the points, each with the most words logged before it
    reached[0][start] = 0
    for used, points in enumerate(reached):
        for point, logged in points.items():
            for answer in answers_at(point, COUNTS) if point is not END else []:
                then = used + len(answer.words)
                if then <= longest:
                    reached[then][answer.next] = max(reached[then].get(answer.next, 0), logged + 1 + len(answer.waits))
    ended = [max((logged + (point is not END) for point, logged in points.items()), default=0) for points in reached]
    return list(accumulate(ended, max))
