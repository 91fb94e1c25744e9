"""The theorem's table: the greatest log for recordings of 0 to 64 words."""
import re

from shown.session import Bad

FILE = "crates/definition/specs/Longest.antt"
LENGTHS = range(65)


def table_in(path):
    try:
        with open(path, encoding="utf-8") as file:
            found = re.search(r"^table =\s(.*?)\[\]", file.read(), re.MULTILINE | re.DOTALL)
    except OSError as error:
        raise Bad(f"{path} cannot be read: {error.strerror}") from None
    numbers = [part.strip() for part in found[1].split("∷")[:-1]] if found else []
    if len(numbers) != len(LENGTHS) or not all(number.isdigit() for number in numbers):
        raise Bad(f"{path} has other than {len(LENGTHS)} numbers from the line `table =` up to `[]`")
    return [int(number) for number in numbers]


def above(table, logs):
    """The logs that are longer than the table says; each has its recording before it."""
    return [(recording, log) for recording, log in logs if len(log) > table[len(recording)]]


def meeting(table, logs):
    """Those that are as long as it says."""
    return [(recording, log) for recording, log in logs if len(log) == table[len(recording)]]


def lengths_of(logs):
    return {len(recording) for recording, _ in logs}


def lowered(table, length):
    """One too low at this length, and there only."""
    return [number - (at == length) for at, number in enumerate(table)]


def noticed(table, logs):
    """For how many lengths the logs show that a table lowered there is wrong there."""
    return sum(length in lengths_of(above(lowered(table, length), logs)) for length in LENGTHS)
