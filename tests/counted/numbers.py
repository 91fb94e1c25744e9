"""Document 01's numbers: calls, refusals, kinds of words, the SDPCM header, the credit rule."""

INIT, JOIN, POLL, SEND, GET, VARIABLE = 1, 3, 6, 7, 11, 13
INVALID, TIMEOUT, FAULTED, UNRECORDED, WRONG_ANSWER, BEYOND, LOG_FULL = 1, 2, 7, 8, 9, 10, 12
ROLLED_BACK = (8, 9, 12, 13)
REFUSALS = range(1, 14)
# the top 4 bits of a word
INTERRUPT, STATUS, PACKET, CLOCK, TICK, WRITE, FAULT, WAIT = 1, 2, 3, 4, 5, 6, 7, 10
LOG = 8192
# the header: its length, the places of sequence, channel and credit, and how much of it every transfer lays
HEADER, SEQUENCE, CHANNEL, CREDIT, SHORT = 12, 4, 5, 9, 8
CONTROL, EVENT, DATA, OTHER = range(4)
LIMIT, ROUND = 20, 256  # the largest advance; how many numbers and credits there are
TRIES = 1000  # a write reads the status so often
LAID = bytes(HEADER - SHORT)  # bytes 8 to 11 of a sent header
