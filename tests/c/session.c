/* Plays the player's input through the C entries, as a board does: each call begins with an empty recording; while it is refused
 * with 8, the log's last operation is done on a simulated bus, its answer is recorded, and the call is made again. The bus has the
 * answers of the input. A poll is lent a log of one word more than its recording has. Prints what the player prints. */
#include <cyw43.h>
#include <stdio.h>
#include <stdlib.h>
#include <string.h>

enum { LOG_WORDS = 8192, RECORDING_WORDS = 4096, ARGUMENT_BYTES = 2048, POLL = 6 };

static uint8_t session[CYW43_SESSION_BYTES];
static uint8_t undo[CYW43_UNDO_BYTES];
static size_t undo_bytes = sizeof undo;
static uint8_t buf[CYW43_BUFFER_BYTES];
static uint32_t log_words[LOG_WORDS];
static size_t log_room = LOG_WORDS;
static uint64_t result[2];

struct call {
    uint32_t number;
    uint8_t args[ARGUMENT_BYTES];
    size_t count;
    uint32_t answers[RECORDING_WORDS];
    size_t words;
    uint8_t out[ARGUMENT_BYTES];
};

static void fail(const char *why)
{
    fprintf(stderr, "session: %s\n", why);
    exit(1);
}

static uint32_t le32(const uint8_t *b)
{
    return b[0] | (uint32_t)b[1] << 8 | (uint32_t)b[2] << 16 | (uint32_t)b[3] << 24;
}

static int read_word(uint32_t *w)
{
    uint8_t b[4];
    size_t n = fread(b, 1, 4, stdin);
    if (n == 4)
        *w = le32(b);
    return n == 4 ? 1 : n == 0 ? 0 : -1;
}

/* 1 a call, 0 the input's end, -1 bad. */
static int read_call(struct call *c)
{
    uint32_t w, n;
    int head = read_word(&w);
    if (head != 1)
        return head;
    if (w <= 0xF0000000 || w > 0xF000000E || read_word(&n) != 1 || n > ARGUMENT_BYTES)
        return -1;
    c->number = w - 0xF0000000;
    c->count = n;
    size_t padded = (n + 3) / 4 * 4;
    if (fread(c->args, 1, padded, stdin) != padded || read_word(&n) != 1 || n > RECORDING_WORDS)
        return -1;
    c->words = n;
    for (size_t i = 0; i < n; i++)
        if (read_word(&c->answers[i]) != 1)
            return -1;
    if (c->number == 8 && c->count == 4 && le32(c->args) > ARGUMENT_BYTES)
        return -1;
    return 1;
}

/* How many words the answer has that begins with this one. */
static size_t answer_words(uint32_t head)
{
    switch (head >> 28) {
    case 2: return 2;
    case 3: return 1 + (4 + (head & 0xFFFF) + 3) / 4;
    case 4:
    case 5: return 3;
    default: return 1;
    }
}

/* How many words the operation has that begins with this one. */
static size_t operation_words(uint32_t head)
{
    return head >> 28 == 6 ? 1 + ((head & 0xFFFF) + 3) / 4 : 1;
}

/* The log's last operation. */
static uint32_t wanted(size_t len)
{
    size_t i = 0, last = 0;
    if (len == 0)
        fail("8 without an operation");
    while (i < len) {
        last = i;
        i += operation_words(log_words[i]);
    }
    if (i != len)
        fail("the log ends within an operation");
    if (log_words[last] >> 28 == 10)
        fail("8 at a wait");
    return log_words[last];
}

#define LENT session, sizeof session, undo, undo_bytes, rec, n, log_words, log_room, buf, sizeof buf, result, 2

/* The call with the first n words of its answers; 1 where its argument bytes are too few or too many. */
static uint32_t enter(struct call *c, size_t n)
{
    const uint32_t *rec = c->answers;
    const uint8_t *a = c->args;
    size_t k = c->count;
    log_room = c->number == POLL ? n + 1 : LOG_WORDS;
    switch (c->number) {
    case 1: return k == 4 ? cyw43_init(le32(a), LENT) : 1;
    case 2: return k == 0 ? cyw43_scan(LENT) : 1;
    case 3: return k >= 8 && le32(a + 4) <= k - 8 ? cyw43_join(le32(a), a + 8, le32(a + 4), a + 8 + le32(a + 4), k - 8 - le32(a + 4), LENT) : 1;
    case 4: return k == 0 ? cyw43_leave(LENT) : 1;
    case 5: return k == 0 ? cyw43_abort(LENT) : 1;
    case POLL: return k == 0 ? cyw43_poll(LENT) : 1;
    case 7: return k >= 4 ? cyw43_send(le32(a), a + 4, k - 4, LENT) : 1;
    case 8: return k == 4 ? cyw43_take(session, sizeof session, buf, sizeof buf, c->out, le32(a), result, 2) : 1;
    case 9: return k == 8 ? cyw43_gpio(le32(a), le32(a + 4), LENT) : 1;
    case 10: return k == 0 ? cyw43_mac(LENT) : 1;
    case 11: return k == 8 ? cyw43_get(le32(a), le32(a + 4), LENT) : 1;
    case 12: return k == 12 ? cyw43_set(le32(a), le32(a + 4), le32(a + 8), LENT) : 1;
    case 13: {
        const uint8_t *zero = k > 4 ? memchr(a + 4, 0, k - 4) : NULL;
        return zero ? cyw43_variable(le32(a), a + 4, (size_t)(zero - a) - 4, zero + 1, k - (size_t)(zero - a) - 1, LENT) : 1;
    }
    default: return k == 0 ? cyw43_up(LENT) : 1;
    }
}

/* Is the answer of the operation's kind? A fault is one to all but clock and tick. */
static int answers(uint32_t answer, uint32_t operation)
{
    uint32_t kind = operation >> 28;
    if (answer >> 28 == 7)
        return kind != 4 && kind != 5;
    return answer >> 28 == (kind < 6 ? kind : 6);
}

/* Calls until the call ends, or no whole answer is left. An answer of another kind must end it with 9. Each time undo has other bytes. */
static uint32_t play(struct call *c)
{
    size_t n = 0;
    int wrong = 0;
    static uint8_t filler;
    for (;;) {
        memset(undo, filler++, sizeof undo);
        result[0] = result[1] = 0;
        uint32_t refusal = enter(c, n);
        if (wrong && refusal != 9)
            fail("an answer of another kind was taken");
        if (refusal != 8)
            return refusal;
        uint32_t operation = wanted((size_t)result[1]);
        if (n == c->words)
            return 8;
        uint32_t head = c->answers[n];
        size_t size = answer_words(head);
        wrong = size <= c->words - n && !answers(head, operation);
        n = size <= c->words - n ? n + size : c->words;
    }
}

static void print(const struct call *c, uint32_t refusal)
{
    printf("%u %u %llu %u %u %u %u %u %llu\n", c->number, refusal, (unsigned long long)result[0], session[CYW43_STATE], session[CYW43_SEQUENCE],
           session[CYW43_CREDIT], session[CYW43_FLOW], session[CYW43_ID], (unsigned long long)result[1]);
    for (size_t i = 0; i < result[1]; i++)
        printf("%08x\n", log_words[i]);
}

static struct {
    uint8_t session[sizeof session], undo[sizeof undo], buf[sizeof buf];
    uint32_t log_words[LOG_WORDS];
} before;

/* A fresh session, and known bytes in all else that is lent. */
static void begin(void)
{
    if (cyw43_fresh(session, sizeof session) != 0)
        fail("no fresh session");
    memset(undo, 7, sizeof undo);
    memset(buf, 7, sizeof buf);
    memset(log_words, 7, sizeof log_words);
    log_room = LOG_WORDS;
    result[0] = result[1] = 7;
}

static void note(void)
{
    memcpy(before.session, session, sizeof session);
    memcpy(before.undo, undo, sizeof undo);
    memcpy(before.buf, buf, sizeof buf);
    memcpy(before.log_words, log_words, sizeof log_words);
}

/* Is all but the result as it was noted? */
static int as_noted(void)
{
    return memcmp(before.session, session, sizeof session) == 0 && memcmp(before.undo, undo, sizeof undo) == 0 &&
           memcmp(before.buf, buf, sizeof buf) == 0 && memcmp(before.log_words, log_words, sizeof log_words) == 0;
}

/* Bytes that are no session's are refused, and nothing is changed; with an undo of another length too. */
static void refused(void)
{
    const struct { size_t at; uint8_t byte; } broken[] = {{4, 2}, {7, 2}, {8, 1}, {16, 2}, {17, 1}, {21, 4}, {22, 6}, {23, 8}, {24, 1}, {32, 2}, {33, 1}};
    for (size_t i = 0; i < sizeof broken / sizeof *broken; i++) {
        begin();
        session[broken[i].at] = broken[i].byte;
        note();
        undo_bytes = sizeof undo - i % 2;
        size_t n = 0;
        const uint32_t rec[1] = {0};
        if (cyw43_poll(LENT) != CYW43_NO_SESSION || !as_noted() || result[0] != 7 || result[1] != 7)
            fail("a broken session was not refused as it was");
    }
    undo_bytes = sizeof undo;
    if (cyw43_fresh(session, sizeof session - 1) != CYW43_NO_SESSION)
        fail("a short session was made");
}

/* Every call that takes an undo refuses a shorter one with 13, bad arguments or not; nothing but the result is changed. */
static void short_undo(struct call *c)
{
    const struct { uint32_t call; size_t count; } calls[] = {{1, 4}, {2, 0}, {3, 8}, {4, 0}, {5, 0}, {6, 0}, {7, 4}, {9, 8}, {10, 0}, {11, 8}, {12, 12}, {13, 5}, {14, 0}};
    memset(c->args, 255, 4);
    undo_bytes = sizeof undo - 1;
    for (size_t i = 0; i < sizeof calls / sizeof *calls; i++) {
        c->number = calls[i].call;
        c->count = calls[i].count;
        begin();
        note();
        if (enter(c, 0) != 13 || !as_noted() || result[0] != 0 || result[1] != 0)
            fail("a short undo was not refused as it was");
    }
    undo_bytes = sizeof undo;
}

int main(void)
{
    static struct call c;
    refused();
    short_undo(&c);
    begin();
    memset(buf, 0, sizeof buf);
    for (;;) {
        int read = read_call(&c);
        if (read == 0)
            return 0;
        if (read < 0) {
            puts("bad");
            return 0;
        }
        print(&c, play(&c));
    }
}
