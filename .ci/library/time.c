/* How long each call of libhlc takes, beside a plain C function that makes the same tests. By hand, from the top:
 *
 *     cc -O2 -Iinclude .ci/library/time.c crates/hlc_c/out/libhlc.a -o time_calls && ./time_calls
 */
#define _POSIX_C_SOURCE 200809L
#include "hlc.h"

#include <stdio.h>
#include <stdlib.h>
#include <string.h>
#include <time.h>

/* A function that is called as one of a library is: gcc looks at nothing of it. */
#define PLAIN __attribute__((noipa))

static int is_reading(uint64_t reading)
{
    return reading >= 1 && reading <= INT64_MAX;
}

static uint64_t greater(uint64_t a, uint64_t b)
{
    return a > b ? a : b;
}

PLAIN uint32_t plain_tick(hlc_stamp *clock, uint64_t reading)
{
    if (!is_reading(reading))
        return HLC_READING;
    if (reading > clock->l) {
        clock->l = reading;
        clock->c = 0;
    } else if (clock->c == UINT32_MAX) {
        return HLC_NO_ROOM;
    } else {
        clock->c++;
    }
    return HLC_OK;
}

PLAIN uint32_t plain_tick_within(hlc_stamp *clock, uint64_t reading, uint64_t limit)
{
    if (is_reading(reading) && clock->l > reading && clock->l - reading > limit)
        return HLC_TOO_FAR;
    return plain_tick(clock, reading);
}

PLAIN uint32_t plain_merge(hlc_stamp *clock, hlc_stamp message, uint64_t reading)
{
    if (!is_reading(reading))
        return HLC_READING;
    uint64_t l = greater(greater(clock->l, message.l), reading);
    if ((l == clock->l && clock->c == UINT32_MAX) || (l == message.l && message.c == UINT32_MAX))
        return HLC_NO_ROOM;
    if (l == clock->l && l == message.l)
        clock->c = (clock->c > message.c ? clock->c : message.c) + 1;
    else if (l == clock->l)
        clock->c++;
    else if (l == message.l)
        clock->c = message.c + 1;
    else
        clock->c = 0;
    clock->l = l;
    return HLC_OK;
}

PLAIN uint32_t plain_merge_within(hlc_stamp *clock, hlc_stamp message, uint64_t reading, uint64_t limit)
{
    uint64_t l = greater(clock->l, message.l);
    if (is_reading(reading) && l > reading && l - reading > limit)
        return HLC_TOO_FAR;
    return plain_merge(clock, message, reading);
}

PLAIN bool plain_is_below(hlc_stamp first, hlc_stamp second)
{
    return first.l < second.l || (first.l == second.l && first.c < second.c);
}

/* The next number of a packed clock: the one after the greatest of some, or the first of the reading. */
static uint32_t plain_packed_step(uint64_t above, uint32_t bits, uint64_t reading, uint64_t *number)
{
    uint64_t first = reading << bits;
    if (above == UINT64_MAX)
        return HLC_NO_ROOM;
    *number = greater(above + 1, first);
    return HLC_OK;
}

/* Whether the l of the number after one is too far ahead. */
static int is_packed_far(uint64_t number, uint32_t bits, uint64_t reading, uint64_t limit)
{
    uint64_t mask = ((uint64_t)1 << bits) - 1, l = (number >> bits) + ((number & mask) == mask);
    return l > reading && l - reading > limit;
}

PLAIN uint32_t plain_packed_tick(uint64_t *clock, uint32_t bits, uint64_t reading, uint64_t limit)
{
    if (bits < 1 || bits > 32)
        return HLC_BITS;
    if (reading == 0 || reading >> (64 - bits) != 0)
        return HLC_READING;
    if (is_packed_far(*clock, bits, reading, limit))
        return HLC_TOO_FAR;
    return plain_packed_step(*clock, bits, reading, clock);
}

PLAIN uint32_t plain_packed_merge(uint64_t *clock, uint64_t message, uint32_t bits, uint64_t reading, uint64_t limit)
{
    if (bits < 1 || bits > 32)
        return HLC_BITS;
    if (reading == 0 || reading >> (64 - bits) != 0)
        return HLC_READING;
    if (is_packed_far(*clock, bits, reading, limit))
        return HLC_TOO_FAR;
    if (is_packed_far(message, bits, reading, limit))
        return HLC_MESSAGE_TOO_FAR;
    return plain_packed_step(greater(*clock, message), bits, reading, clock);
}

PLAIN uint32_t plain_judge(const hlc_claim *claims, size_t count, hlc_verdict *verdicts, size_t places, uint32_t *bad)
{
    if (count != places)
        return HLC_LENGTHS;
    for (size_t i = 0; i < count; i++) {
        const hlc_claim *claim = &claims[i];
        int is_fit = i < 1048576 && claim->node < 64 && is_reading(claim->reading) && claim->kind <= HLC_RECEIVE;
        if (is_fit && claim->kind == HLC_RECEIVE)
            is_fit = claim->sent < i && claims[claim->sent].kind == HLC_SEND && claims[claim->sent].node != claim->node;
        if (!is_fit) {
            *bad = (uint32_t)i;
            return HLC_BAD_TRACE;
        }
    }
    hlc_stamp *least = malloc((count + 1) * sizeof *least);
    if (!least)
        return HLC_MEMORY;
    size_t last[64] = {0};
    for (size_t i = 0; i < count; i++) {
        const hlc_claim *claim = &claims[i];
        hlc_stamp own = {claim->l, claim->c}, *clock = &least[i];
        size_t previous = last[claim->node], sent = claim->kind == HLC_RECEIVE ? claim->sent + 1 : 0;
        last[claim->node] = i + 1;
        *clock = previous ? least[previous - 1] : (hlc_stamp){0, 0};
        if (sent)
            plain_merge(clock, least[sent - 1], claim->reading);
        else
            plain_tick(clock, claim->reading);
        hlc_verdict verdict = {0, 0, 0, HLC_LEAST};
        if (claim->l < claim->reading) {
            verdict.kind = HLC_BEHIND;
        } else if (previous && !plain_is_below((hlc_stamp){claims[previous - 1].l, claims[previous - 1].c}, own)) {
            verdict.kind = HLC_NOT_ABOVE;
            verdict.event = (uint32_t)previous - 1;
        } else if (sent && !plain_is_below((hlc_stamp){claims[sent - 1].l, claims[sent - 1].c}, own)) {
            verdict.kind = HLC_NOT_ABOVE;
            verdict.event = (uint32_t)sent - 1;
        } else if (own.l != clock->l || own.c != clock->c) {
            verdict = (hlc_verdict){clock->l, clock->c, 0, plain_is_below(own, *clock) ? HLC_LOW : HLC_AHEAD};
        }
        verdicts[i] = verdict;
    }
    free(least);
    return HLC_OK;
}

PLAIN uint32_t plain_judge_next(hlc_judged *last, const hlc_judged *sent, uint32_t event, uint64_t reading, hlc_stamp claimed, hlc_verdict *verdict)
{
    hlc_stamp least = last->least;
    uint32_t status = plain_merge(&least, sent->least, reading);
    if (status != HLC_OK)
        return status;
    hlc_verdict said = {0, 0, 0, HLC_LEAST};
    if (claimed.l < reading) {
        said.kind = HLC_BEHIND;
    } else if (!plain_is_below(last->claimed, claimed)) {
        said.kind = HLC_NOT_ABOVE;
        said.event = last->event;
    } else if (!plain_is_below(sent->claimed, claimed)) {
        said.kind = HLC_NOT_ABOVE;
        said.event = sent->event;
    } else if (claimed.l != least.l || claimed.c != least.c) {
        said = (hlc_verdict){least.l, least.c, 0, plain_is_below(claimed, least) ? HLC_LOW : HLC_AHEAD};
    }
    *verdict = said;
    *last = (hlc_judged){claimed, least, event};
    return HLC_OK;
}

/* Digits up to a place, and where they begin. */
static char *digits_before(char *end, uint64_t number)
{
    do
        *--end = (char)('0' + number % 10);
    while (number /= 10);
    return end;
}

PLAIN size_t plain_stamp_text(char *buffer, size_t size, hlc_stamp stamp)
{
    char text[HLC_STAMP_SIZE], *end = text + sizeof text, *begin = digits_before(end, stamp.c);
    *--begin = '.';
    begin = digits_before(begin, stamp.l);
    size_t length = (size_t)(end - begin);
    if (length <= size)
        memcpy(buffer, begin, length);
    return length;
}

static const char *number_in(const char *text, const char *end, uint64_t *number)
{
    const char *begin = text;
    uint64_t value = 0;
    for (; text < end && *text >= '0' && *text <= '9'; text++) {
        uint64_t digit = (uint64_t)(*text - '0');
        if (text - begin == 20 || value > (UINT64_MAX - digit) / 10)
            return NULL;
        value = value * 10 + digit;
    }
    *number = value;
    return text > begin ? text : NULL;
}

PLAIN uint32_t plain_stamp_read(const char *text, size_t length, hlc_stamp *stamp)
{
    uint64_t l, c;
    const char *end = text + length, *dot = number_in(text, end, &l);
    if (!dot || dot == end || *dot != '.' || number_in(dot + 1, end, &c) != end || c > UINT32_MAX)
        return HLC_TEXT;
    *stamp = (hlc_stamp){l, (uint32_t)c};
    return HLC_OK;
}

static int is_mark(char byte)
{
    return byte == ',' || byte == '"' || byte == '\r' || byte == '\n';
}

/* How long a field is, between quotes if it needs them. */
static size_t field_length(hlc_text field)
{
    size_t quotes = 0;
    int is_quoted = 0;
    for (size_t i = 0; i < field.length; i++) {
        is_quoted |= is_mark(field.bytes[i]);
        quotes += field.bytes[i] == '"';
    }
    return field.length + (is_quoted ? quotes + 2 : 0);
}

static char *put_field(char *to, hlc_text field, size_t length)
{
    if (length == field.length) {
        if (length)
            memcpy(to, field.bytes, length);
        return to + length;
    }
    *to++ = '"';
    for (size_t i = 0; i < field.length; i++) {
        if (field.bytes[i] == '"')
            *to++ = '"';
        *to++ = field.bytes[i];
    }
    *to++ = '"';
    return to;
}

static hlc_text number_text(char *end, uint64_t number)
{
    char *begin = number ? digits_before(end, number) : end;
    return (hlc_text){begin, (size_t)(end - begin)};
}

PLAIN size_t plain_packed_log_row(char *buffer, size_t size, const hlc_log_event *event, uint64_t stamp, uint64_t carried)
{
    static const hlc_text words[] = {{"local", 5}, {"send", 4}, {"receive", 7}, {"restart", 7}};
    char digits[3][20];
    if (event->kind > HLC_RESTART || !event->node.length || event->node.length > 256 || event->message.length > 256 || event->from.length > 256
        || event->label.length > UINT32_MAX || event->reading > INT64_MAX)
        return 0;
    if (event->kind == HLC_RECEIVE ? !event->message.length && (!event->from.length || !carried) : !stamp)
        return 0;
    const hlc_text fields[] = {words[event->kind], event->node, number_text(digits[0] + 20, event->reading), number_text(digits[1] + 20, stamp),
        event->message, event->from, number_text(digits[2] + 20, carried), event->label};
    size_t lengths[8], length = 8;
    for (int i = 0; i < 8; i++)
        length += lengths[i] = field_length(fields[i]);
    if (length <= size) {
        for (int i = 0; i < 8; i++) {
            buffer = put_field(buffer, fields[i], lengths[i]);
            *buffer++ = i < 7 ? ',' : '\n';
        }
    }
    return length;
}

static double seconds(void)
{
    struct timespec now;
    clock_gettime(CLOCK_THREAD_CPUTIME_ID, &now);
    return (double)now.tv_sec + (double)now.tv_nsec * 1e-9;
}

enum { INPUTS = 4096, ROUNDS = 2000, TRIES = 9, CLAIMS = 1 << 20 };

static uint64_t readings[INPUTS];
static hlc_stamp messages[INPUTS];
static hlc_claim claims[CLAIMS];
static hlc_verdict verdicts[CLAIMS];
static volatile uint32_t sink;

/* The least time of some tries, in nanoseconds a call, of a call on a clock, packed or not, a message and a reading. */
#define CALLS(name, call)                                                                          \
    do {                                                                                           \
        double best = 1e9;                                                                         \
        for (int try = 0; try < TRIES; try++) {                                                    \
            hlc_stamp clock = {0, 0};                                                              \
            uint64_t packed = 0;                                                                   \
            uint32_t sum = 0;                                                                      \
            (void)clock, (void)packed;                                                             \
            double begun = seconds();                                                              \
            for (uint32_t i = 0; i < INPUTS * ROUNDS; i++) {                                       \
                uint64_t reading = readings[i % INPUTS] + (uint64_t)(i / INPUTS) * INPUTS;         \
                hlc_stamp message = messages[i % INPUTS];                                          \
                message.l += (uint64_t)(i / INPUTS) * INPUTS;                                      \
                sum += (uint32_t)(call);                                                           \
                (void)reading;                                                                     \
            }                                                                                      \
            double took = seconds() - begun;                                                       \
            sink = sum;                                                                            \
            best = took < best ? took : best;                                                      \
        }                                                                                          \
        printf("%-20s %6.2f ns\n", name, best / ((double)INPUTS * ROUNDS) * 1e9);                  \
    } while (0)

#define JUDGES(name, judge)                                                                        \
    do {                                                                                           \
        double best = 1e9;                                                                         \
        for (int try = 0; try < TRIES; try++) {                                                    \
            uint32_t bad = 0;                                                                      \
            double begun = seconds();                                                              \
            sink = judge(claims, CLAIMS, verdicts, CLAIMS, &bad);                                  \
            double took = seconds() - begun;                                                       \
            best = took < best ? took : best;                                                      \
        }                                                                                          \
        printf("%-20s %6.2f ns a claim, status %u\n", name, best / CLAIMS * 1e9, sink);            \
    } while (0)

int main(void)
{
    uint32_t drawn = 1;
    for (uint32_t i = 0; i < INPUTS; i++) {
        drawn = drawn * 1664525u + 1013904223u;
        readings[i] = 1000 + i / 4 + (drawn >> 28);
        messages[i] = (hlc_stamp){1000 + i / 4 + (drawn >> 24 & 15), drawn >> 8 & 7};
    }
    hlc_stamp clocks[64] = {{0, 0}};
    for (uint32_t i = 0; i < CLAIMS; i++) {
        uint32_t node = i % 64, kind = i % 3, sent = 0;
        if (kind == HLC_RECEIVE)
            sent = i - 1;
        if (kind == HLC_RECEIVE)
            plain_merge(&clocks[node], (hlc_stamp){claims[sent].l, claims[sent].c}, 1000 + i / 4);
        else
            plain_tick(&clocks[node], 1000 + i / 4);
        claims[i] = (hlc_claim){1000 + i / 4, clocks[node].l, clocks[node].c, sent, node, kind};
    }
    CALLS("the loop alone", clock.c + message.c + reading);
    CALLS("plain_tick", plain_tick(&clock, reading));
    CALLS("hlc_tick", hlc_tick(&clock, reading));
    CALLS("plain_tick_within", plain_tick_within(&clock, reading, 5000));
    CALLS("hlc_tick_within", hlc_tick_within(&clock, reading, 5000));
    CALLS("plain_merge", plain_merge(&clock, message, reading));
    CALLS("hlc_merge", hlc_merge(&clock, message, reading));
    CALLS("plain_merge_within", plain_merge_within(&clock, message, reading, 5000));
    CALLS("hlc_merge_within", hlc_merge_within(&clock, message, reading, 5000));
    CALLS("plain_is_below", (clock = message, plain_is_below(clock, messages[reading % INPUTS])));
    CALLS("hlc_is_below", (clock = message, hlc_is_below(clock, messages[reading % INPUTS])));
    CALLS("plain_packed_tick", plain_packed_tick(&packed, 16, reading, 5000));
    CALLS("hlc_packed_tick", hlc_packed_tick(&packed, 16, reading, 5000));
    CALLS("plain_packed_merge", plain_packed_merge(&packed, message.l << 16 | message.c, 16, reading, 5000));
    CALLS("hlc_packed_merge", hlc_packed_merge(&packed, message.l << 16 | message.c, 16, reading, 5000));
    static char text[64];
    static hlc_log_event event = {.node = {"frankfurt-1", 11}, .message = {"6ba7b810-9dad-11d1", 18}, .reading = 1700000000123, .kind = HLC_SEND};
    const hlc_stamp stamp = {1700000000123, 12};
    size_t length = plain_stamp_text(text, sizeof text, stamp);
    static char row[200];
    CALLS("plain_stamp_text", plain_stamp_text(row, sizeof row, (clock = stamp, clock.c = message.c, clock)));
    CALLS("hlc_stamp_text", hlc_stamp_text(row, sizeof row, (clock = stamp, clock.c = message.c, clock)));
    CALLS("plain_stamp_read", plain_stamp_read(text, length, &clock) + clock.c);
    CALLS("hlc_stamp_read", hlc_stamp_read(text, length, &clock) + clock.c);
    CALLS("plain_packed_log_row", plain_packed_log_row(row, sizeof row, &event, 111411200008060928 + message.c, 0));
    CALLS("hlc_packed_log_row", hlc_packed_log_row(row, sizeof row, &event, 111411200008060928 + message.c, 0));
    static hlc_judged last, sent;
    hlc_verdict verdict;
    CALLS("plain_judge_next", plain_judge_next(&last, &sent, i, reading, (sent.least = message, sent.claimed = message, message.c += 1, message), &verdict));
    last = (hlc_judged){{0, 0}, {0, 0}, 0};
    CALLS("hlc_judge_next", hlc_judge_next(&last, &sent, i, reading, (sent.least = message, sent.claimed = message, message.c += 1, message), &verdict));
    JUDGES("plain_judge", plain_judge);
    JUDGES("hlc_judge", hlc_judge);
    return 0;
}
