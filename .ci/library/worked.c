/* Worked examples through libhlc, from C: the shopping cart of the README, limits of drift, packed stamps, restarts, stamps as text, rows
 * of logs, a trace, and each status. It is linked so that the library's malloc and realloc are the ones below. */
#include "hlc.h"
#include "hlc_clock.h"

#include <stdio.h>
#include <string.h>

static int wrong;

/* How many allocations are granted before the rest are refused. */
static size_t granted = SIZE_MAX;

void *__real_malloc(size_t size);
void *__real_realloc(void *block, size_t size);

void *__wrap_malloc(size_t size)
{
    return granted == 0 ? NULL : (granted--, __real_malloc(size));
}

void *__wrap_realloc(void *block, size_t size)
{
    return granted == 0 ? NULL : (granted--, __real_realloc(block, size));
}

static void is_true(const char *what, int holds)
{
    if (!holds) {
        printf("WRONG: %s\n", what);
        wrong++;
    }
}

static void is_stamp(const char *what, hlc_stamp stamp, uint64_t l, uint32_t c)
{
    if (stamp.l != l || stamp.c != c) {
        printf("WRONG: %s is (%llu, %u), not (%llu, %u)\n", what, (unsigned long long)stamp.l, stamp.c, (unsigned long long)l, c);
        wrong++;
    }
}

static void plays_the_cart(void)
{
    hlc_stamp cart = {0, 0}, other = {0, 0}, sent;
    is_true("write,0,100,cart,apples", hlc_tick(&cart, 100) == HLC_OK);
    is_stamp("event 0", cart, 100, 0);
    is_true("write,0,100,cart,pears", hlc_tick(&cart, 100) == HLC_OK);
    is_stamp("event 1", cart, 100, 1);
    is_true("send,0,100,1,cart", hlc_tick(&cart, 100) == HLC_OK);
    is_stamp("event 2", cart, 100, 2);
    sent = cart;
    is_true("write,1,97,cart,plums", hlc_tick(&other, 97) == HLC_OK);
    is_stamp("event 3", other, 97, 0);
    is_true("deliver,1,97,2", hlc_merge(&other, sent, 97) == HLC_OK);
    is_stamp("event 4", other, 100, 3);
    is_true("write,1,98,cart,figs", hlc_tick(&other, 98) == HLC_OK);
    is_stamp("event 5", other, 100, 4);
    is_true("send,1,98,0,cart", hlc_tick(&other, 98) == HLC_OK);
    is_stamp("event 6", other, 100, 5);
    is_true("erase,0,101,cart", hlc_tick(&cart, 101) == HLC_OK);
    is_stamp("event 7", cart, 101, 0);
    is_true("deliver,0,101,6", hlc_merge(&cart, other, 101) == HLC_OK);
    is_stamp("event 8", cart, 101, 1);
}

/* One call of hlc_tick_within, and what comes of it. */
struct tick_row {
    hlc_stamp clock;
    uint64_t reading, limit;
    uint32_t status;
    hlc_stamp after;
};

static void ticks_within_limits(void)
{
    static const struct tick_row rows[] = {
        {{15, 3}, 10, 5, HLC_OK, {15, 4}},
        {{15, 3}, 10, 4, HLC_TOO_FAR, {15, 3}},
        {{15, 3}, 15, 0, HLC_OK, {15, 4}},
        {{15, 3}, 16, 0, HLC_OK, {16, 0}},
        {{15, 3}, 0, 0, HLC_READING, {15, 3}},
        {{UINT64_MAX, 3}, INT64_MAX, UINT64_MAX, HLC_OK, {UINT64_MAX, 4}},
        {{UINT64_MAX, 3}, INT64_MAX, INT64_MAX, HLC_TOO_FAR, {UINT64_MAX, 3}},
        {{15, UINT32_MAX}, 10, 4, HLC_TOO_FAR, {15, UINT32_MAX}},
        {{15, UINT32_MAX}, 10, 5, HLC_NO_ROOM, {15, UINT32_MAX}},
        {{15, UINT32_MAX}, 16, 0, HLC_OK, {16, 0}},
    };
    for (size_t i = 0; i < sizeof rows / sizeof *rows; i++) {
        char what[40];
        hlc_stamp clock = rows[i].clock;
        snprintf(what, sizeof what, "row %zu of ticks within limits", i);
        is_true(what, hlc_tick_within(&clock, rows[i].reading, rows[i].limit) == rows[i].status);
        is_stamp(what, clock, rows[i].after.l, rows[i].after.c);
    }
}

/* One call of hlc_merge_within, and what comes of it. */
struct merge_row {
    hlc_stamp clock, message;
    uint64_t reading, limit;
    uint32_t status;
    hlc_stamp after;
};

static void merges_within_limits(void)
{
    static const struct merge_row rows[] = {
        {{10, 0}, {15, 3}, 10, 5, HLC_OK, {15, 4}},
        {{10, 0}, {15, 3}, 10, 4, HLC_TOO_FAR, {10, 0}},
        {{15, 3}, {10, 0}, 10, 5, HLC_OK, {15, 4}},
        {{15, 3}, {10, 0}, 10, 4, HLC_TOO_FAR, {15, 3}},
        {{15, 3}, {15, 7}, 10, 5, HLC_OK, {15, 8}},
        {{10, 0}, {15, 3}, 20, 0, HLC_OK, {20, 0}},
        {{10, 0}, {20, 3}, 20, 0, HLC_OK, {20, 4}},
        {{10, 0}, {21, 3}, 20, 0, HLC_TOO_FAR, {10, 0}},
        {{10, 0}, {UINT64_MAX, 3}, INT64_MAX, UINT64_MAX, HLC_OK, {UINT64_MAX, 4}},
        {{10, 0}, {UINT64_MAX, 3}, INT64_MAX, INT64_MAX, HLC_TOO_FAR, {10, 0}},
        {{10, 0}, {15, 3}, 0, 0, HLC_READING, {10, 0}},
        {{10, 0}, {15, UINT32_MAX}, 10, 4, HLC_TOO_FAR, {10, 0}},
        {{10, 0}, {15, UINT32_MAX}, 10, 5, HLC_NO_ROOM, {10, 0}},
        {{10, UINT32_MAX}, {15, 3}, 10, 5, HLC_OK, {15, 4}},
        {{15, UINT32_MAX}, {15, 3}, 10, 5, HLC_NO_ROOM, {15, UINT32_MAX}},
        {{15, 3}, {15, UINT32_MAX}, 10, 5, HLC_NO_ROOM, {15, 3}},
        {{15, UINT32_MAX}, {10, UINT32_MAX}, 16, 0, HLC_OK, {16, 0}},
        {{1000, 5}, {1000, UINT32_MAX}, 1000, 0, HLC_NO_ROOM, {1000, 5}},
        {{1000, 5}, {1000, UINT32_MAX - 1}, 1000, 0, HLC_OK, {1000, UINT32_MAX}},
    };
    for (size_t i = 0; i < sizeof rows / sizeof *rows; i++) {
        char what[40];
        hlc_stamp clock = rows[i].clock;
        snprintf(what, sizeof what, "row %zu of merges within limits", i);
        is_true(what, hlc_merge_within(&clock, rows[i].message, rows[i].reading, rows[i].limit) == rows[i].status);
        is_stamp(what, clock, rows[i].after.l, rows[i].after.c);
    }
}

static void refuses_numbers(void)
{
    hlc_stamp clock = {7, 2}, full = {7, UINT32_MAX}, none = {0, 0};
    is_true("a reading of 0", hlc_tick(&clock, 0) == HLC_READING && hlc_merge(&clock, none, 0) == HLC_READING);
    is_true("a reading of 2^63", hlc_tick(&clock, 1ull << 63) == HLC_READING && hlc_merge(&clock, none, 1ull << 63) == HLC_READING);
    is_true("a message that can't be counted on", hlc_merge(&clock, full, 7) == HLC_NO_ROOM);
    is_stamp("the clock after refusals", clock, 7, 2);
    is_true("a clock that can't be counted on", hlc_tick(&full, 7) == HLC_NO_ROOM && hlc_merge(&full, none, 6) == HLC_NO_ROOM);
    is_stamp("that clock", full, 7, UINT32_MAX);
    full.c--;
    is_true("the last count", hlc_tick(&full, 7) == HLC_OK);
    is_stamp("the clock after the last count", full, 7, UINT32_MAX);
    is_true("the greatest reading", hlc_tick(&clock, INT64_MAX) == HLC_OK);
    is_stamp("the clock of the greatest reading", clock, INT64_MAX, 0);
}

/* A peer fills a clock's counter. The clock stops until its reading is past its l, and no longer. */
static void goes_on_after_a_full_counter(void)
{
    hlc_stamp clock = {1000, 5}, other = {1000, 5}, old = {3, UINT32_MAX};
    const hlc_stamp hostile = {1000, 4294967294u};
    is_true("a message that fills the counter", hlc_merge_within(&clock, hostile, 1000, 0) == HLC_OK);
    is_stamp("the clock with a full counter", clock, 1000, 4294967295u);
    is_true("the full clock at its l", hlc_tick(&clock, 1000) == HLC_NO_ROOM && hlc_merge(&clock, other, 999) == HLC_NO_ROOM);
    is_stamp("the full clock stays", clock, 1000, 4294967295u);
    other = clock;
    is_true("it ticks at a later reading", hlc_tick(&other, 1001) == HLC_OK);
    is_stamp("the tick after it", other, 1001, 0);
    other = clock;
    is_true("it ticks at 10^9", hlc_tick(&other, 1000000000) == HLC_OK);
    is_stamp("the tick at 10^9", other, 1000000000, 0);
    other = clock;
    is_true("it ticks at the greatest reading", hlc_tick_within(&other, INT64_MAX, 0) == HLC_OK);
    is_stamp("the tick at the greatest reading", other, INT64_MAX, 0);
    is_true("it takes a later message", hlc_merge(&clock, (hlc_stamp){1002, 7}, 1000) == HLC_OK);
    is_stamp("the delivery after it", clock, 1002, 8);
    other = (hlc_stamp){7, 2};
    is_true("an old message with a full counter", hlc_merge(&other, old, 20) == HLC_OK);
    is_stamp("the delivery of that", other, 20, 0);
    is_true("the same, with a clock that leads", hlc_merge(&other, old, 4) == HLC_OK);
    is_stamp("that delivery", other, 20, 1);
}

static void compares_stamps(void)
{
    hlc_stamp low = {10, 4}, same_l = {10, 5}, high = {11, 0};
    is_true("(10, 4) below (10, 5)", hlc_is_below(low, same_l) && !hlc_is_below(same_l, low));
    is_true("(10, 5) below (11, 0)", hlc_is_below(same_l, high) && !hlc_is_below(high, same_l));
    is_true("(10, 4) not below itself", !hlc_is_below(low, low));
}

static void is_number(const char *what, uint64_t number, uint64_t wanted)
{
    if (number != wanted) {
        printf("WRONG: %s is %llu, not %llu\n", what, (unsigned long long)number, (unsigned long long)wanted);
        wrong++;
    }
}

/* One call of hlc_packed_merge, or of hlc_packed_tick where the message is NO_MESSAGE, and what comes of it. */
struct packed_row {
    uint64_t clock, message;
    uint32_t bits;
    uint64_t reading, limit;
    uint32_t status;
    uint64_t after;
};

#define NO_MESSAGE UINT64_MAX

static void steps_packed_clocks(void)
{
    /* With 4 bits 0xa3 packs (10, 3). */
    static const struct packed_row rows[] = {
        {0, NO_MESSAGE, 4, 10, 0, HLC_OK, 0xa0},
        {0xa0, NO_MESSAGE, 4, 10, 0, HLC_OK, 0xa1},
        {0xa3, NO_MESSAGE, 4, 9, UINT64_MAX, HLC_OK, 0xa4},
        {0xa3, NO_MESSAGE, 4, 11, 0, HLC_OK, 0xb0},
        {0xaf, NO_MESSAGE, 4, 10, 1, HLC_OK, 0xb0},
        {0xaf, NO_MESSAGE, 4, 10, 0, HLC_TOO_FAR, 0xaf},
        {0xae, NO_MESSAGE, 4, 10, 0, HLC_OK, 0xaf},
        {0xaf, NO_MESSAGE, 4, 11, 0, HLC_OK, 0xb0},
        {0xa3, NO_MESSAGE, 4, 7, 2, HLC_TOO_FAR, 0xa3},
        {0xa3, NO_MESSAGE, 0, 10, 0, HLC_BITS, 0xa3},
        {0xa3, NO_MESSAGE, 33, 10, 0, HLC_BITS, 0xa3},
        {0xa3, NO_MESSAGE, 4, 0, 0, HLC_READING, 0xa3},
        {0xa3, NO_MESSAGE, 32, UINT32_MAX, 0, HLC_OK, UINT64_MAX - UINT32_MAX},
        {0xa3, NO_MESSAGE, 32, (uint64_t)UINT32_MAX + 1, 0, HLC_READING, 0xa3},
        {UINT64_MAX, NO_MESSAGE, 1, 10, UINT64_MAX, HLC_NO_ROOM, UINT64_MAX},
        {UINT64_MAX, NO_MESSAGE, 1, 10, 5, HLC_TOO_FAR, UINT64_MAX},
        {UINT64_MAX - 1, NO_MESSAGE, 1, INT64_MAX, 0, HLC_OK, UINT64_MAX},
        {0xa0, 0xc3, 4, 10, 2, HLC_OK, 0xc4},
        {0xa0, 0xc3, 4, 10, 1, HLC_MESSAGE_TOO_FAR, 0xa0},
        {0xa0, 0xcf, 4, 10, 2, HLC_MESSAGE_TOO_FAR, 0xa0},
        {0xa0, 0xcf, 4, 10, 3, HLC_OK, 0xd0},
        {0xc3, 0xa0, 4, 10, 1, HLC_TOO_FAR, 0xc3},
        {0xc3, 0xc7, 4, 10, 1, HLC_TOO_FAR, 0xc3},
        {0xc3, 0xc7, 4, 10, 2, HLC_OK, 0xc8},
        {0xc3, 0xc7, 4, 13, 0, HLC_OK, 0xd0},
        {0xa0, UINT64_MAX - 1, 4, 10, 5, HLC_MESSAGE_TOO_FAR, 0xa0},
        {0xa0, UINT64_MAX - 1, 4, 10, UINT64_MAX, HLC_OK, UINT64_MAX},
        {UINT64_MAX, 0xa0, 4, 10, UINT64_MAX, HLC_NO_ROOM, UINT64_MAX},
    };
    for (size_t i = 0; i < sizeof rows / sizeof *rows; i++) {
        const struct packed_row *row = &rows[i];
        char what[40];
        uint64_t clock = row->clock, after = row->clock;
        uint32_t status, same;
        snprintf(what, sizeof what, "row %zu of packed clocks", i);
        if (row->message == NO_MESSAGE) {
            status = hlc_packed_tick(&clock, row->bits, row->reading, row->limit);
            same = hlc_packed_after(row->clock, row->bits, row->reading, row->limit, &after);
        } else {
            status = hlc_packed_merge(&clock, row->message, row->bits, row->reading, row->limit);
            same = hlc_packed_after_message(row->clock, row->message, row->bits, row->reading, row->limit, &after);
        }
        is_true(what, status == row->status && same == row->status);
        is_number(what, clock, row->after);
        is_number(what, after, row->after);
    }
    uint64_t clock = 0;
    is_true("a message of the greatest number", hlc_packed_merge(&clock, UINT64_MAX, 4, 10, UINT64_MAX) == HLC_NO_ROOM && clock == 0);
}

static void packs_stamps(void)
{
    uint64_t number = 77;
    hlc_stamp stamp = {1, 2};
    is_true("(10, 3) in 4 bits", hlc_pack((hlc_stamp){10, 3}, 4, &number) == HLC_OK && number == 0xa3);
    is_true("0xa3 of 4 bits", hlc_unpack(0xa3, 4, &stamp) == HLC_OK);
    is_stamp("what 0xa3 packs", stamp, 10, 3);
    is_true("a c of 5 bits in 4", hlc_pack((hlc_stamp){10, 16}, 4, &number) == HLC_WIDE && number == 0xa3);
    is_true("an l of 61 bits beside 4", hlc_pack((hlc_stamp){(uint64_t)1 << 60, 0}, 4, &number) == HLC_WIDE && number == 0xa3);
    is_true("no bits for c", hlc_pack((hlc_stamp){10, 0}, 0, &number) == HLC_BITS && hlc_unpack(0xa3, 0, &stamp) == HLC_BITS);
    is_true("33 bits for c", hlc_pack((hlc_stamp){10, 0}, 33, &number) == HLC_BITS && hlc_unpack(0xa3, 33, &stamp) == HLC_BITS);
    is_stamp("what was packed before", stamp, 10, 3);
    is_true("the greatest stamp of 32 bits", hlc_pack((hlc_stamp){UINT32_MAX, UINT32_MAX}, 32, &number) == HLC_OK && number == UINT64_MAX);
}

static void observes_messages(void)
{
    hlc_stamp clock = {10, 3};
    is_true("a message that is lower", hlc_observe(&clock, (hlc_stamp){10, 2}, 9, 0) == HLC_MESSAGE_TOO_FAR);
    is_true("the same within the limit", hlc_observe(&clock, (hlc_stamp){10, 2}, 9, 1) == HLC_OK);
    is_stamp("the clock that has seen it", clock, 10, 3);
    is_true("a message that is greater", hlc_observe(&clock, (hlc_stamp){12, 5}, 9, 3) == HLC_OK);
    is_stamp("the clock that has seen that", clock, 12, 5);
    is_true("a tick after it", hlc_tick(&clock, 9) == HLC_OK);
    is_stamp("that tick", clock, 12, 6);
    is_true("a message at reading 0", hlc_observe(&clock, (hlc_stamp){13, 0}, 0, UINT64_MAX) == HLC_READING);
    is_stamp("the clock after it", clock, 12, 6);
    uint64_t packed = 0xa3;
    is_true("a packed message", hlc_packed_observe(&packed, 0xcf, 4, 10, 2) == HLC_OK && packed == 0xcf);
    is_true("one too far ahead", hlc_packed_observe(&packed, 0xd0, 4, 10, 2) == HLC_MESSAGE_TOO_FAR && packed == 0xcf);
    is_true("one with no bits", hlc_packed_observe(&packed, 0xd0, 0, 10, 2) == HLC_BITS && packed == 0xcf);
    is_true("one at reading 0", hlc_packed_observe(&packed, 0xd0, 4, 0, 2) == HLC_READING && packed == 0xcf);
}

/* A node that dies after its second stamp, and begins again while its clock reads less. */
static void restarts_at_bounds(void)
{
    uint64_t bound = 0;
    hlc_stamp clock;
    hlc_restore(&clock, bound);
    is_true("the first stamp", hlc_tick(&clock, 100) == HLC_OK && clock.l >= bound);
    is_true("its bound", hlc_bound(clock, 30, &bound) == HLC_OK && bound == 131);
    is_true("the second stamp", hlc_tick(&clock, 130) == HLC_OK && clock.l < bound);
    hlc_restore(&clock, bound);
    is_stamp("the clock after a restart", clock, 131, 0);
    is_true("too low a limit", hlc_tick_within(&clock, 129, 1) == HLC_TOO_FAR);
    is_true("a limit that is enough", hlc_tick_within(&clock, 129, 2) == HLC_OK && clock.l >= bound);
    is_stamp("the third stamp", clock, 131, 1);
    is_true("no bound is so great", hlc_bound((hlc_stamp){UINT64_MAX - 30, 0}, 30, &bound) == HLC_NO_ROOM && bound == 131);
    is_true("the greatest bound", hlc_bound((hlc_stamp){UINT64_MAX - 31, 0}, 30, &bound) == HLC_OK && bound == UINT64_MAX);

    uint64_t packed = 0xa3;
    is_true("a packed bound", hlc_packed_bound(packed, 4, 2, &packed) == HLC_OK && packed == 0xd0);
    is_true("a packed clock after a restart", hlc_packed_tick(&packed, 4, 10, 3) == HLC_OK && packed == 0xd1);
    is_true("no packed bound is so great", hlc_packed_bound(packed, 4, UINT64_MAX, &packed) == HLC_NO_ROOM && packed == 0xd1);
    is_true("a packed bound with no bits", hlc_packed_bound(packed, 0, 2, &packed) == HLC_BITS && packed == 0xd1);
}

/* One call of hlc_check, and what it says. */
struct check_row {
    hlc_stamp old, message;
    uint64_t reading;
    hlc_stamp stamp;
    hlc_causes causes;
};

static void checks_single_events(void)
{
    static const struct check_row rows[] = {
        {{0, 0}, {0, 0}, 10, {10, 0}, {0, 0, 0, 0}},
        {{0, 0}, {0, 0}, 10, {10, 1}, {0, 0, 0, 1}},
        {{0, 0}, {0, 0}, 10, {11, 0}, {0, 0, 0, 1}},
        {{0, 0}, {0, 0}, 10, {9, 0}, {1, 0, 0, 0}},
        {{10, 3}, {0, 0}, 9, {10, 4}, {0, 0, 0, 0}},
        {{10, 3}, {0, 0}, 9, {10, 3}, {0, 1, 0, 0}},
        {{10, 3}, {12, 5}, 9, {12, 6}, {0, 0, 0, 0}},
        {{10, 3}, {12, 5}, 9, {12, 5}, {0, 0, 1, 0}},
        {{10, 3}, {12, 5}, 9, {12, 7}, {0, 0, 0, 1}},
        {{10, 3}, {12, 5}, 13, {10, 3}, {1, 1, 1, 0}},
        {{10, UINT32_MAX}, {0, 0}, 9, {11, 0}, {0, 0, 0, 0}},
        {{10, UINT32_MAX}, {0, 0}, 9, {11, 1}, {0, 0, 0, 1}},
        {{UINT64_MAX, UINT32_MAX}, {0, 0}, 9, {UINT64_MAX, UINT32_MAX}, {0, 1, 0, 0}},
        {{0, 0}, {0, 0}, 0, {0, 0}, {0, 1, 1, 0}},
    };
    for (size_t i = 0; i < sizeof rows / sizeof *rows; i++) {
        const struct check_row *row = &rows[i];
        hlc_causes said;
        char what[40];
        memset(&said, 1, sizeof said);
        hlc_check(row->old, row->message, row->reading, row->stamp, &said);
        snprintf(what, sizeof what, "row %zu of checks", i);
        is_true(what, memcmp(&said, &row->causes, sizeof said) == 0);
    }
    const hlc_causes none = {0, 0, 0, 0}, ahead = {0, 0, 0, 1};
    hlc_causes said = ahead;
    is_true("the packed stamp after a full c", hlc_packed_check(0xaf, 0, 4, 10, 0xb0, &said) == HLC_OK && memcmp(&said, &none, sizeof said) == 0);
    is_true("the one after that", hlc_packed_check(0xaf, 0, 4, 10, 0xb1, &said) == HLC_OK && memcmp(&said, &ahead, sizeof said) == 0);
    is_true("one of no bits", hlc_packed_check(0xaf, 0, 0, 10, 0xb0, &said) == HLC_BITS && memcmp(&said, &ahead, sizeof said) == 0);
}

/* Whether a text of this length was written at the front of a room of bytes that were all 9. */
static int is_text(const char *room, size_t length, const char *text)
{
    return length == strlen(text) && memcmp(room, text, length) == 0 && room[length] == 9;
}

static void writes_stamps(void)
{
    const hlc_stamp stamp = {100, 3}, greatest = {UINT64_MAX, UINT32_MAX};
    char room[HLC_STAMP_SIZE + 1];
    memset(room, 9, sizeof room);
    is_true("the length of a stamp", hlc_stamp_text(NULL, 0, stamp) == 5);
    is_true("no room for a stamp", hlc_stamp_text(room, 4, stamp) == 5 && room[0] == 9);
    is_true("a stamp", is_text(room, hlc_stamp_text(room, 5, stamp), "100.3"));
    memset(room, 9, sizeof room);
    is_true("the greatest stamp", is_text(room, hlc_stamp_text(room, HLC_STAMP_SIZE, greatest), "18446744073709551615.4294967295"));
    memset(room, 9, sizeof room);
    is_true("the least stamp", is_text(room, hlc_stamp_text(room, HLC_STAMP_SIZE, (hlc_stamp){0, 0}), "0.0"));
    memset(room, 9, sizeof room);
    is_true("no room for a packed stamp", hlc_packed_text(room, 19, UINT64_MAX) == 20 && room[0] == 9);
    is_true("a packed stamp", is_text(room, hlc_packed_text(room, sizeof room, 65536001), "65536001"));
}

/* What is read of a text, or {7, 7} if it is no stamp, and 7 if it is no packed one. */
static hlc_stamp read_stamp(const char *text)
{
    hlc_stamp stamp = {7, 7};
    hlc_status status = hlc_stamp_read(text, strlen(text), &stamp);
    is_true(text, status == HLC_OK || (status == HLC_TEXT && stamp.l == 7 && stamp.c == 7));
    return stamp;
}

static uint64_t read_packed(const char *text)
{
    uint64_t packed = 7;
    hlc_status status = hlc_packed_read(text, strlen(text), &packed);
    is_true(text, status == HLC_OK || (status == HLC_TEXT && packed == 7));
    return packed;
}

static void reads_stamps(void)
{
    is_stamp("a stamp that is read", read_stamp("100.3"), 100, 3);
    is_stamp("the greatest", read_stamp("18446744073709551615.4294967295"), UINT64_MAX, UINT32_MAX);
    is_stamp("one with zeros before it", read_stamp("00000000000000000100.0000000003"), 100, 3);
    static const char *const none[] = {"", ".", "100", "100.", ".3", "100.3.", "100..3", "+100.3", "100.-3", "100. 3", "100,3", "100.4294967296",
        "18446744073709551616.0", "000000000000000000100.3", "100.000000000000000000003"};
    for (size_t i = 0; i < sizeof none / sizeof *none; i++)
        is_stamp(none[i], read_stamp(none[i]), 7, 7);
    is_true("a packed stamp that is read", read_packed("65536001") == 65536001);
    is_true("the greatest packed", read_packed("18446744073709551615") == UINT64_MAX);
    is_true("no packed stamp", read_packed("18446744073709551616") == 7 && read_packed("") == 7 && read_packed("1.0") == 7 && read_packed("0x1") == 7);
}

static void writes_rows(void)
{
    char row[200];
    hlc_log_event event = {.node = {"eu", 2}, .reading = 1000, .kind = HLC_LOCAL};
    memset(row, 9, sizeof row);
    is_true("a local event", is_text(row, hlc_packed_log_row(row, sizeof row, &event, 65536000, 0), "local,eu,1000,65536000,,,,\n"));
    event = (hlc_log_event){.node = {"eu", 2}, .message = {"m1", 2}, .kind = HLC_SEND, .label = {"say \"hi\"\n", 9}};
    memset(row, 9, sizeof row);
    is_true("a send", is_text(row, hlc_log_row(row, sizeof row, &event, (hlc_stamp){1000, 1}, (hlc_stamp){0, 0}),
        "send,eu,,1000.1,m1,,,\"say \"\"hi\"\"\n\"\n"));
    event = (hlc_log_event){.node = {"us", 2}, .from = {"eu,1", 4}, .reading = 990, .kind = HLC_RECEIVE};
    memset(row, 9, sizeof row);
    is_true("a receive", is_text(row, hlc_log_row(row, sizeof row, &event, (hlc_stamp){1000, 2}, (hlc_stamp){1000, 1}),
        "receive,us,990,1000.2,,\"eu,1\",1000.1,\n"));
    memset(row, 9, sizeof row);
    is_true("one without a stamp", is_text(row, hlc_packed_log_row(row, sizeof row, &event, 0, 65536001), "receive,us,990,,,\"eu,1\",65536001,\n"));
    memset(row, 9, sizeof row);
    memset(row, 9, sizeof row);
    is_true("how long a row is", hlc_packed_log_row(NULL, 0, &event, 0, 65536001) == 34);
    is_true("no room for a row", hlc_packed_log_row(row, 33, &event, 0, 65536001) == 34 && row[0] == 9);
    is_true("a receive of nothing", hlc_packed_log_row(row, sizeof row, &event, 65536002, 0) == 0 && row[0] == 9);
    event.kind = HLC_LOCAL;
    is_true("a local event without a stamp", hlc_packed_log_row(row, sizeof row, &event, 0, 0) == 0);
    event.kind = 4;
    is_true("a kind that is none", hlc_packed_log_row(row, sizeof row, &event, 65536002, 0) == 0);
    event = (hlc_log_event){.node = {"us", 2}, .kind = HLC_RESTART};
    memset(row, 9, sizeof row);
    is_true("a restart", is_text(row, hlc_packed_log_row(row, sizeof row, &event, 65536000, 0), "restart,us,,65536000,,,,\n"));
    event.reading = (uint64_t)INT64_MAX + 1;
    is_true("a reading that is too great", hlc_packed_log_row(row, sizeof row, &event, 65536000, 0) == 0);
    event.reading = 0;
    event.node.length = 0;
    is_true("a node without a name", hlc_packed_log_row(row, sizeof row, &event, 65536000, 0) == 0);
}

static void says_what_it_is(void)
{
    is_true("the version", hlc_version() == HLC_VERSION);
    for (uint32_t status = HLC_OK; status <= HLC_TEXT; status++)
        is_true("the text of a status", strcmp(hlc_status_text(status), "no status") != 0);
    is_true("the text of no status", strcmp(hlc_status_text(HLC_TEXT + 1), "no status") == 0);
}

/* From 2024 on, and all in one unit. */
static void reads_the_clock(void)
{
    uint64_t ms = hlc_clock_ms(), us = hlc_clock_us(), ns = hlc_clock_ns();
    is_true("the clock's milliseconds", ms > 1704067200000 && ms < INT64_MAX / 1000000);
    is_true("its microseconds", us / 1000 >= ms && us / 1000 - ms < 60000);
    is_true("its nanoseconds", ns / 1000 >= us && ns / 1000 - us < 60000000);
}

static void judges_a_trace(void)
{
    enum { COUNT = 10 };
    /* The trace of docs/GUIDE.md, "Stamps from another system". */
    hlc_claim trace[COUNT] = {
        {100, 100, 0, 0, 0, HLC_LOCAL},  {100, 100, 1, 0, 0, HLC_SEND}, {97, 100, 2, 1, 1, HLC_RECEIVE},  {98, 100, 3, 0, 1, HLC_LOCAL},
        {99, 100, 3, 0, 1, HLC_LOCAL},   {250, 250, 0, 0, 2, HLC_SEND}, {101, 101, 0, 5, 0, HLC_RECEIVE}, {102, 102, 0, 0, 0, HLC_LOCAL},
        {103, 104, 0, 0, 1, HLC_LOCAL},  {260, 255, 0, 0, 2, HLC_LOCAL},
    };
    static const hlc_verdict said[COUNT] = {
        {0, 0, 0, HLC_LEAST},     {0, 0, 0, HLC_LEAST},   {0, 0, 0, HLC_LEAST},     {0, 0, 0, HLC_LEAST}, {0, 0, 3, HLC_NOT_ABOVE},
        {0, 0, 0, HLC_LEAST},     {0, 0, 5, HLC_NOT_ABOVE}, {250, 2, 0, HLC_LOW}, {103, 0, 0, HLC_AHEAD}, {0, 0, 0, HLC_BEHIND},
    };
    hlc_verdict verdicts[COUNT];
    uint32_t bad = 77;
    memset(verdicts, 9, sizeof verdicts);
    is_true("too few places for verdicts", hlc_judge(trace, COUNT, verdicts, COUNT - 1, &bad) == HLC_LENGTHS && bad == 77);
    trace[3].kind = 3;
    is_true("a kind that is none", hlc_judge(trace, COUNT, verdicts, COUNT, &bad) == HLC_BAD_TRACE && bad == 3);
    trace[3].kind = HLC_LOCAL;
    trace[2].node = 64;
    is_true("a node that is none", hlc_judge(trace, COUNT, verdicts, COUNT, &bad) == HLC_BAD_TRACE && bad == 2);
    trace[2].node = 1 << 16;
    is_true("a node past 16 bits", hlc_judge(trace, COUNT, verdicts, COUNT, &bad) == HLC_BAD_TRACE && bad == 2);
    trace[2].node = 1;
    trace[6].sent = 6;
    is_true("a receive of itself", hlc_judge(trace, COUNT, verdicts, COUNT, &bad) == HLC_BAD_TRACE && bad == 6);
    trace[6].sent = 5;
    is_true("verdicts stay", verdicts[0].l == 0x0909090909090909u && verdicts[COUNT - 1].kind == 0x09090909u);
    bad = 77;
    is_true("the trace", hlc_judge(trace, COUNT, verdicts, COUNT, &bad) == HLC_OK && bad == 77);
    for (size_t i = 0; i < COUNT; i++) {
        char what[40];
        snprintf(what, sizeof what, "the verdict on claim %zu", i);
        is_true(what, verdicts[i].kind == said[i].kind && verdicts[i].event == said[i].event);
        is_stamp(what, (hlc_stamp){verdicts[i].l, verdicts[i].c}, said[i].l, said[i].c);
    }
    const hlc_judged none = {{0, 0}, {0, 0}, 0};
    hlc_judged nodes[3] = {none, none, none}, kept[COUNT];
    for (uint32_t i = 0; i < COUNT; i++) {
        const hlc_claim *claim = &trace[i];
        hlc_verdict verdict;
        const hlc_judged *sent = claim->kind == HLC_RECEIVE ? &kept[claim->sent] : &none;
        is_true("a claim by itself", hlc_judge_next(&nodes[claim->node], sent, i, claim->reading, (hlc_stamp){claim->l, claim->c}, &verdict) == HLC_OK);
        is_true("its verdict", verdict.kind == said[i].kind && verdict.event == said[i].event && verdict.l == said[i].l && verdict.c == said[i].c);
        kept[i] = nodes[claim->node];
    }
    hlc_verdict stays = {7, 7, 7, 7};
    is_true("no reading", hlc_judge_next(&nodes[0], &none, 10, 0, (hlc_stamp){110, 0}, &stays) == HLC_READING && stays.kind == 7 && nodes[0].event == 7);
    is_true("no claims", hlc_judge(trace, 0, verdicts, 0, &bad) == HLC_OK);
    is_true("no claims, and no memory for them", hlc_judge(NULL, 0, NULL, 0, &bad) == HLC_OK && bad == 77);
    is_true("no claims, and places for verdicts", hlc_judge(NULL, 0, verdicts, COUNT, &bad) == HLC_LENGTHS && verdicts[0].kind == HLC_LEAST);
}

/* More claims than a trace has: no allocation is made for them. */
static void judges_no_more_than_a_trace(void)
{
    enum { MOST = 1 << 20, COUNT = 1 << 23 };
    static hlc_claim claims[COUNT];
    static hlc_verdict verdicts[COUNT];
    uint32_t bad = 77;
    for (size_t i = 0; i <= MOST; i++)
        claims[i] = (hlc_claim){i + 1, i + 1, 0, 0, 0, HLC_LOCAL};
    granted = 0;
    is_true("a claim too many", hlc_judge(claims, MOST + 1, verdicts, MOST + 1, &bad) == HLC_BAD_TRACE && bad == MOST);
    bad = 77;
    is_true("2^23 claims", hlc_judge(claims, COUNT, verdicts, COUNT, &bad) == HLC_BAD_TRACE && bad == MOST);
    claims[5].reading = 0;
    is_true("a bad claim, and no memory", hlc_judge(claims, MOST, verdicts, MOST, &bad) == HLC_BAD_TRACE && bad == 5);
    claims[5].reading = 6;
    is_true("none, and no memory", hlc_judge(claims, MOST, verdicts, MOST, &bad) == HLC_MEMORY && bad == 5);
    granted = SIZE_MAX;
    is_true("as many as a trace has", hlc_judge(claims, MOST, verdicts, MOST, &bad) == HLC_OK && verdicts[MOST - 1].kind == HLC_LEAST);
}

static void judges_without_memory(void)
{
    const hlc_claim trace[] = {{10, 10, 0, 0, 0, HLC_SEND}, {9, 10, 1, 0, 1, HLC_RECEIVE}};
    hlc_verdict verdicts[2];
    uint32_t bad = 77, status = HLC_MEMORY;
    size_t tried = 0;
    memset(verdicts, 9, sizeof verdicts);
    while (status == HLC_MEMORY && tried < 100) {
        is_true("nothing is written without memory", verdicts[0].kind == 0x09090909u && verdicts[1].kind == 0x09090909u && bad == 77);
        granted = tried++;
        status = hlc_judge(trace, 2, verdicts, 2, &bad);
        granted = SIZE_MAX;
    }
    is_true("it takes memory, and then answers", status == HLC_OK && tried > 1 && verdicts[1].kind == HLC_LEAST);
}

int main(void)
{
    granted = 1;
    plays_the_cart();
    ticks_within_limits();
    merges_within_limits();
    refuses_numbers();
    goes_on_after_a_full_counter();
    compares_stamps();
    steps_packed_clocks();
    packs_stamps();
    observes_messages();
    restarts_at_bounds();
    checks_single_events();
    writes_stamps();
    reads_stamps();
    writes_rows();
    says_what_it_is();
    reads_the_clock();
    is_true("nothing is allocated but by the judge", granted == 1);
    granted = SIZE_MAX;
    judges_a_trace();
    judges_without_memory();
    judges_no_more_than_a_trace();
    printf("from C: %d wrong\n", wrong);
    return wrong != 0;
}
