/* Calls of libhlc on drawn numbers, beside plain C functions that go by pairs, where the library goes by numbers, or by what the header
 * says: a million calls of each, or as many as the argument says. It ends with how many answers differed. */
#include "hlc.h"

#include <inttypes.h>
#include <stdio.h>
#include <stdlib.h>
#include <string.h>

/* A number of 128 bits, so that nothing here wraps. */
__extension__ typedef unsigned __int128 wide;

/* A pair that need not be a stamp. */
struct pair {
    wide l, c;
};

static int below(struct pair a, struct pair b)
{
    return a.l < b.l || (a.l == b.l && a.c < b.c);
}

static struct pair greater(struct pair a, struct pair b)
{
    return below(a, b) ? b : a;
}

static struct pair pair_of(hlc_stamp stamp)
{
    return (struct pair){stamp.l, stamp.c};
}

static struct pair pair_in(uint64_t number, uint32_t bits)
{
    wide span = (wide)1 << bits;
    return (struct pair){number / span, number % span};
}

/* The next pair with a c below span. */
static struct pair next(struct pair old, wide span)
{
    return old.c + 1 < span ? (struct pair){old.l, old.c + 1} : (struct pair){old.l + 1, 0};
}

static int is_far(struct pair p, uint64_t reading, uint64_t limit)
{
    return p.l > (wide)reading + limit;
}

/* What is made of a clock, and of a message if there is one: a status, and a number if that is HLC_OK. */
static uint32_t plain_step(uint64_t old, const uint64_t *message, uint32_t bits, uint64_t reading, uint64_t limit, uint64_t *number)
{
    if (bits < 1 || bits > 32)
        return HLC_BITS;
    wide span = (wide)1 << bits, lasts = (wide)1 << (64 - bits);
    if (reading == 0 || reading >= lasts)
        return HLC_READING;
    struct pair found = next(pair_in(old, bits), span);
    if (is_far(found, reading, limit))
        return HLC_TOO_FAR;
    if (message) {
        struct pair after = next(pair_in(*message, bits), span);
        if (is_far(after, reading, limit))
            return HLC_MESSAGE_TOO_FAR;
        found = greater(found, after);
    }
    if (found.l >= lasts)
        return HLC_NO_ROOM;
    found = greater(found, (struct pair){reading, 0});
    *number = (uint64_t)(found.l * span + found.c);
    return HLC_OK;
}

static uint32_t plain_packed_observe(uint64_t *clock, uint64_t message, uint32_t bits, uint64_t reading, uint64_t limit)
{
    if (bits < 1 || bits > 32)
        return HLC_BITS;
    if (reading == 0 || reading >= (wide)1 << (64 - bits))
        return HLC_READING;
    if (is_far(pair_in(message, bits), reading, limit))
        return HLC_MESSAGE_TOO_FAR;
    if (below(pair_in(*clock, bits), pair_in(message, bits)))
        *clock = message;
    return HLC_OK;
}

static uint32_t plain_observe(hlc_stamp *clock, hlc_stamp message, uint64_t reading, uint64_t limit)
{
    if (reading == 0 || reading > INT64_MAX)
        return HLC_READING;
    if (is_far(pair_of(message), reading, limit))
        return HLC_MESSAGE_TOO_FAR;
    if (below(pair_of(*clock), pair_of(message)))
        *clock = message;
    return HLC_OK;
}

static uint32_t plain_pack(hlc_stamp stamp, uint32_t bits, uint64_t *number)
{
    if (bits < 1 || bits > 32)
        return HLC_BITS;
    wide span = (wide)1 << bits;
    if (stamp.c >= span || stamp.l >= (wide)1 << (64 - bits))
        return HLC_WIDE;
    *number = (uint64_t)(stamp.l * span + stamp.c);
    return HLC_OK;
}

static uint32_t plain_unpack(uint64_t number, uint32_t bits, hlc_stamp *stamp)
{
    if (bits < 1 || bits > 32)
        return HLC_BITS;
    struct pair p = pair_in(number, bits);
    *stamp = (hlc_stamp){(uint64_t)p.l, (uint32_t)p.c};
    return HLC_OK;
}

static uint32_t plain_bound(hlc_stamp clock, uint64_t window, uint64_t *bound)
{
    wide found = (wide)clock.l + window + 1;
    if (found > UINT64_MAX)
        return HLC_NO_ROOM;
    *bound = (uint64_t)found;
    return HLC_OK;
}

static uint32_t plain_packed_bound(uint64_t clock, uint32_t bits, uint64_t window, uint64_t *bound)
{
    if (bits < 1 || bits > 32)
        return HLC_BITS;
    wide found = (pair_in(clock, bits).l + window + 1) << bits;
    if (found > UINT64_MAX)
        return HLC_NO_ROOM;
    *bound = (uint64_t)found;
    return HLC_OK;
}

/* The causes of a stamp with a c below span, found from the least that the event may have. */
static hlc_causes plain_check(struct pair old, struct pair message, uint64_t reading, struct pair stamp, wide span)
{
    struct pair least = greater(greater(next(old, span), next(message, span)), (struct pair){reading, 0});
    return (hlc_causes){stamp.l < reading, !below(old, stamp), !below(message, stamp), below(least, stamp)};
}

static uint32_t plain_judge_next(hlc_judged *last, const hlc_judged *sent, uint32_t event, uint64_t reading, hlc_stamp claimed, hlc_verdict *verdict)
{
    if (reading == 0 || reading > INT64_MAX)
        return HLC_READING;
    wide span = (wide)1 << 32;
    struct pair old = pair_of(last->least), carried = pair_of(sent->least), own = pair_of(claimed);
    struct pair found = greater(greater(next(old, span), next(carried, span)), (struct pair){reading, 0});
    /* A stamp with a full c is in the way if no l is greater. */
    wide l = greater(greater(old, carried), (struct pair){reading, 0}).l;
    if ((old.l == l && old.c == UINT32_MAX) || (carried.l == l && carried.c == UINT32_MAX))
        return HLC_NO_ROOM;
    hlc_stamp least = {(uint64_t)found.l, (uint32_t)found.c};
    if (claimed.l < reading)
        *verdict = (hlc_verdict){0, 0, 0, HLC_BEHIND};
    else if (!below(pair_of(last->claimed), own))
        *verdict = (hlc_verdict){0, 0, last->event, HLC_NOT_ABOVE};
    else if (!below(pair_of(sent->claimed), own))
        *verdict = (hlc_verdict){0, 0, sent->event, HLC_NOT_ABOVE};
    else if (below(own, found))
        *verdict = (hlc_verdict){least.l, least.c, 0, HLC_LOW};
    else if (below(found, own))
        *verdict = (hlc_verdict){least.l, least.c, 0, HLC_AHEAD};
    else
        *verdict = (hlc_verdict){0, 0, 0, HLC_LEAST};
    *last = (hlc_judged){claimed, least, event};
    return HLC_OK;
}

/* A text is put into a buffer if it fits; its length is told. */
static size_t plain_put(char *buffer, size_t size, const char *text, size_t length)
{
    if (length <= size && length)
        memcpy(buffer, text, length);
    return length;
}

static size_t plain_packed_text(char *buffer, size_t size, uint64_t packed)
{
    char text[32];
    return plain_put(buffer, size, text, (size_t)snprintf(text, sizeof text, "%" PRIu64, packed));
}

static size_t plain_stamp_text(char *buffer, size_t size, hlc_stamp stamp)
{
    char text[40];
    return plain_put(buffer, size, text, (size_t)snprintf(text, sizeof text, "%" PRIu64 ".%" PRIu32, stamp.l, stamp.c));
}

static uint32_t plain_packed_read(const char *text, size_t length, uint64_t *packed)
{
    wide value = 0;
    for (size_t i = 0; i < length; i++) {
        if (text[i] < '0' || text[i] > '9' || i == 20)
            return HLC_TEXT;
        value = value * 10 + (wide)(text[i] - '0');
    }
    if (length == 0 || value > UINT64_MAX)
        return HLC_TEXT;
    *packed = (uint64_t)value;
    return HLC_OK;
}

static uint32_t plain_stamp_read(const char *text, size_t length, hlc_stamp *stamp)
{
    const char *dot = length ? memchr(text, '.', length) : NULL;
    uint64_t l, c;
    if (!dot || plain_packed_read(text, (size_t)(dot - text), &l) || plain_packed_read(dot + 1, length - 1 - (size_t)(dot - text), &c) || c > UINT32_MAX)
        return HLC_TEXT;
    *stamp = (hlc_stamp){l, (uint32_t)c};
    return HLC_OK;
}

/* A field after others, between quotes if it needs them. */
static size_t plain_field(char *row, size_t at, hlc_text field)
{
    int is_quoted = 0;
    for (size_t i = 0; i < field.length; i++)
        is_quoted |= field.bytes[i] == ',' || field.bytes[i] == '"' || field.bytes[i] == '\r' || field.bytes[i] == '\n';
    if (at)
        row[at++] = ',';
    if (is_quoted)
        row[at++] = '"';
    for (size_t i = 0; i < field.length; i++) {
        if (field.bytes[i] == '"')
            row[at++] = '"';
        row[at++] = field.bytes[i];
    }
    if (is_quoted)
        row[at++] = '"';
    return at;
}

/* The row of an event with these texts of stamps, which is shorter than 8 KiB. */
static size_t plain_row(char *buffer, size_t size, const hlc_log_event *event, hlc_text stamp, hlc_text carried)
{
    static const char *const words[] = {"local", "send", "receive", "restart"};
    char row[8192], digits[32];
    if (event->kind > HLC_RESTART || event->node.length == 0 || event->node.length > 256 || event->message.length > 256 || event->from.length > 256)
        return 0;
    int is_receive = event->kind == HLC_RECEIVE;
    if (event->reading > INT64_MAX || (!is_receive && !stamp.length)
        || (is_receive && !event->message.length && !(event->from.length && carried.length)))
        return 0;
    hlc_text reading = {digits, event->reading ? plain_packed_text(digits, sizeof digits, event->reading) : 0};
    hlc_text fields[] = {{words[event->kind], strlen(words[event->kind])}, event->node, reading, stamp, event->message, event->from, carried, event->label};
    size_t at = 0;
    for (int i = 0; i < 8; i++)
        at = plain_field(row, at, fields[i]);
    row[at++] = '\n';
    return plain_put(buffer, size, row, at);
}

static size_t plain_log_row(char *buffer, size_t size, const hlc_log_event *event, hlc_stamp stamp, hlc_stamp carried)
{
    char texts[2][40];
    hlc_text own = {texts[0], stamp.l || stamp.c ? plain_stamp_text(texts[0], 40, stamp) : 0};
    hlc_text sent = {texts[1], carried.l || carried.c ? plain_stamp_text(texts[1], 40, carried) : 0};
    return plain_row(buffer, size, event, own, sent);
}

static size_t plain_packed_log_row(char *buffer, size_t size, const hlc_log_event *event, uint64_t stamp, uint64_t carried)
{
    char texts[2][40];
    hlc_text own = {texts[0], stamp ? plain_packed_text(texts[0], 40, stamp) : 0};
    hlc_text sent = {texts[1], carried ? plain_packed_text(texts[1], 40, carried) : 0};
    return plain_row(buffer, size, event, own, sent);
}

static uint64_t state = 1;

static uint64_t draw(void)
{
    state ^= state << 13;
    state ^= state >> 7;
    state ^= state << 17;
    return state * 0x2545F4914F6CDD1Du;
}

/* A number near one of some: 0, what was drawn before, a power of two, the greatest. */
static uint64_t draw_near(uint64_t before)
{
    uint64_t near = draw() >> 60;
    switch (draw() >> 61) {
    case 0: return near;
    case 1: return UINT64_MAX - near;
    case 2: return ((uint64_t)1 << (draw() >> 58)) + near - 8;
    case 3: return draw() >> (draw() >> 58);
    default: return before + near - 8;
    }
}

static uint32_t draw_bits(void)
{
    return draw() >> 60 ? (uint32_t)(draw() % 32) + 1 : (uint32_t)draw_near(0);
}

/* A packed number near another. */
static uint64_t draw_packed(uint64_t before, uint32_t bits)
{
    switch (draw() >> 62) {
    case 0: return draw_near(before);
    case 1: return before | (((uint64_t)1 << bits % 64) - 1);
    case 2: return (before & ~(((uint64_t)1 << bits % 64) - 1)) + (draw() >> 61) - 2;
    default: return before + (draw_near(1) << bits % 64);
    }
}

static uint64_t wrong, calls;

static void same(const char *call, int is_same, uint64_t a, uint64_t b, uint32_t bits, uint64_t reading, uint64_t limit)
{
    calls++;
    if (!is_same && wrong++ < 20)
        printf("WRONG: %s of %" PRIu64 ", %" PRIu64 ", %" PRIu32 " bits, %" PRIu64 ", %" PRIu64 "\n", call, a, b, bits, reading, limit);
}

static int is_same_stamp(hlc_stamp a, hlc_stamp b)
{
    return a.l == b.l && a.c == b.c;
}

static int is_same_check(hlc_causes a, hlc_causes b)
{
    return a.behind == b.behind && a.not_above_old == b.not_above_old && a.not_above_message == b.not_above_message && a.ahead == b.ahead;
}

/* The statuses and the numbers of one call and of its plain function; a number that isn't written stays. */
#define SAME(call, mine, theirs)                                                                    \
    do {                                                                                            \
        uint64_t found = old, number = old;                                                         \
        uint32_t status = (theirs), plain = (mine);                                                 \
        same(call, status == plain && found == number, old, message, bits, reading, limit);         \
    } while (0)

static void compare_packed(uint64_t old, uint64_t message, uint32_t bits, uint64_t reading, uint64_t limit)
{
    SAME("hlc_packed_tick", plain_step(old, NULL, bits, reading, limit, &number), hlc_packed_tick(&found, bits, reading, limit));
    SAME("hlc_packed_merge", plain_step(old, &message, bits, reading, limit, &number), hlc_packed_merge(&found, message, bits, reading, limit));
    SAME("hlc_packed_after", plain_step(old, NULL, bits, reading, limit, &number), hlc_packed_after(old, bits, reading, limit, &found));
    SAME("hlc_packed_after_message", plain_step(old, &message, bits, reading, limit, &number),
        hlc_packed_after_message(old, message, bits, reading, limit, &found));
    SAME("hlc_packed_observe", plain_packed_observe(&number, message, bits, reading, limit), hlc_packed_observe(&found, message, bits, reading, limit));
    SAME("hlc_packed_bound", plain_packed_bound(message, bits, limit, &number), hlc_packed_bound(message, bits, limit, &found));
}

static void compare_checks(uint64_t old, uint64_t message, uint32_t bits, uint64_t reading, uint64_t limit, uint64_t stamp)
{
    hlc_causes causes = {1, 0, 1, 0}, plain = causes;
    uint32_t status = bits < 1 || bits > 32 ? HLC_BITS : HLC_OK;
    if (status == HLC_OK)
        plain = plain_check(pair_in(old, bits), pair_in(message, bits), reading, pair_in(stamp, bits), (wide)1 << bits);
    int is_same = hlc_packed_check(old, message, bits, reading, stamp, &causes) == status && is_same_check(causes, plain);
    same("hlc_packed_check", is_same, old, message, bits, reading, limit);
}

static void compare_stamps(hlc_stamp old, hlc_stamp message, uint32_t bits, uint64_t reading, uint64_t limit, hlc_stamp stamp)
{
    uint64_t found = limit, number = limit;
    int is_same = hlc_pack(old, bits, &found) == plain_pack(old, bits, &number) && found == number;
    same("hlc_pack", is_same, old.l, old.c, bits, 0, 0);

    hlc_stamp mine = message, theirs = message;
    is_same = hlc_unpack(old.l, bits, &theirs) == plain_unpack(old.l, bits, &mine) && is_same_stamp(mine, theirs);
    same("hlc_unpack", is_same, old.l, 0, bits, 0, 0);

    mine = theirs = old;
    is_same = hlc_observe(&theirs, message, reading, limit) == plain_observe(&mine, message, reading, limit) && is_same_stamp(mine, theirs);
    same("hlc_observe", is_same, old.l, message.l, bits, reading, limit);

    found = number = reading;
    is_same = hlc_bound(old, limit, &found) == plain_bound(old, limit, &number) && found == number;
    same("hlc_bound", is_same, old.l, 0, bits, 0, limit);

    hlc_restore(&theirs, limit);
    same("hlc_restore", is_same_stamp(theirs, (hlc_stamp){limit, 0}), 0, 0, bits, 0, limit);

    hlc_causes causes;
    hlc_check(old, message, reading, stamp, &causes);
    is_same = is_same_check(causes, plain_check(pair_of(old), pair_of(message), reading, pair_of(stamp), (wide)1 << 32));
    same("hlc_check", is_same, old.l, message.l, stamp.c, reading, stamp.l);
}

/* A text of up to 300 bytes, most of them short, which calls for quotes now and then. None may be null. */
static hlc_text draw_text(char *bytes)
{
    static const char some[] = "aeiou019.,\"\r\n\0\xff ";
    size_t length = draw() >> 61 ? (size_t)(draw() >> 60) : (size_t)(draw() % 300);
    if (length == 0)
        return (hlc_text){draw() >> 63 ? bytes : NULL, 0};
    uint64_t letters = draw() >> 62 ? 9 : sizeof some - 1;
    for (size_t i = 0; i < length; i++)
        bytes[i] = some[draw() % letters];
    return (hlc_text){bytes, length};
}

/* A text that is nearly one of a stamp. */
static size_t draw_stamp_text(char *text, hlc_stamp stamp)
{
    size_t length = draw() >> 63 ? plain_stamp_text(text, 64, stamp) : plain_packed_text(text, 64, stamp.l);
    for (int changes = (int)(draw() >> 62); changes > 1; changes--) {
        size_t place = (size_t)(draw() % (length + 1));
        if (draw() >> 63) {
            memmove(text + place + 1, text + place, length++ - place);
            text[place] = "00009.,+ "[draw() % 9];
        } else if (place < length) {
            text[place] = (char)('0' + draw() % 10);
        }
    }
    return length;
}

/* Two buffers that are the same before and after two calls, of which each writes into one, and the room that the calls are told of. */
static char found_room[8192], plain_room[8192];

#define SAME_TEXT(call, mine, theirs)                                                               \
    do {                                                                                            \
        size_t length = (theirs), plain = (mine);                                                   \
        int is_same = length == plain && !memcmp(found_room, plain_room, sizeof found_room);        \
        same(call, is_same, size, length, 0, 0, 0);                                                 \
    } while (0)

static void compare_texts(hlc_stamp stamp, hlc_stamp carried, uint64_t reading)
{
    char bytes[4][300], text[80];
    size_t size = (size_t)(draw() >> 58);
    SAME_TEXT("hlc_stamp_text", plain_stamp_text(plain_room, size, stamp), hlc_stamp_text(found_room, size, stamp));
    SAME_TEXT("hlc_packed_text", plain_packed_text(plain_room, size, stamp.l), hlc_packed_text(found_room, size, stamp.l));

    size_t length = draw_stamp_text(text, stamp);
    hlc_stamp mine = carried, theirs = carried;
    int is_same = hlc_stamp_read(text, length, &theirs) == plain_stamp_read(text, length, &mine) && is_same_stamp(mine, theirs);
    same("hlc_stamp_read", is_same, stamp.l, stamp.c, 0, 0, length);
    uint64_t found = reading, number = reading;
    is_same = hlc_packed_read(text, length, &found) == plain_packed_read(text, length, &number) && found == number;
    same("hlc_packed_read", is_same, stamp.l, stamp.c, 0, 0, length);

    if (!(draw() >> 60))
        stamp = (hlc_stamp){0, 0};
    if (draw() >> 63)
        carried = (hlc_stamp){0, 0};
    hlc_log_event event = {draw_text(bytes[0]), draw_text(bytes[1]), draw_text(bytes[2]), draw_text(bytes[3]), draw() >> 60 ? reading : 0,
        (uint32_t)(draw() >> 60 ? draw() >> 62 : draw_near(4))};
    size = (size_t)(draw() >> 63 ? draw() >> 56 : draw() % sizeof found_room);
    SAME_TEXT("hlc_log_row", plain_log_row(plain_room, size, &event, stamp, carried), hlc_log_row(found_room, size, &event, stamp, carried));
    SAME_TEXT("hlc_packed_log_row", plain_packed_log_row(plain_room, size, &event, stamp.l, carried.l),
        hlc_packed_log_row(found_room, size, &event, stamp.l, carried.l));
}

static int is_same_verdict(hlc_verdict a, hlc_verdict b)
{
    return a.l == b.l && a.c == b.c && a.event == b.event && a.kind == b.kind;
}

static void compare_judged(hlc_stamp old, hlc_stamp sent, uint64_t reading, hlc_stamp stamp)
{
    hlc_judged mine = {draw() >> 63 ? old : stamp, old, (uint32_t)draw()}, theirs = mine, send = {draw() >> 63 ? sent : stamp, sent, (uint32_t)draw()};
    hlc_verdict said = {7, 7, 7, 7}, plain = said;
    int is_same = hlc_judge_next(&theirs, &send, (uint32_t)reading, reading, stamp, &said)
        == plain_judge_next(&mine, &send, (uint32_t)reading, reading, stamp, &plain);
    is_same = is_same && is_same_verdict(said, plain) && is_same_stamp(mine.claimed, theirs.claimed) && is_same_stamp(mine.least, theirs.least);
    same("hlc_judge_next", is_same && mine.event == theirs.event, old.l, sent.l, stamp.c, reading, stamp.l);
}

/* Verdicts on a drawn trace, all together and one by one. */
static void compare_traces(void)
{
    enum { COUNT = 24, NODES = 4 };
    hlc_claim claims[COUNT];
    hlc_verdict verdicts[COUNT], said;
    hlc_judged nodes[NODES] = {{{0, 0}, {0, 0}, 0}}, kept[COUNT], none = {{0, 0}, {0, 0}, 0};
    uint32_t bad;
    for (uint32_t i = 0; i < COUNT; i++) {
        hlc_claim claim = {1 + (draw() >> 61), 1 + (draw() >> 61), (uint32_t)(draw() >> 62), i ? (uint32_t)(draw() % i) : 0, (uint32_t)(draw() % NODES), HLC_LOCAL};
        if (i && claims[claim.sent].kind == HLC_SEND && claims[claim.sent].node != claim.node)
            claim.kind = HLC_RECEIVE;
        else if (draw() >> 63)
            claim.kind = HLC_SEND;
        claims[i] = claim;
    }
    int is_same = hlc_judge(claims, COUNT, verdicts, COUNT, &bad) == HLC_OK;
    for (uint32_t i = 0; i < COUNT; i++) {
        const hlc_claim *claim = &claims[i];
        const hlc_judged *sent = claim->kind == HLC_RECEIVE ? &kept[claim->sent] : &none;
        hlc_stamp stamp = {claim->l, claim->c};
        is_same = is_same && hlc_judge_next(&nodes[claim->node], sent, i, claim->reading, stamp, &said) == HLC_OK && is_same_verdict(said, verdicts[i]);
        kept[i] = nodes[claim->node];
    }
    same("hlc_judge", is_same, 0, 0, 0, 0, 0);
}

int main(int count, char **words)
{
    uint64_t rounds = count > 1 ? strtoull(words[1], NULL, 10) : 1000000;
    for (uint64_t i = 0; i < rounds; i++) {
        uint32_t bits = draw_bits();
        uint64_t reading = draw_near(draw() >> (draw() >> 58));
        uint64_t old = draw_packed(reading << bits % 64, bits), message = draw_packed(old, bits);
        uint64_t limit = draw() >> 62 ? draw_near(0) : draw_near(UINT64_MAX - reading);
        compare_packed(old, message, bits, reading, limit);
        compare_checks(old, message, bits, reading, limit, draw() >> 63 ? old + (draw() >> 62) : draw_packed(message, bits));

        hlc_stamp clock = {draw_near(reading), (uint32_t)draw_near(UINT32_MAX)};
        hlc_stamp sent = {draw_near(clock.l), draw() >> 63 ? clock.c : (uint32_t)draw_near(clock.c)};
        hlc_stamp stamp = {draw() >> 63 ? clock.l : draw_near(sent.l), (uint32_t)draw_near(clock.c)};
        compare_texts(stamp, sent, reading);
        compare_judged(clock, sent, reading, stamp);
        if (i % 8 == 0)
            compare_traces();
        compare_stamps(clock, sent, bits, reading, limit, stamp);
    }
    printf("from C, on drawn numbers: %" PRIu64 " calls, %" PRIu64 " wrong\n", calls, wrong);
    return wrong != 0;
}
