/* hlc.h: hybrid logical clocks, their stamps as text, and the judge of stamps, for C, C++ and whatever calls C. Link with -lhlc.
 *
 * Each function is proved for every number that you may pass: it is safe, it returns, and it does what its status says. It checks the
 * numbers itself. (hlc_status_text alone is C, in this header.) What it can't check, and you have to see to:
 *
 *   - Each pointer points to live memory of its type, with as many items as the count beside it says. It is aligned and not null, and no
 *     two pointers of one call overlap. Where the count is 0 the pointer isn't followed, and may be null.
 *   - While a call runs, nothing else writes the memory that you pass to it, and nothing else reads what it may write. What it gets as const
 *     others may read too: two threads may judge one array of claims. A clock needs a lock round it, or a thread of its own; a packed
 *     clock needs neither ("Packed stamps", below).
 *   - A clock begins as {0, 0}, a packed one as 0, and only these functions change it. A clock that is restored begins at or above the last
 *     stamp that the node gave ("Restarts", below). With any other value the functions are as safe, and give stamps that are above that value.
 *
 * Readings, l and limits are in one unit of your choice: milliseconds, microseconds, nanoseconds. hlc_clock.h reads the system's clock.
 *
 * Compare stamps by hlc_is_below, or field by field, and never by their bytes: four of the sixteen are padding. Packed stamps are
 * compared as numbers.
 *
 * Use hlc_merge_within for what peers send. hlc_merge lets a message pull the clock up to any l: no reading ever reaches an l near 2^64,
 * so one such message is the end of a clock. A message whose c is full, or nearly full, stops it too (HLC_NO_ROOM), until the reading is above
 * its l. The limit bounds both: no l is further above the reading than that, so a clock that a full c has stopped goes on as soon as the reading
 * has grown by more than the limit. A full c doesn't stop a packed clock: it goes on with the next l.
 *
 * A later library of this soname may add functions, and statuses that only these return. What is here keeps its meaning.
 */
#ifndef HLC_H
#define HLC_H

#include <stdbool.h>
#include <stddef.h>
#include <stdint.h>

/* The version of this header, and of the library that it came with. */
#define HLC_VERSION_MAJOR 1
#define HLC_VERSION_MINOR 0
#define HLC_VERSION_PATCH 0

/* The same as one number, as hlc_version answers it. */
#define HLC_VERSION (1000000 * HLC_VERSION_MAJOR + 1000 * HLC_VERSION_MINOR + HLC_VERSION_PATCH)

#ifdef __cplusplus
extern "C" {
#endif

/* What a call came to. Unless it is HLC_OK, nothing is changed but `bad` of hlc_judge. Each function has the statuses that its comment names.
 * With -Wswitch a compiler names the statuses that a switch without a default leaves out. */
typedef enum hlc_status {
    HLC_OK = 0,
    HLC_READING = 1,         /* the reading is 0 or above INT64_MAX; with a packed clock, 0 or above every l of so many bits */
    HLC_NO_ROOM = 2,         /* there is no next stamp: it would need the l of a clock or a message whose c is UINT32_MAX, the greatest;
                                or a number above UINT64_MAX */
    HLC_TOO_FAR = 3,         /* the clock is ahead of the reading by more than the limit; from hlc_merge_within, the clock or the message is */
    HLC_LENGTHS = 4,         /* there are more claims than places for verdicts, or fewer */
    HLC_BAD_TRACE = 5,       /* the claim at the place `bad` is bad, in the sense that hlc_judge has below, and none before it is */
    HLC_MEMORY = 6,          /* malloc returned null */
    HLC_BITS = 7,            /* `bits` is 0 or above 32 */
    HLC_WIDE = 8,            /* the stamp's l or c has more bits than a packed stamp has for it */
    HLC_MESSAGE_TOO_FAR = 9, /* the message is ahead of the reading by more than the limit */
    HLC_TEXT = 10            /* the text isn't that of a stamp */
} hlc_status;

/* A stamp, ordered by l and then by c. A clock is the stamp of its node's last event, or of a message that it has seen since. */
typedef struct hlc_stamp {
    uint64_t l;
    uint32_t c;
} hlc_stamp;

/* The node's next event, a send or a local one. Of all stamps, the clock becomes the least that is above its old one and has
 * an l that is not below the reading; a message is to carry it. Statuses: HLC_READING, else HLC_NO_ROOM. */
hlc_status hlc_tick(hlc_stamp *clock, uint64_t reading);

/* hlc_tick with a limit of drift: where the clock's l is above the reading by more than the limit, the answer is HLC_TOO_FAR, and the
 * clock stays. A store that promises a limit asks it of each event, and not of deliveries alone. Statuses: HLC_READING, else
 * HLC_TOO_FAR, else HLC_NO_ROOM. */
hlc_status hlc_tick_within(hlc_stamp *clock, uint64_t reading, uint64_t limit);

/* The node's next event, a delivery of a message that carries this stamp. Of all stamps, the clock becomes the least that is
 * above its old one and above the message's and has an l that is not below the reading. Statuses: HLC_READING, else
 * HLC_NO_ROOM. */
hlc_status hlc_merge(hlc_stamp *clock, hlc_stamp message, uint64_t reading);

/* hlc_merge with a limit of drift: where the greater l of clock and message is above the reading by more than the limit, the
 * answer is HLC_TOO_FAR, and the clock stays. Statuses: HLC_READING, else HLC_TOO_FAR, else HLC_NO_ROOM. */
hlc_status hlc_merge_within(hlc_stamp *clock, hlc_stamp message, uint64_t reading, uint64_t limit);

/* The clock sees a message that carries this stamp, and no event is counted: it becomes the greater of both. So the next tick gives
 * the stamp that a merge would have given. Where the message's l is above the reading by more than the limit, the answer is
 * HLC_MESSAGE_TOO_FAR. Statuses: HLC_READING, else HLC_MESSAGE_TOO_FAR. */
hlc_status hlc_observe(hlc_stamp *clock, hlc_stamp message, uint64_t reading, uint64_t limit);

/* Whether the first stamp comes before the second. */
bool hlc_is_below(hlc_stamp first, hlc_stamp second);

/* Packed stamps.
 *
 * A packed stamp is one number, l << bits | c: c is its low bits, 1 to 32 of them, and l the other ones of 64. Packed stamps of as many
 * bits are compared as numbers, and `hlc audit --packed BITS` reads them. With 16 bits and milliseconds they are below 2^63, so fit for
 * a signed column, until 2^47 ms, the year 6429.
 *
 * A full c is no end here: the number after it has the next l, and a c of 0. So the new number is the least whose stamp is above the old
 * ones and whose l isn't below the reading. The limit is of the new number: where its l would be above the reading by more, the answer is
 * HLC_TOO_FAR if the clock alone would bring that about, else HLC_MESSAGE_TOO_FAR. UINT64_MAX is no limit. No number is above
 * UINT64_MAX: a clock or a message of that, within the limit, is HLC_NO_ROOM.
 *
 * A clock that is one number needs no lock. Give the stamp once the exchange has succeeded; with a message in the same way:
 *
 *     uint64_t old = atomic_load(&clock), new;
 *     do status = hlc_packed_after(old, 16, reading, limit, &new);
 *     while (status == HLC_OK && !atomic_compare_exchange_weak(&clock, &old, new));
 */

/* The number that packs a stamp. Statuses: HLC_BITS, else HLC_WIDE. */
hlc_status hlc_pack(hlc_stamp stamp, uint32_t bits, uint64_t *packed);

/* The stamp that a number packs. Status: HLC_BITS. */
hlc_status hlc_unpack(uint64_t packed, uint32_t bits, hlc_stamp *stamp);

/* hlc_tick_within for a packed clock. Statuses: HLC_BITS, else HLC_READING, else HLC_TOO_FAR, else HLC_NO_ROOM. */
hlc_status hlc_packed_tick(uint64_t *clock, uint32_t bits, uint64_t reading, uint64_t limit);

/* hlc_merge_within for a packed clock. Statuses: HLC_BITS, else HLC_READING, else HLC_TOO_FAR, else HLC_MESSAGE_TOO_FAR, else
 * HLC_NO_ROOM. */
hlc_status hlc_packed_merge(uint64_t *clock, uint64_t message, uint32_t bits, uint64_t reading, uint64_t limit);

/* hlc_observe for a packed clock. Its limit is of the message's own l. Statuses: HLC_BITS, else HLC_READING, else
 * HLC_MESSAGE_TOO_FAR. */
hlc_status hlc_packed_observe(uint64_t *clock, uint64_t message, uint32_t bits, uint64_t reading, uint64_t limit);

/* What hlc_packed_tick makes of a clock that is `old`, and hlc_packed_merge: the number and the status, and no clock is changed. */
hlc_status hlc_packed_after(uint64_t old, uint32_t bits, uint64_t reading, uint64_t limit, uint64_t *packed);
hlc_status hlc_packed_after_message(uint64_t old, uint64_t message, uint32_t bits, uint64_t reading, uint64_t limit, uint64_t *packed);

/* Restarts.
 *
 * A node that dies forgets its clock. It need not make each stamp durable: a bound, which is durable, covers many.
 *
 *   1. A new node has the bound 0.
 *   2. Where a new stamp's l isn't below the bound that is durable, take a greater one from hlc_bound, and make that durable (fsync) first.
 *   3. Only then give the stamp: show it to anyone, or store anything under it.
 *   4. After a restart the clock begins at the bound that is durable: hlc_restore.
 *
 * Then no stamp is given twice, and after a restart none is below one that was given before it, whenever the process died. With a packed
 * clock it is the same: the bound of hlc_packed_bound is itself a packed number, a number that isn't below the bound needs a new one, and
 * after a restart the clock is the bound.
 *
 * A restarted clock is ahead of where it was by up to window + 1. So let the limit be above the window by as much as clocks may differ:
 * with a lower one, calls answer HLC_TOO_FAR until the reading has come up.
 */

/* The clock begins at a bound: it becomes {bound, 0}. */
void hlc_restore(hlc_stamp *clock, uint64_t bound);

/* A bound above each stamp whose l is at most clock.l + window: clock.l + window + 1. Status: HLC_NO_ROOM. */
hlc_status hlc_bound(hlc_stamp clock, uint64_t window, uint64_t *bound);

/* The same for a packed clock: the first number whose l is the clock's + window + 1. Statuses: HLC_BITS, else HLC_NO_ROOM. */
hlc_status hlc_packed_bound(uint64_t clock, uint32_t bits, uint64_t window, uint64_t *bound);

/* Which rules the stamp of an event breaks: what `hlc audit` has rows `cause` for. */
typedef struct hlc_causes {
    bool behind;            /* its l is below the reading */
    bool not_above_old;     /* it isn't above the stamp of its node's event before */
    bool not_above_message; /* it isn't above the message's */
    bool ahead;             /* a lower stamp would break none of these three */
} hlc_causes;

/* What is to be said of the stamp of one event: `old` is the one of its node's event before, {0, 0} for the first; `message` is the one
 * of the message which it delivers, {0, 0} if it delivers none. A stamp that breaks no rule is the one that hlc_tick or hlc_merge
 * gives, or hlc_packed_tick or hlc_packed_merge: after a full c the next l with a c of 0. */
void hlc_check(hlc_stamp old, hlc_stamp message, uint64_t reading, hlc_stamp stamp, hlc_causes *causes);

/* hlc_check of packed stamps, where 0 stands for {0, 0}. Status: HLC_BITS. */
hlc_status hlc_packed_check(uint64_t old, uint64_t message, uint32_t bits, uint64_t reading, uint64_t packed, hlc_causes *causes);

/* What is claimed to have happened. No trace has another kind. */
enum hlc_claim_kind {
    HLC_LOCAL = 0,  /* an event that is neither a send nor a receive */
    HLC_SEND = 1,   /* a send */
    HLC_RECEIVE = 2 /* a receive of what the claim at the place `sent` sent */
};

/* A claim: an event of a node, what its clock read, and the stamp (l, c) that it is said to have got. */
typedef struct hlc_claim {
    uint64_t reading;
    uint64_t l;
    uint32_t c;
    uint32_t sent; /* the place of the send, if the kind is HLC_RECEIVE; else it isn't read */
    uint32_t node; /* below 64 */
    uint32_t kind;
} hlc_claim;

/* What is to be said of a claimed stamp: the last of these that is so. */
enum hlc_verdict_kind {
    HLC_LEAST = 0,     /* it is the least that keeps causality */
    HLC_AHEAD = 1,     /* it is greater than the least, which is (l, c) */
    HLC_LOW = 2,       /* it is less than the least, which is (l, c) */
    HLC_NOT_ABOVE = 3, /* it isn't above the one claimed at the place `event`, which happened directly before */
    HLC_BEHIND = 4     /* its l is below the reading */
};

/* A verdict. Numbers that its kind doesn't use are 0. */
typedef struct hlc_verdict {
    uint64_t l;
    uint32_t c;
    uint32_t event;
    uint32_t kind;
} hlc_verdict;

/* The verdict on each claim of a trace, in order. In a trace the claims of each node stand in the order in which they happened, and a send
 * stands before its receives. The place of a claim is its index. A claim is bad if its node is above 63, its reading would be HLC_READING, its
 * kind is none, it receives what isn't an earlier send of another node, or its place is above 1,048,575.
 * Statuses: HLC_LENGTHS, else HLC_BAD_TRACE, which writes the place to *bad, else HLC_MEMORY. If no claim is bad, the call takes 16 bytes
 * for each from malloc, and frees them. */
hlc_status hlc_judge(const hlc_claim *claims, size_t claim_count, hlc_verdict *verdicts, size_t verdict_count, uint32_t *bad);

/* What is kept of an event that was judged, or of no event: then all of it is 0. */
typedef struct hlc_judged {
    hlc_stamp claimed; /* the stamp that was claimed */
    hlc_stamp least;   /* the least that it could be */
    uint32_t event;    /* a number of yours, by which a verdict names the event */
} hlc_judged;

/* hlc_judge for one claim after the other, as they come in, from as many nodes as you have memory for. Keep an hlc_judged of the last event of
 * each node, and a copy of it for each message that may still be received:
 *
 *     hlc_judged none = {{0, 0}, {0, 0}, 0};
 *     status = hlc_judge_next(&nodes[node], is_receive ? &sends[message] : &none, event, reading, stamp, &verdict);
 *     if (is_send)
 *         sends[message] = nodes[node];
 *
 * The claims of each node come in the order in which they happened, and a send comes before its receives. Then the verdicts are those
 * of hlc_judge on the array of all claims, if `event` is the index there. On HLC_OK *last becomes what is kept of this event. Statuses:
 * HLC_READING, else HLC_NO_ROOM: what is kept leaves no least stamp. No allocation is made. */
hlc_status hlc_judge_next(hlc_judged *last, const hlc_judged *sent, uint32_t event, uint64_t reading, hlc_stamp claimed, hlc_verdict *verdict);

/* Stamps as text.
 *
 * A text is written with no NUL after it, and only if `size` bytes have room for it; else nothing is written. The length of the text is returned
 * in any case. So a call with a size of 0 tells how much room it takes:
 *
 *     char text[HLC_STAMP_SIZE];
 *     size_t length = hlc_stamp_text(text, sizeof text, stamp);
 *     printf("%.*s\n", (int)length, text);
 */

/* As much room as the text of any stamp takes. */
#define HLC_STAMP_SIZE 31

/* A stamp as L.C, both in shortest decimal. It is what `hlc audit --dotted` reads. */
size_t hlc_stamp_text(char *buffer, size_t size, hlc_stamp stamp);

/* A packed stamp in shortest decimal. */
size_t hlc_packed_text(char *buffer, size_t size, uint64_t packed);

/* The stamp that a text writes as L.C: one to twenty digits each, which may begin with zeros, and nothing else; c has at most 32 bits, l 64.
 * What hlc_stamp_text writes is read as the same stamp. Status: HLC_TEXT. */
hlc_status hlc_stamp_read(const char *text, size_t length, hlc_stamp *stamp);

/* The packed stamp that a text writes: one to twenty digits, at most UINT64_MAX. Status: HLC_TEXT. */
hlc_status hlc_packed_read(const char *text, size_t length, uint64_t *packed);

/* Rows of logs.
 *
 * Log each event as a row, and `hlc audit` tells what is wrong with the stamps of all nodes together. A log begins with the header, and each
 * event has a row of eight fields, quoted as CSV has it, which ends with a line feed:
 *
 *     char row[512];
 *     hlc_log_event event = {.kind = HLC_SEND, .node = {"eu", 2}, .message = {id, id_length}, .reading = reading};
 *     size_t length = hlc_packed_log_row(row, sizeof row, &event, packed, 0);
 *     if (length > 0 && length <= sizeof row)
 *         fwrite(row, 1, length, log);
 *
 * What is left out of the struct, and so is 0, becomes an empty field.
 */
#define HLC_LOG_HEADER "kind,node,reading,stamp,message,from,carried,label\n"

/* A kind of rows beside those of claims: a restart, whose stamp is the bound at which the clock began. */
#define HLC_RESTART 3

/* Any bytes. */
typedef struct hlc_text {
    const char *bytes;
    size_t length;
} hlc_text;

/* An event as its row tells it, but for its stamp. */
typedef struct hlc_log_event {
    hlc_text node;    /* the name of its node: 1 to 256 bytes */
    hlc_text message; /* the name of the message that it sends or receives: at most 256 bytes */
    hlc_text from;    /* of a receive that doesn't name the message: the node that sent it, which is then found by the stamp that it carried */
    hlc_text label;   /* any text, to find the event again: at most UINT32_MAX bytes */
    uint64_t reading; /* at most INT64_MAX; 0 if it isn't told */
    uint32_t kind;    /* HLC_LOCAL, HLC_SEND, HLC_RECEIVE or HLC_RESTART */
} hlc_log_event;

/* The row of an event with its stamp, and with the one that a received message carried, both as L.C, for `hlc audit --dotted`; {0, 0} stands
 * for none. The row is written, and its length returned, as a stamp's text is ("Stamps as text", above). For an event that no log may have the
 * length is 0, and nothing is written:
 *
 *   - its kind is none, its node has no name, or one of its texts or its reading is beyond the limits above;
 *   - it has no stamp, and isn't a receive;
 *   - it is a receive, and names neither its message, nor a node (`from`) together with what the message carried.
 *
 * Besides, `hlc audit` takes no restart with a c above 2^31 - 1, and no carried stamp with one above 2^31 - 2. */
size_t hlc_log_row(char *buffer, size_t size, const hlc_log_event *event, hlc_stamp stamp, hlc_stamp carried);

/* The same with packed stamps, for `hlc audit --packed`; 0 stands for none. */
size_t hlc_packed_log_row(char *buffer, size_t size, const hlc_log_event *event, uint64_t stamp, uint64_t carried);

/* The version of the library that is linked: HLC_VERSION of its own header. */
uint32_t hlc_version(void);

/* A status in words. */
static inline const char *hlc_status_text(uint32_t status)
{
    switch (status) {
    case HLC_OK: return "done";
    case HLC_READING: return "the reading is 0 or too great";
    case HLC_NO_ROOM: return "no stamp is left";
    case HLC_TOO_FAR: return "the clock is too far ahead of the reading";
    case HLC_LENGTHS: return "there aren't as many places for verdicts as claims";
    case HLC_BAD_TRACE: return "a claim is bad";
    case HLC_MEMORY: return "out of memory";
    case HLC_BITS: return "a packed stamp can't have so many bits for c";
    case HLC_WIDE: return "the stamp has too many bits to be packed";
    case HLC_MESSAGE_TOO_FAR: return "the message is too far ahead of the reading";
    case HLC_TEXT: return "the text isn't that of a stamp";
    default: return "no status";
    }
}

#ifdef __cplusplus
}
#endif

/* The layout that the library was built for. */
#ifdef __cplusplus
#define HLC_LAYOUT(type, field, place) static_assert(offsetof(type, field) == (place), "the layout of " #type)
#define HLC_SIZE(type, size) static_assert(sizeof(type) == (size), "the size of " #type)
#else
#define HLC_LAYOUT(type, field, place) _Static_assert(offsetof(type, field) == (place), "the layout of " #type)
#define HLC_SIZE(type, size) _Static_assert(sizeof(type) == (size), "the size of " #type)
#endif
HLC_SIZE(hlc_status, 4);
HLC_SIZE(hlc_stamp, 16);
HLC_LAYOUT(hlc_stamp, l, 0);
HLC_LAYOUT(hlc_stamp, c, 8);
HLC_SIZE(hlc_claim, 32);
HLC_LAYOUT(hlc_claim, reading, 0);
HLC_LAYOUT(hlc_claim, l, 8);
HLC_LAYOUT(hlc_claim, c, 16);
HLC_LAYOUT(hlc_claim, sent, 20);
HLC_LAYOUT(hlc_claim, node, 24);
HLC_LAYOUT(hlc_claim, kind, 28);
HLC_SIZE(hlc_verdict, 24);
HLC_LAYOUT(hlc_verdict, l, 0);
HLC_LAYOUT(hlc_verdict, c, 8);
HLC_LAYOUT(hlc_verdict, event, 12);
HLC_LAYOUT(hlc_verdict, kind, 16);
HLC_SIZE(hlc_causes, 4);
HLC_LAYOUT(hlc_causes, behind, 0);
HLC_LAYOUT(hlc_causes, not_above_old, 1);
HLC_LAYOUT(hlc_causes, not_above_message, 2);
HLC_LAYOUT(hlc_causes, ahead, 3);
HLC_SIZE(hlc_judged, 40);
HLC_LAYOUT(hlc_judged, claimed, 0);
HLC_LAYOUT(hlc_judged, least, 16);
HLC_LAYOUT(hlc_judged, event, 32);
HLC_SIZE(hlc_log_event, 80);
HLC_LAYOUT(hlc_text, bytes, 0);
HLC_LAYOUT(hlc_text, length, 8);
HLC_LAYOUT(hlc_log_event, node, 0);
HLC_LAYOUT(hlc_log_event, message, 16);
HLC_LAYOUT(hlc_log_event, from, 32);
HLC_LAYOUT(hlc_log_event, label, 48);
HLC_LAYOUT(hlc_log_event, reading, 64);
HLC_LAYOUT(hlc_log_event, kind, 72);
HLC_SIZE(size_t, 8);
#undef HLC_LAYOUT
#undef HLC_SIZE

#endif
