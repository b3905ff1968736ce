/* hlc_clock.h: what the system's clock reads, for the readings of hlc.h, in a unit of your choice. Nothing is linked, and nothing is proved.
 *
 * The clock is the one of the time of day (CLOCK_REALTIME), which NTP keeps in step with those of other nodes: no other will do, since
 * stamps of several nodes are compared. It may step back, and stamps rise nevertheless. Where it can't be read, or is before 1970, the reading
 * is 0, and the calls of hlc.h answer HLC_READING.
 */
#ifndef HLC_CLOCK_H
#define HLC_CLOCK_H

#include <stdint.h>
#include <time.h>

static inline uint64_t hlc_clock_reading(uint64_t per_second)
{
    struct timespec now;
#if defined(CLOCK_REALTIME)
    if (clock_gettime(CLOCK_REALTIME, &now) != 0)
        return 0;
#elif defined(TIME_UTC)
    if (timespec_get(&now, TIME_UTC) == 0)
        return 0;
#else
#error "hlc_clock.h needs C11, or _POSIX_C_SOURCE of 199309L or more"
#endif
    if (now.tv_sec < 0)
        return 0;
    return (uint64_t)now.tv_sec * per_second + (uint64_t)now.tv_nsec / (1000000000u / per_second);
}

/* Milliseconds since 1970. */
static inline uint64_t hlc_clock_ms(void)
{
    return hlc_clock_reading(1000);
}

/* Microseconds since 1970. */
static inline uint64_t hlc_clock_us(void)
{
    return hlc_clock_reading(1000000);
}

/* Nanoseconds since 1970. */
static inline uint64_t hlc_clock_ns(void)
{
    return hlc_clock_reading(1000000000);
}

#endif
