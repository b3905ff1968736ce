/* A clock for a database: one word that all threads share, and a file that holds its bound. It gives two stamps, dies, and goes on from the
 * file. Build it from the top of the repository with
 *
 *     packaging/library && cc -Iinclude examples/c/durable_clock.c crates/hlc_c/out/libhlc.a -pthread -o durable_clock
 *
 * or over the package libhlc-dev with cc durable_clock.c -lhlc -pthread, and run it in an empty folder.
 */
#define _POSIX_C_SOURCE 200809L
#include "hlc.h"

#include <fcntl.h>
#include <inttypes.h>
#include <pthread.h>
#include <stdatomic.h>
#include <stdio.h>
#include <unistd.h>

enum { BITS = 16, LIMIT = 500, WINDOW = 100 }; /* milliseconds */

static _Atomic uint64_t node_clock, durable;
static pthread_mutex_t file_lock = PTHREAD_MUTEX_INITIALIZER;

static bool sync_and_close(int file)
{
    bool is_synced = fsync(file) == 0;
    return close(file) == 0 && is_synced;
}

/* The file is replaced as a whole: whenever the process dies, it holds this bound or the one before. */
static bool write_bound(uint64_t bound)
{
    int file = open("bound.new", O_WRONLY | O_CREAT | O_TRUNC, 0666);
    if (file < 0)
        return false;
    bool is_written = write(file, &bound, sizeof bound) == (ssize_t)sizeof bound;
    if (!sync_and_close(file) || !is_written || rename("bound.new", "bound") != 0)
        return false;
    int folder = open(".", O_RDONLY);
    return folder >= 0 && sync_and_close(folder);
}

/* Makes a bound durable that is above this stamp, unless another thread has done so. */
static bool is_covered(uint64_t stamp)
{
    pthread_mutex_lock(&file_lock);
    bool is_below = stamp < atomic_load(&durable);
    uint64_t bound;
    if (!is_below && hlc_packed_bound(stamp, BITS, WINDOW, &bound) == HLC_OK && write_bound(bound)) {
        atomic_store(&durable, bound);
        is_below = true;
    }
    pthread_mutex_unlock(&file_lock);
    return is_below;
}

/* The stamp of the next event, a delivery of a message if there is one. Nothing is given unless the answer is "done". */
static const char *next_stamp(const uint64_t *message, uint64_t reading, uint64_t *stamp)
{
    uint64_t old = atomic_load(&node_clock), new;
    hlc_status status;
    do {
        if (message)
            status = hlc_packed_after_message(old, *message, BITS, reading, LIMIT, &new);
        else
            status = hlc_packed_after(old, BITS, reading, LIMIT, &new);
    } while (status == HLC_OK && !atomic_compare_exchange_weak(&node_clock, &old, new));
    if (status != HLC_OK)
        return hlc_status_text(status);
    if (new >= atomic_load(&durable) && !is_covered(new))
        return "the bound can't be made durable";
    *stamp = new;
    return hlc_status_text(HLC_OK);
}

/* Begins at the bound of the file: 0, where this node is new. */
static bool restart(void)
{
    uint64_t bound = 0;
    int file = open("bound", O_RDONLY);
    if (file >= 0) {
        bool is_read = read(file, &bound, sizeof bound) == (ssize_t)sizeof bound;
        close(file);
        if (!is_read)
            return false;
    }
    atomic_store(&node_clock, bound);
    atomic_store(&durable, bound);
    return true;
}

static void tell(const uint64_t *message, uint64_t reading)
{
    uint64_t stamp = 0;
    hlc_stamp pair = {0, 0};
    const char *what = next_stamp(message, reading, &stamp);
    hlc_unpack(stamp, BITS, &pair);
    printf("at %" PRIu64 ": %s %" PRIu64 ",%" PRIu32 "\n", reading, what, pair.l, pair.c);
}

int main(void)
{
    uint64_t far;
    if (!restart() || hlc_pack((hlc_stamp){2000, 0}, BITS, &far) != HLC_OK)
        return 1;
    tell(NULL, 1000);
    tell(NULL, 1000);
    tell(&far, 1000);
    if (!restart())
        return 1;
    tell(NULL, 1001);
    return 0;
}
