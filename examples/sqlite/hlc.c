/* Hybrid logical clocks for SQLite, over libhlc: an extension that is loaded at run time. README.md says how to build and use it.
 *
 * The process has one clock, a word that its connections and threads share; hlc_open says whose it is. BOUND, a file, has a number that is above each
 * stamp that was given. It is made durable before a stamp comes up to it, and the clock of the next process begins there. One process at a time
 * has the clock: it locks BOUND.lock. With a log, a stamp is taken under a mutex, so that rows stand in the order of their stamps.
 */
#define _DEFAULT_SOURCE
#include "hlc.h"
#include "hlc_clock.h"

#include <errno.h>
#include <fcntl.h>
#include <inttypes.h>
#include <pthread.h>
#include <sqlite3ext.h>
#include <stdatomic.h>
#include <stdio.h>
#include <stdlib.h>
#include <string.h>
#include <sys/file.h>
#include <sys/stat.h>
#include <unistd.h>
SQLITE_EXTENSION_INIT1

/* The same for all nodes: stamps have milliseconds above so many bits. */
#ifndef HLC_BITS
#define HLC_BITS 16
#endif
/* In milliseconds: how far ahead of the clock a stamp may be, and how far ahead of a stamp the bound is set. */
#ifndef HLC_LIMIT
#define HLC_LIMIT 500
#endif
#ifndef HLC_WINDOW
#define HLC_WINDOW 100
#endif
_Static_assert(HLC_WINDOW < HLC_LIMIT, "else a node that restarts gives no stamp until its clock has come up to the bound");

enum { MOST_NAME_BYTES = 256 };

/* Rows of the log that are written together: of one event, and what stands before the first. In quotes each byte of a name may stand twice. */
struct rows {
    char text[sizeof HLC_LOG_HEADER + 3 * (2 * MOST_NAME_BYTES + 2) + 256];
    size_t length;
};

/* Whose the clock is, and its files, by paths from the root: they are the same wherever the process goes. */
struct names {
    char *node, *bound, *log; /* there need not be a log */
};

static pthread_mutex_t mutex = PTHREAD_MUTEX_INITIALIZER; /* for what follows, and the files */
static struct names names;
static int lock_file;
static uint64_t unlogged_start; /* the bound that the clock began at, until the log has it; else 0 */
static atomic_bool is_open;     /* from then on the names stay as they are */

static _Atomic uint64_t node_clock; /* the last stamp that was given, or the bound that it began at */
static _Atomic uint64_t durable;    /* the bound that the file has */

static bool sync_and_close(int file)
{
    bool is_synced = fsync(file) == 0;
    return close(file) == 0 && is_synced;
}

static bool sync_folder_of(const char *path)
{
    char *folder = sqlite3_mprintf("%.*s/", (int)(strrchr(path, '/') - path), path);
    int file = folder ? open(folder, O_RDONLY | O_CLOEXEC) : -1;
    sqlite3_free(folder);
    return file >= 0 && sync_and_close(file);
}

/* The file is replaced as a whole: whenever the process dies, it holds this bound or the one before. */
static bool write_bound(uint64_t bound)
{
    char *new_file = sqlite3_mprintf("%s.new", names.bound);
    int file = new_file ? open(new_file, O_WRONLY | O_CREAT | O_TRUNC | O_CLOEXEC, 0666) : -1;
    bool is_written = file >= 0 && dprintf(file, "%d %" PRIu64 "\n", HLC_BITS, bound) > 0;
    is_written = file >= 0 && sync_and_close(file) && is_written && rename(new_file, names.bound) == 0;
    sqlite3_free(new_file);
    return is_written && sync_folder_of(names.bound);
}

/* The bound of the file: 0, where this node is new. */
static const char *read_bound(uint64_t *bound)
{
    *bound = 0;
    FILE *file = fopen(names.bound, "re");
    if (!file)
        return errno == ENOENT ? NULL : "the file of the bound can't be opened";
    int bits;
    bool is_read = fscanf(file, "%d %" SCNu64, &bits, bound) == 2 && fgetc(file) == '\n';
    fclose(file);
    if (!is_read)
        return "the file of the bound is damaged";
    return bits == HLC_BITS ? NULL : "this node has given stamps with another HLC_BITS";
}

/* Writes all of it to the end of a file of this size, at once. If only a part fits, none of it stays. */
static bool append(int file, off_t size, const char *bytes, size_t length)
{
    bool is_written = write(file, bytes, length) == (ssize_t)length;
    return is_written || (ftruncate(file, size) == 0 && is_written);
}

static bool add_row(struct rows *rows, const hlc_log_event *event, uint64_t stamp, uint64_t carried)
{
    size_t room = sizeof rows->text - rows->length;
    size_t length = hlc_packed_log_row(rows->text + rows->length, room, event, stamp, carried);
    if (length == 0 || length > room)
        return false;
    rows->length += length;
    return true;
}

/* Adds the row of an event to the log, by one write: with the header, if the log is new, and the clock's restart, if this is its first event. */
static bool write_row(const hlc_log_event *event, uint64_t stamp, uint64_t carried)
{
    hlc_log_event start = {.kind = HLC_RESTART, .node = event->node};
    struct rows rows = {HLC_LOG_HEADER, 0};
    struct stat is;
    int file = open(names.log, O_WRONLY | O_CREAT | O_APPEND | O_CLOEXEC, 0666);
    if (file < 0)
        return false;
    bool is_written = fstat(file, &is) == 0;
    if (is_written && is.st_size == 0)
        rows.length = strlen(HLC_LOG_HEADER);
    is_written = is_written && (unlogged_start == 0 || add_row(&rows, &start, unlogged_start, 0)) && add_row(&rows, event, stamp, carried) &&
                 append(file, is.st_size, rows.text, rows.length);
    if (close(file) != 0 || !is_written)
        return false;
    unlogged_start = 0;
    return true;
}

/* Makes a bound durable that is above the stamp, unless one is. Whoever calls has the mutex. */
static bool cover(uint64_t stamp)
{
    uint64_t bound;
    if (stamp < atomic_load(&durable))
        return true;
    if (hlc_packed_bound(stamp, HLC_BITS, HLC_WINDOW, &bound) != HLC_OK || !write_bound(bound))
        return false;
    atomic_store(&durable, bound);
    return true;
}

static bool cover_locked(uint64_t stamp)
{
    if (stamp < atomic_load(&durable))
        return true;
    pthread_mutex_lock(&mutex);
    bool is_covered = cover(stamp);
    pthread_mutex_unlock(&mutex);
    return is_covered;
}

/* The stamp that comes after the clock's and the one that a message carried: 0, if none has come. */
static const char *stamp_after(uint64_t old, uint64_t carried, uint64_t reading, uint64_t *new)
{
    hlc_status status = carried > 0 ? hlc_packed_after_message(old, carried, HLC_BITS, reading, HLC_LIMIT, new)
                                    : hlc_packed_after(old, HLC_BITS, reading, HLC_LIMIT, new);
    if (status == HLC_OK && *new > INT64_MAX)
        status = HLC_NO_ROOM;
    return status == HLC_OK ? NULL : hlc_status_text(status);
}

/* Takes the stamp of an event, or answers why there is none. */
static const char *take_stamp(uint64_t carried, uint64_t *stamp)
{
    uint64_t reading = hlc_clock_ms(), old = atomic_load(&node_clock);
    do {
        const char *why = stamp_after(old, carried, reading, stamp);
        if (why)
            return why;
        if (!cover_locked(*stamp))
            return "the bound can't be made durable";
    } while (!atomic_compare_exchange_weak(&node_clock, &old, *stamp));
    return NULL;
}

/* The same, where each event has its row before the next one is stamped. Whoever calls has the mutex. */
static const char *take_logged_stamp(hlc_log_event event, uint64_t carried, uint64_t *stamp)
{
    event.node = (hlc_text){names.node, strlen(names.node)};
    event.reading = hlc_clock_ms();
    const char *why = stamp_after(atomic_load(&node_clock), carried, event.reading, stamp);
    if (why)
        return why;
    if (!cover(*stamp))
        return "the bound can't be made durable";
    if (!write_row(&event, *stamp, carried))
        return "the log can't be written";
    atomic_store(&node_clock, *stamp);
    return NULL;
}

static void answer_stamp(sqlite3_context *context, hlc_log_event event, uint64_t carried)
{
    uint64_t stamp = 0;
    const char *why;
    if (!atomic_load(&is_open)) {
        why = "no clock is open: select hlc_open(node, bound) first";
    } else if (names.log) {
        pthread_mutex_lock(&mutex);
        why = take_logged_stamp(event, carried, &stamp);
        pthread_mutex_unlock(&mutex);
    } else {
        why = take_stamp(carried, &stamp);
    }
    if (why)
        sqlite3_result_error(context, why, -1);
    else
        sqlite3_result_int64(context, (sqlite3_int64)stamp);
}

/* The text of an argument that is a name, with a NUL after it: of no bytes, after the error, if it is none. */
static hlc_text name_from(sqlite3_context *context, sqlite3_value *value)
{
    const char *bytes = (const char *)sqlite3_value_text(value);
    hlc_text name = {bytes, (size_t)sqlite3_value_bytes(value)};
    if (bytes && name.length >= 1 && name.length <= MOST_NAME_BYTES && strlen(bytes) == name.length)
        return name;
    sqlite3_result_error(context, "a name has 1 to 256 bytes", -1);
    return (hlc_text){NULL, 0};
}

/* Whether an argument is a stamp; else it is an error. */
static bool stamp_from(sqlite3_context *context, sqlite3_value *value, uint64_t *stamp)
{
    sqlite3_int64 number = sqlite3_value_int64(value);
    *stamp = (uint64_t)number;
    if (sqlite3_value_numeric_type(value) == SQLITE_INTEGER && number >= 0)
        return true;
    sqlite3_result_error(context, "a stamp is a whole number, and not below 0", -1);
    return false;
}

static void sql_now(sqlite3_context *context, int count, sqlite3_value **values)
{
    (void)count, (void)values;
    answer_stamp(context, (hlc_log_event){.kind = HLC_LOCAL}, 0);
}

static void sql_send(sqlite3_context *context, int count, sqlite3_value **values)
{
    (void)count;
    hlc_text message = name_from(context, values[0]);
    if (message.length > 0)
        answer_stamp(context, (hlc_log_event){.kind = HLC_SEND, .message = message}, 0);
}

/* No event has the stamp 0. So a message that carries it brings nothing, and the event is a local one. */
static void sql_merge(sqlite3_context *context, int count, sqlite3_value **values)
{
    (void)count;
    uint64_t carried;
    hlc_text message = name_from(context, values[1]);
    if (message.length > 0 && stamp_from(context, values[0], &carried))
        answer_stamp(context, (hlc_log_event){.kind = carried > 0 ? HLC_RECEIVE : HLC_LOCAL, .message = message}, carried);
}

static void sql_node(sqlite3_context *context, int count, sqlite3_value **values)
{
    (void)count, (void)values;
    if (atomic_load(&is_open))
        sqlite3_result_text(context, names.node, -1, SQLITE_STATIC);
    else
        sqlite3_result_error(context, "no clock is open: select hlc_open(node, bound) first", -1);
}

static void sql_pack(sqlite3_context *context, int count, sqlite3_value **values)
{
    (void)count;
    sqlite3_int64 l = sqlite3_value_int64(values[0]), c = sqlite3_value_int64(values[1]);
    uint64_t packed = 0;
    bool is_wide = l < 0 || c < 0 || c > UINT32_MAX || hlc_pack((hlc_stamp){(uint64_t)l, (uint32_t)c}, HLC_BITS, &packed) != HLC_OK;
    if (is_wide || packed > INT64_MAX)
        sqlite3_result_error(context, hlc_status_text(HLC_WIDE), -1);
    else
        sqlite3_result_int64(context, (sqlite3_int64)packed);
}

static void sql_l(sqlite3_context *context, int count, sqlite3_value **values)
{
    (void)count;
    uint64_t packed;
    hlc_stamp stamp = {0, 0};
    if (stamp_from(context, values[0], &packed) && hlc_unpack(packed, HLC_BITS, &stamp) == HLC_OK)
        sqlite3_result_int64(context, (sqlite3_int64)stamp.l);
}

static void sql_c(sqlite3_context *context, int count, sqlite3_value **values)
{
    (void)count;
    uint64_t packed;
    hlc_stamp stamp = {0, 0};
    if (stamp_from(context, values[0], &packed) && hlc_unpack(packed, HLC_BITS, &stamp) == HLC_OK)
        sqlite3_result_int64(context, stamp.c);
}

/* The path from the root. The answer is null if there is no such folder. */
static char *absolute(const char *path)
{
    const char *slash = strrchr(path, '/');
    char *folder = slash ? sqlite3_mprintf("%.*s/", (int)(slash - path), path) : sqlite3_mprintf(".");
    char *found = folder ? realpath(folder, NULL) : NULL;
    char *answer = found ? sqlite3_mprintf("%s/%s", found, slash ? slash + 1 : path) : NULL;
    free(found);
    sqlite3_free(folder);
    return answer;
}

static void free_names(struct names *old)
{
    sqlite3_free(old->node);
    sqlite3_free(old->bound);
    sqlite3_free(old->log);
    *old = (struct names){NULL, NULL, NULL};
}

static bool is_same(const char *first, const char *second)
{
    return first && second ? strcmp(first, second) == 0 : first == second;
}

/* Keeps other processes from the clock, for as long as the file is open. */
static bool lock_clock(void)
{
    char *name = sqlite3_mprintf("%s.lock", names.bound);
    lock_file = name ? open(name, O_RDWR | O_CREAT | O_CLOEXEC, 0666) : -1;
    sqlite3_free(name);
    bool is_locked = lock_file >= 0 && flock(lock_file, LOCK_EX | LOCK_NB) == 0;
    if (lock_file >= 0 && !is_locked)
        close(lock_file);
    return is_locked;
}

/* In a process that was forked the clock isn't open: its parent has it. */
static void forget_clock(void)
{
    pthread_mutex_init(&mutex, NULL);
    if (!atomic_load(&is_open))
        return;
    atomic_store(&is_open, false);
    close(lock_file);
    free_names(&names);
}

/* The clock begins at the bound. */
static const char *begin_clock(void)
{
    static bool forgets;
    if (!forgets && pthread_atfork(NULL, NULL, forget_clock) != 0)
        return "out of memory";
    forgets = true;
    if (!lock_clock())
        return "another process has this clock";
    const char *why = read_bound(&unlogged_start);
    if (why) {
        close(lock_file);
        return why;
    }
    atomic_store(&node_clock, unlogged_start);
    atomic_store(&durable, unlogged_start);
    atomic_store(&is_open, true);
    return NULL;
}

/* Opens the clock, once in a process; later calls have to say the same. Whoever calls has the mutex. */
static const char *open_clock(const char *node, const char *bound, const char *log)
{
    struct names new = {sqlite3_mprintf("%s", node), absolute(bound), log ? absolute(log) : NULL};
    const char *why = NULL;
    if (!new.node || !new.bound || (log && !new.log)) {
        why = "there is no such folder";
    } else if (!atomic_load(&is_open)) {
        names = new;
        why = begin_clock();
        if (!why)
            return NULL;
        names = (struct names){NULL, NULL, NULL};
    } else if (!is_same(new.node, names.node) || !is_same(new.bound, names.bound) || !is_same(new.log, names.log)) {
        why = "this process has another clock";
    }
    free_names(&new);
    return why;
}

static void sql_open(sqlite3_context *context, int count, sqlite3_value **values)
{
    hlc_text node = name_from(context, values[0]);
    const char *bound = (const char *)sqlite3_value_text(values[1]), *log = count > 2 ? (const char *)sqlite3_value_text(values[2]) : NULL;
    if (node.length == 0)
        return;
    if (!bound) {
        sqlite3_result_error(context, "the clock needs a file for its bound", -1);
        return;
    }
    pthread_mutex_lock(&mutex);
    const char *why = open_clock(node.bytes, bound, log);
    pthread_mutex_unlock(&mutex);
    if (why)
        sqlite3_result_error(context, why, -1);
}

/* The process keeps the library, since its clock is there, however many connections are closed. */
int sqlite3_hlc_init(sqlite3 *database, char **fault, const sqlite3_api_routines *routines)
{
    enum { CLOCK = SQLITE_UTF8, OPENS = SQLITE_UTF8 | SQLITE_DIRECTONLY, FIXED = SQLITE_UTF8 | SQLITE_DETERMINISTIC | SQLITE_INNOCUOUS };
    static const struct {
        const char *name;
        int count, flags;
        void (*call)(sqlite3_context *, int, sqlite3_value **);
    } functions[] = {
        {"hlc_open", 2, OPENS, sql_open}, {"hlc_open", 3, OPENS, sql_open}, {"hlc_now", 0, CLOCK, sql_now},
        {"hlc_send", 1, CLOCK, sql_send}, {"hlc_merge", 2, CLOCK, sql_merge}, {"hlc_node", 0, CLOCK, sql_node},
        {"hlc_pack", 2, FIXED, sql_pack}, {"hlc_l", 1, FIXED, sql_l},         {"hlc_c", 1, FIXED, sql_c},
    };
    (void)fault;
    SQLITE_EXTENSION_INIT2(routines);
    for (size_t i = 0; i < sizeof functions / sizeof *functions; i++) {
        int status = sqlite3_create_function(database, functions[i].name, functions[i].count, functions[i].flags, NULL, functions[i].call, NULL, NULL);
        if (status != SQLITE_OK)
            return status;
    }
    return SQLITE_OK_LOAD_PERMANENTLY;
}
