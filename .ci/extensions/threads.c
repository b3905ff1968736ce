/* Threads of one process, each with a connection of its own, take stamps of the clock that examples/sqlite/hlc.c has for the process. It ends with how many
 * there were, if no two are the same. A process that is forked hasn't got the clock.
 *
 *     threads BOUND [LOG]
 */
#define _POSIX_C_SOURCE 200809L
#include <pthread.h>
#include <sqlite3.h>
#include <stdio.h>
#include <stdlib.h>
#include <string.h>
#include <sys/wait.h>
#include <unistd.h>

enum { THREADS = 4, EVENTS = 5000 };

struct sqlite3_api_routines;
int sqlite3_hlc_init(sqlite3 *database, char **fault, const struct sqlite3_api_routines *routines);

static sqlite3_int64 stamps[THREADS * EVENTS];
static char opens[256];

static void need(int holds, const char *what)
{
    if (!holds) {
        fprintf(stderr, "WRONG: %s\n", what);
        exit(1);
    }
}

static void *take(void *memory)
{
    sqlite3_int64 *mine = memory;
    sqlite3 *database;
    sqlite3_stmt *statement;
    need(sqlite3_open(":memory:", &database) == SQLITE_OK, "open");
    need(sqlite3_hlc_init(database, NULL, NULL) == SQLITE_OK_LOAD_PERMANENTLY, "the extension");
    need(sqlite3_exec(database, opens, NULL, NULL, NULL) == SQLITE_OK, opens);
    need(sqlite3_prepare_v2(database, "select hlc_now()", -1, &statement, NULL) == SQLITE_OK, "prepare");
    for (int i = 0; i < EVENTS; i++) {
        need(sqlite3_step(statement) == SQLITE_ROW, sqlite3_errmsg(database));
        mine[i] = sqlite3_column_int64(statement, 0);
        need(i == 0 || mine[i - 1] < mine[i], "stamps don't rise");
        sqlite3_reset(statement);
    }
    sqlite3_finalize(statement);
    sqlite3_close(database);
    return NULL;
}

/* In a new process: no stamp is given there, and the clock can't be opened. */
static void be_forked(void)
{
    sqlite3 *database;
    need(sqlite3_open(":memory:", &database) == SQLITE_OK, "open");
    need(sqlite3_hlc_init(database, NULL, NULL) == SQLITE_OK_LOAD_PERMANENTLY, "the extension");
    need(sqlite3_exec(database, "select hlc_now()", NULL, NULL, NULL) != SQLITE_OK, "a forked process has the clock");
    need(strncmp(sqlite3_errmsg(database), "no clock is open", 16) == 0, sqlite3_errmsg(database));
    need(sqlite3_exec(database, opens, NULL, NULL, NULL) != SQLITE_OK, "a forked process opens the clock");
    need(strcmp(sqlite3_errmsg(database), "another process has this clock") == 0, sqlite3_errmsg(database));
    sqlite3_close(database);
    exit(0);
}

static int by_number(const void *a, const void *b)
{
    sqlite3_int64 first = *(const sqlite3_int64 *)a, second = *(const sqlite3_int64 *)b;
    return (first > second) - (first < second);
}

int main(int count, char **words)
{
    pthread_t threads[THREADS];
    need(count > 1, "no file for the bound");
    snprintf(opens, sizeof opens, count > 2 ? "select hlc_open('eu', '%s', '%s')" : "select hlc_open('eu', '%s')", words[1], words[count - 1]);
    for (int i = 0; i < THREADS; i++)
        need(pthread_create(&threads[i], NULL, take, stamps + i * EVENTS) == 0, "thread");
    for (int i = 0; i < THREADS; i++)
        need(pthread_join(threads[i], NULL) == 0, "join");
    pid_t forked = fork();
    int status = 1;
    if (forked == 0)
        be_forked();
    need(forked > 0 && waitpid(forked, &status, 0) == forked && status == 0, "the forked process");
    qsort(stamps, THREADS * EVENTS, sizeof *stamps, by_number);
    for (int i = 1; i < THREADS * EVENTS; i++)
        need(stamps[i - 1] < stamps[i], "a stamp is given twice");
    printf("%d stamps\n", THREADS * EVENTS);
    return 0;
}
