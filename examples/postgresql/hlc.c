/*
 * hlc.c
 *		Hybrid logical clocks for PostgreSQL, over libhlc.
 *
 * The server has one clock: a word of shared memory, which is the last stamp that was given.  A backend takes a stamp by compare-and-swap.  With
 * hlc.log it takes it under a lock instead, so that the rows stand in the order of their stamps and a backend that is killed leaves none out.
 *
 * hlc.bound, in the data directory, has a number that is above each stamp that was given.  It is made durable before a stamp comes up to it, and
 * the clock of a server that restarts begins there, whether it was shut down or killed.
 */
#include "postgres.h"

#include <fcntl.h>
#include <sys/stat.h>
#include <unistd.h>

#include "fmgr.h"
#include "miscadmin.h"
#include "port/atomics.h"
#include "storage/fd.h"
#include "storage/ipc.h"
#include "storage/lwlock.h"
#include "storage/shmem.h"
#include "utils/builtins.h"
#include "utils/guc.h"

#include "hlc.h"
#include "hlc_clock.h"

#if PG_VERSION_NUM < 150000
#error "hlc needs PostgreSQL 15 or later"
#endif

PG_MODULE_MAGIC;

void		_PG_init(void);

#define BOUND_FILE "hlc.bound"
#define MOST_NAME_BYTES 256

typedef struct NodeClock
{
	pg_atomic_uint64 word;		/* the last stamp that was given, or the bound that it began at */
	pg_atomic_uint64 durable;	/* the bound that hlc.bound has */
	LWLock	   *bound_lock;		/* for hlc.bound */
	LWLock	   *log_lock;		/* for the log, if there is one, and what follows */
	uint64		unlogged_start;	/* the bound that the clock began at, until the log has it; else 0 */
} NodeClock;

/*
 * Rows of the log that are written together: of one event, and what stands before the first.  In quotes each byte of a name may stand twice.
 */
typedef struct Rows
{
	char		text[sizeof(HLC_LOG_HEADER) + 3 * (2 * MOST_NAME_BYTES + 2) + 256];
	size_t		length;
} Rows;

static NodeClock *node_clock;

/* The settings, which stay as they are while the server runs. */
static char *node_name;
static char *log_file;
static int	unit = 1000;		/* how many there are of it in a second */
static int	bits = 16;
static int	limit = 500;
static int	window = 100;

static const struct config_enum_entry units[] = {
	{"ms", 1000, false},
	{"us", 1000000, false},
	{"ns", 1000000000, false},
	{NULL, 0, false}
};

static shmem_request_hook_type earlier_request;
static shmem_startup_hook_type earlier_startup;

static const char *
unit_name(void)
{
	const struct config_enum_entry *entry = units;

	while (entry->val != unit)
		entry++;
	return entry->name;
}

static bool
is_logged(void)
{
	return log_file != NULL && log_file[0] != '\0';
}

/* The bound that hlc.bound has: 0, where there is no such file, on a new node. */
static uint64
read_bound(void)
{
	FILE	   *file = AllocateFile(BOUND_FILE, PG_BINARY_R);
	char		kept_unit[3];
	int			kept_bits;
	uint64		bound;

	if (file == NULL)
	{
		if (errno != ENOENT)
			ereport(FATAL, (errcode_for_file_access(), errmsg("could not open file \"%s\": %m", BOUND_FILE)));
		return 0;
	}
	if (fscanf(file, "%2s %d " UINT64_FORMAT, kept_unit, &kept_bits, &bound) != 3 || fgetc(file) != '\n')
		ereport(FATAL, (errcode(ERRCODE_DATA_CORRUPTED), errmsg("file \"%s\" is damaged", BOUND_FILE)));
	FreeFile(file);
	if (strcmp(kept_unit, unit_name()) != 0 || kept_bits != bits)
		ereport(FATAL,
				(errcode(ERRCODE_CONFIG_FILE_ERROR), errmsg("this server has given stamps of another form"),
				 errhint("hlc.unit was %s, and hlc.bits was %d.", kept_unit, kept_bits)));
	return bound;
}

static int
open_to_write(const char *name, int flags)
{
	int			file = OpenTransientFile(name, O_WRONLY | O_CREAT | PG_BINARY | flags);

	if (file < 0)
		ereport(ERROR, (errcode_for_file_access(), errmsg("could not open file \"%s\": %m", name)));
	return file;
}

/* Writes all of it at once to the end of a file of this size, and closes it.  If only a part fits, none of it stays. */
static void
write_and_close(int file, const char *name, off_t size, const char *bytes, size_t length)
{
	ssize_t		done = write(file, bytes, length);

	if (done != (ssize_t) length)
	{
		int			fault = done < 0 ? errno : ENOSPC;

		if (ftruncate(file, size) != 0)
			ereport(WARNING, (errcode_for_file_access(), errmsg("could not truncate file \"%s\": %m", name)));
		errno = fault;
		ereport(ERROR, (errcode_for_file_access(), errmsg("could not write file \"%s\": %m", name)));
	}
	if (CloseTransientFile(file) != 0)
		ereport(ERROR, (errcode_for_file_access(), errmsg("could not close file \"%s\": %m", name)));
}

/* Makes a bound durable.  The file is replaced as a whole, so it has this bound or the one before, whenever the server dies. */
static void
write_bound(uint64 bound)
{
	const char *new_file = BOUND_FILE ".new";
	char	   *line = psprintf("%s %d " UINT64_FORMAT "\n", unit_name(), bits, bound);

	write_and_close(open_to_write(new_file, O_TRUNC), new_file, 0, line, strlen(line));
	durable_rename(new_file, BOUND_FILE, ERROR);
	pfree(line);
}

static void
add_row(Rows *rows, const hlc_log_event *event, uint64 stamp, uint64 carried)
{
	size_t		room = sizeof(rows->text) - rows->length;
	size_t		length = hlc_packed_log_row(rows->text + rows->length, room, event, stamp, carried);

	if (length == 0 || length > room)
		elog(ERROR, "no log has such a row");
	rows->length += length;
}

/*
 * Adds the row of an event to the log, by one write: with the header, if the log is new, and the clock's restart, if this is its first event.
 * Whoever calls has the lock of the log.
 */
static void
write_row(const hlc_log_event *event, uint64 stamp, uint64 carried)
{
	hlc_log_event start = {.kind = HLC_RESTART,.node = event->node};
	Rows		rows = {HLC_LOG_HEADER, 0};
	struct stat is;
	int			file = open_to_write(log_file, O_APPEND);

	if (fstat(file, &is) != 0)
		ereport(ERROR, (errcode_for_file_access(), errmsg("could not stat file \"%s\": %m", log_file)));
	if (is.st_size == 0)
		rows.length = strlen(HLC_LOG_HEADER);
	if (node_clock->unlogged_start > 0)
		add_row(&rows, &start, node_clock->unlogged_start, 0);
	add_row(&rows, event, stamp, carried);
	write_and_close(file, log_file, is.st_size, rows.text, rows.length);
	node_clock->unlogged_start = 0;
}

/* Fails the statement, unless the status is HLC_OK. */
static void
check_status(hlc_status status, uint64 reading)
{
	int			code = ERRCODE_INTERNAL_ERROR;

	switch (status)
	{
		case HLC_OK:
			return;
		case HLC_TOO_FAR:
			code = ERRCODE_OBJECT_NOT_IN_PREREQUISITE_STATE;
			break;
		case HLC_MESSAGE_TOO_FAR:
			code = ERRCODE_INVALID_PARAMETER_VALUE;
			break;
		case HLC_NO_ROOM:
			code = ERRCODE_SEQUENCE_GENERATOR_LIMIT_EXCEEDED;
			break;
		case HLC_READING:
			code = ERRCODE_SYSTEM_ERROR;
			break;
		case HLC_WIDE:
			code = ERRCODE_NUMERIC_VALUE_OUT_OF_RANGE;
			break;
		case HLC_BITS:
		case HLC_LENGTHS:
		case HLC_BAD_TRACE:
		case HLC_MEMORY:
		case HLC_TEXT:
			break;
	}
	ereport(ERROR,
			(errcode(code), errmsg("no stamp: %s", hlc_status_text(status)),
			 reading > 0 ? errdetail("The clock reads " UINT64_FORMAT " %s, and hlc.limit is %d.", reading, unit_name(), limit) : 0));
}

/* The stamp that comes after the clock's and the one that a message carried: 0, if none has come. */
static uint64
stamp_after(uint64 old, uint64 carried, uint64 reading)
{
	uint64		most = limit < 0 ? UINT64_MAX : limit;
	uint64		new = 0;

	if (carried > 0)
		check_status(hlc_packed_after_message(old, carried, bits, reading, most, &new), reading);
	else
		check_status(hlc_packed_after(old, bits, reading, most, &new), reading);
	if (new > PG_INT64_MAX)
		check_status(HLC_NO_ROOM, reading);
	return new;
}

/* Makes a bound durable that is above the stamp, unless one is. */
static void
cover(uint64 stamp)
{
	if (stamp < pg_atomic_read_u64(&node_clock->durable))
		return;
	LWLockAcquire(node_clock->bound_lock, LW_EXCLUSIVE);
	if (stamp >= pg_atomic_read_u64(&node_clock->durable))
	{
		uint64		bound = 0;

		check_status(hlc_packed_bound(stamp, bits, window, &bound), 0);
		write_bound(bound);
		pg_atomic_write_u64(&node_clock->durable, bound);
	}
	LWLockRelease(node_clock->bound_lock);
}

static uint64
take_stamp(uint64 carried)
{
	uint64		reading = hlc_clock_reading(unit);
	uint64		old = pg_atomic_read_u64(&node_clock->word);
	uint64		new;

	do
	{
		new = stamp_after(old, carried, reading);
		cover(new);
	} while (!pg_atomic_compare_exchange_u64(&node_clock->word, &old, new));
	return new;
}

/* The same, where each event has its row before the next one is stamped. */
static uint64
take_logged_stamp(hlc_log_event event, uint64 carried)
{
	uint64		new;

	event.node = (hlc_text) {node_name, strlen(node_name)};
	LWLockAcquire(node_clock->log_lock, LW_EXCLUSIVE);
	event.reading = hlc_clock_reading(unit);
	new = stamp_after(pg_atomic_read_u64(&node_clock->word), carried, event.reading);
	cover(new);
	write_row(&event, new, carried);
	pg_atomic_write_u64(&node_clock->word, new);
	LWLockRelease(node_clock->log_lock);
	return new;
}

static void
need_clock(void)
{
	if (node_clock == NULL)
		ereport(ERROR,
				(errcode(ERRCODE_OBJECT_NOT_IN_PREREQUISITE_STATE), errmsg("hlc must be loaded via shared_preload_libraries")));
}

static Datum
next_stamp(hlc_log_event event, uint64 carried)
{
	need_clock();
	PG_RETURN_INT64((int64) (is_logged() ? take_logged_stamp(event, carried) : take_stamp(carried)));
}

static hlc_text
message_name(const text *value)
{
	hlc_text	name = {VARDATA_ANY(value), VARSIZE_ANY_EXHDR(value)};

	if (name.length < 1 || name.length > MOST_NAME_BYTES)
		ereport(ERROR,
				(errcode(ERRCODE_INVALID_PARAMETER_VALUE), errmsg("the name of a message has 1 to %d bytes", MOST_NAME_BYTES)));
	return name;
}

static uint64
stamp_from(int64 number)
{
	if (number < 0)
		ereport(ERROR, (errcode(ERRCODE_NUMERIC_VALUE_OUT_OF_RANGE), errmsg("a stamp is not below 0")));
	return (uint64) number;
}

static hlc_stamp
unpacked(int64 number)
{
	hlc_stamp	stamp = {0, 0};

	need_clock();
	check_status(hlc_unpack(stamp_from(number), bits, &stamp), 0);
	return stamp;
}

PG_FUNCTION_INFO_V1(sql_hlc_now);
Datum
sql_hlc_now(PG_FUNCTION_ARGS)
{
	return next_stamp((hlc_log_event) {.kind = HLC_LOCAL}, 0);
}

PG_FUNCTION_INFO_V1(sql_hlc_send);
Datum
sql_hlc_send(PG_FUNCTION_ARGS)
{
	hlc_text	message = message_name(PG_GETARG_TEXT_PP(0));

	return next_stamp((hlc_log_event) {.kind = HLC_SEND,.message = message}, 0);
}

/* No event has the stamp 0.  So a message that carries it brings nothing, and the event is a local one. */
PG_FUNCTION_INFO_V1(sql_hlc_merge);
Datum
sql_hlc_merge(PG_FUNCTION_ARGS)
{
	uint64		carried = stamp_from(PG_GETARG_INT64(0));
	hlc_text	message = message_name(PG_GETARG_TEXT_PP(1));

	return next_stamp((hlc_log_event) {.kind = carried > 0 ? HLC_RECEIVE : HLC_LOCAL,.message = message}, carried);
}

PG_FUNCTION_INFO_V1(sql_hlc_node);
Datum
sql_hlc_node(PG_FUNCTION_ARGS)
{
	need_clock();
	PG_RETURN_TEXT_P(cstring_to_text(node_name));
}

PG_FUNCTION_INFO_V1(sql_hlc_pack);
Datum
sql_hlc_pack(PG_FUNCTION_ARGS)
{
	int64		l = PG_GETARG_INT64(0),
				c = PG_GETARG_INT64(1);
	uint64		packed = 0;

	need_clock();
	if (l < 0 || c < 0 || c > PG_UINT32_MAX)
		check_status(HLC_WIDE, 0);
	check_status(hlc_pack((hlc_stamp) {l, c}, bits, &packed), 0);
	if (packed > PG_INT64_MAX)
		check_status(HLC_WIDE, 0);
	PG_RETURN_INT64((int64) packed);
}

PG_FUNCTION_INFO_V1(sql_hlc_l);
Datum
sql_hlc_l(PG_FUNCTION_ARGS)
{
	PG_RETURN_INT64((int64) unpacked(PG_GETARG_INT64(0)).l);
}

PG_FUNCTION_INFO_V1(sql_hlc_c);
Datum
sql_hlc_c(PG_FUNCTION_ARGS)
{
	PG_RETURN_INT64((int64) unpacked(PG_GETARG_INT64(0)).c);
}

static void
request_memory(void)
{
	if (earlier_request)
		earlier_request();
	RequestAddinShmemSpace(MAXALIGN(sizeof(NodeClock)));
	RequestNamedLWLockTranche("hlc", 2);
}

/* When the server starts, and again after a backend crashed. */
static void
start(void)
{
	bool		found;

	if (earlier_startup)
		earlier_startup();
	LWLockAcquire(AddinShmemInitLock, LW_EXCLUSIVE);
	node_clock = ShmemInitStruct("hlc", sizeof(NodeClock), &found);
	if (!found)
	{
		LWLockPadded *locks = GetNamedLWLockTranche("hlc");

		node_clock->bound_lock = &locks[0].lock;
		node_clock->log_lock = &locks[1].lock;
		node_clock->unlogged_start = read_bound();
		pg_atomic_init_u64(&node_clock->word, node_clock->unlogged_start);
		pg_atomic_init_u64(&node_clock->durable, node_clock->unlogged_start);
	}
	LWLockRelease(AddinShmemInitLock);
}

/* What one setting alone can't say. */
static void
check_settings(void)
{
	size_t		length = strlen(node_name);

	if (length < 1 || length > MOST_NAME_BYTES)
		ereport(FATAL,
				(errcode(ERRCODE_CONFIG_FILE_ERROR), errmsg("hlc.node isn't set"),
				 errhint("Each node has a name of its own, of 1 to %d bytes.", MOST_NAME_BYTES)));
	if (limit >= 0 && limit <= window)
		ereport(FATAL,
				(errcode(ERRCODE_CONFIG_FILE_ERROR), errmsg("hlc.limit isn't above hlc.window"),
				 errhint("A server that restarts would give no stamp until its clock has come up to the bound.")));
	if (hlc_clock_reading(unit) >> (63 - bits) != 0)
		ereport(FATAL,
				(errcode(ERRCODE_CONFIG_FILE_ERROR), errmsg("stamps of hlc.unit %s and hlc.bits %d don't fit into bigint", unit_name(), bits),
				 errhint("Take a lower hlc.bits, or a greater hlc.unit.")));
}

void
_PG_init(void)
{
	if (!process_shared_preload_libraries_in_progress)
		return;
	DefineCustomStringVariable("hlc.node", "The name of this node, which no other one has.", NULL,
							   &node_name, "", PGC_POSTMASTER, 0, NULL, NULL, NULL);
	DefineCustomEnumVariable("hlc.unit", "The unit of clock readings and of l.", NULL,
							 &unit, 1000, units, PGC_POSTMASTER, 0, NULL, NULL, NULL);
	DefineCustomIntVariable("hlc.bits", "How many low bits of a stamp are c.", NULL,
							&bits, 16, 1, 32, PGC_POSTMASTER, 0, NULL, NULL, NULL);
	DefineCustomIntVariable("hlc.limit", "How far ahead of the clock a stamp may be, in hlc.unit; -1 is no limit.", NULL,
							&limit, 500, -1, INT_MAX, PGC_POSTMASTER, 0, NULL, NULL, NULL);
	DefineCustomIntVariable("hlc.window", "How far the durable bound is set ahead of a stamp, in hlc.unit.", NULL,
							&window, 100, 0, INT_MAX, PGC_POSTMASTER, 0, NULL, NULL, NULL);
	DefineCustomStringVariable("hlc.log", "A file that gets a row for each event, for hlc audit --packed BITS.", NULL,
							   &log_file, "", PGC_POSTMASTER, GUC_SUPERUSER_ONLY, NULL, NULL, NULL);
	MarkGUCPrefixReserved("hlc");
	check_settings();
	earlier_request = shmem_request_hook;
	shmem_request_hook = request_memory;
	earlier_startup = shmem_startup_hook;
	shmem_startup_hook = start;
}
