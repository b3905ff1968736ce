/* Two nodes log their events for `hlc audit --packed 16`. Each receive tells what its message carried, and the last names its sender in place of
 * the message. Build it as two_nodes.c is built. */
#include "hlc.h"

#include <stdio.h>
#include <stdlib.h>

enum { BITS = 16, LIMIT = 500 };

static const hlc_text names[] = {{"eu", 2}, {"us", 2}};

static uint64_t clocks[2];

/* Logs an event with the stamp that its node's clock has now. */
static void log_event(int node, hlc_log_event event, uint64_t carried)
{
    char row[512];
    event.node = names[node];
    size_t length = hlc_packed_log_row(row, sizeof row, &event, clocks[node], carried);
    if (length == 0 || length > sizeof row)
        abort();
    fwrite(row, 1, length, stdout);
}

static void tick(int node, hlc_log_event event)
{
    if (hlc_packed_tick(&clocks[node], BITS, event.reading, LIMIT) != HLC_OK)
        abort();
    log_event(node, event, 0);
}

static void receive(int node, hlc_log_event event, uint64_t carried)
{
    if (hlc_packed_merge(&clocks[node], carried, BITS, event.reading, LIMIT) != HLC_OK)
        abort();
    log_event(node, event, carried);
}

int main(void)
{
    fputs(HLC_LOG_HEADER, stdout);
    tick(0, (hlc_log_event){.kind = HLC_LOCAL, .reading = 1000, .label = {"put \"x\", 1", 10}});
    tick(0, (hlc_log_event){.kind = HLC_SEND, .reading = 1000, .message = {"m1", 2}});
    receive(1, (hlc_log_event){.kind = HLC_RECEIVE, .reading = 990, .message = {"m1", 2}}, clocks[0]);
    tick(1, (hlc_log_event){.kind = HLC_SEND, .reading = 991});
    receive(0, (hlc_log_event){.kind = HLC_RECEIVE, .reading = 1001, .from = names[1]}, clocks[1]);
    return 0;
}
