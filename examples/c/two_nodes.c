/* A message between two nodes, and one from a clock that is far ahead. Build it from the top of the repository with
 *
 *     packaging/library && cc -Iinclude examples/c/two_nodes.c crates/hlc_c/out/libhlc.a -o two_nodes
 *
 * or over the package libhlc-dev with cc two_nodes.c -lhlc.
 */
#include "hlc.h"

#include <inttypes.h>
#include <stdio.h>

int main(void)
{
    const uint64_t limit = 500;
    hlc_stamp ours = {0, 0}, theirs = {0, 0};
    if (hlc_tick(&theirs, 100) != HLC_OK || hlc_tick(&theirs, 100) != HLC_OK)
        return 1;
    printf("sent %" PRIu64 ",%" PRIu32 "\n", theirs.l, theirs.c);
    if (hlc_merge_within(&ours, theirs, 97, limit) != HLC_OK)
        return 1;
    printf("received %" PRIu64 ",%" PRIu32 "\n", ours.l, ours.c);
    if (hlc_tick(&theirs, 9000) != HLC_OK)
        return 1;
    if (hlc_merge_within(&ours, theirs, 98, limit) == HLC_TOO_FAR)
        printf("refused, still %" PRIu64 ",%" PRIu32 "\n", ours.l, ours.c);
    return 0;
}
