/* A controller that forgets, under a limit of memory, for so many seconds: soak [SECONDS], 1 without a number.
 *
 * Writes and Reads of one block run in flight, and nothing is forgotten until a call is answered 11. Then the history is,
 * and the call is made again. Each command is answered once, by its CID; each Read gives what the last Write behind it
 * wrote; what is held never passes the limit by more than a page. Exits with 1 at the first that isn't so. */
#include "vandrexu.h"

#include <stdio.h>
#include <stdlib.h>
#include <string.h>
#include <time.h>

#define WANT(what)                                                                                                     \
    do {                                                                                                               \
        if (!(what)) {                                                                                                 \
            fprintf(stderr, "soak.c:%d: %s\n", __LINE__, #what);                                                       \
            exit(1);                                                                                                   \
        }                                                                                                              \
    } while (0)

enum { BLOCKS = 64, FLIGHT = 8, ROOM = 96 << 10 };
static const vandrexu_config config = {BLOCKS, 0, 0, 0, 0, 1, 64, 64, 64, 1};

static uint64_t refused, commands, limit;
static uint8_t held[BLOCKS]; /* what each block was written with last */

/* Notes a refusal, and forgets the history. */
static void relieve(vandrexu_controller *disk)
{
    uint64_t count;
    refused++;
    WANT(vandrexu_controller_history_count(disk, &count) == VANDREXU_DONE);
    WANT(vandrexu_controller_forget(disk, count + 1) == VANDREXU_DONE);
}

/* Makes a call until it isn't answered 11: once more is enough. */
#define MADE(disk, call)                                                                                               \
    do {                                                                                                               \
        uint32_t status = (call);                                                                                      \
        if (status == VANDREXU_NO_MEMORY) {                                                                            \
            relieve(disk);                                                                                             \
            status = (call);                                                                                           \
        }                                                                                                              \
        WANT(status == VANDREXU_DONE);                                                                                 \
        WANT(vandrexu_heap_used() <= limit + 4096);                                                                    \
    } while (0)

/* A Write of a byte all over, or a Read, of one block. */
static void publish(vandrexu_controller *disk, int at, uint64_t block, int writes, uint8_t byte)
{
    vandrexu_entry entry;
    uint8_t data[512];
    memset(&entry, 0, sizeof entry);
    memset(data, byte, sizeof data);
    entry.bytes[0] = writes ? 1 : 2;
    entry.bytes[2] = (uint8_t)at;
    entry.bytes[4] = 1;
    entry.bytes[40] = (uint8_t)block;
    entry.count = writes ? sizeof data : 0;
    MADE(disk, vandrexu_controller_publish(disk, 1, &entry, 1, data, entry.count));
}

/* Whether a Write is refused for memory, and nothing of it is there. */
static int refuses(vandrexu_controller *disk)
{
    vandrexu_entry entry = {{1, 0, 7, 0, 1}, 512};
    uint8_t data[512] = {0};
    uint64_t before, after;
    size_t used = vandrexu_heap_used();
    WANT(vandrexu_controller_history_count(disk, &before) == VANDREXU_DONE);
    WANT(vandrexu_controller_publish(disk, 1, &entry, 1, data, 512) == VANDREXU_NO_MEMORY);
    WANT(vandrexu_controller_history_count(disk, &after) == VANDREXU_DONE);
    return before == after && used == vandrexu_heap_used();
}

/* Takes one completion, which is of a CID that waits, and looks at what it read. */
static void reap(vandrexu_controller *disk, uint8_t *waits, const int *reads)
{
    uint8_t cqe[16], data[512];
    size_t count, needed;
    int cid;
    MADE(disk, vandrexu_controller_reap(disk, 1, cqe, &count));
    cid = cqe[12] | cqe[13] << 8;
    WANT(cid < FLIGHT && waits[cid] && (cqe[14] & 0xFE) == 0 && cqe[15] == 0);
    waits[cid] = 0;
    WANT(count == (reads[cid] >= 0 ? 512 : 0));
    if (reads[cid] >= 0) {
        WANT(vandrexu_controller_data(disk, data, sizeof data, &needed) == VANDREXU_DONE && needed == 512);
        for (size_t i = 0; i < sizeof data; i++)
            WANT(data[i] == reads[cid]);
    }
}

/* So many commands at once, each on a block of its own, from their Publish to their Reap. */
static void round_of(vandrexu_controller *disk, uint64_t number)
{
    uint8_t waits[FLIGHT] = {0};
    int reads[FLIGHT];
    for (int at = 0; at < FLIGHT; at++) {
        uint64_t block = (number * 5 + (uint64_t)at) % BLOCKS;
        int writes = (number + (uint64_t)at) % 3 != 0;
        uint8_t byte = (uint8_t)(number + (uint64_t)at);
        publish(disk, at, block, writes, byte);
        waits[at] = 1;
        reads[at] = writes ? -1 : held[block];
        if (writes)
            held[block] = byte;
    }
    for (int at = 0; at < FLIGHT; at++) {
        vandrexu_work work;
        MADE(disk, vandrexu_controller_fetch(disk, 1, &work));
    }
    MADE(disk, vandrexu_settle(disk));
    for (int at = 0; at < FLIGHT; at++)
        reap(disk, waits, reads);
    commands += FLIGHT;
}

int main(int count, char **words)
{
    vandrexu_controller disk = VANDREXU_CONTROLLER_NONE;
    time_t seconds = count > 1 ? atol(words[1]) : 1, end = time(NULL) + seconds;
    uint64_t steps;
    WANT(vandrexu_heap_used() == 0);
    WANT(vandrexu_controller_new(&config, &disk) == VANDREXU_DONE);
    limit = vandrexu_heap_used() + ROOM;
    vandrexu_heap_limit(limit);
    for (uint64_t number = 0; number < 2000 || time(NULL) < end; number++)
        round_of(&disk, number);
    WANT(refused > 0);
    /* below what is held nothing is given, and what is held stays */
    vandrexu_heap_limit(0);
    WANT(refuses(&disk));
    vandrexu_heap_limit(SIZE_MAX);
    limit = SIZE_MAX - 4096;
    round_of(&disk, 1);
    WANT(vandrexu_controller_history_count(&disk, &steps) == VANDREXU_DONE);
    /* (a command of one block has a Publish, a Fetch, a Grant, a Block, a Post and a Reap) */
    WANT(steps == 6 * commands);
    vandrexu_controller_free(&disk);
    WANT(vandrexu_heap_used() == 0);
    if (count > 1)
        printf("%llu commands, %llu refusals\n", (unsigned long long)commands, (unsigned long long)refused);
    return 0;
}
