/* Makes the steps of a history once more: all of its lines, and lines at which the controller does something else. Exits
 * with 1 at the first that isn't as it should be.
 *
 * Compiled with REFUSES it has a heap of its own in place of heap.c, and refuses each allocation of a call in turn. */
#include "vandrexu.h"

#include <stdio.h>
#include <stdlib.h>
#include <string.h>

#ifdef REFUSES
#include "refusing.h"
#endif

#define WANT(what)                                                                                                     \
    do {                                                                                                               \
        if (!(what)) {                                                                                                 \
            fprintf(stderr, "replay.c:%d: %s\n", __LINE__, #what);                                                     \
            exit(1);                                                                                                   \
        }                                                                                                              \
    } while (0)

static const vandrexu_config config = {8, 1, 1, 0, 0, 2, 4, 4, 8, 2};

/* A Write of block 3, and behind it a Read, by docs/CHECKING.md: the lines behind the configuration's. */
#define ZEROS_16 "0000000000000000"
#define OF_BLOCK_3 ZEROS_16 ZEROS_16 ZEROS_16 ZEROS_16 "0300000000000000" ZEROS_16 ZEROS_16
static const char *const lines[] = {
    "publish 1 0100070001000000" OF_BLOCK_3 " A1",
    "fetch 1 1 1 ok",
    "grant 1 0 3 1 w",
    "block 1 0 3 written *",
    "post 1 00000000000000000100010007000100 -",
    "reap 1 00000000000000000100010007000100",
    "publish 1 0200080001000000" OF_BLOCK_3 " -",
    "fetch 1 2 1 ok",
    "grant 2 0 3 1 r",
    "block 2 0 3 read *",
    "post 2 00000000000000000200010008000100 A1",
    "reap 1 00000000000000000200010008000100",
};
enum { COUNT = sizeof lines / sizeof lines[0] };

static uint32_t replay(vandrexu_controller *disk, const char *line)
{
    return vandrexu_controller_replay(disk, (const uint8_t *)line, strlen(line));
}

/* So many lines are there, and the last is this one. */
static void stands(vandrexu_controller *disk, uint64_t lines_made, const char *last)
{
    uint8_t out[2048];
    size_t needed;
    uint64_t made, next;
    WANT(vandrexu_controller_history_count(disk, &made) == VANDREXU_DONE && made == lines_made);
    WANT(vandrexu_controller_history(disk, made, out, sizeof out, &needed, &next) == VANDREXU_DONE);
    if (made > 0)
        WANT(needed == strlen(last) + 1 && memcmp(out, last, needed - 1) == 0 && out[needed - 1] == '\n');
}

/* A controller that has made the first lines. */
static vandrexu_controller behind(int count)
{
    vandrexu_controller disk = VANDREXU_CONTROLLER_NONE;
    WANT(vandrexu_controller_new(&config, &disk) == VANDREXU_DONE);
    for (int at = 0; at < count; at++) {
        WANT(replay(&disk, lines[at]) == VANDREXU_DONE);
        stands(&disk, (uint64_t)at + 1, lines[at]);
    }
    return disk;
}

#ifndef REFUSES
/* Behind so many lines this one is answered so; and what the controller made in its place, where it made a step. */
struct row {
    int behind;
    const char *line;
    uint32_t status;
};

static const struct row rows[] = {
    {0, "", VANDREXU_BAD_LINE},
    {0, "config 8 1 1 0 0 2 4 4 8", VANDREXU_BAD_LINE},
    {0, "fetch 1 1 1 ok\n", VANDREXU_BAD_LINE},
    {0, "fetch 1 1 1 ok", VANDREXU_NO_ENTRY},
    {0, "publish 3 0100070001000000" OF_BLOCK_3 " A1", VANDREXU_NO_QUEUE},
    {1, "fetch 2 1 1 ok", VANDREXU_NO_ENTRY},
    {1, "fetch 3 1 1 ok", VANDREXU_NO_QUEUE},
    {1, "fetch 1 2 1 ok", VANDREXU_OTHER_ENTRY},
    {1, "fetch 1 1 2 ok", VANDREXU_OTHER_ENTRY},
    {1, "fetch 1 1 1 0/80", VANDREXU_OTHER_ENTRY},
    {1, "fetch 1 1 2 0/80 0/09", VANDREXU_OTHER_ENTRY},
    {2, "grant 2 0 3 1 w", VANDREXU_NO_TICKET},
    {2, "grant 1 1 3 1 w", VANDREXU_OTHER_ENTRY},
    {2, "grant 1 0 4 1 w", VANDREXU_OTHER_ENTRY},
    {2, "grant 1 0 3 2 w", VANDREXU_OTHER_ENTRY},
    {2, "grant 1 0 3 1 r", VANDREXU_OTHER_ENTRY},
    {2, "block 1 0 3 written *", VANDREXU_WRONG_STATE},
    {3, "grant 1 0 3 1 w", VANDREXU_WRONG_STATE},
    {3, "block 1 1 3 written *", VANDREXU_OTHER_ENTRY},
    {3, "block 1 0 4 written *", VANDREXU_OTHER_ENTRY},
    {3, "block 1 0 3 equal *", VANDREXU_OTHER_ENTRY},
    {3, "block 1 0 3 written -", VANDREXU_OTHER_ENTRY},
    {4, "post 2 00000000000000000100010007000100 -", VANDREXU_NO_TICKET},
    {4, "post 1 00000000000000000100010007000000 -", VANDREXU_OTHER_ENTRY},
    {4, "post 1 01000000000000000100010007000100 -", VANDREXU_OTHER_ENTRY},
    {4, "post 1 00000000000000000100010007000100 A1", VANDREXU_OTHER_ENTRY},
    {5, "reap 2 00000000000000000100010007000100", VANDREXU_NO_COMPLETION},
    {5, "reap 3 00000000000000000100010007000100", VANDREXU_NO_QUEUE},
    {5, "reap 1 00000000000000000100010007000101", VANDREXU_OTHER_ENTRY},
    {10, "post 2 00000000000000000200010008000100 -", VANDREXU_OTHER_ENTRY},
    {10, "post 2 00000000000000000200010008000100 A2", VANDREXU_OTHER_ENTRY},
    {10, "post 2 00000000000000000200010008000100 A1.A1", VANDREXU_OTHER_ENTRY},
};

static void looks_at(const struct row *row)
{
    vandrexu_controller disk = behind(row->behind);
    int made = row->status == VANDREXU_OTHER_ENTRY;
    WANT(replay(&disk, row->line) == row->status);
    stands(&disk, (uint64_t)(row->behind + made), row->behind + made > 0 ? lines[row->behind + made - 1] : "");
    /* what was made is as the controller's own step, and it goes on */
    for (int at = row->behind + made; at < COUNT; at++)
        WANT(replay(&disk, lines[at]) == VANDREXU_DONE);
    stands(&disk, COUNT, lines[COUNT - 1]);
    vandrexu_controller_free(&disk);
}

/* What a Reap read is there behind it, and stays up to the next Reap. */
static void reads(void)
{
    vandrexu_controller disk = behind(COUNT - 1);
    uint8_t data[513];
    size_t needed = 7;
    WANT(vandrexu_controller_data(&disk, data, sizeof data, &needed) == VANDREXU_DONE && needed == 0);
    WANT(replay(&disk, lines[COUNT - 1]) == VANDREXU_DONE);
    for (int again = 0; again < 2; again++) {
        memset(data, 0x55, sizeof data);
        WANT(vandrexu_controller_data(&disk, data, sizeof data, &needed) == VANDREXU_DONE && needed == 512);
        for (size_t at = 0; at < 512; at++)
            WANT(data[at] == 0xA1);
        WANT(data[512] == 0x55);
        /* (the CIDs are free again, the tickets count on) */
        WANT(replay(&disk, lines[0]) == VANDREXU_DONE);
        WANT(replay(&disk, "reap 1 00000000000000000200010008000100") == VANDREXU_NO_COMPLETION);
    }
    vandrexu_controller_free(&disk);
}

/* What was forgotten is no hindrance, and a handle that owns nothing makes nothing. */
static void forgets(void)
{
    vandrexu_controller none = VANDREXU_CONTROLLER_NONE, disk = VANDREXU_CONTROLLER_NONE;
    WANT(replay(&none, lines[0]) == VANDREXU_NO_HANDLE && none.live == 0);
    WANT(vandrexu_controller_new(&config, &disk) == VANDREXU_DONE);
    for (int at = 0; at < COUNT; at++) {
        WANT(vandrexu_controller_forget(&disk, UINT64_MAX) == VANDREXU_DONE);
        WANT(replay(&disk, lines[at]) == VANDREXU_DONE);
        stands(&disk, (uint64_t)at + 1, lines[at]);
    }
    vandrexu_controller_free(&disk);
}

int main(void)
{
    for (size_t at = 0; at < sizeof rows / sizeof rows[0]; at++)
        looks_at(&rows[at]);
    reads();
    forgets();
    puts("replay: as it should be");
    return 0;
}
#else
/* Each line with each of its allocations refused: no step is made, and the next time it is. */
int main(void)
{
    long refused = 0;
    for (int at = 0; at < COUNT; at++) {
        for (long one = 1;; one++) {
            vandrexu_controller disk = behind(at);
            uint32_t status;
            allocations = 0;
            refused_at = one;
            status = replay(&disk, lines[at]);
            refused_at = 0;
            if (allocations < one) {
                WANT(status == VANDREXU_DONE);
                vandrexu_controller_free(&disk);
                break;
            }
            refused++;
            WANT(status == VANDREXU_NO_MEMORY);
            stands(&disk, (uint64_t)at, at > 0 ? lines[at - 1] : "");
            WANT(replay(&disk, lines[at]) == VANDREXU_DONE);
            stands(&disk, (uint64_t)at + 1, lines[at]);
            vandrexu_controller_free(&disk);
        }
    }
    WANT(blocks == 0 && refused > COUNT);
    printf("allocations of replayed lines, refused and told: %ld\n", refused);
    return 0;
}
#endif
