/* Two hosts keep one lock on a shared disk, as ATS does: by a fused Compare and Write on the lock's block.
 *
 * Each host has a submission queue and a completion queue of its own. A host that holds the lock writes a new heartbeat
 * into its block, from its old one to its next; whoever finds another's name there has lost. */
#include "vandrexu.h"

#include <stdio.h>
#include <string.h>

enum { BLOCK = 512, LOCK = 3 };

/* What stands in the block of a lock that `host` holds, at this beat; zeros where nobody does. */
static void name_of(uint32_t host, uint32_t beat, uint8_t *block)
{
    memset(block, 0, BLOCK);
    memcpy(block, &host, sizeof host);
    memcpy(block + 4, &beat, sizeof beat);
}

/* An entry of 64 bytes for one block of namespace 1: its opcode, FUSE and CID. */
static void entry_of(uint8_t opcode, uint8_t fuse, uint16_t cid, uint64_t slba, uint8_t *entry)
{
    memset(entry, 0, 64);
    entry[0] = opcode;
    entry[1] = fuse;
    memcpy(entry + 2, &cid, 2);
    entry[4] = 1;
    memcpy(entry + 40, &slba, 8);
}

/* Swaps the lock's block from one name to another: 1 where it did, 0 where another stood there, -1 after a fault. */
static int swap(vandrexu_controller *disk, uint16_t host, uint16_t cid, const uint8_t *from, const uint8_t *to)
{
    vandrexu_entry pair[2];
    uint8_t data[2 * BLOCK], cqe[16];
    vandrexu_work work;
    size_t count;
    int swapped = 1;
    entry_of(0x05, 1, cid, LOCK, pair[0].bytes);
    entry_of(0x01, 2, (uint16_t)(cid + 1), LOCK, pair[1].bytes);
    pair[0].count = pair[1].count = BLOCK;
    memcpy(data, from, BLOCK);
    memcpy(data + BLOCK, to, BLOCK);
    if (vandrexu_controller_publish(disk, host, pair, 2, data, sizeof data) != VANDREXU_DONE
        || vandrexu_controller_fetch(disk, host, &work) != VANDREXU_DONE || vandrexu_settle(disk) != VANDREXU_DONE)
        return -1;
    for (int reaped = 0; reaped < 2; reaped++) {
        if (vandrexu_controller_reap(disk, host, cqe, &count) != VANDREXU_DONE)
            return -1;
        if ((cqe[14] & 0xFE) != 0 || (cqe[15] & 0x0F) != 0)
            swapped = 0;
    }
    return swapped;
}

int main(void)
{
    const vandrexu_config config = {8, 1, 1, 0, 0, 2, 4, 4, 8, 2};
    vandrexu_controller disk = VANDREXU_CONTROLLER_NONE;
    uint8_t nobody[BLOCK], first[BLOCK], next[BLOCK], second[BLOCK];
    name_of(0, 0, nobody);
    name_of(1, 1, first);
    name_of(1, 2, next);
    name_of(2, 1, second);
    if (vandrexu_controller_new(&config, &disk) != VANDREXU_DONE)
        return 1;
    printf("host 1 takes the lock: %d\n", swap(&disk, 1, 1, nobody, first));
    printf("host 2 takes it too: %d\n", swap(&disk, 2, 1, nobody, second));
    printf("host 1 beats: %d\n", swap(&disk, 1, 3, first, next));
    printf("host 2 takes over from the old beat: %d\n", swap(&disk, 2, 3, first, second));
    printf("host 1 gives it back: %d\n", swap(&disk, 1, 5, next, nobody));
    printf("host 2 takes the lock: %d\n", swap(&disk, 2, 5, nobody, second));
    vandrexu_controller_free(&disk);
    return 0;
}
