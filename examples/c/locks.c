/* Two hosts share the slots of a disk. One takes two of them and dies; the other one finds out who has them, and takes them
 * over. */
#include "vandrexu_slots.h"

#include <stdio.h>

enum { FIRST = 2, COUNT = 4 };

/* Serves the call of the host on this queue, and polls until it is over: its kind, or 0 after a fault. */
static uint32_t over(vandrexu_disk *disk, uint16_t queue, vandrexu_slot_host *host, vandrexu_slot_reply *reply)
{
    if (vandrexu_disk_serve(disk, queue) != VANDREXU_DONE)
        return 0;
    do {
        if (vandrexu_slot_poll(host, reply) != VANDREXU_DONE)
            return 0;
    } while (reply->kind == VANDREXU_SLOT_PENDING);
    return reply->kind;
}

static const char *word(uint32_t kind)
{
    switch (kind) {
    case VANDREXU_SLOT_HELD:
        return "it is the host's";
    case VANDREXU_SLOT_TAKEN:
        return "somebody else has it";
    case VANDREXU_SLOT_RELEASED:
        return "nobody has it";
    default:
        return "a fault";
    }
}

int main(void)
{
    const vandrexu_config config = {8, 1, 1, 0, 0, 2, 4, 4, 8, 2};
    vandrexu_disk disk = VANDREXU_DISK_NONE;
    vandrexu_slot_host one = VANDREXU_SLOT_HOST_NONE, two = VANDREXU_SLOT_HOST_NONE;
    vandrexu_slot_reply reply;
    if (vandrexu_slot_disk_new(&config, 2, FIRST, COUNT, &disk) != VANDREXU_DONE
        || vandrexu_slot_host_new(&disk, 1, 1, &one) != VANDREXU_DONE
        || vandrexu_slot_host_new(&disk, 2, 2, &two) != VANDREXU_DONE)
        return 1;

    for (uint32_t slot = 0; slot < 2; slot++) {
        if (vandrexu_slot_claim(&one, slot) != VANDREXU_DONE)
            return 1;
        printf("host 1 claims slot %u: %s\n", slot, word(over(&disk, 1, &one, &reply)));
    }
    if (vandrexu_slot_claim(&two, 0) != VANDREXU_DONE)
        return 1;
    printf("host 2 claims slot 0: %s\n", word(over(&disk, 2, &two, &reply)));

    vandrexu_slot_host_free(&one);
    printf("host 1 is gone\n");
    for (uint32_t slot = 0; slot < COUNT; slot++) {
        if (vandrexu_slot_ask_holder(&two, slot) != VANDREXU_DONE)
            return 1;
        if (over(&disk, 2, &two, &reply) != VANDREXU_SLOT_OF_NAME || reply.host != 1)
            continue;
        printf("slot %u is of host %u, serial %llu\n", slot, reply.host, (unsigned long long)reply.serial);
        if (vandrexu_slot_take_over(&two, slot, reply.host, reply.serial) != VANDREXU_DONE)
            return 1;
        printf("host 2 takes it over: %s\n", word(over(&disk, 2, &two, &reply)));
        if (vandrexu_slot_release(&two, slot) != VANDREXU_DONE)
            return 1;
        printf("host 2 releases it: %s\n", word(over(&disk, 2, &two, &reply)));
    }
    vandrexu_slot_host_free(&two);
    vandrexu_disk_free(&disk);
    return 0;
}
