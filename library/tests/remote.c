/* Calls each function of vandrexu_remote.h, with each of its answers, and carries what hosts tell to a controller of
 * vandrexu.h in the same process. Exits with 1 at the first that isn't as it should be.
 *
 * Compiled with REFUSES it has a heap of its own in place of heap.c, refuses each allocation of a run in turn, and wants
 * that to be told and nothing to be lost. */
#include "vandrexu_remote.h"

#include <stdio.h>
#include <stdlib.h>
#include <string.h>

#define WANT(what)                                                                                                     \
    do {                                                                                                               \
        if (!(what)) {                                                                                                 \
            fprintf(stderr, "remote.c:%d: %s\n", __LINE__, #what);                                                     \
            exit(1);                                                                                                   \
        }                                                                                                              \
    } while (0)

/* Three pairs, each with a completion queue of its own, and pairs of two blocks at most. */
static const vandrexu_config config = {8, 1, 1, 0, 0, 3, 8, 8, 8, 3};

/* Slots are the blocks 2 to 5. No entry here has more data than ROOM. */
enum { FIRST = 2, COUNT = 4, ROOM = 1024 };

static const uint8_t zeros[1536];

static void fill(uint8_t *block, uint8_t with)
{
    memset(block, with, 512);
}

/* A host of either kind: the other pointer is null. */
struct carried {
    vandrexu_remote *plain;
    vandrexu_remote_slot_host *slots;
};

static struct carried plain(vandrexu_remote *remote)
{
    struct carried it = {remote, NULL};
    return it;
}

static struct carried slots(vandrexu_remote_slot_host *host)
{
    struct carried it = {NULL, host};
    return it;
}

static uint32_t outgoing(struct carried it, vandrexu_outgoing *entry, uint8_t *out, size_t room)
{
    return it.plain != NULL ? vandrexu_remote_outgoing(it.plain, entry, out, room)
                            : vandrexu_remote_slot_outgoing(it.slots, entry, out, room);
}

static uint32_t incoming(struct carried it, const uint8_t *cqe, const uint8_t *data, size_t length)
{
    return it.plain != NULL ? vandrexu_remote_incoming(it.plain, cqe, data, length)
                            : vandrexu_remote_slot_incoming(it.slots, cqe, data, length);
}

#ifndef REFUSES
/* Publishes what the host tells, a pair as one batch of two; how many batches that was. */
static int carry_out(vandrexu_controller *disk, struct carried it)
{
    vandrexu_outgoing told;
    vandrexu_entry batch[2];
    uint8_t data[2 * ROOM];
    size_t count = 0, length = 0;
    int batches = 0;
    uint32_t answer;
    while ((answer = outgoing(it, &told, data + length, ROOM)) == VANDREXU_DONE) {
        WANT(told.more <= 1 && count < 2 && memcmp(told.zeros, zeros, sizeof told.zeros) == 0);
        memcpy(batch[count].bytes, told.bytes, 64);
        batch[count++].count = told.count;
        length += told.count;
        if (told.more == 1)
            continue;
        WANT(vandrexu_controller_publish(disk, told.queue, batch, count, data, length) == VANDREXU_DONE);
        count = length = 0;
        batches++;
    }
    WANT(answer == VANDREXU_NOTHING_READY && count == 0);
    return batches;
}

/* Makes each step of a ticket that was fetched. */
static void finish(vandrexu_controller *disk, uint64_t ticket)
{
    vandrexu_granted granted;
    vandrexu_blocked blocked;
    uint8_t cqe[16];
    while (vandrexu_controller_grant(disk, ticket, &granted) == VANDREXU_DONE)
        do
            WANT(vandrexu_controller_block(disk, ticket, &blocked) == VANDREXU_DONE);
        while (!blocked.ended);
    WANT(vandrexu_controller_post(disk, ticket, cqe) == VANDREXU_DONE);
    while (vandrexu_controller_post(disk, ticket, cqe) == VANDREXU_DONE)
        ;
}

/* Serves what was published to a queue, the ticket first that was fetched last. */
static void serve(vandrexu_controller *disk, uint16_t queue)
{
    vandrexu_work works[8];
    int count = 0;
    while (vandrexu_controller_fetch(disk, queue, &works[count]) == VANDREXU_DONE)
        WANT(++count < 8);
    while (count > 0)
        finish(disk, works[--count].ticket);
}

/* Brings each completion of a queue; how many there were. */
static int carry_in(vandrexu_controller *disk, uint16_t queue, struct carried it)
{
    uint8_t cqe[16], data[ROOM];
    size_t length;
    int count = 0;
    while (vandrexu_controller_reap(disk, queue, cqe, &length) == VANDREXU_DONE) {
        WANT(vandrexu_controller_data(disk, data, sizeof data, &length) == VANDREXU_DONE);
        WANT(incoming(it, cqe, data, length) == VANDREXU_DONE);
        count++;
    }
    return count;
}

/* All three. */
static void carry(vandrexu_controller *disk, uint16_t queue, struct carried it)
{
    carry_out(disk, it);
    serve(disk, queue);
    carry_in(disk, queue, it);
}

/* Polls until the call is over, and wants this of it. Nobody has its number then. */
static void over(vandrexu_remote *remote, uint32_t call, uint32_t kind)
{
    vandrexu_reply reply;
    do
        WANT(vandrexu_remote_poll(remote, call, &reply) == VANDREXU_DONE);
    while (reply.kind == VANDREXU_REPLY_PENDING);
    WANT(reply.kind == kind && reply.sct == 0 && reply.sc == 0);
    WANT(vandrexu_remote_poll(remote, call, &reply) == VANDREXU_NO_CALL && reply.kind == VANDREXU_REPLY_PENDING);
}

static uint64_t dropped(vandrexu_remote *remote)
{
    uint64_t count = 7;
    WANT(vandrexu_remote_dropped(remote, &count) == VANDREXU_DONE);
    return count;
}

/* A completion with success for the command with this CID of submission queue 1. */
static const uint8_t *success(uint8_t cid)
{
    static uint8_t cqe[16];
    memset(cqe, 0, sizeof cqe);
    cqe[10] = 1;
    cqe[12] = cid;
    cqe[14] = 1;
    return cqe;
}

/* Handles of zeros are answered, and nothing else is written. */
static void nothing(void)
{
    vandrexu_remote remote = VANDREXU_REMOTE_NONE;
    vandrexu_outgoing entry = {{9}, 9, 9, 9, {9}}, same = entry;
    vandrexu_reply reply = {9, 9, 9, {9, 9}};
    uint8_t out[1] = {9};
    size_t needed = 7;
    size_t calls = 7, given_up = 7;
    uint64_t count = 7;
    uint32_t call = 7;
    for (int i = 0; i < 2; i++) {
        WANT(vandrexu_remote_read(&remote, 0, 1, &call) == VANDREXU_NO_HANDLE);
        WANT(vandrexu_remote_write_zeroes(&remote, 0, 1, &call) == VANDREXU_NO_HANDLE);
        WANT(vandrexu_remote_write(&remote, 0, zeros, 512, &call) == VANDREXU_NO_HANDLE);
        WANT(vandrexu_remote_compare(&remote, 0, zeros, 512, &call) == VANDREXU_NO_HANDLE);
        WANT(vandrexu_remote_compare_and_write(&remote, 0, zeros, 512, zeros, 512, &call) == VANDREXU_NO_HANDLE);
        WANT(vandrexu_remote_poll(&remote, 0, &reply) == VANDREXU_NO_HANDLE && reply.kind == 9 && reply.sc == 9);
        WANT(vandrexu_remote_give_up(&remote, 0) == VANDREXU_NO_HANDLE);
        WANT(vandrexu_remote_waiting(&remote, &calls, &given_up) == VANDREXU_NO_HANDLE && calls == 7 && given_up == 7);
        WANT(vandrexu_remote_data(&remote, out, 1, &needed) == VANDREXU_NO_HANDLE && out[0] == 9);
        WANT(vandrexu_remote_outgoing(&remote, &entry, out, 1) == VANDREXU_NO_HANDLE && out[0] == 9);
        WANT(vandrexu_remote_incoming(&remote, zeros, zeros, 0) == VANDREXU_NO_HANDLE);
        WANT(vandrexu_remote_dropped(&remote, &count) == VANDREXU_NO_HANDLE);
        WANT(call == 7 && count == 7 && memcmp(&entry, &same, sizeof entry) == 0);
        vandrexu_remote_free(&remote);
        WANT(remote.at == NULL && remote.live == 0);
    }
}

/* What a host is refused for; of two causes the first. */
static void made(void)
{
    vandrexu_remote remote = VANDREXU_REMOTE_NONE;
    WANT(vandrexu_remote_new(0, 0, 0, 65537, 0, &remote) == VANDREXU_BAD_NUMBER);
    WANT(vandrexu_remote_new(0, 1, 0, 0, 0, &remote) == VANDREXU_BAD_NUMBER);
    WANT(vandrexu_remote_new(1, 0, 0, 65537, 0, &remote) == VANDREXU_NO_QUEUE);
    WANT(vandrexu_remote_new(1, 0, 0, 0, 0, &remote) == VANDREXU_NO_QUEUE);
    WANT(vandrexu_remote_new(1, 1, 0, 65537, 0, &remote) == VANDREXU_BAD_AREA);
    WANT(vandrexu_remote_new(1, 1, 0, 65536, 1, &remote) == VANDREXU_BAD_AREA);
    WANT(vandrexu_remote_new(1, 1, 0, UINT64_MAX, UINT32_MAX, &remote) == VANDREXU_BAD_AREA);
    WANT(vandrexu_remote_new(1, 1, 0, 1, 65536, &remote) == VANDREXU_BAD_AREA);
    WANT(remote.at == NULL && remote.live == 0);
    /* each of these is a host */
    WANT(vandrexu_remote_new(UINT32_MAX, UINT16_MAX, UINT16_MAX, 65536, 0, &remote) == VANDREXU_DONE);
    WANT(vandrexu_remote_new(0, 0, 0, 65537, 0, &remote) == VANDREXU_IN_USE);
    WANT(vandrexu_remote_new(1, 1, 0, 0, 0, &remote) == VANDREXU_IN_USE && remote.live != 0);
    vandrexu_remote_free(&remote);
    vandrexu_remote_free(&remote);
    WANT(vandrexu_remote_new(1, 1, 0, 0, 65536, &remote) == VANDREXU_DONE);
    vandrexu_remote_free(&remote);
    WANT(remote.at == NULL && remote.live == 0);
}

/* Five calls are in flight, served from the last to the first, and polled in a third order. */
static void flights(void)
{
    vandrexu_controller disk = VANDREXU_CONTROLLER_NONE;
    vandrexu_remote remote = VANDREXU_REMOTE_NONE;
    vandrexu_reply reply;
    uint8_t a[1024], b[512], got[512];
    uint32_t wrote, read, late, early, compared, before;
    size_t needed = 7;
    memset(a, 0xA1, sizeof a);
    fill(b, 0xB2);
    WANT(vandrexu_controller_new(&config, &disk) == VANDREXU_DONE);
    WANT(vandrexu_remote_new(7, 2, 1, 0, 0, &remote) == VANDREXU_DONE);
    WANT(vandrexu_remote_poll(&remote, 0, &reply) == VANDREXU_NO_CALL && reply.kind == VANDREXU_REPLY_PENDING);
    WANT(vandrexu_remote_data(&remote, got, 0, &needed) == VANDREXU_DONE && needed == 0);
    WANT(vandrexu_remote_write(&remote, 0, b, 512, &before) == VANDREXU_DONE);
    carry(&disk, 2, plain(&remote));
    over(&remote, before, VANDREXU_REPLY_WRITTEN);
    WANT(vandrexu_remote_write(&remote, 4, a, 1024, &wrote) == VANDREXU_DONE);
    WANT(vandrexu_remote_read(&remote, 0, 1, &read) == VANDREXU_DONE);
    WANT(vandrexu_remote_compare_and_write(&remote, 3, zeros, 512, b, 512, &late) == VANDREXU_DONE);
    WANT(vandrexu_remote_compare_and_write(&remote, 3, zeros, 512, a, 512, &early) == VANDREXU_DONE);
    WANT(vandrexu_remote_compare(&remote, 6, zeros, 512, &compared) == VANDREXU_DONE);
    WANT(wrote != read && read != late && late != early && early != compared && compared != wrote);
    for (uint32_t call = 0; call < 5; call++)
        WANT(vandrexu_remote_poll(&remote, call, &reply) == VANDREXU_DONE && reply.kind == VANDREXU_REPLY_PENDING);
    WANT(vandrexu_remote_poll(&remote, 5, &reply) == VANDREXU_NO_CALL);
    WANT(carry_out(&disk, plain(&remote)) == 5);
    serve(&disk, 2);
    WANT(carry_in(&disk, 2, plain(&remote)) == 7);
    over(&remote, late, VANDREXU_REPLY_DIFFERS);
    over(&remote, wrote, VANDREXU_REPLY_WRITTEN);
    over(&remote, compared, VANDREXU_REPLY_EQUAL);
    over(&remote, early, VANDREXU_REPLY_SWAPPED);
    over(&remote, read, VANDREXU_REPLY_READ);
    memset(got, 0, sizeof got);
    WANT(vandrexu_remote_data(&remote, got, 511, &needed) == VANDREXU_TOO_SMALL && needed == 512 && got[0] == 0);
    WANT(vandrexu_remote_data(&remote, got, 512, &needed) == VANDREXU_DONE && needed == 512);
    WANT(memcmp(got, b, 512) == 0 && dropped(&remote) == 0);
    /* block 3 has what the pair wrote that was served first, and the two behind it the Write's */
    WANT(vandrexu_remote_compare_and_write(&remote, 3, a, 512, zeros, 512, &early) == VANDREXU_DONE);
    WANT(vandrexu_remote_compare(&remote, 4, a, 1024, &compared) == VANDREXU_DONE);
    carry(&disk, 2, plain(&remote));
    over(&remote, early, VANDREXU_REPLY_SWAPPED);
    over(&remote, compared, VANDREXU_REPLY_EQUAL);
    WANT(vandrexu_remote_write_zeroes(&remote, 4, 2, &wrote) == VANDREXU_DONE);
    carry(&disk, 2, plain(&remote));
    over(&remote, wrote, VANDREXU_REPLY_WRITTEN);
    WANT(vandrexu_remote_compare(&remote, 4, zeros, 1024, &compared) == VANDREXU_DONE);
    WANT(vandrexu_remote_compare(&remote, 0, zeros, 512, &read) == VANDREXU_DONE);
    carry(&disk, 2, plain(&remote));
    over(&remote, read, VANDREXU_REPLY_DIFFERS);
    over(&remote, compared, VANDREXU_REPLY_EQUAL);
    vandrexu_remote_free(&remote);
    vandrexu_controller_free(&disk);
}

/* An entry is told in whole, and stays the next one where its data has no room. */
static void entries(void)
{
    static const uint8_t compare[64] = {5, 1, 0, 0, 1, [40] = 6, [48] = 1}, write[64] = {1, 2, 1, 0, 1, [40] = 6, [48] = 1};
    vandrexu_remote remote = VANDREXU_REMOTE_NONE;
    vandrexu_outgoing told, same;
    uint8_t old[1024], new[1024], out[1030];
    uint32_t call;
    memset(old, 0xA1, sizeof old);
    memset(new, 0xB2, sizeof new);
    memset(out, 7, sizeof out);
    WANT(vandrexu_remote_new(1, 300, 1, 0, 0, &remote) == VANDREXU_DONE);
    memset(&told, 9, sizeof told);
    memset(&same, 9, sizeof same);
    WANT(vandrexu_remote_outgoing(&remote, &told, out, 0) == VANDREXU_NOTHING_READY);
    WANT(memcmp(&told, &same, sizeof told) == 0 && out[0] == 7);
    WANT(vandrexu_remote_compare_and_write(&remote, 6, old, 1024, new, 1024, &call) == VANDREXU_DONE);
    WANT(vandrexu_remote_read(&remote, 0, 1, &call) == VANDREXU_DONE);
    /* the data was copied */
    memset(old, 0, sizeof old);
    for (size_t room = 0; room <= 1023; room += 1023) {
        memset(&told, 9, sizeof told);
        WANT(vandrexu_remote_outgoing(&remote, &told, out, room) == VANDREXU_TOO_SMALL);
        WANT(memcmp(told.bytes, compare, 64) == 0 && told.count == 1024 && told.more == 1 && told.queue == 300);
        WANT(memcmp(told.zeros, zeros, sizeof told.zeros) == 0 && out[0] == 7);
    }
    same = told;
    WANT(vandrexu_remote_outgoing(&remote, &told, out, 1024) == VANDREXU_DONE && memcmp(&told, &same, sizeof told) == 0);
    WANT(out[0] == 0xA1 && out[1023] == 0xA1 && out[1024] == 7);
    WANT(vandrexu_remote_outgoing(&remote, &told, out, 1030) == VANDREXU_DONE);
    WANT(memcmp(told.bytes, write, 64) == 0 && told.count == 1024 && told.more == 0 && told.queue == 300);
    WANT(out[0] == 0xB2 && out[1023] == 0xB2 && out[1024] == 7);
    WANT(vandrexu_remote_outgoing(&remote, &told, out, 0) == VANDREXU_DONE);
    WANT(told.bytes[0] == 2 && told.bytes[1] == 0 && told.bytes[2] == 2 && told.count == 0 && told.more == 0);
    WANT(vandrexu_remote_outgoing(&remote, &told, out, 1024) == VANDREXU_NOTHING_READY);
    /* what isn't answered, or told, is freed with its host */
    WANT(vandrexu_remote_write(&remote, 0, new, 1024, &call) == VANDREXU_DONE);
    vandrexu_remote_free(&remote);
}

/* What a call is refused for: nothing is to be carried of it. Then one that fails. */
static void faults(void)
{
    vandrexu_controller disk = VANDREXU_CONTROLLER_NONE;
    vandrexu_remote remote = VANDREXU_REMOTE_NONE;
    vandrexu_outgoing entry;
    vandrexu_reply reply;
    uint8_t out[1];
    uint32_t call = 77;
    WANT(vandrexu_controller_new(&config, &disk) == VANDREXU_DONE);
    WANT(vandrexu_remote_new(1, 1, 1, FIRST, COUNT, &remote) == VANDREXU_DONE);
    WANT(vandrexu_remote_read(&remote, 0, 0, &call) == VANDREXU_CALL_LENGTH);
    WANT(vandrexu_remote_write_zeroes(&remote, FIRST, 0, &call) == VANDREXU_CALL_LENGTH);
    WANT(vandrexu_remote_write(&remote, 0, zeros, 0, &call) == VANDREXU_CALL_LENGTH);
    WANT(vandrexu_remote_write(&remote, FIRST, zeros, 511, &call) == VANDREXU_CALL_LENGTH);
    WANT(vandrexu_remote_compare(&remote, 0, zeros, 513, &call) == VANDREXU_CALL_LENGTH);
    WANT(vandrexu_remote_compare_and_write(&remote, 0, zeros, 512, zeros, 1024, &call) == VANDREXU_CALL_LENGTH);
    WANT(vandrexu_remote_compare_and_write(&remote, 0, zeros, 0, zeros, 0, &call) == VANDREXU_CALL_LENGTH);
    WANT(vandrexu_remote_read(&remote, 0, 257, &call) == VANDREXU_CALL_TOO_LONG);
    WANT(vandrexu_remote_write_zeroes(&remote, FIRST, 257, &call) == VANDREXU_CALL_TOO_LONG);
    WANT(vandrexu_remote_compare_and_write(&remote, FIRST, zeros, 1536, zeros, 1536, &call) == VANDREXU_CALL_TOO_LONG);
    /* the slot area: its first block and its last one, alone and at the end of two */
    for (uint64_t lba = FIRST - 1; lba < FIRST + COUNT; lba += COUNT) {
        WANT(vandrexu_remote_write(&remote, lba, zeros, 1024, &call) == VANDREXU_CALL_SLOT_AREA);
        WANT(vandrexu_remote_write_zeroes(&remote, lba, 2, &call) == VANDREXU_CALL_SLOT_AREA);
        WANT(vandrexu_remote_compare_and_write(&remote, lba, zeros, 1024, zeros, 1024, &call) == VANDREXU_CALL_SLOT_AREA);
    }
    WANT(vandrexu_remote_write(&remote, FIRST, zeros, 512, &call) == VANDREXU_CALL_SLOT_AREA);
    WANT(vandrexu_remote_write_zeroes(&remote, 0, 256, &call) == VANDREXU_CALL_SLOT_AREA);
    WANT(call == 77);
    WANT(vandrexu_remote_poll(&remote, 0, &reply) == VANDREXU_NO_CALL);
    WANT(vandrexu_remote_outgoing(&remote, &entry, out, 0) == VANDREXU_NOTHING_READY);
    /* it is read and compared, and written beside it */
    WANT(vandrexu_remote_read(&remote, FIRST, 1, &call) == VANDREXU_DONE);
    carry(&disk, 1, plain(&remote));
    over(&remote, call, VANDREXU_REPLY_READ);
    WANT(vandrexu_remote_compare(&remote, FIRST, zeros, 512, &call) == VANDREXU_DONE);
    carry(&disk, 1, plain(&remote));
    over(&remote, call, VANDREXU_REPLY_EQUAL);
    WANT(vandrexu_remote_write(&remote, FIRST + COUNT, zeros, 1024, &call) == VANDREXU_DONE);
    carry(&disk, 1, plain(&remote));
    over(&remote, call, VANDREXU_REPLY_WRITTEN);
    /* LBA Out of Range */
    WANT(vandrexu_remote_compare_and_write(&remote, 8, zeros, 512, zeros, 512, &call) == VANDREXU_DONE);
    carry(&disk, 1, plain(&remote));
    while (vandrexu_remote_poll(&remote, call, &reply) == VANDREXU_DONE)
        WANT(reply.kind == VANDREXU_REPLY_PENDING);
    WANT(reply.kind == VANDREXU_REPLY_FAILED && reply.sct == 0 && reply.sc == 0x80);
    WANT(vandrexu_remote_poll(&remote, call, &reply) == VANDREXU_NO_CALL && reply.kind == VANDREXU_REPLY_PENDING);
    WANT(dropped(&remote) == 0);
    vandrexu_remote_free(&remote);
    vandrexu_controller_free(&disk);
}

/* A host has 64 commands in flight, and numbers are used again. */
static void full(void)
{
    vandrexu_remote remote = VANDREXU_REMOTE_NONE;
    vandrexu_outgoing entry;
    vandrexu_reply reply;
    uint8_t out[1];
    uint32_t call, last;
    WANT(vandrexu_remote_new(1, 1, 0, 0, 0, &remote) == VANDREXU_DONE);
    for (uint32_t i = 0; i < 63; i++)
        WANT(vandrexu_remote_read(&remote, i, 1, &last) == VANDREXU_DONE);
    call = last;
    WANT(vandrexu_remote_compare_and_write(&remote, 0, zeros, 512, zeros, 512, &call) == VANDREXU_CALL_NO_ROOM);
    WANT(call == last && vandrexu_remote_read(&remote, 63, 1, &last) == VANDREXU_DONE && call != last);
    WANT(vandrexu_remote_read(&remote, 0, 1, &call) == VANDREXU_CALL_NO_ROOM);
    for (uint8_t i = 0; i < 64; i++) {
        WANT(vandrexu_remote_outgoing(&remote, &entry, out, 0) == VANDREXU_DONE && entry.more == 0);
        WANT(entry.bytes[2] == i && entry.bytes[3] == 0 && entry.bytes[40] == i);
    }
    WANT(vandrexu_remote_outgoing(&remote, &entry, out, 0) == VANDREXU_NOTHING_READY);
    WANT(vandrexu_remote_incoming(&remote, success(63), zeros, 512) == VANDREXU_DONE);
    WANT(vandrexu_remote_poll(&remote, last, &reply) == VANDREXU_DONE && reply.kind == VANDREXU_REPLY_READ);
    WANT(vandrexu_remote_read(&remote, 9, 1, &call) == VANDREXU_DONE && call == last);
    WANT(vandrexu_remote_outgoing(&remote, &entry, out, 0) == VANDREXU_DONE && entry.bytes[2] == 63);
    vandrexu_remote_free(&remote);
}

/* Wants the host to wait for so many calls that have a number, and so many that were given up. */
static void waits(vandrexu_remote *remote, size_t calls, size_t given_up)
{
    size_t numbered = 77, others = 77;
    WANT(vandrexu_remote_waiting(remote, &numbered, &others) == VANDREXU_DONE);
    WANT(numbered == calls && others == given_up);
}

/* Calls that are given up have no number, and keep their CIDs until polls took their completions, of each in its turn. */
static void gives_up(void)
{
    vandrexu_remote remote = VANDREXU_REMOTE_NONE;
    vandrexu_reply reply;
    uint32_t call[64], last;
    WANT(vandrexu_remote_new(1, 1, 0, 0, 0, &remote) == VANDREXU_DONE);
    WANT(vandrexu_remote_give_up(&remote, 0) == VANDREXU_NO_CALL);
    for (uint32_t i = 0; i < 64; i++)
        WANT(vandrexu_remote_read(&remote, i, 1, &call[i]) == VANDREXU_DONE);
    waits(&remote, 64, 0);
    WANT(vandrexu_remote_give_up(&remote, call[3]) == VANDREXU_DONE);
    WANT(vandrexu_remote_give_up(&remote, call[3]) == VANDREXU_NO_CALL);
    WANT(vandrexu_remote_give_up(&remote, call[9]) == VANDREXU_DONE);
    waits(&remote, 62, 2);
    WANT(vandrexu_remote_read(&remote, 0, 1, &last) == VANDREXU_CALL_NO_ROOM);
    WANT(vandrexu_remote_incoming(&remote, success(9), zeros, 512) == VANDREXU_DONE);
    WANT(vandrexu_remote_incoming(&remote, success(63), zeros, 512) == VANDREXU_DONE);
    /* that of CID 3 has its turn, and takes the completion of CID 9; the call that is polled takes its own */
    WANT(vandrexu_remote_poll(&remote, call[63], &reply) == VANDREXU_DONE && reply.kind == VANDREXU_REPLY_READ);
    waits(&remote, 61, 2);
    /* then that of CID 9, which is free from now on, as 63 is */
    WANT(vandrexu_remote_poll(&remote, call[63], &reply) == VANDREXU_NO_CALL && reply.kind == VANDREXU_REPLY_PENDING);
    waits(&remote, 61, 1);
    WANT(vandrexu_remote_read(&remote, 0, 1, &call[9]) == VANDREXU_DONE);
    WANT(vandrexu_remote_read(&remote, 0, 1, &call[63]) == VANDREXU_DONE);
    WANT(vandrexu_remote_read(&remote, 0, 1, &last) == VANDREXU_CALL_NO_ROOM);
    waits(&remote, 63, 1);
    WANT(dropped(&remote) == 0);
    vandrexu_remote_free(&remote);
}

/* Brings a completion of success(cid) with this byte changed, and wants it to be dropped by the next poll of a call. */
static void drops(vandrexu_remote *remote, uint32_t call, uint8_t cid, size_t place, uint8_t with)
{
    vandrexu_reply reply;
    uint8_t cqe[16];
    uint64_t count = dropped(remote);
    memcpy(cqe, success(cid), sizeof cqe);
    cqe[place] = with;
    WANT(vandrexu_remote_incoming(remote, cqe, zeros, 0) == VANDREXU_DONE && dropped(remote) == count);
    WANT(vandrexu_remote_poll(remote, call, &reply) == VANDREXU_DONE && reply.kind == VANDREXU_REPLY_PENDING);
    WANT(dropped(remote) == count + 1);
}

/* Completions that no call is owed are dropped, and counted. */
static void strays(void)
{
    vandrexu_remote remote = VANDREXU_REMOTE_NONE;
    vandrexu_reply reply;
    uint8_t a[512], b[512], got[512];
    uint32_t one, two;
    size_t needed;
    fill(a, 0xA1);
    fill(b, 0xB2);
    WANT(vandrexu_remote_new(1, 1, 0, 0, 0, &remote) == VANDREXU_DONE);
    WANT(vandrexu_remote_read(&remote, 0, 1, &one) == VANDREXU_DONE);
    WANT(vandrexu_remote_read(&remote, 1, 1, &two) == VANDREXU_DONE);
    /* of no command, of no CID that there is, and of another queue */
    drops(&remote, two, 9, 12, 9);
    drops(&remote, two, 200, 12, 200);
    drops(&remote, two, 1, 13, 1);
    drops(&remote, two, 1, 10, 2);
    /* a bit in each of the first two dwords, and in the four above the status code type */
    for (size_t i = 0; i < 8; i++)
        drops(&remote, two, 1, i, 0x80);
    for (int i = 4; i < 8; i++)
        drops(&remote, two, 1, 15, (uint8_t)(1 << i));
    WANT(dropped(&remote) == 16);
    /* one that comes twice, with other data: the first counts */
    WANT(vandrexu_remote_incoming(&remote, success(0), a, 512) == VANDREXU_DONE);
    WANT(vandrexu_remote_incoming(&remote, success(0), b, 512) == VANDREXU_DONE);
    WANT(vandrexu_remote_incoming(&remote, success(1), b, 512) == VANDREXU_DONE);
    for (int i = 0; i < 2; i++)
        WANT(vandrexu_remote_poll(&remote, two, &reply) == VANDREXU_DONE && reply.kind == VANDREXU_REPLY_PENDING);
    WANT(dropped(&remote) == 17);
    over(&remote, two, VANDREXU_REPLY_READ);
    WANT(vandrexu_remote_data(&remote, got, 512, &needed) == VANDREXU_DONE && memcmp(got, b, 512) == 0);
    over(&remote, one, VANDREXU_REPLY_READ);
    WANT(vandrexu_remote_data(&remote, got, 512, &needed) == VANDREXU_DONE && memcmp(got, a, 512) == 0);
    WANT(dropped(&remote) == 17);
    vandrexu_remote_free(&remote);
}

/* No handle is left behind, whatever it has. */
static void many(void)
{
    for (int i = 0; i < 20000; i++) {
        vandrexu_remote remote = VANDREXU_REMOTE_NONE;
        vandrexu_remote_slot_host host = VANDREXU_REMOTE_SLOT_HOST_NONE;
        uint32_t call;
        WANT(vandrexu_remote_new(1, 1, 1, 0, 0, &remote) == VANDREXU_DONE);
        WANT(vandrexu_remote_slot_host_new(1, 1, FIRST, COUNT, 0, &host) == VANDREXU_DONE);
        if (i % 2 == 0) {
            WANT(vandrexu_remote_compare_and_write(&remote, 0, zeros, 512, zeros, 512, &call) == VANDREXU_DONE);
            WANT(vandrexu_remote_slot_claim(&host, 0) == VANDREXU_DONE);
        }
        if (i % 3 == 0) {
            WANT(vandrexu_remote_incoming(&remote, success(0), zeros, 512) == VANDREXU_DONE);
            WANT(vandrexu_remote_slot_incoming(&host, success(0), zeros, 512) == VANDREXU_DONE);
        }
        vandrexu_remote_free(&remote);
        vandrexu_remote_slot_host_free(&host);
    }
}

/* ---- Slot hosts */

/* Carries a slot host's call, which was begun, and polls until it is over; wants this of it. */
static vandrexu_slot_reply slot_over(vandrexu_controller *disk, uint16_t queue, vandrexu_remote_slot_host *host,
                                     uint32_t kind)
{
    vandrexu_slot_reply reply, none;
    do {
        carry(disk, queue, slots(host));
        WANT(vandrexu_remote_slot_poll(host, &reply) == VANDREXU_DONE);
    } while (reply.kind == VANDREXU_SLOT_PENDING);
    WANT(reply.kind == kind && reply.sct == 0 && reply.sc == 0);
    WANT(vandrexu_remote_slot_poll(host, &none) == VANDREXU_NO_CALL && none.kind == VANDREXU_SLOT_PENDING);
    return reply;
}

/* The same of a call that fails with this status. */
static void slot_fails(vandrexu_controller *disk, uint16_t queue, vandrexu_remote_slot_host *host, uint8_t sct,
                       uint8_t sc)
{
    vandrexu_slot_reply reply;
    carry(disk, queue, slots(host));
    while (vandrexu_remote_slot_poll(host, &reply) == VANDREXU_DONE)
        WANT(reply.kind == VANDREXU_SLOT_PENDING);
    WANT(reply.kind == VANDREXU_SLOT_FAILED && reply.sct == sct && reply.sc == sc);
    WANT(vandrexu_remote_slot_poll(host, &reply) == VANDREXU_NO_CALL && reply.kind == VANDREXU_SLOT_PENDING);
}

/* Who holds a slot, asked by this host. */
static vandrexu_slot_reply asked(vandrexu_controller *disk, uint16_t queue, vandrexu_remote_slot_host *host,
                                 uint32_t slot, uint32_t kind)
{
    WANT(vandrexu_remote_slot_ask_holder(host, slot) == VANDREXU_DONE);
    return slot_over(disk, queue, host, kind);
}

/* The slot's block is this name. */
static void is_named(vandrexu_controller *disk, uint32_t slot, uint32_t number, uint64_t serial)
{
    uint8_t block[512], name[512] = {0};
    for (int i = 0; i < 4; i++)
        name[i] = (uint8_t)(number >> (8 * i));
    for (int i = 0; i < 8; i++)
        name[8 + i] = (uint8_t)(serial >> (8 * i));
    WANT(vandrexu_controller_medium(disk, FIRST + slot, block) == VANDREXU_DONE && memcmp(block, name, 512) == 0);
}

/* Handles of zeros are answered, and nothing else is written. */
static void no_slots(void)
{
    vandrexu_remote_slot_host host = VANDREXU_REMOTE_SLOT_HOST_NONE;
    vandrexu_slot_reply reply = {9, 9, 9, 9, 9, 9, {9, 9}};
    vandrexu_outgoing entry = {{9}, 9, 9, 9, {9}}, same = entry;
    uint8_t out[1] = {9};
    uint64_t count = 7;
    for (int i = 0; i < 2; i++) {
        WANT(vandrexu_remote_slot_claim(&host, 0) == VANDREXU_NO_HANDLE);
        WANT(vandrexu_remote_slot_claim_any(&host) == VANDREXU_NO_HANDLE);
        WANT(vandrexu_remote_slot_release(&host, 0) == VANDREXU_NO_HANDLE);
        WANT(vandrexu_remote_slot_take_over(&host, 0, 2, 1) == VANDREXU_NO_HANDLE);
        WANT(vandrexu_remote_slot_ask_holder(&host, 0) == VANDREXU_NO_HANDLE);
        WANT(vandrexu_remote_slot_poll(&host, &reply) == VANDREXU_NO_HANDLE && reply.kind == 9 && reply.serial == 9);
        WANT(vandrexu_remote_slot_outgoing(&host, &entry, out, 1) == VANDREXU_NO_HANDLE && out[0] == 9);
        WANT(vandrexu_remote_slot_incoming(&host, zeros, zeros, 0) == VANDREXU_NO_HANDLE);
        WANT(vandrexu_remote_slot_dropped(&host, &count) == VANDREXU_NO_HANDLE);
        WANT(count == 7 && memcmp(&entry, &same, sizeof entry) == 0);
        vandrexu_remote_slot_host_free(&host);
        WANT(host.at == NULL && host.live == 0);
    }
}

/* What a slot host is refused for; of two causes the first. */
static void slots_made(void)
{
    static const uint64_t firsts[] = {FIRST, 65536, 65535, 0, UINT64_MAX, UINT64_MAX};
    static const uint32_t counts[] = {0, 1, 2, 65537, 1, UINT32_MAX};
    vandrexu_remote_slot_host host = VANDREXU_REMOTE_SLOT_HOST_NONE;
    for (int i = 0; i < 6; i++) {
        WANT(vandrexu_remote_slot_host_new(1, 1, firsts[i], counts[i], 0, &host) == VANDREXU_BAD_AREA);
        WANT(vandrexu_remote_slot_host_new(0, 0, firsts[i], counts[i], 0, &host) == VANDREXU_BAD_AREA);
    }
    WANT(vandrexu_remote_slot_host_new(0, 0, FIRST, COUNT, 0, &host) == VANDREXU_BAD_NUMBER);
    WANT(vandrexu_remote_slot_host_new(0, 1, FIRST, COUNT, 0, &host) == VANDREXU_BAD_NUMBER);
    WANT(vandrexu_remote_slot_host_new(1, 0, FIRST, COUNT, 0, &host) == VANDREXU_NO_QUEUE);
    WANT(host.at == NULL && host.live == 0);
    WANT(vandrexu_remote_slot_host_new(UINT32_MAX, UINT16_MAX, 65535, 1, 0, &host) == VANDREXU_DONE);
    WANT(vandrexu_remote_slot_host_new(0, 0, FIRST, 0, 0, &host) == VANDREXU_IN_USE);
    WANT(vandrexu_remote_slot_host_new(1, 1, FIRST, COUNT, 0, &host) == VANDREXU_IN_USE && host.live != 0);
    vandrexu_remote_slot_host_free(&host);
    vandrexu_remote_slot_host_free(&host);
    WANT(vandrexu_remote_slot_host_new(1, 1, 0, 65536, 0, &host) == VANDREXU_DONE);
    WANT(vandrexu_remote_slot_claim(&host, 65536) == VANDREXU_NO_SLOT);
    WANT(vandrexu_remote_slot_claim(&host, 65535) == VANDREXU_DONE);
    vandrexu_remote_slot_host_free(&host);
    WANT(host.at == NULL && host.live == 0 && vandrexu_remote_slot_claim(&host, 0) == VANDREXU_NO_HANDLE);
}

/* A controller and two hosts, each on the queue of its number; the serials of the first are above 4,096. */
static void two_hosts(vandrexu_controller *disk, vandrexu_remote_slot_host *one, vandrexu_remote_slot_host *two)
{
    WANT(vandrexu_controller_new(&config, disk) == VANDREXU_DONE);
    WANT(vandrexu_remote_slot_host_new(1, 1, FIRST, COUNT, 4096, one) == VANDREXU_DONE);
    WANT(vandrexu_remote_slot_host_new(2, 2, FIRST, COUNT, 0, two) == VANDREXU_DONE);
}

/* Two hosts claim one slot: who is served first has it, and the other one when it was released. */
static void claims(void)
{
    vandrexu_controller disk = VANDREXU_CONTROLLER_NONE;
    vandrexu_remote_slot_host one = VANDREXU_REMOTE_SLOT_HOST_NONE, two = VANDREXU_REMOTE_SLOT_HOST_NONE;
    vandrexu_slot_reply reply;
    two_hosts(&disk, &one, &two);
    WANT(vandrexu_remote_slot_poll(&one, &reply) == VANDREXU_NO_CALL && reply.kind == VANDREXU_SLOT_PENDING);
    WANT(vandrexu_remote_slot_claim(&one, COUNT) == VANDREXU_NO_SLOT);
    WANT(vandrexu_remote_slot_release(&one, COUNT) == VANDREXU_NO_SLOT);
    WANT(vandrexu_remote_slot_take_over(&one, UINT32_MAX, 2, 1) == VANDREXU_NO_SLOT);
    WANT(vandrexu_remote_slot_ask_holder(&one, COUNT) == VANDREXU_NO_SLOT);
    WANT(vandrexu_remote_slot_release(&one, 1) == VANDREXU_NOT_HELD);
    WANT(vandrexu_remote_slot_claim(&one, 1) == VANDREXU_DONE);
    WANT(vandrexu_remote_slot_claim(&one, COUNT) == VANDREXU_IN_CALL);
    WANT(vandrexu_remote_slot_claim_any(&one) == VANDREXU_IN_CALL);
    WANT(vandrexu_remote_slot_release(&one, 1) == VANDREXU_IN_CALL);
    WANT(vandrexu_remote_slot_take_over(&one, 1, 2, 1) == VANDREXU_IN_CALL);
    WANT(vandrexu_remote_slot_ask_holder(&one, 1) == VANDREXU_IN_CALL);
    WANT(vandrexu_remote_slot_poll(&one, &reply) == VANDREXU_DONE && reply.kind == VANDREXU_SLOT_PENDING);
    WANT(vandrexu_remote_slot_claim(&two, 1) == VANDREXU_DONE);
    reply = slot_over(&disk, 2, &two, VANDREXU_SLOT_HELD);
    WANT(reply.slot == 1);
    is_named(&disk, 1, 2, 1);
    slot_over(&disk, 1, &one, VANDREXU_SLOT_TAKEN);
    WANT(vandrexu_remote_slot_release(&one, 1) == VANDREXU_NOT_HELD);
    WANT(vandrexu_remote_slot_claim(&two, 1) == VANDREXU_HELD);
    reply = asked(&disk, 1, &one, 1, VANDREXU_SLOT_OF_NAME);
    WANT(reply.host == 2 && reply.serial == 1);
    asked(&disk, 1, &one, 0, VANDREXU_SLOT_FREE);
    WANT(vandrexu_remote_slot_release(&two, 1) == VANDREXU_DONE);
    slot_over(&disk, 2, &two, VANDREXU_SLOT_RELEASED);
    is_named(&disk, 1, 0, 0);
    WANT(vandrexu_remote_slot_release(&two, 1) == VANDREXU_NOT_HELD);
    WANT(vandrexu_remote_slot_claim(&one, 1) == VANDREXU_DONE);
    reply = slot_over(&disk, 1, &one, VANDREXU_SLOT_HELD);
    WANT(reply.slot == 1);
    /* the first of its claims was of a slot that was taken */
    is_named(&disk, 1, 1, 4098);
    vandrexu_remote_slot_host_free(&one);
    vandrexu_remote_slot_host_free(&two);
    vandrexu_controller_free(&disk);
}

/* Of any slots each host gets the first that nobody has, and none where all are somebody's. */
static void claims_any(void)
{
    vandrexu_controller disk = VANDREXU_CONTROLLER_NONE;
    vandrexu_remote_slot_host one = VANDREXU_REMOTE_SLOT_HOST_NONE, two = VANDREXU_REMOTE_SLOT_HOST_NONE;
    vandrexu_slot_reply reply;
    two_hosts(&disk, &one, &two);
    for (uint32_t slot = 0; slot < COUNT; slot += 2) {
        WANT(vandrexu_remote_slot_claim_any(&one) == VANDREXU_DONE);
        reply = slot_over(&disk, 1, &one, VANDREXU_SLOT_HELD);
        WANT(reply.slot == slot);
        WANT(vandrexu_remote_slot_claim_any(&two) == VANDREXU_DONE);
        reply = slot_over(&disk, 2, &two, VANDREXU_SLOT_HELD);
        WANT(reply.slot == slot + 1);
    }
    WANT(vandrexu_remote_slot_claim_any(&one) == VANDREXU_DONE);
    slot_over(&disk, 1, &one, VANDREXU_SLOT_TAKEN);
    vandrexu_remote_slot_host_free(&one);
    vandrexu_remote_slot_host_free(&two);
    vandrexu_controller_free(&disk);
}

/* A host takes the slots over of one that is gone, whose number another one has then, with serials above its own. */
static void takeovers(void)
{
    vandrexu_controller disk = VANDREXU_CONTROLLER_NONE;
    vandrexu_remote_slot_host one = VANDREXU_REMOTE_SLOT_HOST_NONE, two = VANDREXU_REMOTE_SLOT_HOST_NONE;
    vandrexu_slot_reply reply;
    two_hosts(&disk, &one, &two);
    for (uint32_t slot = 0; slot < COUNT; slot += 2) {
        WANT(vandrexu_remote_slot_claim(&one, slot) == VANDREXU_DONE);
        slot_over(&disk, 1, &one, VANDREXU_SLOT_HELD);
    }
    vandrexu_remote_slot_host_free(&one);
    WANT(vandrexu_remote_slot_claim(&two, 3) == VANDREXU_DONE);
    slot_over(&disk, 2, &two, VANDREXU_SLOT_HELD);
    reply = asked(&disk, 2, &two, 0, VANDREXU_SLOT_OF_NAME);
    WANT(reply.host == 1 && reply.serial == 4097);
    WANT(vandrexu_remote_slot_take_over(&two, 0, 0, 1) == VANDREXU_BAD_NAME);
    WANT(vandrexu_remote_slot_take_over(&two, 0, 1, 0) == VANDREXU_BAD_NAME);
    WANT(vandrexu_remote_slot_take_over(&two, 0, 2, 1) == VANDREXU_BAD_NAME);
    WANT(vandrexu_remote_slot_take_over(&two, 3, 1, 4097) == VANDREXU_HELD);
    /* another name than the one it has */
    WANT(vandrexu_remote_slot_take_over(&two, 0, 1, 4096) == VANDREXU_DONE);
    slot_over(&disk, 2, &two, VANDREXU_SLOT_TAKEN);
    WANT(vandrexu_remote_slot_take_over(&two, 0, reply.host, reply.serial) == VANDREXU_DONE);
    reply = slot_over(&disk, 2, &two, VANDREXU_SLOT_HELD);
    WANT(reply.slot == 0);
    is_named(&disk, 0, 2, 3);
    WANT(vandrexu_remote_slot_take_over(&two, 0, 1, 4097) == VANDREXU_HELD);
    /* what was taken over is released, and claimed by whoever has the dead one's number */
    WANT(vandrexu_remote_slot_release(&two, 0) == VANDREXU_DONE);
    slot_over(&disk, 2, &two, VANDREXU_SLOT_RELEASED);
    WANT(vandrexu_remote_slot_host_new(1, 3, FIRST, COUNT, 4098, &one) == VANDREXU_DONE);
    WANT(vandrexu_remote_slot_claim(&one, 0) == VANDREXU_DONE);
    slot_over(&disk, 3, &one, VANDREXU_SLOT_HELD);
    is_named(&disk, 0, 1, 4099);
    /* it holds no other one of that number */
    WANT(vandrexu_remote_slot_release(&one, 2) == VANDREXU_NOT_HELD);
    vandrexu_remote_slot_host_free(&one);
    vandrexu_remote_slot_host_free(&two);
    vandrexu_controller_free(&disk);
}

/* What no slot host brings about alone: a block that is no name, and a slot that was taken over from a host that isn't
 * dead. Then a slot that there is no block for. */
static void wrongs(void)
{
    static const uint8_t foreign[512] = {1, 0, 0, 0, 0, 0, 0, 0, 1, [511] = 1};
    vandrexu_controller disk = VANDREXU_CONTROLLER_NONE;
    vandrexu_remote_slot_host one = VANDREXU_REMOTE_SLOT_HOST_NONE, two = VANDREXU_REMOTE_SLOT_HOST_NONE;
    vandrexu_remote writer = VANDREXU_REMOTE_NONE;
    uint32_t call;
    two_hosts(&disk, &one, &two);
    WANT(vandrexu_remote_new(3, 3, 0, 0, 0, &writer) == VANDREXU_DONE);
    WANT(vandrexu_remote_write(&writer, FIRST + 1, foreign, 512, &call) == VANDREXU_DONE);
    carry(&disk, 3, plain(&writer));
    over(&writer, call, VANDREXU_REPLY_WRITTEN);
    asked(&disk, 1, &one, 1, VANDREXU_SLOT_FOREIGN);
    WANT(vandrexu_remote_slot_claim(&one, 0) == VANDREXU_DONE);
    slot_over(&disk, 1, &one, VANDREXU_SLOT_HELD);
    WANT(vandrexu_remote_slot_take_over(&two, 0, 1, 4097) == VANDREXU_DONE);
    slot_over(&disk, 2, &two, VANDREXU_SLOT_HELD);
    /* Compare Failure; the host has it no more */
    WANT(vandrexu_remote_slot_release(&one, 0) == VANDREXU_DONE);
    slot_fails(&disk, 1, &one, 2, 0x85);
    WANT(vandrexu_remote_slot_release(&one, 0) == VANDREXU_NOT_HELD);
    is_named(&disk, 0, 2, 1);
    vandrexu_remote_slot_host_free(&one);
    /* LBA Out of Range */
    WANT(vandrexu_remote_slot_host_new(1, 1, 8, 1, 0, &one) == VANDREXU_DONE);
    WANT(vandrexu_remote_slot_claim(&one, 0) == VANDREXU_DONE);
    slot_fails(&disk, 1, &one, 0, 0x80);
    WANT(vandrexu_remote_slot_ask_holder(&one, 0) == VANDREXU_DONE);
    slot_fails(&disk, 1, &one, 0, 0x80);
    WANT(vandrexu_remote_slot_release(&one, 0) == VANDREXU_NOT_HELD);
    vandrexu_remote_slot_host_free(&one);
    vandrexu_remote_slot_host_free(&two);
    vandrexu_remote_free(&writer);
    vandrexu_controller_free(&disk);
}

/* A host has no serial above the last. */
static void serials(void)
{
    vandrexu_controller disk = VANDREXU_CONTROLLER_NONE;
    vandrexu_remote_slot_host one = VANDREXU_REMOTE_SLOT_HOST_NONE;
    vandrexu_outgoing entry;
    uint8_t out[1];
    WANT(vandrexu_controller_new(&config, &disk) == VANDREXU_DONE);
    WANT(vandrexu_remote_slot_host_new(1, 1, FIRST, COUNT, UINT64_MAX - 1, &one) == VANDREXU_DONE);
    WANT(vandrexu_remote_slot_claim(&one, 0) == VANDREXU_DONE);
    slot_over(&disk, 1, &one, VANDREXU_SLOT_HELD);
    is_named(&disk, 0, 1, UINT64_MAX);
    WANT(vandrexu_remote_slot_claim(&one, 1) == VANDREXU_CALL_NO_SERIAL);
    WANT(vandrexu_remote_slot_claim_any(&one) == VANDREXU_CALL_NO_SERIAL);
    WANT(vandrexu_remote_slot_take_over(&one, 1, 2, 1) == VANDREXU_CALL_NO_SERIAL);
    WANT(vandrexu_remote_slot_outgoing(&one, &entry, out, 0) == VANDREXU_NOTHING_READY);
    /* a release draws none */
    WANT(vandrexu_remote_slot_release(&one, 0) == VANDREXU_DONE);
    WANT(vandrexu_remote_slot_outgoing(&one, &entry, out, 0) == VANDREXU_TOO_SMALL && entry.count == 512 && entry.more == 1);
    slot_over(&disk, 1, &one, VANDREXU_SLOT_RELEASED);
    vandrexu_remote_slot_host_free(&one);
    vandrexu_controller_free(&disk);
}

/* Completions that no call of a slot host is owed are dropped, and counted. */
static void slot_strays(void)
{
    vandrexu_remote_slot_host host = VANDREXU_REMOTE_SLOT_HOST_NONE;
    vandrexu_slot_reply reply;
    uint8_t reserved[16];
    uint64_t count = 7;
    memcpy(reserved, success(1), sizeof reserved);
    reserved[4] = 1;
    WANT(vandrexu_remote_slot_host_new(1, 1, FIRST, COUNT, 0, &host) == VANDREXU_DONE);
    WANT(vandrexu_remote_slot_claim(&host, 3) == VANDREXU_DONE);
    WANT(vandrexu_remote_slot_incoming(&host, success(2), zeros, 0) == VANDREXU_DONE);
    WANT(vandrexu_remote_slot_incoming(&host, reserved, zeros, 0) == VANDREXU_DONE);
    WANT(vandrexu_remote_slot_incoming(&host, success(0), zeros, 0) == VANDREXU_DONE);
    WANT(vandrexu_remote_slot_incoming(&host, success(0), zeros, 0) == VANDREXU_DONE);
    WANT(vandrexu_remote_slot_incoming(&host, success(1), zeros, 0) == VANDREXU_DONE);
    WANT(vandrexu_remote_slot_dropped(&host, &count) == VANDREXU_DONE && count == 0);
    for (int i = 0; i < 4; i++)
        WANT(vandrexu_remote_slot_poll(&host, &reply) == VANDREXU_DONE && reply.kind == VANDREXU_SLOT_PENDING);
    WANT(vandrexu_remote_slot_dropped(&host, &count) == VANDREXU_DONE && count == 3);
    WANT(vandrexu_remote_slot_poll(&host, &reply) == VANDREXU_DONE && reply.kind == VANDREXU_SLOT_HELD && reply.slot == 3);
    WANT(vandrexu_remote_slot_dropped(&host, &count) == VANDREXU_DONE && count == 3);
    vandrexu_remote_slot_host_free(&host);
}

int main(void)
{
    nothing();
    made();
    flights();
    entries();
    faults();
    full();
    gives_up();
    strays();
    many();
    no_slots();
    slots_made();
    claims();
    claims_any();
    takeovers();
    wrongs();
    serials();
    slot_strays();
    puts("remote: as they should be");
    return 0;
}
#else
#include "refused_runs.h"

/* Carries what a host has begun, one batch, to a queue of the controller and back. */
static void carry(vandrexu_controller *disk, uint16_t queue, struct carried it)
{
    vandrexu_outgoing told = {.more = 1};
    vandrexu_entry batch[2];
    vandrexu_work work;
    uint8_t data[2 * ROOM], cqe[16];
    size_t count = 0, length = 0;
    uint32_t answer;
    while (told.more == 1) {
        /* (no memory is taken for it) */
        WANT(outgoing(it, &told, data + length, ROOM) == VANDREXU_DONE);
        memcpy(batch[count].bytes, told.bytes, 64);
        batch[count++].count = told.count;
        length += told.count;
    }
    TRY(vandrexu_controller_publish(disk, queue, batch, count, data, length));
    TRY(vandrexu_controller_fetch(disk, queue, &work));
    TRY(vandrexu_settle(disk));
    while ((answer = vandrexu_controller_reap(disk, queue, cqe, &length)) != VANDREXU_NO_COMPLETION) {
        if (is_refusal(answer))
            continue;
        WANT(answer == VANDREXU_DONE);
        WANT(vandrexu_controller_data(disk, data, sizeof data, &length) == VANDREXU_DONE);
        TRY(incoming(it, cqe, data, length));
    }
}

/* Polls until the call is over; a poll takes no memory. */
static void over(vandrexu_remote *remote, uint32_t call, uint32_t kind)
{
    vandrexu_reply reply;
    do
        WANT(vandrexu_remote_poll(remote, call, &reply) == VANDREXU_DONE);
    while (reply.kind == VANDREXU_REPLY_PENDING);
    WANT(reply.kind == kind);
}

static void slot_over(vandrexu_controller *disk, vandrexu_remote_slot_host *host, uint32_t kind)
{
    vandrexu_slot_reply reply;
    carry(disk, 2, slots(host));
    do
        WANT(vandrexu_remote_slot_poll(host, &reply) == VANDREXU_DONE);
    while (reply.kind == VANDREXU_SLOT_PENDING);
    WANT(reply.kind == kind);
}

static void run_refused(long at)
{
    vandrexu_controller disk = VANDREXU_CONTROLLER_NONE;
    vandrexu_remote remote = VANDREXU_REMOTE_NONE;
    vandrexu_remote_slot_host host = VANDREXU_REMOTE_SLOT_HOST_NONE;
    uint8_t data[512], got[512];
    uint32_t answer, call;
    size_t needed, calls, given_up;
    fill(data, 0xC3);
    refused_at = at;
    allocations = blocks = 0;
    TRY(vandrexu_controller_new(&config, &disk));
    TRY(vandrexu_remote_new(1, 1, 1, FIRST, COUNT, &remote));
    TRY(vandrexu_remote_slot_host_new(2, 2, FIRST, COUNT, 6, &host));
    /* (memory is looked for first) */
    while (is_refusal(answer = vandrexu_remote_write(&remote, FIRST, zeros, 512, &call)))
        ;
    WANT(answer == VANDREXU_CALL_SLOT_AREA);
    TRY(vandrexu_remote_compare_and_write(&remote, 1, zeros, 512, data, 512, &call));
    carry(&disk, 1, plain(&remote));
    over(&remote, call, VANDREXU_REPLY_SWAPPED);
    TRY(vandrexu_remote_write(&remote, 6, data, 512, &call));
    carry(&disk, 1, plain(&remote));
    over(&remote, call, VANDREXU_REPLY_WRITTEN);
    TRY(vandrexu_remote_write_zeroes(&remote, 7, 1, &call));
    carry(&disk, 1, plain(&remote));
    over(&remote, call, VANDREXU_REPLY_WRITTEN);
    TRY(vandrexu_remote_compare(&remote, 6, data, 512, &call));
    carry(&disk, 1, plain(&remote));
    over(&remote, call, VANDREXU_REPLY_EQUAL);
    TRY(vandrexu_remote_read(&remote, 1, 1, &call));
    carry(&disk, 1, plain(&remote));
    over(&remote, call, VANDREXU_REPLY_READ);
    WANT(vandrexu_remote_data(&remote, got, 512, &needed) == VANDREXU_DONE && memcmp(got, data, 512) == 0);
    /* a call whose giving up is refused memory goes on */
    TRY(vandrexu_remote_read(&remote, 1, 1, &call));
    TRY(vandrexu_remote_give_up(&remote, call));
    WANT(vandrexu_remote_waiting(&remote, &calls, &given_up) == VANDREXU_DONE && calls == 0 && given_up == 1);
    TRY(vandrexu_remote_slot_claim(&host, 3));
    slot_over(&disk, &host, VANDREXU_SLOT_HELD);
    /* a release that was refused left the host its slot */
    TRY(vandrexu_remote_slot_release(&host, 3));
    slot_over(&disk, &host, VANDREXU_SLOT_RELEASED);
    TRY(vandrexu_remote_slot_claim_any(&host));
    slot_over(&disk, &host, VANDREXU_SLOT_HELD);
    TRY(vandrexu_remote_slot_take_over(&host, 1, 1, 1));
    slot_over(&disk, &host, VANDREXU_SLOT_TAKEN);
    TRY(vandrexu_remote_slot_ask_holder(&host, 0));
    slot_over(&disk, &host, VANDREXU_SLOT_OF_NAME);
    vandrexu_controller_free(&disk);
    vandrexu_remote_free(&remote);
    vandrexu_remote_slot_host_free(&host);
    WANT(blocks == 0);
}

int main(void)
{
    return refuse_each(run_refused, "remote hosts", 10);
}
#endif
