/* Calls each function of vandrexu_slots.h, with each of its answers. Exits with 1 at the first that isn't as it should be.
 *
 * Compiled with REFUSES it has a heap of its own in place of heap.c, refuses each allocation of a run in turn, and wants
 * that to be told and nothing to be lost. */
#include "vandrexu_slots.h"

#include <pthread.h>
#include <sched.h>
#include <stdatomic.h>
#include <stdio.h>
#include <stdlib.h>
#include <string.h>

#define WANT(what)                                                                                                     \
    do {                                                                                                               \
        if (!(what)) {                                                                                                 \
            fprintf(stderr, "slots.c:%d: %s\n", __LINE__, #what);                                                      \
            exit(1);                                                                                                   \
        }                                                                                                              \
    } while (0)

/* Three pairs, or two, each with a completion queue of its own; slots are the blocks 2 to 5. */
static const vandrexu_config wide = {8, 1, 1, 0, 0, 3, 4, 4, 8, 3};

enum { FIRST = 2, COUNT = 4 };

static const uint8_t zeros[512];

#ifndef REFUSES
static const vandrexu_config config = {8, 1, 1, 0, 0, 2, 4, 4, 8, 2};

static void serve(vandrexu_disk *disk, uint16_t queue)
{
    WANT(vandrexu_disk_serve(disk, queue) == VANDREXU_DONE);
}

/* Serves the host's call, which was begun, and polls until it is over; wants this of it. */
static vandrexu_slot_reply over(vandrexu_disk *disk, uint16_t queue, vandrexu_slot_host *host, uint32_t kind)
{
    vandrexu_slot_reply reply, none;
    serve(disk, queue);
    do
        WANT(vandrexu_slot_poll(host, &reply) == VANDREXU_DONE);
    while (reply.kind == VANDREXU_SLOT_PENDING);
    WANT(reply.kind == kind && reply.sct == 0 && reply.sc == 0);
    WANT(vandrexu_slot_poll(host, &none) == VANDREXU_NO_CALL && none.kind == VANDREXU_SLOT_PENDING);
    return reply;
}

/* The same of a host of the other kind. */
static void plain_over(vandrexu_disk *disk, uint16_t queue, vandrexu_host *host, uint32_t call, uint32_t kind)
{
    vandrexu_reply reply;
    serve(disk, queue);
    do
        WANT(vandrexu_host_poll(host, call, &reply) == VANDREXU_DONE);
    while (reply.kind == VANDREXU_REPLY_PENDING);
    WANT(reply.kind == kind);
}

static void two_hosts(vandrexu_disk *disk, vandrexu_slot_host *one, vandrexu_slot_host *two)
{
    WANT(vandrexu_slot_disk_new(&config, 2, FIRST, COUNT, disk) == VANDREXU_DONE);
    WANT(vandrexu_slot_host_new(disk, 1, 1, one) == VANDREXU_DONE);
    WANT(vandrexu_slot_host_new(disk, 2, 2, two) == VANDREXU_DONE);
}

/* A host of this number on this queue is made of neither kind, for this cause. */
static void refused(vandrexu_disk *disk, uint32_t number, uint16_t queue, uint32_t cause)
{
    vandrexu_slot_host host = VANDREXU_SLOT_HOST_NONE;
    vandrexu_host plain = VANDREXU_HOST_NONE;
    WANT(vandrexu_slot_host_new(disk, number, queue, &host) == cause && host.live == 0);
    WANT(vandrexu_host_new(disk, number, queue, &plain) == cause && plain.live == 0);
}

/* Handles of zeros are answered, and nothing else is written. */
static void nothing(void)
{
    vandrexu_disk disk = VANDREXU_DISK_NONE;
    vandrexu_slot_host host = VANDREXU_SLOT_HOST_NONE;
    vandrexu_slot_reply reply = {9, 9, 9, 9, 9, 9, {9, 9}};
    WANT(vandrexu_slot_host_new(&disk, 1, 1, &host) == VANDREXU_NO_HANDLE);
    WANT(vandrexu_slot_host_new(&disk, 0, 0, &host) == VANDREXU_NO_HANDLE);
    WANT(vandrexu_slot_claim(&host, 0) == VANDREXU_NO_HANDLE);
    WANT(vandrexu_slot_claim_any(&host) == VANDREXU_NO_HANDLE);
    WANT(vandrexu_slot_release(&host, 0) == VANDREXU_NO_HANDLE);
    WANT(vandrexu_slot_take_over(&host, 0, 2, 1) == VANDREXU_NO_HANDLE);
    WANT(vandrexu_slot_ask_holder(&host, 0) == VANDREXU_NO_HANDLE);
    WANT(vandrexu_slot_poll(&host, &reply) == VANDREXU_NO_HANDLE && reply.kind == 9 && reply.serial == 9);
    vandrexu_slot_host_free(&host);
    WANT(host.at == NULL && host.live == 0);
}

/* What a disk with slots is refused for: its area before its handle and its configuration. */
static void areas(void)
{
    static const uint64_t firsts[] = {FIRST, 65536, 65535, 0, UINT64_MAX, UINT64_MAX};
    static const uint32_t counts[] = {0, 1, 2, 65537, 1, UINT32_MAX};
    vandrexu_config bad = config;
    vandrexu_disk disk = VANDREXU_DISK_NONE;
    bad.cqs = 3;
    for (int i = 0; i < 6; i++) {
        WANT(vandrexu_slot_disk_new(&config, 1, firsts[i], counts[i], &disk) == VANDREXU_BAD_AREA);
        WANT(vandrexu_slot_disk_new(&bad, 1, firsts[i], counts[i], &disk) == VANDREXU_BAD_AREA && disk.live == 0);
    }
    WANT(vandrexu_slot_disk_new(&bad, 1, FIRST, COUNT, &disk) == VANDREXU_BAD_CQS && disk.live == 0);
    WANT(vandrexu_slot_disk_new(&config, 1, 65535, 1, &disk) == VANDREXU_DONE);
    vandrexu_disk_free(&disk);
    WANT(vandrexu_slot_disk_new(&config, 1, 0, 65536, &disk) == VANDREXU_DONE);
    WANT(vandrexu_slot_disk_new(&bad, 1, FIRST, COUNT, &disk) == VANDREXU_IN_USE);
    WANT(vandrexu_slot_disk_new(&config, 1, FIRST, 0, &disk) == VANDREXU_BAD_AREA && disk.live != 0);
    vandrexu_disk_free(&disk);
}

/* What a slot host is refused for, and of two causes the first; one that was freed is one of zeros. */
static void made(void)
{
    vandrexu_disk disk = VANDREXU_DISK_NONE, none = VANDREXU_DISK_NONE;
    vandrexu_slot_host one = VANDREXU_SLOT_HOST_NONE;
    WANT(vandrexu_disk_new(&config, 1, &disk) == VANDREXU_DONE);
    WANT(vandrexu_slot_host_new(&disk, 1, 1, &one) == VANDREXU_BAD_AREA);
    WANT(vandrexu_slot_host_new(&disk, 0, 1, &one) == VANDREXU_BAD_AREA);
    WANT(vandrexu_slot_host_new(&disk, 1, 0, &one) == VANDREXU_BAD_AREA && one.live == 0);
    vandrexu_disk_free(&disk);
    WANT(vandrexu_slot_disk_new(&config, 1, FIRST, COUNT, &disk) == VANDREXU_DONE);
    refused(&disk, 0, 1, VANDREXU_BAD_NUMBER);
    refused(&disk, 0, 3, VANDREXU_BAD_NUMBER);
    refused(&disk, 1, 0, VANDREXU_NO_QUEUE);
    refused(&disk, 1, 3, VANDREXU_NO_QUEUE);
    WANT(vandrexu_slot_host_new(&disk, 1, 1, &one) == VANDREXU_DONE);
    WANT(vandrexu_slot_host_new(&disk, 1, 1, &one) == VANDREXU_IN_USE);
    WANT(vandrexu_slot_host_new(&none, 0, 0, &one) == VANDREXU_IN_USE);
    refused(&disk, 1, 3, VANDREXU_NO_QUEUE);
    refused(&disk, 1, 1, VANDREXU_USED_NUMBER);
    refused(&disk, 1, 2, VANDREXU_USED_NUMBER);
    refused(&disk, 2, 1, VANDREXU_USED_QUEUE);
    refused(&disk, 2, 2, VANDREXU_NO_HOST);
    WANT(vandrexu_slot_claim(&one, 0) == VANDREXU_DONE);
    vandrexu_slot_host_free(&one);
    vandrexu_slot_host_free(&one);
    WANT(one.at == NULL && one.live == 0 && vandrexu_slot_claim(&one, 0) == VANDREXU_NO_HANDLE);
    vandrexu_disk_free(&disk);
    WANT(vandrexu_slot_disk_new(&config, 1, 65535, 1, &disk) == VANDREXU_DONE);
    WANT(vandrexu_slot_host_new(&disk, 7, 1, &one) == VANDREXU_DONE);
    vandrexu_disk_free(&disk);
    vandrexu_slot_host_free(&one);
}

/* Of hosts of one number the first is made, and of those of one completion queue, whichever kind they are of. */
static void second_hosts(void)
{
    /* The submission queues 1 and 3 have completion queue 1, and 2 and 4 have 2. */
    const vandrexu_config shared = {8, 1, 1, 0, 0, 4, 4, 4, 8, 2};
    vandrexu_disk disk = VANDREXU_DISK_NONE;
    vandrexu_slot_host one = VANDREXU_SLOT_HOST_NONE;
    vandrexu_host two = VANDREXU_HOST_NONE;
    uint32_t call;
    size_t left;
    WANT(vandrexu_slot_disk_new(&shared, 2, FIRST, COUNT, &disk) == VANDREXU_DONE);
    WANT(vandrexu_slot_host_new(&disk, 1, 1, &one) == VANDREXU_DONE);
    /* the second host of number 1, the third, and so on */
    for (uint16_t queue = 1; queue <= 4; queue++)
        refused(&disk, 1, queue, VANDREXU_USED_NUMBER);
    refused(&disk, 2, 1, VANDREXU_USED_QUEUE);
    refused(&disk, 2, 3, VANDREXU_USED_QUEUE);
    /* what was refused has used no pass, and no number */
    WANT(vandrexu_disk_hosts_left(&disk, &left) == VANDREXU_DONE && left == 1);
    WANT(vandrexu_host_new(&disk, 2, 4, &two) == VANDREXU_DONE);
    WANT(vandrexu_disk_hosts_left(&disk, &left) == VANDREXU_DONE && left == 0);
    WANT(vandrexu_host_write(&two, 0, zeros, 512, &call) == VANDREXU_DONE);
    WANT(vandrexu_slot_claim(&one, 0) == VANDREXU_DONE);
    over(&disk, 1, &one, VANDREXU_SLOT_HELD);
    plain_over(&disk, 4, &two, call, VANDREXU_REPLY_WRITTEN);
    for (int freed = 0; freed < 2; freed++) {
        for (uint16_t queue = 1; queue <= 4; queue++) {
            refused(&disk, 1, queue, VANDREXU_USED_NUMBER);
            refused(&disk, 2, queue, VANDREXU_USED_NUMBER);
            refused(&disk, 3, queue, VANDREXU_USED_QUEUE);
        }
        vandrexu_slot_host_free(&one);
        vandrexu_host_free(&two);
    }
    vandrexu_disk_free(&disk);
}

/* Two hosts claim one slot: who is served first has it, and the other one when it was released. */
static void claims(void)
{
    vandrexu_disk disk = VANDREXU_DISK_NONE;
    vandrexu_slot_host one = VANDREXU_SLOT_HOST_NONE, two = VANDREXU_SLOT_HOST_NONE;
    vandrexu_slot_reply reply;
    two_hosts(&disk, &one, &two);
    WANT(vandrexu_slot_poll(&one, &reply) == VANDREXU_NO_CALL && reply.kind == VANDREXU_SLOT_PENDING);
    WANT(vandrexu_slot_claim(&one, COUNT) == VANDREXU_NO_SLOT);
    WANT(vandrexu_slot_release(&one, COUNT) == VANDREXU_NO_SLOT);
    WANT(vandrexu_slot_take_over(&one, UINT32_MAX, 2, 1) == VANDREXU_NO_SLOT);
    WANT(vandrexu_slot_ask_holder(&one, COUNT) == VANDREXU_NO_SLOT);
    WANT(vandrexu_slot_release(&one, 1) == VANDREXU_NOT_HELD);
    WANT(vandrexu_slot_claim(&one, 1) == VANDREXU_DONE);
    WANT(vandrexu_slot_claim(&one, 1) == VANDREXU_IN_CALL);
    WANT(vandrexu_slot_release(&one, 1) == VANDREXU_IN_CALL);
    WANT(vandrexu_slot_take_over(&one, 1, 2, 1) == VANDREXU_IN_CALL);
    WANT(vandrexu_slot_ask_holder(&one, 1) == VANDREXU_IN_CALL);
    WANT(vandrexu_slot_poll(&one, &reply) == VANDREXU_DONE && reply.kind == VANDREXU_SLOT_PENDING);
    WANT(vandrexu_slot_claim(&two, 1) == VANDREXU_DONE);
    reply = over(&disk, 2, &two, VANDREXU_SLOT_HELD);
    WANT(reply.slot == 1);
    over(&disk, 1, &one, VANDREXU_SLOT_TAKEN);
    WANT(vandrexu_slot_release(&one, 1) == VANDREXU_NOT_HELD);
    WANT(vandrexu_slot_claim(&two, 1) == VANDREXU_HELD);
    /* who holds it, and who another one */
    WANT(vandrexu_slot_ask_holder(&one, 1) == VANDREXU_DONE);
    reply = over(&disk, 1, &one, VANDREXU_SLOT_OF_NAME);
    WANT(reply.host == 2 && reply.serial == 1);
    WANT(vandrexu_slot_ask_holder(&two, 0) == VANDREXU_DONE);
    over(&disk, 2, &two, VANDREXU_SLOT_FREE);
    /* a second slot beside it */
    WANT(vandrexu_slot_claim(&two, 3) == VANDREXU_DONE);
    reply = over(&disk, 2, &two, VANDREXU_SLOT_HELD);
    WANT(reply.slot == 3);
    WANT(vandrexu_slot_release(&two, 1) == VANDREXU_DONE);
    over(&disk, 2, &two, VANDREXU_SLOT_RELEASED);
    WANT(vandrexu_slot_release(&two, 1) == VANDREXU_NOT_HELD);
    WANT(vandrexu_slot_claim(&one, 1) == VANDREXU_DONE);
    reply = over(&disk, 1, &one, VANDREXU_SLOT_HELD);
    WANT(reply.slot == 1);
    WANT(vandrexu_slot_ask_holder(&two, 1) == VANDREXU_DONE);
    reply = over(&disk, 2, &two, VANDREXU_SLOT_OF_NAME);
    /* the first of its claims was of a slot that was taken */
    WANT(reply.host == 1 && reply.serial == 2);
    WANT(vandrexu_slot_release(&two, 3) == VANDREXU_DONE);
    over(&disk, 2, &two, VANDREXU_SLOT_RELEASED);
    vandrexu_slot_host_free(&one);
    vandrexu_slot_host_free(&two);
    vandrexu_disk_free(&disk);
}

/* Claims any slot, each one once it is served, and wants this of it. */
static vandrexu_slot_reply any(vandrexu_disk *disk, uint16_t queue, vandrexu_slot_host *host, uint32_t kind)
{
    vandrexu_slot_reply reply;
    WANT(vandrexu_slot_claim_any(host) == VANDREXU_DONE);
    WANT(vandrexu_slot_claim_any(host) == VANDREXU_IN_CALL);
    do {
        uint32_t answer = vandrexu_disk_serve(disk, queue);
        WANT(answer == VANDREXU_DONE || answer == VANDREXU_NO_ENTRY);
        WANT(vandrexu_slot_poll(host, &reply) == VANDREXU_DONE);
    } while (reply.kind == VANDREXU_SLOT_PENDING);
    WANT(reply.kind == kind);
    return reply;
}

/* Of any slots each host gets the first that nobody has, and none where all are somebody's. */
static void claims_any(void)
{
    vandrexu_disk disk = VANDREXU_DISK_NONE;
    vandrexu_slot_host one = VANDREXU_SLOT_HOST_NONE, two = VANDREXU_SLOT_HOST_NONE;
    vandrexu_slot_reply reply;
    two_hosts(&disk, &one, &two);
    for (uint32_t slot = 0; slot < COUNT; slot += 2) {
        reply = any(&disk, 1, &one, VANDREXU_SLOT_HELD);
        WANT(reply.slot == slot);
        reply = any(&disk, 2, &two, VANDREXU_SLOT_HELD);
        WANT(reply.slot == slot + 1);
    }
    any(&disk, 1, &one, VANDREXU_SLOT_TAKEN);
    WANT(vandrexu_slot_release(&two, 1) == VANDREXU_DONE);
    over(&disk, 2, &two, VANDREXU_SLOT_RELEASED);
    reply = any(&disk, 1, &one, VANDREXU_SLOT_HELD);
    WANT(reply.slot == 1 && vandrexu_slot_claim(&one, 1) == VANDREXU_HELD);
    vandrexu_slot_host_free(&two);
    WANT(vandrexu_slot_ask_holder(&one, 3) == VANDREXU_DONE);
    reply = over(&disk, 1, &one, VANDREXU_SLOT_OF_NAME);
    WANT(vandrexu_slot_take_over(&one, 3, reply.host, reply.serial) == VANDREXU_DONE);
    over(&disk, 1, &one, VANDREXU_SLOT_HELD);
    /* behind a takeover, too */
    WANT(vandrexu_slot_release(&one, 2) == VANDREXU_DONE);
    over(&disk, 1, &one, VANDREXU_SLOT_RELEASED);
    reply = any(&disk, 1, &one, VANDREXU_SLOT_HELD);
    WANT(reply.slot == 2);
    vandrexu_slot_host_free(&one);
    vandrexu_disk_free(&disk);
}

/* A host takes the slots over of one that is gone, and claims again. */
static void takeovers(void)
{
    vandrexu_disk disk = VANDREXU_DISK_NONE;
    vandrexu_slot_host one = VANDREXU_SLOT_HOST_NONE, two = VANDREXU_SLOT_HOST_NONE;
    vandrexu_slot_reply reply;
    two_hosts(&disk, &one, &two);
    WANT(vandrexu_slot_claim(&one, 0) == VANDREXU_DONE);
    over(&disk, 1, &one, VANDREXU_SLOT_HELD);
    WANT(vandrexu_slot_claim(&one, 2) == VANDREXU_DONE);
    over(&disk, 1, &one, VANDREXU_SLOT_HELD);
    WANT(vandrexu_slot_claim(&two, 3) == VANDREXU_DONE);
    over(&disk, 2, &two, VANDREXU_SLOT_HELD);
    vandrexu_slot_host_free(&one);
    WANT(vandrexu_slot_ask_holder(&two, 0) == VANDREXU_DONE);
    reply = over(&disk, 2, &two, VANDREXU_SLOT_OF_NAME);
    WANT(reply.host == 1 && reply.serial == 1);
    WANT(vandrexu_slot_take_over(&two, 0, 0, 1) == VANDREXU_BAD_NAME);
    WANT(vandrexu_slot_take_over(&two, 0, 1, 0) == VANDREXU_BAD_NAME);
    WANT(vandrexu_slot_take_over(&two, 0, 2, 1) == VANDREXU_BAD_NAME);
    WANT(vandrexu_slot_take_over(&two, 3, 1, 1) == VANDREXU_HELD);
    WANT(vandrexu_slot_take_over(&two, 0, reply.host, reply.serial) == VANDREXU_DONE);
    reply = over(&disk, 2, &two, VANDREXU_SLOT_HELD);
    WANT(reply.slot == 0);
    WANT(vandrexu_slot_claim(&two, 1) == VANDREXU_DONE);
    reply = over(&disk, 2, &two, VANDREXU_SLOT_HELD);
    WANT(reply.slot == 1);
    WANT(vandrexu_slot_claim(&two, 0) == VANDREXU_HELD);
    /* another name than the one it has */
    WANT(vandrexu_slot_take_over(&two, 2, 1, 1) == VANDREXU_DONE);
    over(&disk, 2, &two, VANDREXU_SLOT_TAKEN);
    WANT(vandrexu_slot_take_over(&two, 2, 1, 2) == VANDREXU_DONE);
    reply = over(&disk, 2, &two, VANDREXU_SLOT_HELD);
    WANT(reply.slot == 2);
    WANT(vandrexu_slot_ask_holder(&two, 2) == VANDREXU_DONE);
    reply = over(&disk, 2, &two, VANDREXU_SLOT_OF_NAME);
    WANT(reply.host == 2 && reply.serial == 5);
    /* what was taken over is released, and what was claimed before and behind */
    for (uint32_t slot = 0; slot < COUNT; slot++) {
        WANT(vandrexu_slot_release(&two, slot) == VANDREXU_DONE);
        over(&disk, 2, &two, VANDREXU_SLOT_RELEASED);
        WANT(vandrexu_slot_ask_holder(&two, slot) == VANDREXU_DONE);
        over(&disk, 2, &two, VANDREXU_SLOT_FREE);
    }
    vandrexu_slot_host_free(&two);
    vandrexu_disk_free(&disk);
}

/* Each call that writes so many blocks, one or two, is answered so. */
static void writes(vandrexu_host *host, uint64_t lba, uint32_t blocks, uint32_t answer)
{
    static const uint8_t data[1024];
    uint32_t call = 77;
    WANT(vandrexu_host_write(host, lba, data, 512 * blocks, &call) == answer);
    WANT(vandrexu_host_write_zeroes(host, lba, blocks, &call) == answer);
    WANT(vandrexu_host_compare_and_write(host, lba, data, 512 * blocks, data, 512 * blocks, &call) == answer);
    WANT(call == 77);
}

/* A disk with a slot host, which holds the first slot and the last one, and a host of the other kind. */
static void beside_slots(vandrexu_disk *disk, vandrexu_slot_host *one, vandrexu_host *two)
{
    WANT(vandrexu_slot_disk_new(&config, 2, FIRST, COUNT, disk) == VANDREXU_DONE);
    WANT(vandrexu_slot_host_new(disk, 1, 1, one) == VANDREXU_DONE);
    WANT(vandrexu_host_new(disk, 2, 2, two) == VANDREXU_DONE);
    WANT(vandrexu_slot_claim(one, 0) == VANDREXU_DONE);
    over(disk, 1, one, VANDREXU_SLOT_HELD);
    WANT(vandrexu_slot_claim(one, COUNT - 1) == VANDREXU_DONE);
    over(disk, 1, one, VANDREXU_SLOT_HELD);
}

/* A plain host writes no slot, held or free, but the block on each side of them; who holds slots has them still. */
static void plain_writes(void)
{
    vandrexu_disk disk = VANDREXU_DISK_NONE;
    vandrexu_slot_host one = VANDREXU_SLOT_HOST_NONE;
    vandrexu_host two = VANDREXU_HOST_NONE;
    vandrexu_slot_reply reply;
    vandrexu_reply none;
    uint32_t call;
    uint8_t data[4096];
    memset(data, 0xEE, sizeof data);
    beside_slots(&disk, &one, &two);
    for (uint64_t lba = FIRST; lba < FIRST + COUNT; lba++)
        writes(&two, lba, 1, VANDREXU_CALL_SLOT_AREA);
    /* of two blocks one is the first slot, or the last one */
    writes(&two, FIRST - 1, 2, VANDREXU_CALL_SLOT_AREA);
    writes(&two, FIRST + COUNT - 1, 2, VANDREXU_CALL_SLOT_AREA);
    /* from block 0 to the first slot, from the last slot to block 7, and all blocks */
    WANT(vandrexu_host_write(&two, 0, data, 1536, &call) == VANDREXU_CALL_SLOT_AREA);
    WANT(vandrexu_host_write(&two, 5, data, 1536, &call) == VANDREXU_CALL_SLOT_AREA);
    WANT(vandrexu_host_write(&two, 0, data, sizeof data, &call) == VANDREXU_CALL_SLOT_AREA);
    WANT(vandrexu_host_write_zeroes(&two, 0, 256, &call) == VANDREXU_CALL_SLOT_AREA);
    /* nothing was published */
    WANT(vandrexu_host_poll(&two, 0, &none) == VANDREXU_NO_CALL);
    WANT(vandrexu_disk_serve(&disk, 2) == VANDREXU_NO_ENTRY);
    for (uint64_t lba = FIRST - 1; lba <= FIRST + COUNT; lba += COUNT + 1) {
        WANT(vandrexu_host_write(&two, lba, data, 512, &call) == VANDREXU_DONE);
        plain_over(&disk, 2, &two, call, VANDREXU_REPLY_WRITTEN);
        WANT(vandrexu_host_compare_and_write(&two, lba, data, 512, zeros, 512, &call) == VANDREXU_DONE);
        plain_over(&disk, 2, &two, call, VANDREXU_REPLY_SWAPPED);
        WANT(vandrexu_host_write_zeroes(&two, lba, 1, &call) == VANDREXU_DONE);
        plain_over(&disk, 2, &two, call, VANDREXU_REPLY_WRITTEN);
    }
    /* and up to the slots: the blocks 0 and 1, 6 and 7 */
    for (uint64_t lba = 0; lba <= 6; lba += 6) {
        WANT(vandrexu_host_write(&two, lba, data, 1024, &call) == VANDREXU_DONE);
        plain_over(&disk, 2, &two, call, VANDREXU_REPLY_WRITTEN);
    }
    for (uint32_t slot = 0; slot < COUNT; slot += COUNT - 1) {
        WANT(vandrexu_slot_ask_holder(&one, slot) == VANDREXU_DONE);
        reply = over(&disk, 1, &one, VANDREXU_SLOT_OF_NAME);
        WANT(reply.host == 1 && reply.serial == (slot == 0 ? 1u : 2u));
        WANT(vandrexu_slot_claim(&one, slot) == VANDREXU_HELD);
        WANT(vandrexu_slot_release(&one, slot) == VANDREXU_DONE);
        over(&disk, 1, &one, VANDREXU_SLOT_RELEASED);
        WANT(vandrexu_slot_ask_holder(&one, slot) == VANDREXU_DONE);
        over(&disk, 1, &one, VANDREXU_SLOT_FREE);
        writes(&two, FIRST + slot, 1, VANDREXU_CALL_SLOT_AREA);
    }
    vandrexu_slot_host_free(&one);
    vandrexu_host_free(&two);
    vandrexu_disk_free(&disk);
}

/* A plain host reads slots and compares them. What its call is refused for before a slot, and what behind one. */
static void plain_answers(void)
{
    static const uint8_t data[1536], name[512] = {1, 0, 0, 0, 0, 0, 0, 0, 1};
    vandrexu_config narrow = config;
    vandrexu_disk disk = VANDREXU_DISK_NONE;
    vandrexu_slot_host one = VANDREXU_SLOT_HOST_NONE;
    vandrexu_host two = VANDREXU_HOST_NONE;
    uint8_t got[512 * COUNT];
    size_t needed;
    uint32_t call;
    beside_slots(&disk, &one, &two);
    WANT(vandrexu_host_compare(&two, FIRST, name, sizeof name, &call) == VANDREXU_DONE);
    plain_over(&disk, 2, &two, call, VANDREXU_REPLY_EQUAL);
    WANT(vandrexu_host_read(&two, FIRST, COUNT, &call) == VANDREXU_DONE);
    writes(&two, FIRST, 1, VANDREXU_CALL_SLOT_AREA);
    plain_over(&disk, 2, &two, call, VANDREXU_REPLY_READ);
    WANT(vandrexu_host_data(&two, got, sizeof got, &needed) == VANDREXU_DONE && needed == sizeof got);
    WANT(memcmp(got, name, 512) == 0 && memcmp(got + 512, zeros, 512) == 0 && memcmp(got + 1024, zeros, 512) == 0);
    WANT(got[1536] == 1 && got[1536 + 8] == 2);
    /* the name that is there swaps nothing */
    WANT(vandrexu_host_compare_and_write(&two, FIRST, name, 512, zeros, 512, &call) == VANDREXU_CALL_SLOT_AREA);
    WANT(vandrexu_host_write(&two, FIRST, data, 0, &call) == VANDREXU_CALL_LENGTH);
    WANT(vandrexu_host_write(&two, FIRST, data, 511, &call) == VANDREXU_CALL_LENGTH);
    WANT(vandrexu_host_write_zeroes(&two, FIRST, 0, &call) == VANDREXU_CALL_LENGTH);
    WANT(vandrexu_host_write_zeroes(&two, FIRST, 257, &call) == VANDREXU_CALL_TOO_LONG);
    WANT(vandrexu_host_compare_and_write(&two, FIRST, data, 512, data, 1024, &call) == VANDREXU_CALL_LENGTH);
    WANT(vandrexu_host_compare_and_write(&two, FIRST, data, 1536, data, 1536, &call) == VANDREXU_CALL_TOO_LONG);
    vandrexu_slot_host_free(&one);
    vandrexu_host_free(&two);
    vandrexu_disk_free(&disk);
    /* a queue of two entries takes one at a time, and so no pair */
    narrow.sq_size = 2;
    WANT(vandrexu_slot_disk_new(&narrow, 1, FIRST, COUNT, &disk) == VANDREXU_DONE);
    WANT(vandrexu_host_new(&disk, 1, 1, &two) == VANDREXU_DONE);
    WANT(vandrexu_host_compare_and_write(&two, FIRST, data, 512, data, 512, &call) == VANDREXU_CALL_SLOT_AREA);
    WANT(vandrexu_host_compare_and_write(&two, FIRST - 1, data, 512, data, 512, &call) == VANDREXU_CALL_NO_ROOM);
    vandrexu_host_free(&two);
    vandrexu_disk_free(&disk);
}

/* Host 1 publishes its release, and is freed before that is served. It isn't made again: its claim would have the same
 * name, and the release would end it. Host 2 takes the slot over before the release takes effect, or too late. Then
 * host 3 claims it. One of the two believes that it has the slot, and the block says so, too. */
static void made_again(int too_late)
{
    vandrexu_disk disk = VANDREXU_DISK_NONE;
    vandrexu_slot_host one = VANDREXU_SLOT_HOST_NONE, two = VANDREXU_SLOT_HOST_NONE, three = VANDREXU_SLOT_HOST_NONE;
    vandrexu_slot_host *winner = too_late ? &three : &two, *loser = too_late ? &two : &three;
    vandrexu_slot_reply reply;
    WANT(vandrexu_slot_disk_new(&wide, 3, FIRST, COUNT, &disk) == VANDREXU_DONE);
    WANT(vandrexu_slot_host_new(&disk, 1, 1, &one) == VANDREXU_DONE);
    WANT(vandrexu_slot_host_new(&disk, 2, 2, &two) == VANDREXU_DONE);
    WANT(vandrexu_slot_claim(&one, 0) == VANDREXU_DONE);
    over(&disk, 1, &one, VANDREXU_SLOT_HELD);
    WANT(vandrexu_slot_release(&one, 0) == VANDREXU_DONE);
    vandrexu_slot_host_free(&one);
    for (uint16_t queue = 1; queue <= 3; queue++)
        refused(&disk, 1, queue, VANDREXU_USED_NUMBER);
    refused(&disk, 3, 1, VANDREXU_USED_QUEUE);
    WANT(vandrexu_slot_ask_holder(&two, 0) == VANDREXU_DONE);
    reply = over(&disk, 2, &two, VANDREXU_SLOT_OF_NAME);
    WANT(reply.host == 1 && reply.serial == 1);
    WANT(vandrexu_slot_take_over(&two, 0, reply.host, reply.serial) == VANDREXU_DONE);
    if (too_late)
        serve(&disk, 1);
    over(&disk, 2, &two, too_late ? VANDREXU_SLOT_TAKEN : VANDREXU_SLOT_HELD);
    if (!too_late)
        serve(&disk, 1);
    refused(&disk, 1, 3, VANDREXU_USED_NUMBER);
    refused(&disk, 3, 1, VANDREXU_USED_QUEUE);
    WANT(vandrexu_slot_host_new(&disk, 3, 3, &three) == VANDREXU_DONE);
    WANT(vandrexu_slot_claim(&three, 0) == VANDREXU_DONE);
    over(&disk, 3, &three, too_late ? VANDREXU_SLOT_HELD : VANDREXU_SLOT_TAKEN);
    WANT(vandrexu_slot_claim(winner, 0) == VANDREXU_HELD);
    WANT(vandrexu_slot_release(loser, 0) == VANDREXU_NOT_HELD);
    WANT(vandrexu_slot_ask_holder(&two, 0) == VANDREXU_DONE);
    reply = over(&disk, 2, &two, VANDREXU_SLOT_OF_NAME);
    WANT(reply.host == (too_late ? 3u : 2u) && reply.serial == 1);
    vandrexu_slot_host_free(&two);
    vandrexu_slot_host_free(&three);
    vandrexu_disk_free(&disk);
}

/* A slot that there is no block for: LBA Out of Range. */
static void out_of_range(void)
{
    vandrexu_disk disk = VANDREXU_DISK_NONE;
    vandrexu_slot_host one = VANDREXU_SLOT_HOST_NONE;
    vandrexu_slot_reply reply;
    WANT(vandrexu_slot_disk_new(&config, 1, FIRST, 100, &disk) == VANDREXU_DONE);
    WANT(vandrexu_slot_host_new(&disk, 1, 1, &one) == VANDREXU_DONE);
    WANT(vandrexu_slot_claim(&one, 99) == VANDREXU_DONE);
    serve(&disk, 1);
    do
        WANT(vandrexu_slot_poll(&one, &reply) == VANDREXU_DONE || reply.kind == VANDREXU_SLOT_FAILED);
    while (reply.kind == VANDREXU_SLOT_PENDING);
    WANT(reply.kind == VANDREXU_SLOT_FAILED && reply.sct == 0 && reply.sc == 0x80);
    WANT(vandrexu_slot_release(&one, 99) == VANDREXU_NOT_HELD);
    WANT(vandrexu_slot_ask_holder(&one, 99) == VANDREXU_DONE);
    serve(&disk, 1);
    WANT(vandrexu_slot_poll(&one, &reply) == VANDREXU_CALL_FAILED);
    WANT(reply.kind == VANDREXU_SLOT_FAILED && reply.sct == 0 && reply.sc == 0x80);
    WANT(vandrexu_slot_poll(&one, &reply) == VANDREXU_NO_CALL);
    vandrexu_slot_host_free(&one);
    vandrexu_disk_free(&disk);
}

/* No handle is left behind, whatever it has. */
static void many(void)
{
    for (int i = 0; i < 20000; i++) {
        vandrexu_disk disk = VANDREXU_DISK_NONE;
        vandrexu_slot_host host = VANDREXU_SLOT_HOST_NONE;
        WANT(vandrexu_slot_disk_new(&config, 1, FIRST, COUNT, &disk) == VANDREXU_DONE);
        WANT(vandrexu_slot_host_new(&disk, 1, 1, &host) == VANDREXU_DONE);
        if (i % 2 == 0)
            WANT(vandrexu_slot_claim(&host, 0) == VANDREXU_DONE);
        if (i % 4 == 0)
            over(&disk, 1, &host, VANDREXU_SLOT_HELD);
        if (i % 3 == 0)
            vandrexu_disk_free(&disk);
        vandrexu_slot_host_free(&host);
        vandrexu_disk_free(&disk);
    }
}

static atomic_int running, holders;

/* What became of the host's call, which another thread serves. */
static uint32_t told(vandrexu_slot_host *host)
{
    vandrexu_slot_reply reply;
    for (;;) {
        uint32_t answer = vandrexu_slot_poll(host, &reply);
        WANT(answer == VANDREXU_DONE || answer == VANDREXU_CALL_BUSY);
        if (reply.kind != VANDREXU_SLOT_PENDING)
            return reply.kind;
        sched_yield();
    }
}

/* A thread has one host, which claims slot 0 so often; no other one has it meanwhile. */
static void *locks(void *at)
{
    vandrexu_slot_host *host = at;
    for (int had = 0; had < 100;) {
        uint32_t answer;
        while ((answer = vandrexu_slot_claim(host, 0)) == VANDREXU_CALL_BUSY)
            ;
        WANT(answer == VANDREXU_DONE);
        if (told(host) != VANDREXU_SLOT_HELD)
            continue;
        had++;
        WANT(atomic_fetch_add(&holders, 1) == 0);
        atomic_fetch_sub(&holders, 1);
        while ((answer = vandrexu_slot_release(host, 0)) == VANDREXU_CALL_BUSY)
            ;
        WANT(answer == VANDREXU_DONE && told(host) == VANDREXU_SLOT_RELEASED);
    }
    atomic_fetch_sub(&running, 1);
    return NULL;
}

/* Two hosts and the disk on a thread each. */
static void threads(void)
{
    vandrexu_disk disk = VANDREXU_DISK_NONE;
    vandrexu_slot_host hosts[2] = {VANDREXU_SLOT_HOST_NONE, VANDREXU_SLOT_HOST_NONE};
    pthread_t ids[2];
    two_hosts(&disk, &hosts[0], &hosts[1]);
    atomic_store(&running, 2);
    for (int i = 0; i < 2; i++)
        WANT(pthread_create(&ids[i], NULL, locks, &hosts[i]) == 0);
    while (atomic_load(&running) > 0)
        for (uint16_t queue = 1; queue <= 2; queue++) {
            uint32_t answer = vandrexu_disk_serve(&disk, queue);
            WANT(answer == VANDREXU_DONE || answer == VANDREXU_NO_ENTRY || answer == VANDREXU_BUSY);
            if (answer != VANDREXU_DONE)
                sched_yield();
        }
    for (int i = 0; i < 2; i++)
        WANT(pthread_join(ids[i], NULL) == 0);
    for (int i = 0; i < 2; i++)
        vandrexu_slot_host_free(&hosts[i]);
    vandrexu_disk_free(&disk);
}

int main(void)
{
    nothing();
    areas();
    made();
    second_hosts();
    claims();
    claims_any();
    takeovers();
    plain_writes();
    plain_answers();
    made_again(0);
    made_again(1);
    out_of_range();
    many();
    threads();
    puts("slots: as they should be");
    return 0;
}
#else
#include "refused_runs.h"

static void poll(vandrexu_disk *disk, uint16_t queue, vandrexu_slot_host *host, uint32_t kind)
{
    vandrexu_slot_reply reply;
    TRY(vandrexu_disk_serve(disk, queue));
    do {
        uint32_t answer = vandrexu_slot_poll(host, &reply);
        if (is_refusal(answer))
            WANT(reply.kind == VANDREXU_SLOT_PENDING);
        else
            WANT(answer == VANDREXU_DONE);
    } while (reply.kind == VANDREXU_SLOT_PENDING);
    WANT(reply.kind == kind);
}

static void run_refused(long at)
{
    vandrexu_disk disk = VANDREXU_DISK_NONE;
    vandrexu_slot_host one = VANDREXU_SLOT_HOST_NONE, two = VANDREXU_SLOT_HOST_NONE;
    vandrexu_host plain = VANDREXU_HOST_NONE;
    uint32_t answer, call;
    refused_at = at;
    allocations = blocks = 0;
    TRY(vandrexu_slot_disk_new(&wide, 3, FIRST, COUNT, &disk));
    TRY(vandrexu_slot_host_new(&disk, 1, 1, &one));
    /* no pass was lost; a number and a queue whose host was refused memory aren't used */
    TRY(vandrexu_slot_host_new(&disk, 2, 2, &two));
    TRY(vandrexu_host_new(&disk, 3, 3, &plain));
    while (is_refusal(answer = vandrexu_host_write(&plain, FIRST, zeros, 512, &call)))
        ;
    WANT(answer == VANDREXU_CALL_SLOT_AREA);
    TRY(vandrexu_slot_claim_any(&one));
    poll(&disk, 1, &one, VANDREXU_SLOT_HELD);
    TRY(vandrexu_slot_claim(&one, 1));
    poll(&disk, 1, &one, VANDREXU_SLOT_HELD);
    /* a release that was refused left the host its slot */
    TRY(vandrexu_slot_release(&one, 1));
    poll(&disk, 1, &one, VANDREXU_SLOT_RELEASED);
    TRY(vandrexu_slot_ask_holder(&two, 0));
    poll(&disk, 2, &two, VANDREXU_SLOT_OF_NAME);
    TRY(vandrexu_slot_take_over(&two, 0, 1, 1));
    poll(&disk, 2, &two, VANDREXU_SLOT_HELD);
    TRY(vandrexu_slot_release(&two, 0));
    poll(&disk, 2, &two, VANDREXU_SLOT_RELEASED);
    vandrexu_disk_free(&disk);
    vandrexu_slot_host_free(&one);
    vandrexu_slot_host_free(&two);
    vandrexu_host_free(&plain);
    WANT(blocks == 0);
}

int main(void)
{
    return refuse_each(run_refused, "slots", 10);
}
#endif
