/* Calls each function of vandrexu_hosts.h, with each of its answers. Exits with 1 at the first that isn't as it should be.
 * What is answered to a host of a disk with slots is in slots.c.
 *
 * Compiled with REFUSES it has a heap of its own in place of heap.c, refuses each allocation of a run in turn, and wants
 * that to be told and nothing to be lost. */
#include "vandrexu_hosts.h"

#include <pthread.h>
#include <stdatomic.h>
#include <stdio.h>
#include <stdlib.h>
#include <string.h>

#define WANT(what)                                                                                                     \
    do {                                                                                                               \
        if (!(what)) {                                                                                                 \
            fprintf(stderr, "hosts.c:%d: %s\n", __LINE__, #what);                                                      \
            exit(1);                                                                                                   \
        }                                                                                                              \
    } while (0)

/* Two pairs, each with a completion queue of its own, and pairs of two blocks at most. */
static const vandrexu_config config = {8, 1, 1, 0, 0, 2, 4, 4, 8, 2};

static const uint8_t zeros[512];

static void fill(uint8_t *block, uint8_t with)
{
    memset(block, with, 512);
}

#ifndef REFUSES
/* Polls until the call is over, and wants this of it. */
static void over(vandrexu_host *host, uint32_t call, uint32_t kind)
{
    vandrexu_reply reply;
    do
        WANT(vandrexu_host_poll(host, call, &reply) == VANDREXU_DONE);
    while (reply.kind == VANDREXU_REPLY_PENDING);
    WANT(reply.kind == kind && reply.sct == 0 && reply.sc == 0);
    WANT(vandrexu_host_poll(host, call, &reply) == VANDREXU_NO_CALL && reply.kind == VANDREXU_REPLY_PENDING);
}

/* Wants the host to wait for so many calls that have a number, and so many that were given up. */
static void waits(vandrexu_host *host, size_t calls, size_t given_up)
{
    size_t numbered = 77, others = 77;
    WANT(vandrexu_host_waiting(host, &numbered, &others) == VANDREXU_DONE);
    WANT(numbered == calls && others == given_up);
}

static void serve(vandrexu_disk *disk, uint16_t queue)
{
    WANT(vandrexu_disk_serve(disk, queue) == VANDREXU_DONE);
}

/* Handles of zeros are answered, and nothing else is written. */
static void nothing(void)
{
    vandrexu_disk disk = VANDREXU_DISK_NONE;
    vandrexu_host host = VANDREXU_HOST_NONE;
    vandrexu_reply reply = {9, 9, 9, {9, 9}};
    uint8_t out[1] = {9};
    size_t needed = 7, calls = 7, given_up = 7;
    uint32_t call = 7;
    WANT(vandrexu_disk_hosts_left(&disk, &needed) == VANDREXU_NO_HANDLE && needed == 7);
    WANT(vandrexu_disk_serve(&disk, 1) == VANDREXU_NO_HANDLE);
    WANT(vandrexu_disk_fetch(&disk, 1) == VANDREXU_NO_HANDLE);
    WANT(vandrexu_disk_task(&disk) == VANDREXU_NO_HANDLE);
    WANT(vandrexu_disk_forget(&disk, 1) == VANDREXU_NO_HANDLE);
    WANT(vandrexu_host_new(&disk, 1, 1, &host) == VANDREXU_NO_HANDLE);
    WANT(vandrexu_host_new(&disk, 0, 0, &host) == VANDREXU_NO_HANDLE);
    WANT(vandrexu_host_read(&host, 0, 1, &call) == VANDREXU_NO_HANDLE);
    WANT(vandrexu_host_write(&host, 0, zeros, 512, &call) == VANDREXU_NO_HANDLE);
    WANT(vandrexu_host_write_zeroes(&host, 0, 1, &call) == VANDREXU_NO_HANDLE);
    WANT(vandrexu_host_compare(&host, 0, zeros, 512, &call) == VANDREXU_NO_HANDLE);
    WANT(vandrexu_host_compare_and_write(&host, 0, zeros, 512, zeros, 512, &call) == VANDREXU_NO_HANDLE);
    WANT(vandrexu_host_poll(&host, 0, &reply) == VANDREXU_NO_HANDLE && reply.kind == 9 && reply.sc == 9);
    WANT(vandrexu_host_give_up(&host, 0) == VANDREXU_NO_HANDLE);
    WANT(vandrexu_host_waiting(&host, &calls, &given_up) == VANDREXU_NO_HANDLE);
    WANT(vandrexu_host_data(&host, out, 1, &needed) == VANDREXU_NO_HANDLE && out[0] == 9);
    WANT(call == 7 && calls == 7 && given_up == 7);
    vandrexu_disk_free(&disk);
    vandrexu_host_free(&host);
    WANT(disk.at == NULL && disk.live == 0 && host.at == NULL && host.live == 0);
}

/* How many hosts can be made of the disk yet. */
static size_t left(vandrexu_disk *disk)
{
    size_t count = 77;
    WANT(vandrexu_disk_hosts_left(disk, &count) == VANDREXU_DONE);
    return count;
}

/* What a disk and its hosts are refused for; of two causes the first. */
static void made(void)
{
    vandrexu_config bad = config;
    vandrexu_disk disk = VANDREXU_DISK_NONE, none = VANDREXU_DISK_NONE;
    vandrexu_host one = VANDREXU_HOST_NONE, two = VANDREXU_HOST_NONE;
    bad.cqs = 3;
    WANT(vandrexu_disk_new(&bad, 1, &disk) == VANDREXU_BAD_CQS && disk.live == 0);
    WANT(vandrexu_disk_new(&config, 1, &disk) == VANDREXU_DONE);
    WANT(vandrexu_disk_new(&config, 1, &disk) == VANDREXU_IN_USE);
    WANT(vandrexu_host_new(&disk, 0, 1, &one) == VANDREXU_BAD_NUMBER);
    WANT(vandrexu_host_new(&disk, 0, 3, &one) == VANDREXU_BAD_NUMBER);
    WANT(vandrexu_host_new(&disk, 1, 0, &one) == VANDREXU_NO_QUEUE);
    WANT(vandrexu_host_new(&disk, 1, 3, &one) == VANDREXU_NO_QUEUE && one.live == 0);
    WANT(left(&disk) == 1);
    WANT(vandrexu_host_new(&disk, 1, 1, &one) == VANDREXU_DONE);
    WANT(left(&disk) == 0);
    WANT(vandrexu_host_new(&disk, 1, 1, &one) == VANDREXU_IN_USE);
    WANT(vandrexu_host_new(&none, 0, 0, &one) == VANDREXU_IN_USE);
    WANT(vandrexu_host_new(&disk, 1, 3, &two) == VANDREXU_NO_QUEUE);
    WANT(vandrexu_host_new(&disk, 1, 1, &two) == VANDREXU_USED_NUMBER);
    WANT(vandrexu_host_new(&disk, 1, 2, &two) == VANDREXU_USED_NUMBER);
    WANT(vandrexu_host_new(&disk, 2, 1, &two) == VANDREXU_USED_QUEUE);
    WANT(vandrexu_host_new(&disk, 2, 2, &two) == VANDREXU_NO_HOST && two.live == 0);
    vandrexu_host_free(&one);
    vandrexu_host_free(&one);
    WANT(left(&disk) == 0);
    vandrexu_disk_free(&disk);
    vandrexu_disk_free(&disk);
    WANT(vandrexu_disk_new(&config, 3, &disk) == VANDREXU_DONE && left(&disk) == 3);
    vandrexu_disk_free(&disk);
    WANT(vandrexu_disk_new(&config, 0, &disk) == VANDREXU_DONE);
    WANT(vandrexu_host_new(&disk, 1, 1, &one) == VANDREXU_NO_HOST);
    vandrexu_disk_free(&disk);
    WANT(disk.at == NULL && disk.live == 0 && one.at == NULL && one.live == 0);
}

/* A number and a completion queue are one host's, also once it was freed. */
static void used(void)
{
    /* The submission queues 1 and 3 have completion queue 1, and 2 and 4 have 2. */
    const vandrexu_config shared = {8, 1, 1, 0, 0, 4, 4, 4, 8, 2};
    vandrexu_disk disk = VANDREXU_DISK_NONE;
    vandrexu_host one = VANDREXU_HOST_NONE, two = VANDREXU_HOST_NONE;
    uint32_t call;
    WANT(vandrexu_disk_new(&shared, 2, &disk) == VANDREXU_DONE);
    WANT(vandrexu_host_new(&disk, UINT32_MAX, 3, &one) == VANDREXU_DONE);
    WANT(vandrexu_host_write(&one, 0, zeros, 512, &call) == VANDREXU_DONE);
    serve(&disk, 3);
    over(&one, call, VANDREXU_REPLY_WRITTEN);
    for (int freed = 0; freed < 2; freed++) {
        for (uint16_t queue = 1; queue <= 4; queue++)
            WANT(vandrexu_host_new(&disk, UINT32_MAX, queue, &two) == VANDREXU_USED_NUMBER);
        WANT(vandrexu_host_new(&disk, 1, 1, &two) == VANDREXU_USED_QUEUE);
        WANT(vandrexu_host_new(&disk, 1, 3, &two) == VANDREXU_USED_QUEUE && two.live == 0);
        vandrexu_host_free(&one);
    }
    /* what was refused has used no pass, and no number */
    WANT(vandrexu_host_new(&disk, 1, 4, &two) == VANDREXU_DONE);
    WANT(vandrexu_host_write(&two, 0, zeros, 512, &call) == VANDREXU_DONE);
    serve(&disk, 4);
    over(&two, call, VANDREXU_REPLY_WRITTEN);
    WANT(vandrexu_host_new(&disk, 2, 2, &one) == VANDREXU_USED_QUEUE && one.live == 0);
    vandrexu_host_free(&two);
    vandrexu_disk_free(&disk);
}

/* Two hosts swap one block; the second one served finds that of the first. */
static void swaps(void)
{
    vandrexu_disk disk = VANDREXU_DISK_NONE;
    vandrexu_host one = VANDREXU_HOST_NONE, two = VANDREXU_HOST_NONE;
    vandrexu_reply reply;
    uint8_t a[1024], b[512], got[1024];
    size_t needed = 7;
    uint32_t call, other;
    memset(a, 0xA1, sizeof a);
    fill(b, 0xB2);
    WANT(vandrexu_disk_new(&config, 2, &disk) == VANDREXU_DONE);
    WANT(vandrexu_host_new(&disk, 1, 1, &one) == VANDREXU_DONE);
    WANT(vandrexu_host_new(&disk, 2, 2, &two) == VANDREXU_DONE);
    WANT(vandrexu_host_poll(&one, 0, &reply) == VANDREXU_NO_CALL && reply.kind == VANDREXU_REPLY_PENDING);
    WANT(vandrexu_host_data(&one, got, 0, &needed) == VANDREXU_DONE && needed == 0);
    WANT(vandrexu_disk_serve(&disk, 1) == VANDREXU_NO_ENTRY);
    WANT(vandrexu_disk_serve(&disk, 3) == VANDREXU_NO_QUEUE);
    WANT(vandrexu_host_compare_and_write(&one, 3, zeros, 512, a, 512, &call) == VANDREXU_DONE);
    WANT(vandrexu_host_compare_and_write(&two, 3, zeros, 512, b, 512, &other) == VANDREXU_DONE);
    WANT(vandrexu_host_poll(&one, call, &reply) == VANDREXU_DONE && reply.kind == VANDREXU_REPLY_PENDING);
    serve(&disk, 2);
    serve(&disk, 1);
    over(&one, call, VANDREXU_REPLY_DIFFERS);
    over(&two, other, VANDREXU_REPLY_SWAPPED);
    WANT(vandrexu_host_write(&one, 4, a, 1024, &call) == VANDREXU_DONE);
    serve(&disk, 1);
    over(&one, call, VANDREXU_REPLY_WRITTEN);
    WANT(vandrexu_host_compare(&two, 4, a, 1024, &call) == VANDREXU_DONE);
    serve(&disk, 2);
    over(&two, call, VANDREXU_REPLY_EQUAL);
    WANT(vandrexu_host_compare(&two, 3, a, 512, &call) == VANDREXU_DONE);
    serve(&disk, 2);
    over(&two, call, VANDREXU_REPLY_DIFFERS);
    WANT(vandrexu_host_read(&two, 3, 2, &call) == VANDREXU_DONE);
    serve(&disk, 2);
    over(&two, call, VANDREXU_REPLY_READ);
    memset(got, 0, sizeof got);
    WANT(vandrexu_host_data(&two, got, 1023, &needed) == VANDREXU_TOO_SMALL && needed == 1024 && got[0] == 0);
    WANT(vandrexu_host_data(&two, got, 1024, &needed) == VANDREXU_DONE && needed == 1024);
    WANT(memcmp(got, b, 512) == 0 && memcmp(got + 512, a, 512) == 0);
    /* zeros on block 4 alone; block 3 stays as it is, and so does block 5 */
    WANT(vandrexu_host_write_zeroes(&one, 4, 1, &call) == VANDREXU_DONE);
    serve(&disk, 1);
    over(&one, call, VANDREXU_REPLY_WRITTEN);
    WANT(vandrexu_host_read(&two, 3, 2, &call) == VANDREXU_DONE);
    serve(&disk, 2);
    over(&two, call, VANDREXU_REPLY_READ);
    WANT(vandrexu_host_data(&two, got, 1024, &needed) == VANDREXU_DONE && needed == 1024);
    WANT(memcmp(got, b, 512) == 0 && memcmp(got + 512, zeros, 512) == 0);
    WANT(vandrexu_host_compare(&two, 5, a, 512, &call) == VANDREXU_DONE);
    serve(&disk, 2);
    over(&two, call, VANDREXU_REPLY_EQUAL);
    WANT(vandrexu_host_write_zeroes(&one, 3, 3, &call) == VANDREXU_DONE);
    serve(&disk, 1);
    over(&one, call, VANDREXU_REPLY_WRITTEN);
    WANT(vandrexu_host_compare(&two, 3, zeros, 512, &call) == VANDREXU_DONE);
    serve(&disk, 2);
    over(&two, call, VANDREXU_REPLY_EQUAL);
    WANT(vandrexu_host_compare(&two, 5, zeros, 512, &call) == VANDREXU_DONE);
    serve(&disk, 2);
    over(&two, call, VANDREXU_REPLY_EQUAL);
    vandrexu_host_free(&one);
    vandrexu_disk_free(&disk);
    WANT(vandrexu_host_write(&two, 0, a, 512, &call) == VANDREXU_DONE);
    vandrexu_host_free(&two);
}

/* What a call is refused for, and one that fails. */
static void faults(void)
{
    vandrexu_disk disk = VANDREXU_DISK_NONE;
    vandrexu_host host = VANDREXU_HOST_NONE;
    vandrexu_reply reply;
    uint8_t data[2048] = {0};
    uint32_t call = 77;
    WANT(vandrexu_disk_new(&config, 1, &disk) == VANDREXU_DONE);
    WANT(vandrexu_host_new(&disk, 1, 1, &host) == VANDREXU_DONE);
    WANT(vandrexu_host_read(&host, 0, 0, &call) == VANDREXU_CALL_LENGTH);
    WANT(vandrexu_host_read(&host, 0, 257, &call) == VANDREXU_CALL_TOO_LONG);
    WANT(vandrexu_host_write_zeroes(&host, 0, 0, &call) == VANDREXU_CALL_LENGTH);
    WANT(vandrexu_host_write_zeroes(&host, 0, 257, &call) == VANDREXU_CALL_TOO_LONG);
    WANT(vandrexu_host_write(&host, 0, data, 511, &call) == VANDREXU_CALL_LENGTH);
    WANT(vandrexu_host_compare(&host, 0, data, 0, &call) == VANDREXU_CALL_LENGTH);
    WANT(vandrexu_host_compare_and_write(&host, 0, data, 512, data, 1024, &call) == VANDREXU_CALL_LENGTH);
    WANT(vandrexu_host_compare_and_write(&host, 0, data, 1536, data, 1536, &call) == VANDREXU_CALL_TOO_LONG);
    WANT(call == 77 && vandrexu_host_poll(&host, 0, &reply) == VANDREXU_NO_CALL);
    WANT(vandrexu_host_give_up(&host, 0) == VANDREXU_NO_CALL);
    WANT(vandrexu_host_read(&host, 8, 1, &call) == VANDREXU_DONE);
    serve(&disk, 1);
    /* LBA Out of Range */
    WANT(vandrexu_host_poll(&host, call, &reply) == VANDREXU_CALL_FAILED);
    WANT(reply.kind == VANDREXU_REPLY_FAILED && reply.sct == 0 && reply.sc == 0x80);
    WANT(vandrexu_host_poll(&host, call, &reply) == VANDREXU_NO_CALL);
    vandrexu_host_free(&host);
    vandrexu_disk_free(&disk);
}

/* A disk that is served in steps; what isn't finished is kept. */
static void steps(void)
{
    vandrexu_disk disk = VANDREXU_DISK_NONE;
    vandrexu_host one = VANDREXU_HOST_NONE;
    uint8_t data[512];
    uint32_t call;
    int tasks = 0;
    fill(data, 0x5A);
    WANT(vandrexu_disk_new(&config, 1, &disk) == VANDREXU_DONE);
    WANT(vandrexu_host_new(&disk, 7, 2, &one) == VANDREXU_DONE);
    WANT(vandrexu_disk_task(&disk) == VANDREXU_NOTHING_READY);
    WANT(vandrexu_disk_fetch(&disk, 2) == VANDREXU_NO_ENTRY);
    WANT(vandrexu_host_write(&one, 1, data, 512, &call) == VANDREXU_DONE);
    WANT(vandrexu_disk_fetch(&disk, 2) == VANDREXU_DONE);
    WANT(vandrexu_disk_fetch(&disk, 2) == VANDREXU_UNFINISHED);
    while (vandrexu_disk_task(&disk) == VANDREXU_DONE)
        tasks++;
    /* a Grant, a Block, a Post */
    WANT(tasks == 3);
    WANT(vandrexu_disk_task(&disk) == VANDREXU_NOTHING_READY);
    over(&one, call, VANDREXU_REPLY_WRITTEN);
    WANT(vandrexu_host_write(&one, 1, data, 512, &call) == VANDREXU_DONE);
    WANT(vandrexu_disk_fetch(&disk, 2) == VANDREXU_DONE);
    /* it goes on with what was fetched, whichever queue is named */
    WANT(vandrexu_disk_serve(&disk, 1) == VANDREXU_DONE);
    over(&one, call, VANDREXU_REPLY_WRITTEN);
    vandrexu_disk_free(&disk);
    vandrexu_host_free(&one);
}

/* A disk whose history is forgotten, also in the midst of a call, answers as ever. */
static void forgets(void)
{
    vandrexu_disk disk = VANDREXU_DISK_NONE;
    vandrexu_host one = VANDREXU_HOST_NONE;
    uint8_t old[512] = {0}, new[512], got[512];
    size_t needed;
    uint32_t call;
    fill(new, 0x5A);
    WANT(vandrexu_disk_new(&config, 1, &disk) == VANDREXU_DONE);
    WANT(vandrexu_disk_forget(&disk, UINT64_MAX) == VANDREXU_DONE);
    WANT(vandrexu_host_new(&disk, 7, 2, &one) == VANDREXU_DONE);
    WANT(vandrexu_host_compare_and_write(&one, 1, old, 512, new, 512, &call) == VANDREXU_DONE);
    WANT(vandrexu_disk_fetch(&disk, 2) == VANDREXU_DONE);
    do {
        for (uint64_t place = 0; place < 3; place++)
            WANT(vandrexu_disk_forget(&disk, place) == VANDREXU_DONE);
        WANT(vandrexu_disk_forget(&disk, UINT64_MAX) == VANDREXU_DONE);
    } while (vandrexu_disk_task(&disk) == VANDREXU_DONE);
    over(&one, call, VANDREXU_REPLY_SWAPPED);
    WANT(vandrexu_host_read(&one, 1, 1, &call) == VANDREXU_DONE);
    serve(&disk, 2);
    WANT(vandrexu_disk_forget(&disk, UINT64_MAX) == VANDREXU_DONE);
    over(&one, call, VANDREXU_REPLY_READ);
    WANT(vandrexu_host_data(&one, got, 512, &needed) == VANDREXU_DONE && needed == 512);
    WANT(memcmp(got, new, 512) == 0);
    vandrexu_disk_free(&disk);
    vandrexu_host_free(&one);
}

/* Five calls of one host are in flight, served in their order, and polled in another; and the numbers are used again. */
static void flights(void)
{
    const vandrexu_config deep = {8, 1, 1, 0, 0, 2, 64, 64, 80, 2};
    vandrexu_disk disk = VANDREXU_DISK_NONE;
    vandrexu_host host = VANDREXU_HOST_NONE;
    vandrexu_reply reply;
    uint8_t a[512], got[512];
    uint32_t wrote, swapped, read, differs, compared, last;
    size_t needed;
    fill(a, 0xA1);
    WANT(vandrexu_disk_new(&deep, 1, &disk) == VANDREXU_DONE);
    WANT(vandrexu_host_new(&disk, 7, 2, &host) == VANDREXU_DONE);
    waits(&host, 0, 0);
    WANT(vandrexu_host_write(&host, 0, a, 512, &wrote) == VANDREXU_DONE);
    WANT(vandrexu_host_compare_and_write(&host, 3, zeros, 512, a, 512, &swapped) == VANDREXU_DONE);
    WANT(vandrexu_host_read(&host, 3, 1, &read) == VANDREXU_DONE);
    WANT(vandrexu_host_compare_and_write(&host, 3, zeros, 512, a, 512, &differs) == VANDREXU_DONE);
    WANT(vandrexu_host_compare(&host, 0, a, 512, &compared) == VANDREXU_DONE);
    WANT(wrote != swapped && swapped != read && read != differs && differs != compared && compared != wrote);
    waits(&host, 5, 0);
    for (int i = 0; i < 5; i++)
        serve(&disk, 2);
    over(&host, compared, VANDREXU_REPLY_EQUAL);
    over(&host, differs, VANDREXU_REPLY_DIFFERS);
    waits(&host, 3, 0);
    over(&host, read, VANDREXU_REPLY_READ);
    WANT(vandrexu_host_data(&host, got, 512, &needed) == VANDREXU_DONE && needed == 512 && memcmp(got, a, 512) == 0);
    over(&host, wrote, VANDREXU_REPLY_WRITTEN);
    over(&host, swapped, VANDREXU_REPLY_SWAPPED);
    waits(&host, 0, 0);
    /* no 64 entries fit into a queue of 64: one place stays free */
    for (uint32_t i = 0; i < 63; i++)
        WANT(vandrexu_host_read(&host, 0, 1, &last) == VANDREXU_DONE);
    WANT(vandrexu_host_read(&host, 0, 1, &read) == VANDREXU_CALL_NO_ROOM);
    serve(&disk, 2);
    serve(&disk, 2);
    /* of 64 CIDs one is free then, and a pair wants two */
    WANT(vandrexu_host_compare_and_write(&host, 3, a, 512, a, 512, &read) == VANDREXU_CALL_NO_ROOM);
    WANT(vandrexu_host_read(&host, 0, 1, &last) == VANDREXU_DONE);
    WANT(vandrexu_host_read(&host, 0, 1, &read) == VANDREXU_CALL_NO_ROOM);
    waits(&host, 64, 0);
    WANT(vandrexu_host_poll(&host, last, &reply) == VANDREXU_DONE && reply.kind == VANDREXU_REPLY_PENDING);
    vandrexu_host_free(&host);
    vandrexu_disk_free(&disk);
}

/* A call that is given up has no number, and keeps its CIDs until polls have reaped its completions. */
static void gives_up(void)
{
    const vandrexu_config deep = {8, 1, 1, 0, 0, 1, 80, 80, 80, 1};
    vandrexu_disk disk = VANDREXU_DISK_NONE;
    vandrexu_host host = VANDREXU_HOST_NONE;
    vandrexu_reply reply;
    uint8_t a[512];
    uint32_t pair, read, last;
    fill(a, 0xA1);
    WANT(vandrexu_disk_new(&deep, 1, &disk) == VANDREXU_DONE);
    WANT(vandrexu_host_new(&disk, 1, 1, &host) == VANDREXU_DONE);
    WANT(vandrexu_host_compare_and_write(&host, 3, zeros, 512, a, 512, &pair) == VANDREXU_DONE);
    for (uint32_t i = 0; i < 62; i++)
        WANT(vandrexu_host_read(&host, 3, 1, &read) == VANDREXU_DONE);
    waits(&host, 63, 0);
    WANT(vandrexu_host_give_up(&host, pair) == VANDREXU_DONE);
    waits(&host, 62, 1);
    WANT(vandrexu_host_give_up(&host, pair) == VANDREXU_NO_CALL);
    WANT(vandrexu_host_poll(&host, pair, &reply) == VANDREXU_NO_CALL && reply.kind == VANDREXU_REPLY_PENDING);
    WANT(vandrexu_host_read(&host, 0, 1, &last) == VANDREXU_CALL_NO_ROOM);
    serve(&disk, 1);
    /* its completions are there, and not reaped */
    waits(&host, 62, 1);
    WANT(vandrexu_host_read(&host, 0, 1, &last) == VANDREXU_CALL_NO_ROOM);
    WANT(vandrexu_host_poll(&host, read, &reply) == VANDREXU_DONE && reply.kind == VANDREXU_REPLY_PENDING);
    WANT(vandrexu_host_poll(&host, read, &reply) == VANDREXU_DONE && reply.kind == VANDREXU_REPLY_PENDING);
    waits(&host, 62, 0);
    /* it was done, and its two CIDs are free */
    WANT(vandrexu_host_compare_and_write(&host, 3, a, 512, zeros, 512, &pair) == VANDREXU_DONE);
    WANT(vandrexu_host_read(&host, 0, 1, &last) == VANDREXU_CALL_NO_ROOM);
    for (int i = 0; i < 63; i++)
        serve(&disk, 1);
    over(&host, pair, VANDREXU_REPLY_SWAPPED);
    over(&host, read, VANDREXU_REPLY_READ);
    waits(&host, 61, 0);
    vandrexu_host_free(&host);
    vandrexu_disk_free(&disk);
}

/* A host restarts over and over: it gives up what its life before has begun, and no CID is lost. */
static void restarts(void)
{
    vandrexu_disk disk = VANDREXU_DISK_NONE;
    vandrexu_host host = VANDREXU_HOST_NONE;
    vandrexu_reply reply;
    uint32_t pair, read;
    uint8_t a[512];
    fill(a, 0xA1);
    WANT(vandrexu_disk_new(&config, 1, &disk) == VANDREXU_DONE);
    WANT(vandrexu_host_new(&disk, 1, 1, &host) == VANDREXU_DONE);
    for (int life = 0; life < 1000; life++) {
        WANT(vandrexu_host_compare_and_write(&host, 3, life % 2 ? a : zeros, 512, life % 2 ? zeros : a, 512, &pair)
             == VANDREXU_DONE);
        WANT(vandrexu_host_read(&host, 3, 1, &read) == VANDREXU_DONE);
        /* it dies before its pair is served, or behind that */
        if (life % 3 == 0)
            serve(&disk, 1);
        WANT(vandrexu_host_give_up(&host, pair) == VANDREXU_DONE && vandrexu_host_give_up(&host, read) == VANDREXU_DONE);
        waits(&host, 0, 2);
        if (life % 3 != 0)
            serve(&disk, 1);
        serve(&disk, 1);
        /* three completions, of which each poll reaps one: the turns are the pair's and the Read's */
        for (int polls = 0; polls < 4; polls++)
            WANT(vandrexu_host_poll(&host, 0, &reply) == VANDREXU_NO_CALL);
        waits(&host, 0, 0);
    }
    /* the last swap wrote zeros */
    WANT(vandrexu_host_compare(&host, 3, zeros, 512, &read) == VANDREXU_DONE);
    serve(&disk, 1);
    over(&host, read, VANDREXU_REPLY_EQUAL);
    vandrexu_host_free(&host);
    vandrexu_disk_free(&disk);
}

/* A host ends over and over, with what it began given up, and is made again by its number. */
static void ends(void)
{
    vandrexu_disk disk = VANDREXU_DISK_NONE, none = VANDREXU_DISK_NONE, other = VANDREXU_DISK_NONE;
    vandrexu_host host = VANDREXU_HOST_NONE, two = VANDREXU_HOST_NONE;
    vandrexu_reply reply;
    uint32_t pair, read;
    size_t left;
    uint8_t a[512];
    fill(a, 0xA1);
    WANT(vandrexu_disk_new(&config, 2, &disk) == VANDREXU_DONE && vandrexu_disk_new(&config, 1, &other) == VANDREXU_DONE);
    WANT(vandrexu_host_new(&disk, 7, 2, &host) == VANDREXU_DONE && vandrexu_host_new(&disk, 2, 1, &two) == VANDREXU_DONE);
    /* what owns nothing, is owned already, and what the other disk didn't make */
    WANT(vandrexu_host_end(&none, &host) == VANDREXU_NO_HANDLE && vandrexu_host_again(&none, 7, &two) == VANDREXU_IN_USE);
    WANT(vandrexu_host_again(&disk, 7, &host) == VANDREXU_IN_USE);
    WANT(vandrexu_host_end(&other, &host) == VANDREXU_OTHER_HOST && host.live == 1);
    WANT(vandrexu_host_end(&disk, &two) == VANDREXU_DONE && two.live == 0 && two.at == NULL);
    WANT(vandrexu_host_end(&disk, &two) == VANDREXU_NO_HANDLE);
    WANT(vandrexu_host_again(&none, 2, &two) == VANDREXU_NO_HANDLE && two.live == 0);
    /* numbers that no host of the disk has */
    WANT(vandrexu_host_again(&disk, 0, &two) == VANDREXU_OTHER_HOST && two.live == 0);
    WANT(vandrexu_host_again(&disk, UINT32_MAX, &two) == VANDREXU_OTHER_HOST && two.live == 0);
    for (int life = 0; life < 1000; life++) {
        WANT(vandrexu_host_again(&disk, 7, &two) == VANDREXU_OTHER_HOST && two.live == 0);
        WANT(vandrexu_host_compare_and_write(&host, 3, life % 2 ? a : zeros, 512, life % 2 ? zeros : a, 512, &pair)
             == VANDREXU_DONE);
        WANT(vandrexu_host_read(&host, 3, 1, &read) == VANDREXU_DONE && vandrexu_host_give_up(&host, pair) == VANDREXU_DONE);
        WANT(vandrexu_host_end(&disk, &host) == VANDREXU_IN_CALL && host.live == 1);
        WANT(vandrexu_host_give_up(&host, read) == VANDREXU_DONE);
        /* it dies before its pair is served, or behind that */
        if (life % 3 == 0)
            serve(&disk, 2);
        WANT(vandrexu_host_end(&disk, &host) == VANDREXU_DONE && host.live == 0 && host.at == NULL);
        WANT(vandrexu_host_new(&disk, 7, 2, &host) == VANDREXU_USED_NUMBER);
        if (life % 3 != 0)
            serve(&disk, 2);
        serve(&disk, 2);
        /* it has the queue and the CIDs that it had, and takes none of the passes */
        WANT(vandrexu_host_again(&disk, 7, &host) == VANDREXU_DONE);
        WANT(vandrexu_disk_hosts_left(&disk, &left) == VANDREXU_DONE && left == 0);
        waits(&host, 0, 2);
        for (int polls = 0; polls < 4; polls++)
            WANT(vandrexu_host_poll(&host, read, &reply) == VANDREXU_NO_CALL);
        waits(&host, 0, 0);
    }
    /* the last swap wrote zeros; the host that ended first is as it was, too */
    WANT(vandrexu_host_compare(&host, 3, zeros, 512, &read) == VANDREXU_DONE);
    serve(&disk, 2);
    over(&host, read, VANDREXU_REPLY_EQUAL);
    WANT(vandrexu_host_again(&disk, 2, &two) == VANDREXU_DONE && vandrexu_host_read(&two, 3, 1, &read) == VANDREXU_DONE);
    serve(&disk, 1);
    over(&two, read, VANDREXU_REPLY_READ);
    /* a disk frees those that it keeps */
    WANT(vandrexu_host_end(&disk, &two) == VANDREXU_DONE);
    vandrexu_host_free(&host);
    vandrexu_disk_free(&disk);
    vandrexu_disk_free(&other);
}

/* No handle is left behind. */
static void many(void)
{
    for (int i = 0; i < 20000; i++) {
        vandrexu_disk disk = VANDREXU_DISK_NONE;
        vandrexu_host host = VANDREXU_HOST_NONE;
        WANT(vandrexu_disk_new(&config, 1, &disk) == VANDREXU_DONE);
        WANT(vandrexu_host_new(&disk, 1, 1, &host) == VANDREXU_DONE);
        if (i % 2 == 0)
            vandrexu_disk_free(&disk);
        vandrexu_host_free(&host);
        vandrexu_disk_free(&disk);
    }
}

static atomic_int running;

/* A thread has one host, and adds to a count that lies in a block by Compare and Write. */
static void *adds(void *at)
{
    vandrexu_host *host = at;
    uint8_t old[512] = {0}, new[512];
    for (int added = 0; added < 200;) {
        vandrexu_reply reply;
        uint32_t told, call;
        memcpy(new, old, sizeof new);
        new[0] = (uint8_t)(old[0] + 1);
        new[1] = (uint8_t)(old[1] + (new[0] == 0));
        while ((told = vandrexu_host_compare_and_write(host, 0, old, 512, new, 512, &call)) == VANDREXU_CALL_BUSY)
            ;
        WANT(told == VANDREXU_DONE);
        while ((told = vandrexu_host_poll(host, call, &reply)) == VANDREXU_CALL_BUSY
               || (told == VANDREXU_DONE && reply.kind == VANDREXU_REPLY_PENDING))
            ;
        WANT(told == VANDREXU_DONE);
        if (reply.kind == VANDREXU_REPLY_SWAPPED) {
            added++;
            memcpy(old, new, sizeof old);
            continue;
        }
        WANT(reply.kind == VANDREXU_REPLY_DIFFERS);
        while ((told = vandrexu_host_read(host, 0, 1, &call)) == VANDREXU_CALL_BUSY)
            ;
        WANT(told == VANDREXU_DONE);
        while ((told = vandrexu_host_poll(host, call, &reply)) == VANDREXU_CALL_BUSY
               || (told == VANDREXU_DONE && reply.kind == VANDREXU_REPLY_PENDING))
            ;
        size_t needed;
        WANT(told == VANDREXU_DONE && reply.kind == VANDREXU_REPLY_READ);
        WANT(vandrexu_host_data(host, old, 512, &needed) == VANDREXU_DONE && needed == 512);
    }
    atomic_fetch_sub(&running, 1);
    return NULL;
}

/* Two hosts and the disk on a thread each. */
static void threads(void)
{
    vandrexu_disk disk = VANDREXU_DISK_NONE;
    vandrexu_host hosts[2] = {VANDREXU_HOST_NONE, VANDREXU_HOST_NONE};
    pthread_t ids[2];
    uint32_t call;
    uint8_t wanted[512] = {400 % 256, 400 / 256};
    WANT(vandrexu_disk_new(&config, 2, &disk) == VANDREXU_DONE);
    for (int i = 0; i < 2; i++)
        WANT(vandrexu_host_new(&disk, (uint32_t)i + 1, (uint16_t)(i + 1), &hosts[i]) == VANDREXU_DONE);
    atomic_store(&running, 2);
    for (int i = 0; i < 2; i++)
        WANT(pthread_create(&ids[i], NULL, adds, &hosts[i]) == 0);
    while (atomic_load(&running) > 0)
        for (uint16_t queue = 1; queue <= 2; queue++) {
            uint32_t told = vandrexu_disk_serve(&disk, queue);
            WANT(told == VANDREXU_DONE || told == VANDREXU_NO_ENTRY || told == VANDREXU_BUSY);
        }
    for (int i = 0; i < 2; i++)
        WANT(pthread_join(ids[i], NULL) == 0);
    WANT(vandrexu_host_compare(&hosts[0], 0, wanted, 512, &call) == VANDREXU_DONE);
    serve(&disk, 1);
    over(&hosts[0], call, VANDREXU_REPLY_EQUAL);
    for (int i = 0; i < 2; i++)
        vandrexu_host_free(&hosts[i]);
    vandrexu_disk_free(&disk);
}

int main(void)
{
    nothing();
    made();
    used();
    swaps();
    faults();
    steps();
    forgets();
    flights();
    gives_up();
    restarts();
    ends();
    many();
    threads();
    puts("hosts: as they should be");
    return 0;
}
#else
#include "refused_runs.h"

static void poll(vandrexu_host *host, uint32_t call, uint32_t kind)
{
    vandrexu_reply reply;
    do {
        uint32_t answer = vandrexu_host_poll(host, call, &reply);
        if (is_refusal(answer))
            WANT(reply.kind == VANDREXU_REPLY_PENDING);
        else
            WANT(answer == VANDREXU_DONE);
    } while (reply.kind == VANDREXU_REPLY_PENDING);
    WANT(reply.kind == kind);
}

static void run_refused(long at)
{
    vandrexu_disk disk = VANDREXU_DISK_NONE;
    vandrexu_host one = VANDREXU_HOST_NONE, two = VANDREXU_HOST_NONE;
    uint8_t data[512], got[512];
    size_t needed, calls, given_up;
    uint32_t call;
    fill(data, 0xC3);
    refused_at = at;
    allocations = blocks = 0;
    TRY(vandrexu_disk_new(&config, 2, &disk));
    TRY(vandrexu_host_new(&disk, 1, 1, &one));
    /* no pass was lost; a number and a queue whose host was refused memory aren't used */
    TRY(vandrexu_host_new(&disk, 2, 2, &two));
    TRY(vandrexu_host_compare_and_write(&one, 3, zeros, 512, data, 512, &call));
    TRY(vandrexu_disk_serve(&disk, 1));
    poll(&one, call, VANDREXU_REPLY_SWAPPED);
    TRY(vandrexu_host_write_zeroes(&one, 4, 2, &call));
    TRY(vandrexu_disk_serve(&disk, 1));
    poll(&one, call, VANDREXU_REPLY_WRITTEN);
    TRY(vandrexu_host_read(&two, 3, 1, &call));
    TRY(vandrexu_disk_serve(&disk, 2));
    poll(&two, call, VANDREXU_REPLY_READ);
    WANT(vandrexu_host_data(&two, got, 512, &needed) == VANDREXU_DONE && memcmp(got, data, 512) == 0);
    /* a call whose giving up is refused memory goes on */
    TRY(vandrexu_host_read(&one, 3, 1, &call));
    TRY(vandrexu_host_give_up(&one, call));
    WANT(vandrexu_host_waiting(&one, &calls, &given_up) == VANDREXU_DONE && calls == 0 && given_up == 1);
    /* a host that is refused memory can be made again later; to end one takes none */
    WANT(vandrexu_host_end(&disk, &one) == VANDREXU_DONE);
    TRY(vandrexu_host_again(&disk, 1, &one));
    WANT(vandrexu_host_waiting(&one, &calls, &given_up) == VANDREXU_DONE && calls == 0 && given_up == 1);
    vandrexu_disk_free(&disk);
    vandrexu_host_free(&one);
    vandrexu_host_free(&two);
    WANT(blocks == 0);
}

int main(void)
{
    return refuse_each(run_refused, "hosts", 10);
}
#endif
