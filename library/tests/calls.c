/* Calls each function of vandrexu.h, with each of its answers. Exits with 1 at the first that isn't as it should be.
 *
 * Compiled with REFUSES it has a heap of its own in place of heap.c, refuses each allocation of a run in turn, and wants
 * that to be told and nothing to be lost. */
#include "vandrexu.h"

#include <pthread.h>
#include <stdio.h>
#include <stdlib.h>
#include <string.h>

#define WANT(what)                                                                                                     \
    do {                                                                                                               \
        if (!(what)) {                                                                                                 \
            fprintf(stderr, "calls.c:%d: %s\n", __LINE__, #what);                                                      \
            exit(1);                                                                                                   \
        }                                                                                                              \
    } while (0)

static const vandrexu_config config = {8, 1, 1, 0, 0, 2, 4, 4, 8, 2};

/* An entry of NAME FUSE CID SLBA NLB, on namespace 1. */
static vandrexu_entry entry_of(uint8_t opcode, uint8_t fuse, uint16_t cid, uint64_t slba, uint16_t nlb, size_t count)
{
    vandrexu_entry entry;
    memset(&entry, 0, sizeof entry);
    entry.bytes[0] = opcode;
    entry.bytes[1] = fuse;
    entry.bytes[2] = (uint8_t)cid;
    entry.bytes[3] = (uint8_t)(cid >> 8);
    entry.bytes[4] = 1;
    for (int i = 0; i < 8; i++)
        entry.bytes[40 + i] = (uint8_t)(slba >> (8 * i));
    entry.bytes[48] = (uint8_t)nlb;
    entry.bytes[49] = (uint8_t)(nlb >> 8);
    entry.count = count;
    return entry;
}

static int is_zeros(const void *at, size_t count)
{
    for (size_t i = 0; i < count; i++)
        if (((const uint8_t *)at)[i] != 0)
            return 0;
    return 1;
}

/* A handle of zeros is answered, and nothing else is written. */
static void zeros(void)
{
    vandrexu_controller none = VANDREXU_CONTROLLER_NONE;
    vandrexu_entry entry = entry_of(0, 0, 1, 0, 0, 0);
    vandrexu_work work;
    vandrexu_granted granted;
    vandrexu_blocked blocked;
    vandrexu_step step;
    uint8_t cqe[16] = {0}, block[512] = {0};
    size_t count = 7;
    uint64_t entries = 7, next = 7;
    memset(&work, 0, sizeof work);
    memset(&granted, 0, sizeof granted);
    memset(&blocked, 0, sizeof blocked);
    memset(&step, 0, sizeof step);
    WANT(vandrexu_controller_reserve(&none, 1) == VANDREXU_NO_HANDLE);
    WANT(vandrexu_controller_publish(&none, 1, &entry, 1, block, 0) == VANDREXU_NO_HANDLE);
    WANT(vandrexu_controller_fetch(&none, 1, &work) == VANDREXU_NO_HANDLE);
    WANT(vandrexu_controller_grant(&none, 1, &granted) == VANDREXU_NO_HANDLE);
    WANT(vandrexu_controller_block(&none, 1, &blocked) == VANDREXU_NO_HANDLE);
    WANT(vandrexu_controller_post(&none, 1, cqe) == VANDREXU_NO_HANDLE);
    WANT(vandrexu_controller_reap(&none, 1, cqe, &count) == VANDREXU_NO_HANDLE);
    WANT(vandrexu_controller_data(&none, block, 1, &count) == VANDREXU_NO_HANDLE);
    WANT(vandrexu_controller_ready(&none, &step) == VANDREXU_NO_HANDLE);
    WANT(vandrexu_controller_medium(&none, 0, block) == VANDREXU_NO_HANDLE);
    WANT(vandrexu_controller_history_count(&none, &entries) == VANDREXU_NO_HANDLE);
    WANT(vandrexu_controller_history(&none, 0, block, 512, &count, &next) == VANDREXU_NO_HANDLE);
    WANT(vandrexu_settle(&none) == VANDREXU_NO_HANDLE);
    WANT(count == 7 && entries == 7 && next == 7 && is_zeros(block, 512));
    WANT(is_zeros(&work, sizeof work) && is_zeros(&granted, sizeof granted));
    WANT(is_zeros(&blocked, sizeof blocked) && is_zeros(&step, sizeof step) && is_zeros(cqe, 16));
    vandrexu_controller_free(&none);
    WANT(none.at == NULL && none.live == 0);
}

/* So is a checker's. */
static void no_checker(void)
{
    vandrexu_checker none = VANDREXU_CHECKER_NONE;
    uint8_t words[8] = {0};
    size_t needed = 7;
    WANT(vandrexu_checker_take_line(&none, words, 0) == VANDREXU_NO_HANDLE);
    WANT(vandrexu_checker_why(&none, words, 0, words, 8, &needed) == VANDREXU_NO_HANDLE);
    WANT(needed == 7 && is_zeros(words, 8));
    vandrexu_checker_free(&none);
    WANT(none.at == NULL && none.live == 0);
}

/* Each fault of a configuration, by the table of docs/SCRIPTS.md. */
static void configurations(void)
{
    static const struct {
        vandrexu_config config;
        uint32_t fault;
    } rows[] = {
        {{8, 256, 1, 0, 0, 2, 4, 4, 8, 2}, VANDREXU_AWUN_TOO_LARGE},
        {{8, 1, 256, 0, 0, 2, 4, 4, 8, 2}, VANDREXU_ACWU_TOO_LARGE},
        {{8, 3, 1, 2, 0, 2, 4, 4, 8, 2}, VANDREXU_BOUNDARY_BELOW_UNIT},
        {{8, 1, 1, 3, 4, 2, 4, 4, 8, 2}, VANDREXU_OFFSET_PAST_BOUNDARY},
        {{0, 1, 1, 0, 0, 2, 4, 4, 8, 2}, VANDREXU_BAD_BLOCKS},
        {{65537, 1, 1, 0, 0, 2, 4, 4, 8, 2}, VANDREXU_BAD_BLOCKS},
        {{8, 1, 1, 0, 0, 17, 4, 4, 8, 2}, VANDREXU_BAD_PAIRS},
        {{8, 1, 1, 0, 0, 2, 1, 4, 8, 2}, VANDREXU_BAD_SQ_SIZE},
        {{8, 1, 1, 0, 0, 2, 4, 1025, 8, 2}, VANDREXU_BAD_CQ_SIZE},
        {{8, 1, 1, 0, 0, 2, 4, 4, 0, 2}, VANDREXU_BAD_JOBS},
        {{8, 1, 1, 0, 0, 2, 4, 4, 8, 3}, VANDREXU_BAD_CQS},
    };
    vandrexu_controller disk = VANDREXU_CONTROLLER_NONE;
    vandrexu_checker checker = VANDREXU_CHECKER_NONE;
    WANT(vandrexu_config_fault(&config) == VANDREXU_DONE);
    for (size_t i = 0; i < sizeof rows / sizeof rows[0]; i++) {
        WANT(vandrexu_config_fault(&rows[i].config) == rows[i].fault);
        WANT(vandrexu_controller_new(&rows[i].config, &disk) == rows[i].fault);
        WANT(disk.at == NULL && disk.live == 0);
        WANT(vandrexu_checker_new(&rows[i].config, &checker) == rows[i].fault);
        WANT(checker.at == NULL && checker.live == 0);
    }
}

static uint32_t take(vandrexu_checker *checker, const char *line)
{
    return vandrexu_checker_take_line(checker, (const uint8_t *)line, strlen(line));
}

/* A Flush and its completion, line by line; the history isn't legal from its second Fetch on. */
static void lines(void)
{
    static const char first[] = "publish 1 0000070001000000000000000000000000000000000000000000000000000000"
                                "0000000000000000000000000000000000000000000000000000000000000000 -";
    static const char fetch[] = "fetch 1 1 1 ok", post[] = "post 1 00000000000000000100010007000100 -";
    static const char reap[] = "reap 1 00000000000000000100010007000100", words[] = "refused 3: no entry to fetch";
    vandrexu_checker checker = VANDREXU_CHECKER_NONE;
    uint8_t out[64] = {0};
    size_t needed = 7;
    WANT(vandrexu_checker_new(&config, &checker) == VANDREXU_DONE);
    WANT(vandrexu_checker_new(&config, &checker) == VANDREXU_IN_USE);
    WANT(take(&checker, "config 8 1 1 0 0 2 4 4 8") == VANDREXU_BAD_LINE);
    WANT(take(&checker, "") == VANDREXU_BAD_LINE);
    WANT(take(&checker, first) == VANDREXU_DONE);
    WANT(take(&checker, fetch) == VANDREXU_DONE);
    WANT(vandrexu_checker_why(&checker, (const uint8_t *)post, strlen(post), out, 0, &needed) == VANDREXU_DONE);
    WANT(needed == 7);
    WANT(take(&checker, post) == VANDREXU_DONE);
    WANT(take(&checker, "post 1 -") == VANDREXU_BAD_LINE);
    WANT(take(&checker, reap) == VANDREXU_DONE);
    WANT(vandrexu_checker_why(&checker, (const uint8_t *)fetch, strlen(fetch), out, 4, &needed) == VANDREXU_TOO_SMALL);
    WANT(needed == strlen(words) && is_zeros(out, 64));
    WANT(vandrexu_checker_why(&checker, (const uint8_t *)fetch, strlen(fetch), out, 64, &needed) == VANDREXU_NOT_LEGAL);
    WANT(memcmp(out, words, needed) == 0 && is_zeros(out + needed, 64 - needed));
    WANT(take(&checker, fetch) == VANDREXU_NOT_LEGAL);
    WANT(take(&checker, first) == VANDREXU_NOT_LEGAL);
    WANT(take(&checker, "") == VANDREXU_BAD_LINE);
    vandrexu_checker_free(&checker);
    vandrexu_checker_free(&checker);
    WANT(checker.at == NULL && checker.live == 0);
    WANT(take(&checker, first) == VANDREXU_NO_HANDLE);
    for (int i = 0; i < 100000; i++) {
        WANT(vandrexu_checker_new(&config, &checker) == VANDREXU_DONE);
        vandrexu_checker_free(&checker);
    }
}

/* A fused pair wins, its steps one by one, and a Read finds what it wrote. */
static void pair(void)
{
    vandrexu_controller disk = VANDREXU_CONTROLLER_NONE;
    vandrexu_entry entries[2] = {entry_of(0x05, 1, 7, 3, 0, 512), entry_of(0x01, 2, 8, 3, 0, 512)};
    vandrexu_entry read = entry_of(0x02, 0, 9, 3, 0, 0);
    vandrexu_work work;
    vandrexu_granted granted;
    vandrexu_blocked blocked;
    vandrexu_step step;
    uint8_t data[1024], cqe[16], block[512];
    size_t count = 7;
    uint64_t history = 0;
    memset(data, 0, 512);
    memset(data + 512, 0xA1, 512);
    WANT(vandrexu_controller_new(&config, &disk) == VANDREXU_DONE);
    WANT(vandrexu_controller_new(&config, &disk) == VANDREXU_IN_USE);
    WANT(vandrexu_controller_reserve(&disk, 16) == VANDREXU_DONE);
    WANT(vandrexu_controller_reserve(&disk, SIZE_MAX) == VANDREXU_NO_MEMORY);
    WANT(vandrexu_controller_ready(&disk, &step) == VANDREXU_NOTHING_READY);
    WANT(vandrexu_controller_publish(&disk, 0, entries, 2, data, 1024) == VANDREXU_NO_QUEUE);
    WANT(vandrexu_controller_publish(&disk, 1, entries, 0, data, 0) == VANDREXU_BAD_BATCH);
    WANT(vandrexu_controller_publish(&disk, 1, entries, 2, data, 1023) == VANDREXU_BAD_ENTRY);
    WANT(vandrexu_controller_publish(&disk, 1, entries, 1, data, 1024) == VANDREXU_BAD_ENTRY);
    WANT(vandrexu_controller_fetch(&disk, 1, &work) == VANDREXU_NO_ENTRY);
    WANT(vandrexu_controller_publish(&disk, 1, entries, 2, data, 1024) == VANDREXU_DONE);
    WANT(vandrexu_controller_publish(&disk, 1, entries, 2, data, 1024) == VANDREXU_NO_ROOM);
    WANT(vandrexu_controller_grant(&disk, 1, &granted) == VANDREXU_NO_TICKET);
    WANT(vandrexu_controller_fetch(&disk, 1, &work) == VANDREXU_DONE);
    WANT(work.ticket == 1 && work.kind == VANDREXU_PAIR && work.slba == 3 && work.blocks == 1);
    WANT(work.op == 0 && work.statuses == 0);
    WANT(vandrexu_controller_block(&disk, 1, &blocked) == VANDREXU_WRONG_STATE);
    WANT(vandrexu_controller_ready(&disk, &step) == VANDREXU_DONE);
    WANT(step.ticket == 1 && step.kind == VANDREXU_STEP_GRANT);
    WANT(vandrexu_controller_grant(&disk, 1, &granted) == VANDREXU_DONE);
    WANT(granted.unit == 0 && granted.slba == 3 && granted.blocks == 1 && granted.mode == VANDREXU_EXCLUSIVE);
    WANT(vandrexu_controller_block(&disk, 1, &blocked) == VANDREXU_DONE);
    WANT(blocked.lba == 3 && blocked.found == VANDREXU_EQUAL && blocked.effect == 1 && blocked.ended == 0);
    WANT(vandrexu_controller_block(&disk, 1, &blocked) == VANDREXU_DONE);
    WANT(blocked.found == VANDREXU_WRITTEN && blocked.effect == 0 && blocked.ended == 1);
    WANT(vandrexu_controller_medium(&disk, 3, block) == VANDREXU_DONE && memcmp(block, data + 512, 512) == 0);
    WANT(vandrexu_controller_medium(&disk, 8, block) == VANDREXU_NO_BLOCK);
    WANT(vandrexu_controller_post(&disk, 1, cqe) == VANDREXU_DONE);
    WANT(memcmp(cqe, "\0\0\0\0\0\0\0\0\2\0\1\0\7\0\1\0", 16) == 0);
    WANT(vandrexu_settle(&disk) == VANDREXU_DONE);
    WANT(vandrexu_controller_post(&disk, 1, cqe) == VANDREXU_NO_TICKET);
    WANT(vandrexu_controller_reap(&disk, 2, cqe, &count) == VANDREXU_NO_COMPLETION && count == 7);
    WANT(vandrexu_controller_reap(&disk, 1, cqe, &count) == VANDREXU_DONE && count == 0);
    WANT(memcmp(cqe, "\0\0\0\0\0\0\0\0\2\0\1\0\7\0\1\0", 16) == 0);
    WANT(vandrexu_controller_reap(&disk, 1, cqe, &count) == VANDREXU_DONE && cqe[12] == 8);
    WANT(vandrexu_controller_publish(&disk, 1, &read, 1, data, 0) == VANDREXU_DONE);
    WANT(vandrexu_controller_fetch(&disk, 1, &work) == VANDREXU_DONE);
    WANT(work.kind == VANDREXU_UNITS && work.op == VANDREXU_READ);
    WANT(vandrexu_settle(&disk) == VANDREXU_DONE);
    WANT(vandrexu_controller_reap(&disk, 1, cqe, &count) == VANDREXU_DONE && count == 512);
    memset(block, 0, sizeof block);
    WANT(vandrexu_controller_data(&disk, block, 511, &count) == VANDREXU_TOO_SMALL && count == 512);
    WANT(is_zeros(block, 512));
    WANT(vandrexu_controller_data(&disk, block, 512, &count) == VANDREXU_DONE && count == 512);
    WANT(memcmp(block, data + 512, 512) == 0);
    WANT(vandrexu_controller_history_count(&disk, &history) == VANDREXU_DONE && history == 15);
    vandrexu_controller_free(&disk);
    vandrexu_controller_free(&disk);
    WANT(disk.at == NULL && disk.live == 0);
    WANT(vandrexu_controller_fetch(&disk, 1, &work) == VANDREXU_NO_HANDLE);
}

/* Tickets and completions at their limits, and units that conflict. */
static void limits(void)
{
    static const vandrexu_config small = {8, 1, 1, 0, 0, 1, 4, 2, 2, 1};
    vandrexu_controller disk = VANDREXU_CONTROLLER_NONE;
    vandrexu_entry entries[3] = {
        entry_of(0x01, 0, 1, 0, 0, 512), entry_of(0x01, 0, 2, 0, 0, 512), entry_of(0x00, 0, 3, 0, 0, 0)};
    vandrexu_entry bad = entry_of(0x02, 0, 4, 8, 0, 0);
    vandrexu_work work;
    vandrexu_granted granted;
    vandrexu_blocked blocked;
    uint8_t data[1024], cqe[16];
    size_t count;
    memset(data, 0xB2, sizeof data);
    WANT(vandrexu_controller_new(&small, &disk) == VANDREXU_DONE);
    WANT(vandrexu_controller_publish(&disk, 1, entries, 3, data, 1024) == VANDREXU_DONE);
    WANT(vandrexu_controller_fetch(&disk, 1, &work) == VANDREXU_DONE && work.op == VANDREXU_WRITE);
    WANT(vandrexu_controller_fetch(&disk, 1, &work) == VANDREXU_DONE && work.ticket == 2);
    WANT(vandrexu_controller_fetch(&disk, 1, &work) == VANDREXU_JOBS_FULL && work.ticket == 2);
    WANT(vandrexu_controller_grant(&disk, 1, &granted) == VANDREXU_DONE);
    WANT(vandrexu_controller_grant(&disk, 2, &granted) == VANDREXU_CONFLICT);
    WANT(vandrexu_controller_block(&disk, 1, &blocked) == VANDREXU_DONE && blocked.ended == 1);
    WANT(vandrexu_controller_post(&disk, 1, cqe) == VANDREXU_DONE);
    WANT(vandrexu_controller_grant(&disk, 2, &granted) == VANDREXU_DONE);
    WANT(vandrexu_controller_block(&disk, 2, &blocked) == VANDREXU_DONE);
    WANT(vandrexu_controller_post(&disk, 2, cqe) == VANDREXU_CQ_FULL);
    WANT(vandrexu_controller_reap(&disk, 1, cqe, &count) == VANDREXU_DONE);
    WANT(vandrexu_settle(&disk) == VANDREXU_DONE);
    WANT(vandrexu_controller_fetch(&disk, 1, &work) == VANDREXU_DONE && work.kind == VANDREXU_FLUSH);
    WANT(vandrexu_controller_publish(&disk, 1, &bad, 1, data, 0) == VANDREXU_DONE);
    WANT(vandrexu_controller_fetch(&disk, 1, &work) == VANDREXU_DONE);
    WANT(work.kind == VANDREXU_FAILED && work.statuses == 1);
    WANT(vandrexu_controller_reap(&disk, 2, cqe, &count) == VANDREXU_NO_QUEUE);
    vandrexu_controller_free(&disk);
}

/* Handles move, and many are made and freed. */
static void handles(void)
{
    vandrexu_controller disk = VANDREXU_CONTROLLER_NONE, moved;
    vandrexu_work work;
    WANT(vandrexu_controller_new(&config, &disk) == VANDREXU_DONE);
    moved = disk;
    memset(&disk, 0, sizeof disk);
    WANT(vandrexu_controller_fetch(&moved, 1, &work) == VANDREXU_NO_ENTRY);
    vandrexu_controller_free(&moved);
    for (int i = 0; i < 100000; i++) {
        WANT(vandrexu_controller_new(&config, &disk) == VANDREXU_DONE);
        vandrexu_controller_free(&disk);
    }
}

static void *on_a_thread(void *given)
{
    (void)given;
    for (int i = 0; i < 100; i++)
        pair();
    return NULL;
}

/* Two threads with a handle each. */
static void threads(void)
{
    pthread_t both[2];
    for (int i = 0; i < 2; i++)
        WANT(pthread_create(&both[i], NULL, on_a_thread, NULL) == 0);
    for (int i = 0; i < 2; i++)
        WANT(pthread_join(both[i], NULL) == 0);
}

#ifdef REFUSES
#include "refusing.h"

/* What a run is answered where its allocation of this number is refused: each call is asked again where memory was. */
static uint32_t again(uint32_t first, int *refusals)
{
    *refusals += first == VANDREXU_NO_MEMORY;
    return first;
}

#define TRY(call)                                                                                                      \
    do {                                                                                                               \
        if (again((call), &refusals) == VANDREXU_NO_MEMORY)                                                            \
            WANT((call) == VANDREXU_DONE);                                                                             \
    } while (0)

static int run_refused(long at)
{
    vandrexu_controller disk = VANDREXU_CONTROLLER_NONE;
    vandrexu_entry write = entry_of(0x01, 0, 1, 2, 1, 1024), read = entry_of(0x02, 0, 2, 2, 1, 0);
    vandrexu_work work;
    vandrexu_granted granted;
    vandrexu_blocked blocked;
    uint8_t data[1024], got[1024], cqe[16];
    size_t count;
    int refusals = 0;
    memset(data, 0xC3, sizeof data);
    refused_at = at;
    allocations = blocks = 0;
    TRY(vandrexu_controller_new(&config, &disk));
    TRY(vandrexu_controller_publish(&disk, 1, &write, 1, data, 1024));
    TRY(vandrexu_controller_publish(&disk, 1, &read, 1, data, 0));
    for (uint64_t ticket = 1; ticket <= 2; ticket++) {
        TRY(vandrexu_controller_fetch(&disk, 1, &work));
        WANT(work.ticket == ticket);
        TRY(vandrexu_controller_grant(&disk, ticket, &granted));
        TRY(vandrexu_controller_block(&disk, ticket, &blocked));
        TRY(vandrexu_controller_block(&disk, ticket, &blocked));
        TRY(vandrexu_controller_post(&disk, ticket, cqe));
        TRY(vandrexu_controller_reap(&disk, 1, cqe, &count));
        WANT(cqe[12] == ticket && cqe[14] == 1 && cqe[15] == 0);
    }
    WANT(count == 1024 && vandrexu_controller_data(&disk, got, 1024, &count) == VANDREXU_DONE);
    WANT(memcmp(got, data, 1024) == 0);
    vandrexu_controller_free(&disk);
    WANT(blocks == 0);
    return refusals;
}

int main(void)
{
    long all, refused = 0;
    WANT(run_refused(0) == 0);
    all = allocations;
    for (long at = 1; at <= all; at++)
        refused += run_refused(at);
    printf("allocations: %ld, refused and told: %ld\n", all, refused);
    WANT(all > 10 && refused == all);
    return 0;
}
#else
int main(void)
{
    zeros();
    no_checker();
    configurations();
    lines();
    pair();
    limits();
    handles();
    threads();
    puts("calls: as they should be");
    return 0;
}
#endif
