/* Takes the lines of a controller's history in pieces: what fits, what doesn't, what is behind the last, and what was
 * forgotten. Exits with 1 at the first that isn't as it should be.
 *
 * Compiled with REFUSES it has a heap of its own in place of heap.c, and refuses each allocation of a call in turn. */
#include "vandrexu.h"

#include <stdio.h>
#include <stdlib.h>
#include <string.h>
#include <time.h>

#ifdef REFUSES
#include "refusing.h"
#endif

#define WANT(what)                                                                                                     \
    do {                                                                                                               \
        if (!(what)) {                                                                                                 \
            fprintf(stderr, "history.c:%d: %s\n", __LINE__, #what);                                                    \
            exit(1);                                                                                                   \
        }                                                                                                              \
    } while (0)

static const vandrexu_config config = {8, 1, 1, 0, 0, 2, 4, 4, 8, 2};

/* The text of a Flush, by docs/CHECKING.md. */
#define CONFIG_LINE "config 8 1 1 0 0 2 4 4 8\n"
#define FIRST                                                                                                          \
    "publish 1 0000070001000000000000000000000000000000000000000000000000000000"                              \
    "0000000000000000000000000000000000000000000000000000000000000000 -\n"
#define SECOND "fetch 1 1 1 ok\n"
#define THIRD "post 1 00000000000000000100010007000100 -\n"
#define FOURTH "reap 1 00000000000000000100010007000100\n"

/* A Flush, from its Publish to its Reap. */
static void flush(vandrexu_controller *disk)
{
    vandrexu_entry entry;
    vandrexu_work work;
    uint8_t cqe[16], none[1] = {0};
    size_t count;
    memset(&entry, 0, sizeof entry);
    entry.bytes[2] = 7;
    entry.bytes[4] = 1;
    WANT(vandrexu_controller_publish(disk, 1, &entry, 1, none, 0) == VANDREXU_DONE);
    WANT(vandrexu_controller_fetch(disk, 1, &work) == VANDREXU_DONE);
    WANT(vandrexu_controller_post(disk, work.ticket, cqe) == VANDREXU_DONE);
    WANT(vandrexu_controller_reap(disk, 1, cqe, &count) == VANDREXU_DONE);
}

/* A piece of so many bytes from a place on: this text, and the place behind it; the rest of the room stays. */
static void gives(vandrexu_controller *disk, uint64_t from, size_t room, const char *text, uint64_t behind)
{
    uint8_t out[1024];
    size_t needed = 7, length = strlen(text);
    uint64_t next = 7;
    memset(out, 0x55, sizeof out);
    WANT(vandrexu_controller_history(disk, from, out, room, &needed, &next) == VANDREXU_DONE);
    WANT(needed == length && next == behind && memcmp(out, text, length) == 0);
    for (size_t at = length; at < sizeof out; at++)
        WANT(out[at] == 0x55);
}

/* Not one line from a place on fits into so many bytes: its length is told, and nothing else is written. */
static void lacks(vandrexu_controller *disk, uint64_t from, size_t room, const char *line)
{
    uint8_t out[1024];
    size_t needed = 7;
    uint64_t next = 7;
    memset(out, 0x55, sizeof out);
    WANT(vandrexu_controller_history(disk, from, out, room, &needed, &next) == VANDREXU_TOO_SMALL);
    WANT(needed == strlen(line) && next == 7);
    for (size_t at = 0; at < sizeof out; at++)
        WANT(out[at] == 0x55);
}

#ifndef REFUSES
static void nothing(void)
{
    vandrexu_controller none = VANDREXU_CONTROLLER_NONE;
    uint8_t out[4] = {9, 9, 9, 9};
    size_t needed = 7;
    uint64_t next = 7;
    WANT(vandrexu_controller_history(&none, 0, out, 4, &needed, &next) == VANDREXU_NO_HANDLE);
    WANT(needed == 7 && next == 7 && out[0] == 9 && out[3] == 9);
    WANT(vandrexu_controller_forget(&none, 1) == VANDREXU_NO_HANDLE);
}

static void places(void)
{
    vandrexu_controller disk = VANDREXU_CONTROLLER_NONE;
    size_t all = strlen(CONFIG_LINE FIRST SECOND THIRD FOURTH);
    WANT(vandrexu_controller_new(&config, &disk) == VANDREXU_DONE);
    /* no entry: the configuration's line alone */
    gives(&disk, 0, 1024, CONFIG_LINE, 1);
    gives(&disk, 1, 1024, "", 1);
    flush(&disk);
    gives(&disk, 0, 1024, CONFIG_LINE FIRST SECOND THIRD FOURTH, 5);
    gives(&disk, 0, all, CONFIG_LINE FIRST SECOND THIRD FOURTH, 5);
    gives(&disk, 0, all - 1, CONFIG_LINE FIRST SECOND THIRD, 4);
    gives(&disk, 1, 1024, FIRST SECOND THIRD FOURTH, 5);
    gives(&disk, 3, strlen(THIRD), THIRD, 4);
    gives(&disk, 2, strlen(SECOND THIRD) - 1, SECOND, 3);
    gives(&disk, 4, strlen(FOURTH), FOURTH, 5);
    lacks(&disk, 0, 0, CONFIG_LINE);
    lacks(&disk, 0, strlen(CONFIG_LINE) - 1, CONFIG_LINE);
    lacks(&disk, 1, 100, FIRST);
    lacks(&disk, 4, strlen(FOURTH) - 1, FOURTH);
    /* behind the last line */
    gives(&disk, 5, 0, "", 5);
    gives(&disk, 5, 1024, "", 5);
    gives(&disk, 6, 1024, "", 6);
    gives(&disk, UINT64_MAX, 1024, "", UINT64_MAX);
    /* the history goes on where it was left */
    flush(&disk);
    gives(&disk, 6, strlen("fetch 1 2 1 ok\n"), "fetch 1 2 1 ok\n", 7);
    vandrexu_controller_free(&disk);
}

/* The line at a place was forgotten: nothing is written. */
static void lost(vandrexu_controller *disk, uint64_t from)
{
    uint8_t out[4] = {9, 9, 9, 9};
    size_t needed = 7;
    uint64_t next = 7;
    WANT(vandrexu_controller_history(disk, from, out, 4, &needed, &next) == VANDREXU_FORGOTTEN);
    WANT(needed == 7 && next == 7 && out[0] == 9 && out[3] == 9);
}

/* What stands before a place is forgotten, and the places of the rest stay. */
static void forgets(void)
{
    vandrexu_controller disk = VANDREXU_CONTROLLER_NONE;
    uint64_t count;
    WANT(vandrexu_controller_new(&config, &disk) == VANDREXU_DONE);
    WANT(vandrexu_controller_forget(&disk, 9) == VANDREXU_DONE);
    flush(&disk);
    for (uint64_t place = 0; place < 2; place++) {
        WANT(vandrexu_controller_forget(&disk, place) == VANDREXU_DONE);
        gives(&disk, 0, 1024, CONFIG_LINE FIRST SECOND THIRD FOURTH, 5);
    }
    for (int again = 0; again < 2; again++) {
        WANT(vandrexu_controller_forget(&disk, 3 - again) == VANDREXU_DONE);
        gives(&disk, 0, 1024, CONFIG_LINE, 1);
        lacks(&disk, 0, 3, CONFIG_LINE);
        lost(&disk, 1);
        lost(&disk, 2);
        gives(&disk, 3, 1024, THIRD FOURTH, 5);
        gives(&disk, 4, strlen(FOURTH), FOURTH, 5);
        gives(&disk, 5, 1024, "", 5);
    }
    WANT(vandrexu_controller_forget(&disk, UINT64_MAX) == VANDREXU_DONE);
    WANT(vandrexu_controller_history_count(&disk, &count) == VANDREXU_DONE && count == 4);
    lost(&disk, 4);
    gives(&disk, 5, 1024, "", 5);
    /* the next steps are made and told as ever */
    flush(&disk);
    gives(&disk, 6, strlen("fetch 1 2 1 ok\n"), "fetch 1 2 1 ok\n", 7);
    vandrexu_controller_free(&disk);
}

/* A call takes no longer behind a long history: the last of 400,000 lines is had 200,000 times. */
static void long_histories(void)
{
    vandrexu_controller disk = VANDREXU_CONTROLLER_NONE;
    uint8_t out[64];
    size_t needed;
    uint64_t count, next;
    clock_t start;
    WANT(vandrexu_controller_new(&config, &disk) == VANDREXU_DONE);
    for (int i = 0; i < 100000; i++)
        flush(&disk);
    WANT(vandrexu_controller_history_count(&disk, &count) == VANDREXU_DONE && count == 400000);
    start = clock();
    for (int i = 0; i < 200000; i++)
        WANT(vandrexu_controller_history(&disk, count, out, 64, &needed, &next) == VANDREXU_DONE && next == count + 1);
    WANT(clock() - start < 20 * CLOCKS_PER_SEC);
    vandrexu_controller_free(&disk);
}

int main(void)
{
    nothing();
    places();
    forgets();
    long_histories();
    puts("history: as it should be");
    return 0;
}
#else
int main(void)
{
    vandrexu_controller disk = VANDREXU_CONTROLLER_NONE;
    uint8_t out[1024];
    size_t needed = 7;
    uint64_t next = 7;
    long kept, all, refused = 0;
    WANT(vandrexu_controller_new(&config, &disk) == VANDREXU_DONE);
    flush(&disk);
    kept = blocks;
    allocations = 0;
    gives(&disk, 0, 1024, CONFIG_LINE FIRST SECOND THIRD FOURTH, 5);
    all = allocations;
    WANT(blocks == kept);
    memset(out, 0x55, sizeof out);
    for (long at = 1; at <= all; at++) {
        allocations = 0;
        refused_at = at;
        refused += vandrexu_controller_history(&disk, 0, out, 1024, &needed, &next) == VANDREXU_NO_MEMORY;
        WANT(needed == 7 && next == 7 && blocks == kept);
        for (size_t k = 0; k < sizeof out; k++)
            WANT(out[k] == 0x55);
        refused_at = 0;
        gives(&disk, 0, 1024, CONFIG_LINE FIRST SECOND THIRD FOURTH, 5);
        lacks(&disk, 1, 100, FIRST);
    }
    vandrexu_controller_free(&disk);
    WANT(blocks == 0 && all > 0 && refused == all);
    printf("allocations of a history's lines: %ld, refused and told: %ld\n", all, refused);
    return 0;
}
#endif
