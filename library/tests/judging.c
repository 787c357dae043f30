/* Judges disks with hosts: the lines of their histories, their blocks, what hosts saw of them, and the discipline of their
 * slots. Exits with 1 at the first that isn't as it should be.
 *
 * Compiled with REFUSES it has a heap of its own in place of heap.c, refuses each allocation of a run in turn, and wants
 * that to be told and nothing to be lost. */
#include "vandrexu_slots.h"

#include <stdio.h>
#include <stdlib.h>
#include <string.h>

#define WANT(what)                                                                                                     \
    do {                                                                                                               \
        if (!(what)) {                                                                                                 \
            fprintf(stderr, "judging.c:%d: %s\n", __LINE__, #what);                                                    \
            exit(1);                                                                                                   \
        }                                                                                                              \
    } while (0)

/* Three pairs, each with a completion queue of its own; slots are the blocks 3 and 4. */
static const vandrexu_config config = {8, 1, 1, 0, 0, 3, 4, 4, 8, 3};

enum { FIRST = 3, COUNT = 2, ROOM = 65536, WORDS = 128 };

/* A disk without slots, whose hosts write whatever they want, each on the queue of its number. */
struct run {
    vandrexu_disk disk;
    vandrexu_host hosts[3];
};

#ifdef REFUSES
#include "refused_runs.h"

#else
#define TRY(call) WANT((call) == VANDREXU_DONE)
#endif

static void begin(struct run *run)
{
    memset(run, 0, sizeof *run);
    TRY(vandrexu_disk_new(&config, 3, &run->disk));
    for (uint16_t k = 1; k <= 3; k++)
        TRY(vandrexu_host_new(&run->disk, k, k, &run->hosts[k - 1]));
}

static void end(struct run *run)
{
    vandrexu_disk_free(&run->disk);
    for (int k = 0; k < 3; k++)
        vandrexu_host_free(&run->hosts[k]);
}

/* Serves the call of a host, and polls until it is over. */
static void over(struct run *run, int host, uint32_t call)
{
    vandrexu_reply reply;
    TRY(vandrexu_disk_serve(&run->disk, (uint16_t)host));
    do
        TRY(vandrexu_host_poll(&run->hosts[host - 1], call, &reply));
    while (reply.kind == VANDREXU_REPLY_PENDING);
}

/* The block of a slot: of nobody, or of the host of this number with this serial. */
static void spell(uint8_t *block, uint8_t host, uint8_t serial)
{
    memset(block, 0, 512);
    block[0] = host;
    block[8] = serial;
}

static void swaps(struct run *run, int host, uint64_t lba, uint8_t from, uint8_t from_serial, uint8_t to, uint8_t to_serial)
{
    uint8_t old[512], new[512];
    uint32_t call;
    spell(old, from, from_serial);
    spell(new, to, to_serial);
    TRY(vandrexu_host_compare_and_write(&run->hosts[host - 1], lba, old, 512, new, 512, &call));
    over(run, host, call);
}

static void writes(struct run *run, int host, uint64_t lba, uint8_t with)
{
    uint8_t block[512];
    uint32_t call;
    memset(block, with, 512);
    TRY(vandrexu_host_write(&run->hosts[host - 1], lba, block, 512, &call));
    over(run, host, call);
}

static void reads(struct run *run, int host, uint64_t lba)
{
    uint32_t call;
    TRY(vandrexu_host_read(&run->hosts[host - 1], lba, 1, &call));
    over(run, host, call);
}

/* The text of a disk's history, in pieces of so many bytes at most; its length. */
static size_t history(vandrexu_disk *disk, char *text, size_t room)
{
    size_t length = 0, needed;
    uint64_t from = 0, next, count;
    for (;;) {
        uint8_t piece[ROOM];
        TRY(vandrexu_disk_history(disk, from, piece, room, &needed, &next));
        if (next == from)
            break;
        memcpy(text + length, piece, needed);
        length += needed;
        from = next;
    }
    text[length] = 0;
    WANT(vandrexu_disk_history_count(disk, &count) == VANDREXU_DONE && from == count + 1);
    return length;
}

/* The line behind a place of a text, without its line feed, and the place behind that; 0 where there is none. */
static int next_line(const char *text, size_t *at, const uint8_t **line, size_t *length)
{
    const char *feed = strchr(text + *at, '\n');
    if (feed == NULL)
        return 0;
    *line = (const uint8_t *)text + *at;
    *length = (size_t)(feed - (text + *at));
    *at += *length + 1;
    return 1;
}

/* What hosts see of a history, as a text; its length. */
static size_t trace_of(const char *text, char *trace)
{
    vandrexu_tracer tracer = VANDREXU_TRACER_NONE;
    const uint8_t *line;
    size_t at = 0, length, seen, all;
    TRY(vandrexu_tracer_new(&config, &tracer));
    WANT(next_line(text, &at, &line, &length));
    memcpy(trace, text, all = at);
    while (next_line(text, &at, &line, &length)) {
        uint8_t piece[ROOM];
        TRY(vandrexu_tracer_take_line(&tracer, line, length));
        TRY(vandrexu_tracer_seen(&tracer, piece, ROOM, &seen));
        memcpy(trace + all, piece, seen);
        all += seen;
    }
    trace[all] = 0;
    vandrexu_tracer_free(&tracer);
    return all;
}

#ifndef REFUSES
/* How many lines of a history keep the discipline of these slots; of the first that doesn't, this is said. */
static uint64_t kept(const char *text, uint64_t first, uint32_t count, uint64_t block, const char *due)
{
    vandrexu_slot_checker slots = VANDREXU_SLOT_CHECKER_NONE;
    vandrexu_checker legal = VANDREXU_CHECKER_NONE;
    const uint8_t *line;
    uint8_t words[WORDS];
    size_t at = 0, length, needed = 7;
    uint64_t lines = 0, place = 7, lba = 7;
    int broken = 0;
    TRY(vandrexu_slot_checker_new(&config, first, count, &slots));
    TRY(vandrexu_checker_new(&config, &legal));
    WANT(next_line(text, &at, &line, &length));
    while (next_line(text, &at, &line, &length)) {
        TRY(vandrexu_checker_take_line(&legal, line, length));
        if (!broken)
            WANT(vandrexu_slot_checker_why(&slots, &place, &lba, words, WORDS, &needed) == VANDREXU_DONE && place == 7);
        /* what is no line isn't taken */
        WANT(vandrexu_slot_checker_take_line(&slots, line, length - 1) == VANDREXU_BAD_LINE);
        switch (vandrexu_slot_checker_take_line(&slots, line, length)) {
        case VANDREXU_DONE:
            WANT(!broken);
            lines++;
            break;
        case VANDREXU_SLOTS_MISUSED:
            broken = 1;
            WANT(vandrexu_slot_checker_why(&slots, &place, &lba, words, WORDS, &needed) == VANDREXU_SLOTS_MISUSED);
            WANT(place == lines + 1 && lba == block && needed == strlen(due) && memcmp(words, due, needed) == 0);
            break;
        default:
            WANT(0);
        }
    }
    if (broken) {
        memset(words, 0x55, WORDS);
        place = lba = needed = 7;
        WANT(vandrexu_slot_checker_why(&slots, &place, &lba, words, strlen(due) - 1, &needed) == VANDREXU_TOO_SMALL);
        WANT(place == lines + 1 && lba == block && needed == strlen(due) && words[0] == 0x55);
        WANT(vandrexu_slot_checker_why(&slots, &place, &lba, words, needed, &needed) == VANDREXU_SLOTS_MISUSED);
        WANT(words[needed] == 0x55);
    }
    WANT(broken == (due != NULL));
    vandrexu_slot_checker_free(&slots);
    vandrexu_checker_free(&legal);
    return lines;
}

/* Handles of zeros are answered, and nothing else is written. */
static void nothing(void)
{
    vandrexu_disk disk = VANDREXU_DISK_NONE;
    vandrexu_slot_checker slots = VANDREXU_SLOT_CHECKER_NONE;
    vandrexu_tracer tracer = VANDREXU_TRACER_NONE;
    uint8_t out[512] = {9};
    size_t needed = 7;
    uint64_t next = 7, place = 7, count = 7;
    WANT(vandrexu_disk_history(&disk, 0, out, 512, &needed, &next) == VANDREXU_NO_HANDLE);
    WANT(vandrexu_disk_history_count(&disk, &count) == VANDREXU_NO_HANDLE && count == 7);
    WANT(vandrexu_disk_medium(&disk, 0, out) == VANDREXU_NO_HANDLE);
    WANT(vandrexu_slot_checker_take_line(&slots, out, 0) == VANDREXU_NO_HANDLE);
    WANT(vandrexu_slot_checker_why(&slots, &place, &count, out, 512, &needed) == VANDREXU_NO_HANDLE);
    WANT(vandrexu_tracer_take_line(&tracer, out, 0) == VANDREXU_NO_HANDLE);
    WANT(vandrexu_tracer_seen(&tracer, out, 512, &needed) == VANDREXU_NO_HANDLE);
    WANT(needed == 7 && next == 7 && place == 7 && count == 7 && out[0] == 9);
    vandrexu_slot_checker_free(&slots);
    vandrexu_tracer_free(&tracer);
    WANT(slots.live == 0 && tracer.live == 0 && disk.live == 0);
}

/* What a checker of slots and a tracer aren't made for. */
static void made(void)
{
    static const uint64_t firsts[] = {FIRST, 65536, 65535, 0, UINT64_MAX};
    static const uint32_t counts[] = {0, 1, 2, 65537, 1};
    vandrexu_config bad = config;
    vandrexu_slot_checker slots = VANDREXU_SLOT_CHECKER_NONE;
    vandrexu_tracer tracer = VANDREXU_TRACER_NONE;
    bad.jobs = 0;
    for (int i = 0; i < 5; i++)
        WANT(vandrexu_slot_checker_new(&bad, firsts[i], counts[i], &slots) == VANDREXU_BAD_AREA && slots.live == 0);
    WANT(vandrexu_slot_checker_new(&bad, FIRST, COUNT, &slots) == VANDREXU_BAD_JOBS && slots.live == 0);
    WANT(vandrexu_tracer_new(&bad, &tracer) == VANDREXU_BAD_JOBS && tracer.live == 0);
    WANT(vandrexu_slot_checker_new(&config, 65535, 1, &slots) == VANDREXU_DONE);
    WANT(vandrexu_tracer_new(&config, &tracer) == VANDREXU_DONE);
    WANT(vandrexu_slot_checker_new(&bad, FIRST, COUNT, &slots) == VANDREXU_IN_USE);
    WANT(vandrexu_slot_checker_new(&config, FIRST, 0, &slots) == VANDREXU_BAD_AREA && slots.live != 0);
    WANT(vandrexu_tracer_new(&bad, &tracer) == VANDREXU_IN_USE);
    for (int i = 0; i < 2; i++) {
        vandrexu_slot_checker_free(&slots);
        vandrexu_tracer_free(&tracer);
        WANT(slots.at == NULL && slots.live == 0 && tracer.at == NULL && tracer.live == 0);
    }
}

/* A history in pieces of each size is the same text, and its end is told; a block is as it lies there. */
static void pieces(void)
{
    static char whole[ROOM], text[ROOM];
    static uint8_t block[512], due[512];
    struct run run;
    size_t length, needed, longest = 0, at = 0;
    uint64_t next = 7, behind;
    uint32_t call;
    const uint8_t *line;
    begin(&run);
    WANT(history(&run.disk, whole, ROOM) == strlen("config 8 1 1 0 0 3 4 4 8\n"));
    writes(&run, 1, 5, 0xA1);
    reads(&run, 2, 5);
    swaps(&run, 3, 3, 0, 0, 3, 1);
    length = history(&run.disk, whole, ROOM);
    while (next_line(whole, &at, &line, &needed))
        longest = needed + 1 > longest ? needed + 1 : longest;
    for (size_t room = longest; room <= length; room += 97) {
        WANT(history(&run.disk, text, room) == length);
        WANT(memcmp(text, whole, length) == 0);
    }
    WANT(vandrexu_disk_history(&run.disk, 0, (uint8_t *)text, 7, &needed, &next) == VANDREXU_TOO_SMALL);
    WANT(needed == strlen("config 8 1 1 0 0 3 4 4 8\n") && next == 7 && memcmp(text, whole, length) == 0);
    WANT(vandrexu_disk_history_count(&run.disk, &behind) == VANDREXU_DONE);
    WANT(vandrexu_disk_history(&run.disk, behind + 1, (uint8_t *)text, 0, &needed, &next) == VANDREXU_DONE);
    WANT(needed == 0 && next == behind + 1);
    memset(due, 0xA1, 512);
    WANT(vandrexu_disk_medium(&run.disk, 5, block) == VANDREXU_DONE && memcmp(block, due, 512) == 0);
    WANT(vandrexu_disk_medium(&run.disk, 8, block) == VANDREXU_NO_BLOCK && memcmp(block, due, 512) == 0);
    WANT(vandrexu_disk_medium(&run.disk, UINT64_MAX, block) == VANDREXU_NO_BLOCK);
    /* a look forgets nothing of what was fetched */
    TRY(vandrexu_host_read(&run.hosts[0], 5, 1, &call));
    WANT(vandrexu_disk_fetch(&run.disk, 1) == VANDREXU_DONE);
    WANT(vandrexu_disk_medium(&run.disk, 0, block) == VANDREXU_DONE && block[0] == 0);
    WANT(vandrexu_disk_fetch(&run.disk, 1) == VANDREXU_UNFINISHED);
    end(&run);
}

/* The words of each rule, and the block and the place at which it is broken first. */
static void rules(void)
{
    static char text[ROOM];
    for (int rule = 1; rule <= 8; rule++) {
        static const char *words[] = {
            "a write in the slots that is no claim, release or takeover", "a claim of a name that is claimed twice",
            "a release of a name that isn't believed", "a release of a name that was taken over",
            "a release on another completion queue than its claim", "a takeover of a name that was never given the slot",
            "a takeover of a name of its own completion queue", "a publish by a host that a takeover cut off",
        };
        struct run run;
        uint64_t before;
        begin(&run);
        if (rule == 2 || rule == 4 || rule == 5 || rule >= 7)
            swaps(&run, 1, 3, 0, 0, 1, 1);
        if (rule == 4 || rule == 8)
            swaps(&run, 2, 3, 1, 1, 2, 1);
        WANT(vandrexu_disk_history_count(&run.disk, &before) == VANDREXU_DONE);
        switch (rule) {
        case 1: writes(&run, 1, 4, 0xA1); break;
        case 2: swaps(&run, 1, 4, 0, 0, 1, 1); break;
        case 3: swaps(&run, 1, 4, 1, 1, 0, 0); break;
        case 4: swaps(&run, 1, 3, 1, 1, 0, 0); break;
        case 5: swaps(&run, 2, 3, 1, 1, 0, 0); break;
        case 6: swaps(&run, 2, 3, 1, 1, 2, 1); break;
        case 7: swaps(&run, 1, 3, 1, 1, 2, 1); break;
        default: reads(&run, 1, 0);
        }
        history(&run.disk, text, ROOM);
        WANT(kept(text, FIRST, COUNT, rule <= 3 ? 4 : 3, words[rule - 1]) == before);
        /* beside the slots nothing is broken */
        WANT(kept(text, 6, 2, 0, NULL) > before);
        end(&run);
    }
}

/* Hosts of a disk with slots keep their discipline, also where one takes over. */
static void slot_hosts(void)
{
    static char text[ROOM], trace[ROOM];
    vandrexu_disk disk = VANDREXU_DISK_NONE;
    vandrexu_slot_host one = VANDREXU_SLOT_HOST_NONE, two = VANDREXU_SLOT_HOST_NONE;
    vandrexu_slot_reply reply;
    uint8_t out[64];
    size_t length, needed;
    uint64_t count, line;
    WANT(vandrexu_slot_disk_new(&config, 2, FIRST, COUNT, &disk) == VANDREXU_DONE);
    WANT(vandrexu_slot_host_new(&disk, 1, 1, &one) == VANDREXU_DONE);
    WANT(vandrexu_slot_host_new(&disk, 2, 2, &two) == VANDREXU_DONE);
    for (int step = 0; step < 4; step++) {
        vandrexu_slot_host *host = step < 1 ? &one : &two;
        uint32_t begun = step == 0 ? vandrexu_slot_claim(&one, 0) : step == 1 ? vandrexu_slot_take_over(&two, 0, 1, 1)
            : step == 2 ? vandrexu_slot_claim(&two, 1) : vandrexu_slot_release(&two, 0);
        WANT(begun == VANDREXU_DONE && vandrexu_disk_serve(&disk, step < 1 ? 1 : 2) == VANDREXU_DONE);
        do
            WANT(vandrexu_slot_poll(host, &reply) == VANDREXU_DONE);
        while (reply.kind == VANDREXU_SLOT_PENDING);
        WANT(reply.kind == (step < 3 ? VANDREXU_SLOT_HELD : VANDREXU_SLOT_RELEASED));
        if (step == 0)
            vandrexu_slot_host_free(&one);
    }
    length = history(&disk, text, ROOM);
    WANT(vandrexu_disk_history_count(&disk, &count) == VANDREXU_DONE && kept(text, FIRST, COUNT, 0, NULL) == count);
    needed = trace_of(text, trace);
    WANT(vandrexu_certify_text((uint8_t *)trace, needed, (uint8_t *)text, length, out, 64, &needed, &line) == VANDREXU_DONE);
    vandrexu_disk_free(&disk);
    vandrexu_slot_host_free(&two);
}

/* Whether the line that begins behind this line feed ends so. */
static int ends(const char *feed, const char *with)
{
    const char *next = feed != NULL ? strchr(feed + 1, '\n') : NULL;
    return next != NULL && memcmp(next - strlen(with), with, strlen(with)) == 0;
}

/* The trace of a history: its lines for hosts, each Reap with what was read. */
static void traces(void)
{
    static char text[ROOM], trace[ROOM];
    struct run run;
    vandrexu_tracer tracer = VANDREXU_TRACER_NONE;
    const uint8_t *line;
    uint8_t out[64];
    size_t length, seen, needed, at = 0;
    uint64_t wrong;
    begin(&run);
    writes(&run, 1, 5, 0xA1);
    reads(&run, 2, 5);
    length = history(&run.disk, text, ROOM);
    seen = trace_of(text, trace);
    WANT(strstr(trace, "fetch") == NULL && strstr(trace, "post") == NULL);
    WANT(ends(strstr(trace, "\nreap 1 "), " -") && ends(strstr(trace, "\nreap 2 "), " A1"));
    WANT(vandrexu_certify_text((uint8_t *)trace, seen, (uint8_t *)text, length, out, 64, &needed, &wrong) == VANDREXU_DONE);
    /* before a line, and behind one of which hosts see nothing, nothing is told; a room too short is as before */
    WANT(vandrexu_tracer_new(&config, &tracer) == VANDREXU_DONE);
    WANT(vandrexu_tracer_seen(&tracer, out, 0, &needed) == VANDREXU_DONE && needed == 0);
    WANT(next_line(text, &at, &line, &length));
    WANT(vandrexu_tracer_take_line(&tracer, line, length) == VANDREXU_BAD_LINE);
    WANT(next_line(text, &at, &line, &length) && vandrexu_tracer_take_line(&tracer, line, length) == VANDREXU_DONE);
    for (int twice = 0; twice < 2; twice++) {
        memset(out, 0x55, 64);
        WANT(vandrexu_tracer_seen(&tracer, out, 64, &needed) == VANDREXU_TOO_SMALL && needed == length + 1 && out[0] == 0x55);
    }
    WANT(next_line(text, &at, &line, &length) && vandrexu_tracer_take_line(&tracer, line, length) == VANDREXU_DONE);
    WANT(vandrexu_tracer_seen(&tracer, out, 0, &needed) == VANDREXU_DONE && needed == 0);
    vandrexu_tracer_free(&tracer);
    end(&run);
}

int main(void)
{
    nothing();
    made();
    pieces();
    rules();
    slot_hosts();
    traces();
    puts("judging: as it should be");
    return 0;
}
#else
/* Gives 0 where a line is answered this, which isn't taken where memory is refused. */
static uint32_t takes(vandrexu_slot_checker *slots, const uint8_t *line, size_t length, uint32_t due)
{
    uint32_t answer = vandrexu_slot_checker_take_line(slots, line, length);
    return answer == due ? VANDREXU_DONE : answer;
}

static uint32_t says(vandrexu_slot_checker *slots, uint64_t *place)
{
    uint8_t words[WORDS];
    uint64_t block;
    size_t needed;
    uint32_t answer = vandrexu_slot_checker_why(slots, place, &block, words, WORDS, &needed);
    return answer == VANDREXU_SLOTS_MISUSED ? VANDREXU_DONE : answer;
}

static void run_refused(long at)
{
    static char text[ROOM], trace[ROOM], ever[ROOM];
    static size_t ever_length;
    struct run run;
    vandrexu_slot_checker slots = VANDREXU_SLOT_CHECKER_NONE;
    const uint8_t *line;
    size_t begin_of = 0, length;
    uint64_t before, place = 7, lines = 0;
    refused_at = at;
    allocations = blocks = 0;
    begin(&run);
    swaps(&run, 1, 3, 0, 0, 1, 1);
    swaps(&run, 2, 3, 1, 1, 2, 1);
    reads(&run, 2, 3);
    WANT(vandrexu_disk_history_count(&run.disk, &before) == VANDREXU_DONE);
    writes(&run, 3, 4, 0xA1);
    history(&run.disk, text, ROOM);
    length = trace_of(text, trace);
    if (at == 0)
        memcpy(ever, trace, ever_length = length);
    WANT(length == ever_length && memcmp(trace, ever, length) == 0);
    TRY(vandrexu_slot_checker_new(&config, FIRST, COUNT, &slots));
    WANT(next_line(text, &begin_of, &line, &length));
    while (next_line(text, &begin_of, &line, &length)) {
        lines++;
        TRY(takes(&slots, line, length, lines <= before ? VANDREXU_DONE : VANDREXU_SLOTS_MISUSED));
    }
    TRY(says(&slots, &place));
    WANT(place == before + 1);
    vandrexu_slot_checker_free(&slots);
    end(&run);
    WANT(blocks == 0);
}

int main(void)
{
    return refuse_each(run_refused, "judging", 100);
}
#endif
