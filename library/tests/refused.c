/* Refuses each allocation of each call about a whole text in turn: it has to be told, or the answer is as ever, where the
 * call can do without; nothing is kept, and the same call is answered as ever where memory is there again. */
#include "vandrexu.h"

#include "refusing.h"

#include <stdio.h>
#include <stdlib.h>
#include <string.h>

#define HEAD "config 8 1 1 0 0 2 4 4 8\n"
static const char script[] = HEAD "publish 1 write 0 7 3 0 A1\nfetch 1\nsettle\nreap 1\npublish 1 read 0 8 3 0 -\nfetch 1\nsettle\nreap 1\n";

enum { ROOM = 8192 };
static uint8_t out[ROOM], ever[ROOM], history[ROOM], trace[ROOM], found[ROOM];
static size_t needed, ever_length, told_of, history_length, trace_length, found_length;
static uint64_t line;

static uint32_t run(void)
{
    return vandrexu_run_text((const uint8_t *)script, sizeof script - 1, 63, out, ROOM, &needed, &line);
}

static uint32_t check(void)
{
    return vandrexu_check_text(history, history_length, out, ROOM, &needed, &line);
}

static uint32_t certify(void)
{
    return vandrexu_certify_text(trace, trace_length, history, history_length, out, ROOM, &needed, &line);
}

static uint32_t observe(void)
{
    return vandrexu_observe_text(trace, trace_length, 100000, found, ROOM, &found_length, out, ROOM, &needed, &line);
}

static uint32_t refute(void)
{
    static const char one[] = "refutation\nlines 2\n";
    uint32_t status = vandrexu_refute_text(trace, trace_length, (const uint8_t *)one, sizeof one - 1, out, ROOM, &needed, &line);
    return status == VANDREXU_NOT_REFUTED ? VANDREXU_DONE : status;
}

static void fail(const char *name, long at, const char *what, uint32_t status)
{
    fprintf(stderr, "refused.c: %s, allocation %ld: %s: %u\n", name, at, what, status);
    exit(1);
}

/* Whether what was given is what is given with ample memory. */
static int as_ever(void)
{
    return needed == ever_length && memcmp(out, ever, needed) == 0;
}

/* Each allocation of a call; how many there are. */
static long each(const char *name, uint32_t (*call)(void))
{
    uint32_t status;
    long all;
    refused_at = 0;
    allocations = 0;
    if ((status = call()) != VANDREXU_DONE || blocks != 0)
        fail(name, 0, "with ample memory", status);
    all = allocations;
    ever_length = needed;
    memcpy(ever, out, needed);
    for (long at = 1; at <= all; at++) {
        allocations = 0;
        refused_at = at;
        status = call();
        told_of += status == VANDREXU_NO_MEMORY;
        if (status != VANDREXU_NO_MEMORY && !(status == VANDREXU_DONE && as_ever()))
            fail(name, at, "neither told nor as ever", status);
        if (blocks != 0)
            fail(name, at, "something is kept", (uint32_t)blocks);
        refused_at = 0;
        if ((status = call()) != VANDREXU_DONE || !as_ever())
            fail(name, at, "not as ever behind it", status);
    }
    return all;
}

/* What hosts see of the history: its publish and reap lines, each Reap with what was read. */
static void see(void)
{
    int reaps = 0;
    char *at = (char *)history, *end;
    history[history_length] = 0;
    for (; (end = strchr(at, '\n')) != NULL; at = end + 1) {
        int is_reap = strncmp(at, "reap", 4) == 0;
        reaps += is_reap;
        if (is_reap || strncmp(at, "publish", 7) == 0 || strncmp(at, "config", 6) == 0)
            trace_length += (size_t)sprintf((char *)trace + trace_length, "%.*s%s\n", (int)(end - at), at, !is_reap ? "" : reaps == 2 ? " A1" : " -");
    }
}

int main(void)
{
    long all = each("run", run);
    memcpy(history, out, needed);
    history_length = needed;
    see();
    all += each("check", check) + each("certify", certify) + each("refute", refute) + each("observe", observe);
    printf("allocations of calls about texts: %ld, refused and told: %zu\n", all, told_of);
    return told_of * 2 < (size_t)all;
}
