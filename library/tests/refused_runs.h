/* Runs of which each allocation is refused in turn. Whoever includes this has a WANT, and the answers of calls of hosts. */
#ifndef REFUSED_RUNS_H
#define REFUSED_RUNS_H

#include "refusing.h"

#include <stdio.h>

/* How often the run that goes on was told of it. */
static long refusals;

static int is_refusal(uint32_t answer)
{
    int is = answer == VANDREXU_NO_MEMORY || answer == VANDREXU_CALL_NO_MEMORY;
    refusals += is;
    return is;
}

/* Each call is asked again where memory was refused, which no call does twice. */
#define TRY(call)                                                                                                      \
    do {                                                                                                               \
        uint32_t first_answer = (call);                                                                                \
        if (is_refusal(first_answer))                                                                                  \
            first_answer = (call);                                                                                     \
        WANT(first_answer == VANDREXU_DONE);                                                                           \
    } while (0)

/* Refuses each allocation of a run in turn, more than `least` of them: how the program ends, with 0 where each was told. */
static int refuse_each(void (*run)(long at), const char *of, long least)
{
    long all, refused = 0;
    refusals = 0;
    run(0);
    WANT(refusals == 0);
    all = allocations;
    for (long at = 1; at <= all; at++) {
        refusals = 0;
        run(at);
        refused += refusals;
    }
    printf("allocations of %s: %ld, refused and told: %ld\n", of, all, refused);
    return all > least && refused == all ? 0 : 1;
}

#endif
