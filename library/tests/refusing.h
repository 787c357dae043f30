/* A heap in place of heap.c, which refuses the allocation of one number, from 1; 0 refuses none. */
#ifndef REFUSING_H
#define REFUSING_H

#include <stdbool.h>
#include <stddef.h>
#include <stdlib.h>

static long refused_at, allocations, blocks;

struct tried {
    bool there;
    void *at;
};

static char nowhere;

static struct tried told(void *block, long more)
{
    struct tried answer = {block != NULL, block != NULL ? block : &nowhere};
    blocks += block != NULL ? more : 0;
    return answer;
}

struct tried rattle_alloc(size_t size, size_t alignment)
{
    return told(++allocations == refused_at ? NULL : malloc(size != 0 ? size : alignment), 1);
}

struct tried rattle_realloc(void *block, size_t kept, size_t size, size_t alignment)
{
    (void)kept;
    return told(++allocations == refused_at ? NULL : realloc(block, size != 0 ? size : alignment), 0);
}

void rattle_dealloc(void *block)
{
    blocks--;
    free(block);
}

#endif
