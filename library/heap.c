/* The memory of libvandrexu_c.a, over the program's own malloc, realloc and free, with a limit where the program sets one.
 * What these functions do is believed. */
#include <malloc.h>
#include <stdatomic.h>
#include <stdbool.h>
#include <stddef.h>
#include <stdint.h>
#include <stdlib.h>

/* Whether there is memory, and where: where there is none, a byte that nobody uses. */
struct tried {
    bool there;
    void *at;
};

static char nowhere;

/* How many bytes the blocks have that are there, and how many they may have. */
static atomic_size_t used, most = SIZE_MAX;

static struct tried told(void *block)
{
    struct tried answer = {block != NULL, block != NULL ? block : &nowhere};
    return answer;
}

/* Counts so many bytes more, if they may be taken. */
static bool counted(size_t more)
{
    size_t now = atomic_load_explicit(&used, memory_order_relaxed);
    do {
        size_t limit = atomic_load_explicit(&most, memory_order_relaxed);
        if (now > limit || more > limit - now)
            return false;
    } while (!atomic_compare_exchange_weak_explicit(&used, &now, now + more, memory_order_relaxed, memory_order_relaxed));
    return true;
}

static void uncounted(size_t less)
{
    atomic_fetch_sub_explicit(&used, less, memory_order_relaxed);
}

/* `size` bytes for a value of this alignment, at most 16; a block of no bytes has an address of its own, too. */
struct tried rattle_alloc(size_t size, size_t alignment)
{
    void *block = malloc(size != 0 ? size : alignment);
    if (block != NULL && !counted(malloc_usable_size(block))) {
        free(block);
        block = NULL;
    }
    return told(block);
}

/* Makes a block one of `size` bytes, whose first `kept` ones are as they were; else it stays. */
struct tried rattle_realloc(void *block, size_t kept, size_t size, size_t alignment)
{
    size_t before = malloc_usable_size(block), wanted = size != 0 ? size : alignment;
    size_t more = wanted > before ? wanted - before : 0;
    void *moved;
    (void)kept;
    if (!counted(more))
        return told(NULL);
    moved = realloc(block, wanted);
    /* (what malloc rounds up is counted behind that, so the limit may be passed by it) */
    uncounted(more);
    if (moved != NULL)
        atomic_fetch_add_explicit(&used, malloc_usable_size(moved) - before, memory_order_relaxed);
    return told(moved);
}

void rattle_dealloc(void *block)
{
    uncounted(malloc_usable_size(block));
    free(block);
}

/* As vandrexu.h says. */
void vandrexu_heap_limit(size_t bytes);
size_t vandrexu_heap_used(void);

void vandrexu_heap_limit(size_t bytes)
{
    atomic_store_explicit(&most, bytes, memory_order_relaxed);
}

size_t vandrexu_heap_used(void)
{
    return atomic_load_explicit(&used, memory_order_relaxed);
}
