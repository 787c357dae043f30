/* Refuses allocations of a program that it is loaded into, by LD_PRELOAD. Those and the growths from REFUSE_FIRST to REFUSE_LAST,
   counted from 1, are refused; of these one in REFUSE_ONE_IN, drawn from REFUSE_SEED, where that is set. At the program's end
   REFUSE_REPORT gets how many were asked for, how many were refused, and how many blocks are held; then how many bytes were asked
   for, and how many were held at most. A program that runs for longer than REFUSE_SECONDS is ended by a signal. */
#include <errno.h>
#include <fcntl.h>
#include <malloc.h>
#include <stdatomic.h>
#include <stdio.h>
#include <stdlib.h>
#include <sys/syscall.h>
#include <unistd.h>

extern void *__libc_malloc(size_t);
extern void *__libc_calloc(size_t, size_t);
extern void *__libc_realloc(void *, size_t);
extern void __libc_free(void *);

/* more than a program has threads */
#define OWN 256

static _Atomic unsigned long asked, refused, asked_bytes, first = -1UL, last = -1UL, one_in = 1, drawn;
static _Atomic long held, bytes, most, owned;
static void *_Atomic own[OWN];

static unsigned long number_of(const char *name, unsigned long otherwise) {
    const char *text = getenv(name);
    return text ? strtoul(text, NULL, 10) : otherwise;
}

__attribute__((constructor)) static void begin(void) {
    asked = refused = asked_bytes = 0;
    held = bytes = most = 0;
    one_in = number_of("REFUSE_ONE_IN", 1);
    drawn = number_of("REFUSE_SEED", 0);
    last = number_of("REFUSE_LAST", -1UL);
    first = number_of("REFUSE_FIRST", -1UL);
    alarm(number_of("REFUSE_SECONDS", 0));
}

/* the next of a row of random numbers, by splitmix64 */
static unsigned long draw(void) {
    unsigned long n = drawn += 0x9E3779B97F4A7C15;
    n = (n ^ n >> 30) * 0xBF58476D1CE4E5B9;
    n = (n ^ n >> 27) * 0x94D049BB133111EB;
    return n ^ n >> 31;
}

static int is_refused(size_t n) {
    unsigned long number = ++asked;
    asked_bytes += n;
    if (number < first || number > last || (one_in > 1 && draw() % one_in))
        return 0;
    refused++;
    errno = ENOMEM;
    return 1;
}

/* one block more is held */
static void *hold(void *p) {
    long now, before = most;
    if (!p)
        return p;
    held++;
    now = bytes += malloc_usable_size(p);
    while (now > before && !atomic_compare_exchange_weak(&most, &before, now))
        ;
    return p;
}

static void let_go(void *p) {
    held--;
    bytes -= malloc_usable_size(p);
}

void *malloc(size_t n) {
    return is_refused(n) ? NULL : hold(__libc_malloc(n));
}

/* the C library's own, which it keeps for threads to come: these aren't counted */
static void *keep(void *p) {
    void *none;
    for (int place = 0; p && place < OWN; place++) {
        none = NULL;
        if (atomic_compare_exchange_strong(&own[place], &none, p)) {
            owned++;
            break;
        }
    }
    return p;
}

static int is_own(void *p) {
    void *same = p;
    for (int place = 0; owned && place < OWN; place++)
        if (own[place] == p && atomic_compare_exchange_strong(&own[place], &same, NULL)) {
            owned--;
            return 1;
        }
    return 0;
}

void *calloc(size_t n, size_t size) {
    return keep(__libc_calloc(n, size));
}

void *realloc(void *p, size_t n) {
    void *grown;
    if (!p)
        return malloc(n);
    if (is_own(p))
        return keep(__libc_realloc(p, n));
    /* what only gives memory back is no growth */
    if (n > malloc_usable_size(p) && is_refused(n))
        return NULL;
    let_go(p);
    grown = __libc_realloc(p, n);
    hold(grown ? grown : p);
    return grown;
}

void free(void *p) {
    if (p && !is_own(p))
        let_go(p);
    __libc_free(p);
}

__attribute__((destructor)) static void end(void) {
    const char *name = getenv("REFUSE_REPORT");
    char text[160];
    int file = name ? open(name, O_WRONLY | O_CREAT | O_TRUNC, 0644) : -1;
    if (file < 0)
        return;
    int length = snprintf(text, sizeof text, "%lu %lu %ld %lu %ld\n", (unsigned long)asked, (unsigned long)refused,
                          (long)held, (unsigned long)asked_bytes, (long)most);
    if (write(file, text, length) == length)
        close(file);
}

/* a program of threads ends by this */
void _exit(int status) {
    end();
    syscall(SYS_exit_group, status);
    __builtin_unreachable();
}
