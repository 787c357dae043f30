/* Tests a toy device beside the controller: toy none|loser|phase|zeroes [SEED]
 *
 * Both are given the same random commands, of which one is under way at a time, or a fused pair, until they answer
 * otherwise: then the line is told on standard error. What hosts saw of the toy is a trace (docs/OBSERVING.md), which
 * is written to standard output. The library judges it: it looks for a history that explains the trace, and certifies
 * the one that it finds. What it says is told, and where it finds none the toy ends with 1. */
#include "vandrexu.h"

#include <stdarg.h>
#include <stdio.h>
#include <stdlib.h>
#include <string.h>

enum { BLOCK = 512, BLOCKS = 4, QUEUES = 2, SLOTS = 4, ROUNDS = 200 };
enum { WRITE = 0x01, READ = 0x02, COMPARE = 0x05, ZEROES = 0x08 };
enum { SUCCESS = 0x000, FAILED_FUSED = 0x009, COMPARE_FAILURE = 0x285 };

/* What the toy does wrong. */
enum fault {
    NONE,
    LOSER, /* a pair that differs writes its blocks all the same */
    PHASE, /* the phase tag doesn't change where a completion queue wraps */
    LEFT   /* Write Zeroes leaves the last of its blocks */
};

/* A command, or a fused pair, of one or two blocks; their data lie one behind the other. */
struct batch {
    uint16_t queue;
    size_t count;
    vandrexu_entry entries[2];
    uint8_t data[4 * BLOCK];
};

/* What a host gets of a batch: a completion for each entry, and what a Read read. */
struct answer {
    uint8_t cqe[2][16];
    uint8_t data[2 * BLOCK];
    size_t length;
};

/* ---- The toy ---- */

struct toy {
    enum fault fault;
    uint8_t volume[BLOCKS][BLOCK];
    unsigned fetched[QUEUES + 1], posted[QUEUES + 1];
};

static void toy_post(struct toy *toy, const struct batch *batch, size_t place, unsigned status, uint8_t *cqe)
{
    unsigned posted = toy->posted[batch->queue]++;
    unsigned phase = toy->fault == PHASE || posted / SLOTS % 2 == 0;
    memset(cqe, 0, 16);
    cqe[8] = (uint8_t)(toy->fetched[batch->queue] % SLOTS);
    cqe[10] = (uint8_t)batch->queue;
    memcpy(cqe + 12, batch->entries[place].bytes + 2, 2);
    cqe[14] = (uint8_t)(status << 1 | phase);
    cqe[15] = (uint8_t)(status >> 7);
}

/* Does what the batch asks for, and says whether it compared equal. */
static int toy_do(struct toy *toy, const struct batch *batch, struct answer *answer)
{
    const uint8_t *bytes = batch->entries[0].bytes;
    size_t length = ((size_t)bytes[48] + 1) * BLOCK;
    uint8_t *there = toy->volume[bytes[40]];
    int equal = 1;
    if (bytes[0] == READ)
        memcpy(answer->data, there, answer->length = length);
    else if (bytes[0] == WRITE)
        memcpy(there, batch->data, length);
    else if (bytes[0] == ZEROES)
        memset(there, 0, toy->fault == LEFT ? length - BLOCK : length);
    else if (bytes[0] == COMPARE)
        equal = memcmp(there, batch->data, length) == 0;
    if (batch->count == 2 && (equal || toy->fault == LOSER))
        memcpy(there, batch->data + length, length);
    return equal;
}

static void toy_serve(struct toy *toy, const struct batch *batch, struct answer *answer)
{
    int equal = toy_do(toy, batch, answer);
    toy->fetched[batch->queue] += (unsigned)batch->count;
    toy_post(toy, batch, 0, equal ? SUCCESS : COMPARE_FAILURE, answer->cqe[0]);
    if (batch->count == 2)
        toy_post(toy, batch, 1, equal ? SUCCESS : FAILED_FUSED, answer->cqe[1]);
}

/* ---- The controller ---- */

/* Has the controller serve a batch: 0, or the first answer that isn't. */
static uint32_t serve(vandrexu_controller *disk, const struct batch *batch, struct answer *answer)
{
    vandrexu_work work;
    size_t total = 0, count;
    uint32_t status;
    for (size_t place = 0; place < batch->count; place++)
        total += batch->entries[place].count;
    status = vandrexu_controller_publish(disk, batch->queue, batch->entries, batch->count, batch->data, total);
    if (status == VANDREXU_DONE)
        status = vandrexu_controller_fetch(disk, batch->queue, &work);
    if (status == VANDREXU_DONE)
        status = vandrexu_settle(disk);
    for (size_t place = 0; place < batch->count && status == VANDREXU_DONE; place++)
        status = vandrexu_controller_reap(disk, batch->queue, answer->cqe[place], &count);
    if (status == VANDREXU_DONE)
        status = vandrexu_controller_data(disk, answer->data, sizeof answer->data, &answer->length);
    return status;
}

/* ---- The trace ---- */

static char trace[1 << 20];
static size_t trace_length;

static void put(const char *format, ...)
{
    va_list words;
    int count;
    va_start(words, format);
    count = vsnprintf(trace + trace_length, sizeof trace - trace_length, format, words);
    va_end(words);
    if (count < 0 || (size_t)count >= sizeof trace - trace_length)
        exit(4);
    trace_length += (size_t)count;
}

static void put_hex(const uint8_t *bytes, size_t count)
{
    for (size_t i = 0; i < count; i++)
        put("%02X", bytes[i]);
}

/* Blocks of equal bytes, each told by one of them. */
static void put_data(const uint8_t *data, size_t count)
{
    put(count == 0 ? " -" : " ");
    for (size_t at = 0; at < count; at += BLOCK) {
        put(at == 0 ? "" : ".");
        put_hex(data + at, 1);
    }
}

static void put_publish(const struct batch *batch)
{
    const uint8_t *data = batch->data;
    put("publish %u ", batch->queue);
    for (size_t place = 0; place < batch->count; place++) {
        put(place == 0 ? "" : " + ");
        put_hex(batch->entries[place].bytes, 64);
        put_data(data, batch->entries[place].count);
        data += batch->entries[place].count;
    }
    put("\n");
}

static void put_reap(const struct batch *batch, size_t place, const struct answer *answer)
{
    put("reap %u ", batch->queue);
    put_hex(answer->cqe[place], 16);
    put_data(answer->data, answer->length);
    put("\n");
}

/* Tells what the library says of the trace: 0 where a history explains it, which is then certified, 1 where none was
 * found, 4 for anything else. */
static int judge(void)
{
    static uint8_t history[1 << 20], words[4096];
    const uint8_t *seen = (const uint8_t *)trace;
    size_t found, needed;
    uint64_t line;
    uint32_t status = vandrexu_observe_text(seen, trace_length, 10000000, history, sizeof history, &found, words,
                                            sizeof words, &needed, &line);
    if (status != VANDREXU_DONE && status != VANDREXU_NOT_EXPLAINED && status != VANDREXU_NOT_FOUND)
        return 4;
    fwrite(words, 1, needed, stderr);
    if (status != VANDREXU_DONE)
        return 1;
    status = vandrexu_certify_text(seen, trace_length, history, found, words, sizeof words, &needed, &line);
    return status == VANDREXU_DONE ? 0 : 4;
}

/* ---- Random batches ---- */

static uint64_t seed = 1;

/* A number below `bound`, by xorshift. */
static unsigned draw(unsigned bound)
{
    seed ^= seed << 13;
    seed ^= seed >> 7;
    seed ^= seed << 17;
    return (unsigned)(seed % bound);
}

/* Adds an entry of the batch, whose data are of blocks of equal bytes: 00, A1 or B2. */
static void add(struct batch *batch, uint8_t opcode, uint8_t fuse, uint16_t cid, unsigned slba, unsigned blocks)
{
    static const uint8_t values[] = {0x00, 0xA1, 0xB2};
    vandrexu_entry *entry = &batch->entries[batch->count];
    uint8_t *data = batch->data + batch->count++ * blocks * BLOCK;
    memset(entry, 0, sizeof *entry);
    entry->bytes[0] = opcode;
    entry->bytes[1] = fuse;
    entry->bytes[2] = (uint8_t)cid;
    entry->bytes[3] = (uint8_t)(cid >> 8);
    entry->bytes[4] = 1;
    entry->bytes[40] = (uint8_t)slba;
    entry->bytes[48] = (uint8_t)(blocks - 1);
    entry->count = opcode == WRITE || opcode == COMPARE ? blocks * BLOCK : 0;
    for (size_t at = 0; at < entry->count; at += BLOCK)
        memset(data + at, values[draw(3)], BLOCK);
}

static void draw_batch(struct batch *batch, uint16_t cid)
{
    static const uint8_t opcodes[] = {READ, WRITE, COMPARE, ZEROES};
    unsigned blocks = 1 + draw(2), slba = draw(BLOCKS + 1 - blocks), kind = draw(6);
    batch->queue = (uint16_t)(1 + draw(QUEUES));
    batch->count = 0;
    if (kind < 4) {
        add(batch, opcodes[kind], 0, cid, slba, blocks);
    } else {
        add(batch, COMPARE, 1, cid, slba, blocks);
        add(batch, WRITE, 2, (uint16_t)(cid + 1), slba, blocks);
    }
}

/* ---- Both ---- */

/* Whether this completion is told alike, and what was read with it. */
static int is_alike(const struct answer *toy, const struct answer *right, size_t place)
{
    return memcmp(toy->cqe[place], right->cqe[place], 16) == 0 && toy->length == right->length
           && memcmp(toy->data, right->data, right->length) == 0;
}

/* Gives both the same batches until they answer otherwise; 4 where the controller can't go on, else 0. */
static int compare(struct toy *toy, vandrexu_controller *disk)
{
    unsigned line = 1;
    for (uint16_t round = 0; round < ROUNDS; round++) {
        struct batch batch;
        struct answer mine = {{{0}}, {0}, 0}, right = {{{0}}, {0}, 0};
        draw_batch(&batch, (uint16_t)(2 * round));
        put_publish(&batch);
        line++;
        toy_serve(toy, &batch, &mine);
        if (serve(disk, &batch, &right) != VANDREXU_DONE)
            return 4;
        for (size_t place = 0; place < batch.count; place++) {
            put_reap(&batch, place, &mine);
            line++;
            if (!is_alike(&mine, &right, place)) {
                fprintf(stderr, "line %u: the controller answers otherwise\n", line);
                return 0;
            }
        }
    }
    fprintf(stderr, "%d commands and pairs were answered alike\n", ROUNDS);
    return 0;
}

int main(int argc, char **argv)
{
    static const char *const names[] = {"none", "loser", "phase", "zeroes"};
    static struct toy toy;
    const vandrexu_config config = {BLOCKS, 1, 1, 0, 0, QUEUES, SLOTS, SLOTS, 8, QUEUES};
    vandrexu_controller disk = VANDREXU_CONTROLLER_NONE;
    int status;
    while (argc > 1 && toy.fault <= LEFT && strcmp(argv[1], names[toy.fault]) != 0)
        toy.fault++;
    if (argc > 2)
        seed = strtoull(argv[2], NULL, 10);
    if (argc < 2 || toy.fault > LEFT || seed == 0) {
        fputs("toy none|loser|phase|zeroes [SEED]: SEED is a number above 0\n", stderr);
        return 2;
    }
    put("config %d 1 1 0 0 %d %d %d 8\n", BLOCKS, QUEUES, SLOTS, SLOTS);
    if (vandrexu_controller_new(&config, &disk) != VANDREXU_DONE)
        return 4;
    status = compare(&toy, &disk);
    vandrexu_controller_free(&disk);
    fwrite(trace, 1, trace_length, stdout);
    return status == 0 ? judge() : status;
}
