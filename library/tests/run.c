/* Runs a script over a controller, by the calls of vandrexu.h, and prints what `casdisk run --show reap,refused,medium`
 * prints: run FILE. A line that is none ends it with 2. `run FILE pieces` prints in place of that the history, in pieces of
 * each size, which have to be the same text put together. A new controller that replays its lines has the same history. */
#include "vandrexu.h"

#include <ctype.h>
#include <stdio.h>
#include <stdlib.h>
#include <string.h>

enum { BLOCK = 512, WORDS = 8192, TEXT = 64 * 1024 * 1024 };

static int quiet;

static unsigned long long number(const char *word)
{
    char *end;
    unsigned long long n = strtoull(word, &end, 10);
    if (*word == '\0' || *end != '\0')
        exit(2);
    return n;
}

static uint8_t digit(char c)
{
    if (isdigit((unsigned char)c))
        return (uint8_t)(c - '0');
    return (uint8_t)(c - 'A' + 10);
}

static uint8_t byte_at(const char *hex)
{
    return (uint8_t)(16 * digit(hex[0]) + digit(hex[1]));
}

/* The bytes of DATA, and how many they are. */
static size_t data_of(const char *word, uint8_t *out)
{
    size_t count = 0;
    if (strcmp(word, "-") == 0)
        return 0;
    if (*word == 'x') {
        for (word++; *word != '\0'; word += 2)
            out[count++] = byte_at(word);
        return count;
    }
    while (*word != '\0') {
        size_t digits = strcspn(word, ".");
        for (size_t i = 0; i < BLOCK; i++)
            out[count++] = byte_at(digits == 2 ? word : word + 2 * i);
        word += digits + (word[digits] == '.');
    }
    return count;
}

/* The entry whose words begin here, and how many words it has. */
static size_t entry_of(char **words, vandrexu_entry *entry, uint8_t *data)
{
    static const struct {
        const char *name;
        uint8_t opcode;
    } names[] = {{"flush", 0}, {"write", 1}, {"read", 2}, {"compare", 5}, {"zeroes", 8}};
    memset(entry, 0, sizeof *entry);
    if (strcmp(words[0], "raw") == 0) {
        for (size_t i = 0; i < 64; i++)
            entry->bytes[i] = byte_at(words[1] + 2 * i);
        entry->count = data_of(words[2], data);
        return 3;
    }
    for (size_t i = 0; i < sizeof names / sizeof names[0]; i++)
        if (strcmp(words[0], names[i].name) == 0)
            entry->bytes[0] = names[i].opcode;
    entry->bytes[1] = (uint8_t)number(words[1]);
    for (int i = 0; i < 2; i++)
        entry->bytes[2 + i] = (uint8_t)(number(words[2]) >> (8 * i));
    entry->bytes[4] = 1;
    for (int i = 0; i < 8; i++)
        entry->bytes[40 + i] = (uint8_t)(number(words[3]) >> (8 * i));
    for (int i = 0; i < 2; i++)
        entry->bytes[48 + i] = (uint8_t)(number(words[4]) >> (8 * i));
    entry->count = data_of(words[5], data);
    return 6;
}

static uint32_t publish(vandrexu_controller *disk, char **words, size_t count)
{
    static vandrexu_entry entries[WORDS / 3];
    static uint8_t data[TEXT];
    size_t batch = 0, length = 0;
    for (size_t at = 2; at < count; at++) {
        at += entry_of(words + at, &entries[batch], data + length);
        length += entries[batch++].count;
    }
    return vandrexu_controller_publish(disk, (uint16_t)number(words[1]), entries, batch, data, length);
}

static void print_hex(const uint8_t *bytes, size_t count)
{
    for (size_t i = 0; i < count; i++)
        printf("%02X", bytes[i]);
}

static void medium(vandrexu_controller *disk, uint64_t lba)
{
    uint8_t block[BLOCK];
    if (quiet)
        return;
    printf("medium %llu ", (unsigned long long)lba);
    if (vandrexu_controller_medium(disk, lba, block) == VANDREXU_NO_BLOCK)
        printf("none");
    else
        print_hex(block, memcmp(block, block + 1, BLOCK - 1) == 0 ? 1 : BLOCK);
    printf("\n");
}

/* Does what a line asks for, and gives its answer; 0 where that has none. */
static uint32_t step(vandrexu_controller *disk, char **words, size_t count)
{
    vandrexu_work work;
    vandrexu_granted granted;
    vandrexu_blocked blocked;
    uint8_t cqe[16];
    size_t length;
    uint32_t status;
    if (strcmp(words[0], "settle") == 0)
        return vandrexu_settle(disk);
    if (count < 2)
        exit(2);
    if (strcmp(words[0], "publish") == 0)
        return publish(disk, words, count);
    if (strcmp(words[0], "fetch") == 0)
        return vandrexu_controller_fetch(disk, (uint16_t)number(words[1]), &work);
    if (strcmp(words[0], "grant") == 0)
        return vandrexu_controller_grant(disk, number(words[1]), &granted);
    if (strcmp(words[0], "block") == 0)
        return vandrexu_controller_block(disk, number(words[1]), &blocked);
    if (strcmp(words[0], "post") == 0)
        return vandrexu_controller_post(disk, number(words[1]), cqe);
    if (strcmp(words[0], "medium") == 0) {
        medium(disk, number(words[1]));
        return VANDREXU_DONE;
    }
    if (strcmp(words[0], "reap") != 0)
        exit(2);
    status = vandrexu_controller_reap(disk, (uint16_t)number(words[1]), cqe, &length);
    if (status == VANDREXU_DONE && !quiet) {
        printf("reap %s ", words[1]);
        print_hex(cqe, 16);
        printf("\n");
    }
    return status;
}

/* The words of a line, which it parts. */
static size_t words_of(char *line, char **words)
{
    size_t count = 0;
    line[strcspn(line, "\n")] = '\0';
    for (char *word = strtok(line, " "); word != NULL && count < WORDS; word = strtok(NULL, " "))
        words[count++] = word;
    return count;
}

static vandrexu_config config_of(char **words, size_t count)
{
    vandrexu_config config;
    memset(&config, 0, sizeof config);
    if (count < 10)
        exit(2);
    config.blocks = (uint32_t)number(words[1]);
    config.awun = (uint16_t)number(words[2]);
    config.acwu = (uint16_t)number(words[3]);
    config.nabsn = (uint16_t)number(words[4]);
    config.nabo = (uint16_t)number(words[5]);
    config.pairs = (uint16_t)number(words[6]);
    config.sq_size = (uint16_t)number(words[7]);
    config.cq_size = (uint16_t)number(words[8]);
    config.jobs = (uint16_t)number(words[9]);
    config.cqs = count > 10 ? (uint16_t)number(words[10]) : config.pairs;
    return config;
}

/* The history in pieces of this size, put together; a line that is longer has a piece of its own. */
static size_t pieces(vandrexu_controller *disk, size_t size, uint8_t *text)
{
    size_t length = 0, needed;
    uint64_t from = 0, next;
    for (;;) {
        size_t room = size < TEXT - length ? size : TEXT - length;
        uint32_t status = vandrexu_controller_history(disk, from, text + length, room, &needed, &next);
        if (status == VANDREXU_TOO_SMALL)
            status = vandrexu_controller_history(disk, from, text + length, needed, &needed, &next);
        if (status != VANDREXU_DONE)
            exit(5);
        if (next == from)
            return needed == 0 ? length : 0;
        from = next;
        length += needed;
    }
}

/* Wants a new controller that makes each line but the first once more to have the same history. */
static void replay(const vandrexu_config *config, const uint8_t *all, size_t length, uint8_t *text)
{
    vandrexu_controller again = VANDREXU_CONTROLLER_NONE;
    size_t line;
    if (vandrexu_controller_new(config, &again) != VANDREXU_DONE)
        exit(5);
    for (size_t from = strcspn((const char *)all, "\n") + 1; from < length; from += line + 1) {
        line = (size_t)((const uint8_t *)memchr(all + from, '\n', length - from) - (all + from));
        if (vandrexu_controller_replay(&again, all + from, line) != VANDREXU_DONE)
            exit(8);
    }
    if (pieces(&again, TEXT, text) != length || memcmp(all, text, length) != 0)
        exit(8);
    vandrexu_controller_free(&again);
}

/* Prints the history, and wants it to be the same in pieces of each size, and of a controller that replays it. */
static void print_history(const vandrexu_config *config, vandrexu_controller *disk)
{
    static uint8_t all[TEXT], text[TEXT];
    size_t length = pieces(disk, TEXT, all);
    for (size_t size = 0; size <= length + 1; size += length < 2000 || size < 200 || length - size < 3 ? 1 : size / 4)
        if (pieces(disk, size, text) != length || memcmp(all, text, length) != 0)
            exit(6);
    replay(config, all, length, text);
    fwrite(all, 1, length, stdout);
}

int main(int argc, char **argv)
{
    static char *words[WORDS];
    FILE *script = argc > 1 ? fopen(argv[1], "r") : stdin;
    char *line = NULL;
    size_t room = 0;
    vandrexu_controller disk = VANDREXU_CONTROLLER_NONE;
    vandrexu_config config;
    uint32_t status;
    if (script == NULL || getline(&line, &room, script) < 0)
        return 3;
    quiet = argc > 2;
    if (!quiet)
        fputs(line, stdout);
    config = config_of(words, words_of(line, words));
    status = vandrexu_controller_new(&config, &disk);
    if (status != VANDREXU_DONE)
        return 2;
    while (getline(&line, &room, script) > 0) {
        size_t count;
        if (*line == '#')
            continue;
        count = words_of(line, words);
        status = count > 0 ? step(&disk, words, count) : VANDREXU_NO_HANDLE;
        if (status >= VANDREXU_NO_QUEUE && status <= VANDREXU_BAD_BATCH) {
            if (!quiet)
                printf("refused %u\n", status);
        } else if (status != VANDREXU_DONE)
            return 4;
    }
    if (quiet)
        print_history(&config, &disk);
    vandrexu_controller_free(&disk);
    free(line);
    fclose(script);
    return 0;
}
