/* Judges the text of a history by the calls of vandrexu.h and vandrexu_slots.h. `judge slots FILE FIRST COUNT` prints what
 * `casdisk explain --slots FIRST COUNT FILE` prints, and ends with its exit status; `judge trace FILE` prints the trace that
 * `casdisk run --trace` prints of a script with this history. */
#include "vandrexu_slots.h"

#include "config_line.h"

#include <stdio.h>
#include <stdlib.h>
#include <string.h>

enum { WORDS = 256, ROOM = 1 << 20 };

/* What is printed of the first line that isn't legal; whether there was one. */
static int bad(vandrexu_checker *checker, const uint8_t *line, size_t length, unsigned long place)
{
    uint8_t words[WORDS];
    size_t needed;
    if (vandrexu_checker_why(checker, line, length, words, WORDS, &needed) != VANDREXU_NOT_LEGAL)
        return 0;
    printf("bad at %lu (line %lu): %.*s\n", place, place + 1, (int)needed, (const char *)words);
    return 1;
}

/* What is printed of the first line that breaks the discipline; whether there was one. */
static int wrong(vandrexu_slot_checker *slots, uint64_t first)
{
    uint8_t words[WORDS];
    size_t needed;
    uint64_t place, block;
    if (vandrexu_slot_checker_why(slots, &place, &block, words, WORDS, &needed) != VANDREXU_SLOTS_MISUSED)
        return 0;
    printf("slots bad at %lu (line %lu): slot %lu (block %lu): %.*s\n", (unsigned long)place, (unsigned long)place + 1,
           (unsigned long)(block - first), (unsigned long)block, (int)needed, (const char *)words);
    return 1;
}

static int judge_slots(FILE *file, char **line, size_t *room, const vandrexu_config *config, uint64_t first, uint32_t count)
{
    vandrexu_checker checker = VANDREXU_CHECKER_NONE;
    vandrexu_slot_checker slots = VANDREXU_SLOT_CHECKER_NONE;
    ssize_t length;
    unsigned long place = 0;
    int status = 0, misused = 0;
    if (vandrexu_checker_new(config, &checker) != VANDREXU_DONE || vandrexu_slot_checker_new(config, first, count, &slots) != VANDREXU_DONE)
        return 2;
    while (status == 0 && (length = getline(line, room, file)) > 0) {
        const uint8_t *text = (const uint8_t *)*line;
        size_t bytes = (size_t)((*line)[length - 1] == '\n' ? length - 1 : length);
        uint32_t told;
        place++;
        if (bad(&checker, text, bytes, place)) {
            status = 1;
        } else if (vandrexu_checker_take_line(&checker, text, bytes) != VANDREXU_DONE) {
            status = 2;
        } else {
            told = vandrexu_slot_checker_take_line(&slots, text, bytes);
            misused = misused || told == VANDREXU_SLOTS_MISUSED;
            /* once it is broken it stays so */
            if (told != (misused ? VANDREXU_SLOTS_MISUSED : VANDREXU_DONE))
                status = 4;
        }
    }
    if (status == 0) {
        status = wrong(&slots, first);
        if (status == 0)
            puts("legal");
        if (status != misused)
            status = 4;
    }
    vandrexu_checker_free(&checker);
    vandrexu_slot_checker_free(&slots);
    return status;
}

static int print_trace(FILE *file, char **line, size_t *room, const vandrexu_config *config)
{
    static uint8_t seen[ROOM];
    vandrexu_tracer tracer = VANDREXU_TRACER_NONE;
    ssize_t length;
    size_t needed;
    if (vandrexu_tracer_new(config, &tracer) != VANDREXU_DONE)
        return 2;
    while ((length = getline(line, room, file)) > 0) {
        if (vandrexu_tracer_take_line(&tracer, (const uint8_t *)*line, (size_t)length - 1) != VANDREXU_DONE)
            return 2;
        if (vandrexu_tracer_seen(&tracer, seen, ROOM, &needed) != VANDREXU_DONE)
            return 4;
        fwrite(seen, 1, needed, stdout);
    }
    vandrexu_tracer_free(&tracer);
    return 0;
}

int main(int argc, char **argv)
{
    FILE *file = argc > 2 ? fopen(argv[2], "r") : NULL;
    char *line = NULL;
    size_t room = 0;
    int is_trace = argc == 3 && strcmp(argv[1], "trace") == 0, status;
    vandrexu_config config;
    if (file == NULL || (!is_trace && argc != 5) || getline(&line, &room, file) < 0)
        return 3;
    if (is_trace)
        fputs(line, stdout);
    if (!config_in(line, &config))
        status = 2;
    else if (is_trace)
        status = print_trace(file, &line, &room, &config);
    else
        status = judge_slots(file, &line, &room, &config, strtoull(argv[3], NULL, 10), (uint32_t)strtoul(argv[4], NULL, 10));
    free(line);
    fclose(file);
    return status;
}
