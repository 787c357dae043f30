/* Does with whole files, by the calls of vandrexu.h about texts, what casdisk does, prints what it prints, and ends with
 * its exit status: text run FILE, text check FILE, text certify TRACE HISTORY, text refute TRACE REFUTATION, text observe TRACE, whose history is
 * certified, too. The room for what is printed is first none, and then just what is needed. */
#include "vandrexu.h"

#include <stdio.h>
#include <stdlib.h>
#include <string.h>

struct text {
    uint8_t *bytes;
    size_t length;
};

static struct text file(const char *path)
{
    struct text it = {NULL, 0};
    FILE *from = fopen(path, "rb");
    size_t room = 0, more;
    if (from == NULL)
        exit(3);
    do {
        if (it.length == room) {
            room = 2 * room + 4096;
            it.bytes = realloc(it.bytes, room);
            if (it.bytes == NULL)
                exit(4);
        }
        more = fread(it.bytes + it.length, 1, room - it.length, from);
        it.length += more;
    } while (more != 0);
    fclose(from);
    return it;
}

static struct text texts[2];

/* What explains a trace. */
static struct text found;

static uint32_t observe(uint8_t *out, size_t room, size_t *needed, uint64_t *line)
{
    const struct text *a = &texts[0];
    size_t wanted = 0, certified;
    uint8_t words[64];
    uint32_t status = vandrexu_observe_text(a->bytes, a->length, 10000000, words, 0, &wanted, words, 0, needed, line);
    if (status != VANDREXU_TOO_SMALL)
        return status;
    found.bytes = realloc(found.bytes, wanted + 1);
    if (found.bytes == NULL)
        exit(4);
    status = vandrexu_observe_text(a->bytes, a->length, 10000000, found.bytes, wanted, &found.length, out, room, needed, line);
    if (found.length != wanted)
        exit(9);
    if (status == VANDREXU_DONE && vandrexu_certify_text(a->bytes, a->length, found.bytes, wanted, words, sizeof words, &certified, line) != status)
        exit(9);
    if (status == VANDREXU_NOT_EXPLAINED
        && vandrexu_refute_text(a->bytes, a->length, found.bytes, wanted, words, sizeof words, &certified, line) != VANDREXU_DONE)
        exit(9);
    return status;
}

static uint32_t call(char what, uint8_t *out, size_t room, size_t *needed, uint64_t *line)
{
    const struct text *a = &texts[0], *b = &texts[1];
    if (what == 'r')
        return vandrexu_run_text(a->bytes, a->length, VANDREXU_ALL_LINES, out, room, needed, line);
    if (what == 'o')
        return observe(out, room, needed, line);
    if (what == 'c')
        return vandrexu_check_text(a->bytes, a->length, out, room, needed, line);
    if (what == 'f')
        return vandrexu_refute_text(a->bytes, a->length, b->bytes, b->length, out, room, needed, line);
    return vandrexu_certify_text(a->bytes, a->length, b->bytes, b->length, out, room, needed, line);
}

/* The words and the exit status of casdisk. */
static int told(uint32_t status, uint64_t line)
{
    switch (status) {
    case VANDREXU_DONE:
        return 0;
    case VANDREXU_NOT_LEGAL:
    case VANDREXU_NOT_EXPLAINED:
    case VANDREXU_NOT_REFUTED:
        return 1;
    case VANDREXU_BAD_LINE:
        fprintf(stderr, "bad line %llu\n", (unsigned long long)line);
        return 2;
    case VANDREXU_BAD_HISTORY:
        fprintf(stderr, "bad history line %llu\n", (unsigned long long)line);
        return 2;
    case VANDREXU_OTHER_CONFIG:
        return 2;
    case VANDREXU_GAVE_UP:
        return 5;
    case VANDREXU_NOT_FOUND:
        return 6;
    case VANDREXU_NO_MEMORY:
        fprintf(stderr, "no memory\n");
        return 4;
    default:
        if (status >= 21 && status <= 30)
            fprintf(stderr, "bad config %u\n", status);
        return status >= 21 && status <= 30 ? 2 : 9;
    }
}

int main(int argc, char **argv)
{
    const char *word = argc < 3 ? "" : argv[1];
    const char what = strcmp(word, "run") == 0 ? 'r' : strcmp(word, "check") == 0 ? 'c' : strcmp(word, "observe") == 0 ? 'o'
        : strcmp(word, "certify") == 0 ? 'e' : strcmp(word, "refute") == 0 ? 'f' : 0;
    uint8_t nothing[1] = {77}, *out;
    size_t needed = 7, again = 7;
    uint64_t line = 7;
    uint32_t status;
    if (what == 0 || (what == 'e' || what == 'f') != (argc > 3))
        return 9;
    for (int at = 2; at < argc && at < 4; at++)
        texts[at - 2] = file(argv[at]);
    status = call(what, nothing, 0, &needed, &line);
    if (nothing[0] != 77 || (status == VANDREXU_TOO_SMALL) != (needed > 0))
        return 9;
    out = malloc(needed + 1);
    if (out == NULL)
        return 4;
    out[needed] = 77;
    if (needed > 0 && call(what, out, needed - 1, &again, &line) != VANDREXU_TOO_SMALL)
        return 9;
    status = call(what, out, needed + 1, &again, &line);
    if (again != needed || out[needed] != 77)
        return 9;
    fwrite(out, 1, needed, stdout);
    free(out);
    free(found.bytes);
    for (int at = 0; at < 2; at++)
        free(texts[at].bytes);
    return told(status, line);
}
