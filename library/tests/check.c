/* Checks the text of a history by the calls of vandrexu.h: check FILE. It prints what `casdisk check` prints, and ends
 * with its exit status. With a second argument it prints the words of the first broken rule, too. */
#include "vandrexu.h"

#include "config_line.h"

#include <stdio.h>
#include <stdlib.h>

enum { WORDS = 256 };

/* What is printed of the first line that isn't legal. */
static int bad(vandrexu_checker *checker, const char *line, size_t length, unsigned long place, int wants_words)
{
    uint8_t words[WORDS];
    size_t needed;
    uint32_t status = vandrexu_checker_why(checker, (const uint8_t *)line, length, words, WORDS, &needed);
    if (status != VANDREXU_NOT_LEGAL || vandrexu_checker_take_line(checker, (const uint8_t *)line, length) != status)
        return 4;
    printf("bad at %lu", place);
    if (wants_words)
        printf(" (line %lu): %.*s", place + 1, (int)needed, (const char *)words);
    puts("");
    return 1;
}

int main(int argc, char **argv)
{
    FILE *file = argc > 1 ? fopen(argv[1], "r") : NULL;
    char *line = NULL;
    size_t room = 0;
    ssize_t length;
    unsigned long place = 0;
    int status = 0;
    vandrexu_config config;
    vandrexu_checker checker = VANDREXU_CHECKER_NONE;
    if (file == NULL || getline(&line, &room, file) < 0)
        return 3;
    if (!config_in(line, &config) || vandrexu_checker_new(&config, &checker) != VANDREXU_DONE)
        return 2;
    while (status == 0 && (length = getline(&line, &room, file)) > 0) {
        size_t bytes = (size_t)(line[length - 1] == '\n' ? length - 1 : length);
        uint8_t words[1];
        size_t needed;
        uint32_t told = vandrexu_checker_why(&checker, (const uint8_t *)line, bytes, words, 0, &needed);
        place++;
        if (told == VANDREXU_TOO_SMALL)
            status = bad(&checker, line, bytes, place, argc > 2);
        else if (told == VANDREXU_BAD_LINE)
            status = 2;
        else if (told != VANDREXU_DONE || vandrexu_checker_take_line(&checker, (const uint8_t *)line, bytes) != told)
            status = 4;
    }
    if (status == 0)
        puts("legal");
    vandrexu_checker_free(&checker);
    free(line);
    fclose(file);
    return status;
}
