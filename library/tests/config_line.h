/* Reads the line of a configuration, for the programs here that read a history. */
#ifndef CONFIG_LINE_H
#define CONFIG_LINE_H

#include "vandrexu.h"

#include <stdlib.h>
#include <string.h>

enum { NUMBERS = 10 };

/* Reads the configuration line: of nine numbers, or of ten behind `config2`. */
static int config_in(char *line, vandrexu_config *config)
{
    unsigned long numbers[NUMBERS];
    int count = 0, due;
    char *word = strtok(line, " \n");
    if (word == NULL || (strcmp(word, "config") != 0 && strcmp(word, "config2") != 0))
        return 0;
    due = strcmp(word, "config2") == 0 ? NUMBERS : NUMBERS - 1;
    while ((word = strtok(NULL, " \n")) != NULL && count < NUMBERS)
        numbers[count++] = strtoul(word, NULL, 10);
    if (count != due)
        return 0;
    if (due < NUMBERS)
        numbers[NUMBERS - 1] = numbers[5];
    config->blocks = (uint32_t)numbers[0];
    config->awun = (uint16_t)numbers[1];
    config->acwu = (uint16_t)numbers[2];
    config->nabsn = (uint16_t)numbers[3];
    config->nabo = (uint16_t)numbers[4];
    config->pairs = (uint16_t)numbers[5];
    config->sq_size = (uint16_t)numbers[6];
    config->cq_size = (uint16_t)numbers[7];
    config->jobs = (uint16_t)numbers[8];
    config->cqs = (uint16_t)numbers[9];
    return 1;
}

#endif
