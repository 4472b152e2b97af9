/*
 * Reads one case that judges, in the form that the program `cases` reads, makes the call of the archive, and writes the line that
 * `cases` writes. With it tests/run_judge.sh tries the command ./judge on the archive.
 */
#include <stdint.h>
#include <stdio.h>
#include <stdlib.h>

#include "sodgravel.h"

/* Reads a number: ten digits and one further byte. */
static uint32_t read_number(void) {
    char digits[12] = {0};
    if (fread(digits, 1, 11, stdin) != 11) {
        exit(1);
    }
    return (uint32_t)strtoull(digits, NULL, 10);
}

/* Reads how many tokens a sequence has, and the tokens. */
static uint32_t *read_sequence(size_t *length) {
    size_t i;
    uint32_t *tokens;
    *length = read_number();
    tokens = (uint32_t *)malloc((*length + 1) * sizeof *tokens);
    if (!tokens) {
        exit(1);
    }
    for (i = 0; i < *length; i++) {
        tokens[i] = read_number();
    }
    return tokens;
}

int main(void) {
    size_t full_length, shortened_length;
    uint32_t *full, *shortened;
    sodgravel_reply reply;
    if (read_number() != 1 || read_number() != 2) {
        return 1;
    }
    full = read_sequence(&full_length);
    shortened = read_sequence(&shortened_length);
    reply = sodgravel_judge(full, full_length, shortened, shortened_length);
    printf("1\t%u\t%u\t%u\t%u\t%u\n", reply.yes, reply.outcome.number, reply.outcome.place, reply.outcome.size, reply.outcome.visits);
    free(full);
    free(shortened);
    return 0;
}
