/*
 * Answers the query of a folder that has schema.txt, graph.txt and query.txt, and prints what the program `answer` prints:
 *
 *     cc -std=c99 -Iinclude examples/c/answer_sample.c target/staticlib/libsodgravel.a -o answer_sample
 *     ./answer_sample [FOLDER]        without a folder: crates/answer/data, the sample of 01
 *
 * It compiles as C++ too.
 */
#include "sodgravel.h"

#include <stdio.h>

/* A text, and one byte more, so that a file that is too long is seen to be. */
typedef struct text {
    uint8_t bytes[SODGRAVEL_MAXIMUM_TEXT + 1];
    size_t length;
} text;

static text schema, graph, query;

static uint32_t schema_area[SODGRAVEL_SCHEMA_AREA];
static uint32_t nodes_area[SODGRAVEL_NODES_AREA];
static uint32_t properties_area[SODGRAVEL_PROPERTIES_AREA];
static uint32_t values_area[SODGRAVEL_VALUES_AREA];
static uint32_t index_area[SODGRAVEL_INDEX_AREA];
static uint32_t query_area[SODGRAVEL_QUERY_AREA];
static uint64_t rows_area[SODGRAVEL_ROWS_AREA];

static uint32_t response[SODGRAVEL_MAXIMUM_ROOM];

/* Reads a file of the folder. One that cannot be opened counts as empty. Returns 0 where the path is too long to name. */
static int read_text(const char *folder, const char *name, text *into)
{
    char path[4096];
    FILE *file;
    const int written = snprintf(path, sizeof path, "%s/%s", folder, name);

    into->length = 0;
    if (written < 0 || (size_t)written >= sizeof path) {
        fprintf(stderr, "answer_sample: the path of %s is too long\n", name);
        return 0;
    }
    file = fopen(path, "rb");
    if (file != NULL) {
        into->length = fread(into->bytes, 1, sizeof into->bytes, file);
        fclose(file);
    }
    return 1;
}

/* Prints the line of a token. */
static void print_token(uint32_t token)
{
    switch (token) {
    case SODGRAVEL_OPEN_OBJECT:
        puts("{");
        break;
    case SODGRAVEL_CLOSE_OBJECT:
        puts("}");
        break;
    case SODGRAVEL_OPEN_LIST:
        puts("[");
        break;
    case SODGRAVEL_CLOSE_LIST:
        puts("]");
        break;
    case SODGRAVEL_NULL:
        puts("N");
        break;
    default:
        if (token < SODGRAVEL_LABELS)
            printf("V\t%lu\n", (unsigned long)token);
        else
            printf("L\t%lu\n", (unsigned long)(token - SODGRAVEL_LABELS));
    }
}

int main(int count, char **words)
{
    const char *folder = count > 1 ? words[1] : "crates/answer/data";
    sodgravel_outcome outcome;
    uint32_t i;

    if (count > 2) {
        fprintf(stderr, "usage: answer_sample [FOLDER]\n");
        return 2;
    }
    if (!read_text(folder, "schema.txt", &schema) || !read_text(folder, "graph.txt", &graph)
        || !read_text(folder, "query.txt", &query))
        return 2;

    outcome = sodgravel_answer(
        schema.bytes, schema.length, graph.bytes, graph.length, query.bytes, query.length,
        schema_area, SODGRAVEL_SCHEMA_AREA, nodes_area, SODGRAVEL_NODES_AREA,
        properties_area, SODGRAVEL_PROPERTIES_AREA, values_area, SODGRAVEL_VALUES_AREA, index_area, SODGRAVEL_INDEX_AREA,
        query_area, SODGRAVEL_QUERY_AREA, rows_area, SODGRAVEL_ROWS_AREA,
        SODGRAVEL_MAXIMUM_ROOM, response, SODGRAVEL_MAXIMUM_ROOM);

    if (outcome.number != SODGRAVEL_ACCEPTED) {
        printf("no\t%lu\t%lu\t%lu\t%lu\n", (unsigned long)outcome.number, (unsigned long)outcome.place,
            (unsigned long)outcome.size, (unsigned long)outcome.visits);
        return 0;
    }
    printf("ok\t%lu\t%lu\n", (unsigned long)outcome.size, (unsigned long)outcome.visits);
    for (i = 0; i < outcome.size; i++)
        print_token(response[i]);
    return 0;
}
