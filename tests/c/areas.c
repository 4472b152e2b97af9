/*
 * Holds include/sodgravel.h to the library: each number but 40, which is never given; the needed lengths, the largest text and the
 * largest room from both sides; nulls with length 0; and after every call that each work area holds zeros only and the response
 * buffer just what it should. Everything lent is allocated at exactly the length given, so that valgrind sees a step beyond it.
 * Prints how many calls were made, or the first that went wrong.
 */
#include "sodgravel.h"

#include <stdio.h>
#include <stdlib.h>
#include <string.h>

#define AREAS 7
#define ROWS 6 /* the one area of uint64_t */

static const size_t needed[AREAS] = { SODGRAVEL_SCHEMA_AREA, SODGRAVEL_NODES_AREA, SODGRAVEL_PROPERTIES_AREA,
    SODGRAVEL_VALUES_AREA, SODGRAVEL_INDEX_AREA, SODGRAVEL_QUERY_AREA, SODGRAVEL_ROWS_AREA };

/* The sample of 01, and its response. */
#define SCHEMA \
    "S\t0\t999\nO\nO\nO\nI\nF\t4\t1\nF\t0\t0\nF\t0\t1\nF\t0\t0\nH\t1\t0\nH\t2\t1\nH\t2\t2\nH\t3\t1\nH\t3\t3\nH\t4\t1\n" \
    "M\t4\t2\nM\t4\t3\nQ\t1\n"
#define GRAPH "N\t1\nN\t2\nN\t3\nE\t0\t0\t1\t0\nE\t0\t0\t2\t0\nP\t1\t1\t0\t0\t17\nP\t1\t2\t1\t0\t5\t6\nP\t2\t1\t0\t0\t18\n"
#define QUERY "F\t0\t0\t0\t0\nF\t1\t9\t1\t0\nT\t1\t2\nF\t2\t2\t2\t0\nT\t1\t3\nF\t2\t3\t3\t0\n"
#define SIZE 18
#define VISITS 9

static const uint32_t tokens[SIZE] = { SODGRAVEL_LABELS, SODGRAVEL_OPEN_LIST, SODGRAVEL_OPEN_OBJECT, SODGRAVEL_LABELS + 9, 17,
    SODGRAVEL_LABELS + 2, SODGRAVEL_OPEN_LIST, 5, 6, SODGRAVEL_CLOSE_LIST, SODGRAVEL_CLOSE_OBJECT, SODGRAVEL_OPEN_OBJECT,
    SODGRAVEL_LABELS + 9, 18, SODGRAVEL_LABELS + 3, SODGRAVEL_NULL, SODGRAVEL_CLOSE_OBJECT, SODGRAVEL_CLOSE_LIST };

/* A query whose response is empty (P4). */
#define NOTHING "T\t0\t4\nF\t1\t1\t1\t0\n"

/* A call: what is lent, and what must come of it. A text that is null has length 0. */
typedef struct call {
    const char *name;
    const char *schema, *graph, *query;
    size_t lengths[AREAS];
    int filled; /* whether the areas are filled before the call, or left as malloc gives them */
    uint32_t room;
    size_t response_length;
} call;

static unsigned long made;

static void fail(const call *c, const char *what)
{
    fprintf(stderr, "areas: %s: %s\n", c->name, what);
    exit(1);
}

/* Exactly `count` elements, each byte set where `filled`; null where there are none. */
static void *lend(size_t count, size_t width, int filled)
{
    void *lent;

    if (count == 0)
        return NULL;
    lent = malloc(count * width);
    if (lent == NULL) {
        fprintf(stderr, "areas: no memory\n");
        exit(1);
    }
    if (filled)
        memset(lent, 0xa5, count * width);
    return lent;
}

/* A copy of a text at its exact length, or null. */
static uint8_t *lend_text(const char *text, size_t *length)
{
    uint8_t *lent;

    *length = text == NULL ? 0 : strlen(text);
    lent = (uint8_t *)lend(*length, 1, 1);
    if (lent != NULL)
        memcpy(lent, text, *length);
    return lent;
}

/* Whether `bytes` bytes are all `byte`. */
static int all(const void *lent, size_t bytes, unsigned byte)
{
    const unsigned char *from = (const unsigned char *)lent;
    size_t i;

    for (i = 0; i < bytes; i++)
        if (from[i] != byte)
            return 0;
    return 1;
}

static void same_outcome(const call *c, sodgravel_outcome got, uint32_t number, uint32_t place, uint32_t size, uint32_t visits)
{
    if (got.number == number && got.place == place && got.size == size && got.visits == visits)
        return;
    fprintf(stderr, "areas: %s: %lu %lu %lu %lu, not %lu %lu %lu %lu\n", c->name, (unsigned long)got.number,
        (unsigned long)got.place, (unsigned long)got.size, (unsigned long)got.visits, (unsigned long)number,
        (unsigned long)place, (unsigned long)size, (unsigned long)visits);
    exit(1);
}

/* Makes one call, of sizing or of answering, and looks at all that it leaves. `written`: the first tokens of the buffer. */
static void make(const call *c, int answering, uint32_t number, uint32_t place, uint32_t size, uint32_t visits,
    const uint32_t *written)
{
    const size_t head = answering && number == SODGRAVEL_ACCEPTED ? size : 0;
    size_t lengths[3];
    uint8_t *texts[3];
    uint32_t *area[ROWS];
    uint64_t *rows;
    uint32_t *response;
    sodgravel_outcome got;
    int i;

    texts[0] = lend_text(c->schema, &lengths[0]);
    texts[1] = lend_text(c->graph, &lengths[1]);
    texts[2] = lend_text(c->query, &lengths[2]);
    for (i = 0; i < ROWS; i++)
        area[i] = (uint32_t *)lend(c->lengths[i], sizeof(uint32_t), c->filled);
    rows = (uint64_t *)lend(c->lengths[ROWS], sizeof(uint64_t), c->filled);
    response = (uint32_t *)lend(c->response_length, sizeof(uint32_t), 1);

    if (answering)
        got = sodgravel_answer(texts[0], lengths[0], texts[1], lengths[1], texts[2], lengths[2], area[0], c->lengths[0],
            area[1], c->lengths[1], area[2], c->lengths[2], area[3], c->lengths[3], area[4], c->lengths[4], area[5],
            c->lengths[5], rows, c->lengths[ROWS], c->room, response, c->response_length);
    else
        got = sodgravel_size(texts[0], lengths[0], texts[1], lengths[1], texts[2], lengths[2], area[0], c->lengths[0],
            area[1], c->lengths[1], area[2], c->lengths[2], area[3], c->lengths[3], area[4], c->lengths[4], area[5],
            c->lengths[5], rows, c->lengths[ROWS]);
    made++;

    same_outcome(c, got, number, place, size, visits);
    for (i = 0; i < ROWS; i++)
        if (!all(area[i], c->lengths[i] * sizeof(uint32_t), 0))
            fail(c, "an area is not all zeros");
    if (!all(rows, c->lengths[ROWS] * sizeof(uint64_t), 0))
        fail(c, "the rows are not all zeros");
    if (head > c->response_length)
        fail(c, "accepted beyond the buffer");
    if (head > 0 && memcmp(response, written, head * sizeof(uint32_t)) != 0)
        fail(c, "another response");
    if (c->response_length > head && !all(response + head, (c->response_length - head) * sizeof(uint32_t), 0xa5))
        fail(c, "the buffer is changed");

    for (i = 0; i < 3; i++)
        free(texts[i]);
    for (i = 0; i < ROWS; i++)
        free(area[i]);
    free(rows);
    free(response);
}

/* The sample, with areas of the needed lengths and the largest room. */
static call sample(const char *name)
{
    call c;

    c.name = name;
    c.schema = SCHEMA;
    c.graph = GRAPH;
    c.query = QUERY;
    memcpy(c.lengths, needed, sizeof needed);
    c.filled = 1;
    c.room = SODGRAVEL_MAXIMUM_ROOM;
    c.response_length = SODGRAVEL_MAXIMUM_ROOM;
    return c;
}

/* Sizing and answering both refuse. */
static void refused(const call *c, uint32_t number, uint32_t place)
{
    make(c, 0, number, place, 0, 0, NULL);
    make(c, 1, number, place, 0, 0, NULL);
}

/* Sizing and answering both accept the sample. */
static void accepted(const call *c)
{
    make(c, 0, SODGRAVEL_ACCEPTED, 0, SIZE, VISITS, tokens);
    make(c, 1, SODGRAVEL_ACCEPTED, 0, SIZE, VISITS, tokens);
}

/* Answering the sample in a room and a buffer that are too small: 50, and its size. */
static void exceeds(const call *c)
{
    make(c, 0, SODGRAVEL_ACCEPTED, 0, SIZE, VISITS, tokens);
    make(c, 1, SODGRAVEL_SIZE_ABOVE_ROOM, 0, SIZE, VISITS, tokens);
}

static void texts(const char *name, const char *schema, const char *graph, const char *query, uint32_t number, uint32_t place)
{
    call c = sample(name);

    c.schema = schema;
    c.graph = graph;
    c.query = query;
    refused(&c, number, place);
}

/* `times` copies of a piece. The caller frees it. */
static char *repeated(const char *piece, size_t times)
{
    const size_t length = strlen(piece);
    char *text = (char *)lend(length * times + 1, 1, 0);
    size_t i;

    for (i = 0; i < times; i++)
        memcpy(text + i * length, piece, length);
    text[length * times] = '\0';
    return text;
}

static void try_rooms(void)
{
    call c = sample("room");

    accepted(&c);
    c.room = SIZE;
    accepted(&c);
    c.room = SIZE - 1;
    exceeds(&c);
    c.room = 0;
    exceeds(&c);
    c.room = SODGRAVEL_MAXIMUM_ROOM + 1;
    make(&c, 1, SODGRAVEL_ROOM_TOO_LARGE, 0, 0, 0, NULL);
    c.room = UINT32_MAX;
    make(&c, 1, SODGRAVEL_ROOM_TOO_LARGE, 0, 0, 0, NULL);

    c = sample("buffer");
    c.response_length = SIZE;
    accepted(&c);
    c.response_length = SIZE - 1;
    exceeds(&c);
    c.response_length = 0; /* null */
    exceeds(&c);

    c = sample("empty response");
    c.query = NOTHING;
    c.room = 0;
    make(&c, 1, SODGRAVEL_ACCEPTED, 0, 0, 1, NULL);
    c.response_length = 0; /* null */
    make(&c, 1, SODGRAVEL_ACCEPTED, 0, 0, 1, NULL);
}

static void try_areas(void)
{
    call c = sample("areas as malloc gives them");
    int i;

    c.filled = 0;
    accepted(&c);
    for (i = 0; i < AREAS; i++) {
        c = sample("area one longer");
        c.lengths[i]++;
        accepted(&c);
        c = sample("area one short");
        c.lengths[i]--;
        refused(&c, SODGRAVEL_AREA_TOO_SHORT, 0);
        c = sample("area null");
        c.lengths[i] = 0;
        refused(&c, SODGRAVEL_AREA_TOO_SHORT, 0);
    }
    c = sample("all null");
    memset(c.lengths, 0, sizeof c.lengths);
    c.schema = c.graph = c.query = NULL;
    c.response_length = 0;
    refused(&c, SODGRAVEL_AREA_TOO_SHORT, 0);
    c.room = SODGRAVEL_MAXIMUM_ROOM + 1;
    make(&c, 1, SODGRAVEL_ROOM_TOO_LARGE, 0, 0, 0, NULL);
}

/* A text may be null. An empty line breaks the text form at line 1; a text that is too long, at no line. */
static void try_lengths(void)
{
    char *longest = repeated("\n", SODGRAVEL_MAXIMUM_TEXT);
    char *too_long = repeated("\n", SODGRAVEL_MAXIMUM_TEXT + 1);

    texts("null schema", NULL, GRAPH, QUERY, SODGRAVEL_SCHEMA_QUERY_TYPE, 0);
    texts("null graph", SCHEMA, NULL, QUERY, SODGRAVEL_GRAPH_QUERY_NODE, 0);
    texts("null query", SCHEMA, GRAPH, NULL, SODGRAVEL_QUERY_NESTING, 0);
    texts("longest schema", longest, GRAPH, QUERY, SODGRAVEL_SCHEMA_FORM, 1);
    texts("longest graph", SCHEMA, longest, QUERY, SODGRAVEL_GRAPH_FORM, 1);
    texts("longest query", SCHEMA, GRAPH, longest, SODGRAVEL_QUERY_FORM, 1);
    texts("schema too long", too_long, GRAPH, QUERY, SODGRAVEL_SCHEMA_FORM, 0);
    texts("graph too long", SCHEMA, too_long, QUERY, SODGRAVEL_GRAPH_FORM, 0);
    texts("query too long", SCHEMA, GRAPH, too_long, SODGRAVEL_QUERY_FORM, 0);
    free(longest);
    free(too_long);
}

/* The numbers that no other call here gives: mostly the sample with a line added. */
static void try_numbers(void)
{
    char *types = repeated("O\n", 65);
    char *nodes = repeated("N\t1\n", 513);

    texts("11", types, GRAPH, QUERY, SODGRAVEL_SCHEMA_MAXIMUM, 65);
    texts("12", SCHEMA "S\t1\t0\n", GRAPH, QUERY, SODGRAVEL_SCHEMA_REFERENCE, 19);
    texts("13", SCHEMA "H\t1\t0\n", GRAPH, QUERY, SODGRAVEL_SCHEMA_REPEATED, 19);
    texts("14", SCHEMA "H\t4\t2\n", GRAPH, QUERY, SODGRAVEL_SCHEMA_INTERFACE, 17);
    texts("15", SCHEMA "U\n", GRAPH, QUERY, SODGRAVEL_SCHEMA_UNION, 19);
    texts("21", SCHEMA, nodes, QUERY, SODGRAVEL_GRAPH_MAXIMUM, 513);
    texts("22", SCHEMA, GRAPH "N\t0\n", QUERY, SODGRAVEL_GRAPH_REFERENCE, 9);
    texts("23", SCHEMA, GRAPH "P\t2\t2\t1\t0\t5\n", QUERY, SODGRAVEL_GRAPH_FIELD, 9);
    texts("24", SCHEMA, GRAPH "P\t1\t2\t0\t0\t5\n", QUERY, SODGRAVEL_GRAPH_TYPE, 9);
    texts("25", "O\nO\nF\t1\t0\nH\t0\t0\nQ\t0\n", "N\t0\nN\t1\nN\t1\nE\t0\t0\t1\t0\nE\t0\t0\t2\t0\n", QUERY,
        SODGRAVEL_GRAPH_SECOND_TARGET, 5);
    texts("26", SCHEMA, GRAPH "E\t0\t0\t1\t0\n", QUERY, SODGRAVEL_GRAPH_REPEATED, 9);
    texts("31", SCHEMA, GRAPH, QUERY "F\t16\t0\t0\t0\n", SODGRAVEL_QUERY_MAXIMUM, 7);
    texts("33", SCHEMA, GRAPH, QUERY "F\t1\t256\t1\t0\n", SODGRAVEL_QUERY_REFERENCE, 7);
    texts("34", SCHEMA, GRAPH, "F\t0\t0\t0\t0\n", SODGRAVEL_QUERY_NOT_VALID, 1);
    free(types);
    free(nodes);
}

/* A root and ten nodes, each of the eleven joined to all ten: five levels have a size that is shown, six have not. */
static void try_sizes(void)
{
    char *lines = (char *)lend(4096, 1, 0);
    call c = sample("size");
    size_t at = 0;
    int from, to;

    at += (size_t)sprintf(lines + at, "N\t1\n");
    for (to = 1; to <= 10; to++)
        at += (size_t)sprintf(lines + at, "N\t2\n");
    for (from = 0; from <= 10; from++)
        for (to = 1; to <= 10; to++)
            at += (size_t)sprintf(lines + at, "E\t%d\t0\t%d\t0\n", from, to);
    c.schema = "S\t0\t9\nO\nO\nF\t2\t1\nF\t0\t0\nH\t1\t0\nH\t2\t0\nH\t2\t1\nQ\t1\n";
    c.graph = lines;
    c.query = "F\t0\t0\t0\t0\nF\t1\t0\t0\t0\nF\t2\t0\t0\t0\nF\t3\t0\t0\t0\nF\t4\t0\t0\t0\nF\t5\t1\t1\t0\n";
    make(&c, 0, SODGRAVEL_ACCEPTED, 0, 455553, 51, NULL);
    make(&c, 1, SODGRAVEL_SIZE_ABOVE_ROOM, 0, 455553, 51, NULL);
    c.query = "F\t0\t0\t0\t0\nF\t1\t0\t0\t0\nF\t2\t0\t0\t0\nF\t3\t0\t0\t0\nF\t4\t0\t0\t0\nF\t5\t0\t0\t0\nF\t6\t1\t1\t0\n";
    make(&c, 0, SODGRAVEL_ACCEPTED, 0, SODGRAVEL_SIZE_BEYOND, 61, NULL);
    make(&c, 1, SODGRAVEL_SIZE_ABOVE_ROOM, 0, SODGRAVEL_SIZE_BEYOND, 61, NULL);
    free(lines);
}

int main(void)
{
    if (sizeof(sodgravel_outcome) != 16 || offsetof(sodgravel_outcome, place) != 4 || offsetof(sodgravel_outcome, size) != 8
        || offsetof(sodgravel_outcome, visits) != 12) {
        fprintf(stderr, "areas: another layout of the outcome\n");
        return 1;
    }
    if (SODGRAVEL_SIZE_BEYOND - SODGRAVEL_MAXIMUM_SIZE != 1) {
        fprintf(stderr, "areas: the size shown for what is beyond is not the next one\n");
        return 1;
    }
    try_rooms();
    try_areas();
    try_lengths();
    try_numbers();
    try_sizes();
    printf("%lu calls\n", made);
    return 0;
}
