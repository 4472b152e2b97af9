/*
 * Sodgravel for C and C++: sizes and answers queries over one equipment graph, and judges shortened responses.
 *
 * `bash scripts/archive.sh` proves the library and writes target/staticlib/libsodgravel.a, for x86-64 Linux. Link that archive
 * and nothing else. There are three calls. sodgravel_size tells how long the response to a query is; sodgravel_answer writes it;
 * sodgravel_judge says whether one response is another one shortened.
 *
 * What is promised, and proved for every input (the contracts in crates/sodgravel_c/src/lib.rt):
 *
 *   - Every call returns. It accepts with number 0, or refuses with one of the numbers below, at the place that the rules fix.
 *     Judging says yes or no with number 0.
 *   - Judging says yes exactly when the second sequence can be made from the first by striking out whole fields or whole objects
 *     of a list, any number of times. It is lent no work area, and writes nothing.
 *   - An accepted answer changes the first `size` numbers of the response buffer, and no others.
 *   - A refused call changes nothing in the response buffer.
 *   - After every call, accepted or refused, every work area holds zeros only, over the whole length given. What it held before
 *     the call makes no difference.
 *
 * A call uses no heap and keeps nothing for the next call. Calls that share no work area and no response buffer may run at the
 * same time.
 *
 * What a caller must see to (nothing else is asked; any bytes, lengths and numbers are answered or refused):
 *
 *   - A pointer points to as many elements as the length given with it says, and is aligned for their type. Where the length is 0
 *     the pointer may be null. Lengths count elements and not bytes.
 *   - No work area and no response buffer overlaps another or a text. The three texts are only read, and may overlap. So are the
 *     two sequences that are judged: they may overlap, or be one.
 *   - No other thread writes to what is lent while the call runs, and none reads the areas or the response buffer.
 *
 * No proof holds this header to the library. tests/run_c.sh does: it makes a call for each number but 40, and tries the needed
 * lengths, the largest text, the largest room, the most tokens and the most open objects from both sides.
 */
#ifndef SODGRAVEL_H
#define SODGRAVEL_H

#include <stddef.h>
#include <stdint.h>

#ifdef __cplusplus
extern "C" {
#endif

/*
 * The number that a call returns: the least of these that applies. The place is the first line that offends, counted from 1, or 0
 * where this table says so. Letters are those of the records; 01 has them, and the rules in full.
 */
enum sodgravel_number {
    SODGRAVEL_ACCEPTED = 0,             /* place 0; size and visits are given */

    SODGRAVEL_ROOM_TOO_LARGE = 1,       /* answering only: the room given is above 16,384; place 0 */
    SODGRAVEL_AREA_TOO_SHORT = 2,       /* a work area is shorter than needed; place 0 */

    SODGRAVEL_SCHEMA_FORM = 10,         /* the schema breaks the text form; place 0 if it is too long */
    SODGRAVEL_SCHEMA_MAXIMUM = 11,      /* the schema passes a maximum */
    SODGRAVEL_SCHEMA_REFERENCE = 12,    /* number not declared; A, H, M or Q on a type of the wrong kind; low above high */
    SODGRAVEL_SCHEMA_REPEATED = 13,     /* the same H, G or M record a second time */
    SODGRAVEL_SCHEMA_INTERFACE = 14,    /* an M line whose object lacks a field of the interface */
    SODGRAVEL_SCHEMA_UNION = 15,        /* a U line: the union has no object type */
    SODGRAVEL_SCHEMA_QUERY_TYPE = 16,   /* not exactly one Q; place 0 */

    SODGRAVEL_GRAPH_FORM = 20,          /* the graph breaks the text form; place 0 if it is too long */
    SODGRAVEL_GRAPH_MAXIMUM = 21,       /* the graph passes a maximum */
    SODGRAVEL_GRAPH_REFERENCE = 22,     /* number not declared; N not of an object type */
    SODGRAVEL_GRAPH_FIELD = 23,         /* field not of the node's type; argument not of the field, or its value out of range */
    SODGRAVEL_GRAPH_TYPE = 24,          /* edge or property that the field's type does not allow; list mark or value wrong */
    SODGRAVEL_GRAPH_SECOND_TARGET = 25, /* field not a list, and an earlier edge of the node with that field has another target */
    SODGRAVEL_GRAPH_REPEATED = 26,      /* an equal edge, or a property with equal node and label, stands earlier */
    SODGRAVEL_GRAPH_QUERY_NODE = 27,    /* not exactly one node of the query type; place 0 */

    SODGRAVEL_QUERY_FORM = 30,          /* the query breaks the text form; place 0 if it is too long */
    SODGRAVEL_QUERY_MAXIMUM = 31,       /* more than 256 entries, or depth above 15 */
    SODGRAVEL_QUERY_NESTING = 32,       /* no entries (place 0); a depth that no line above allows; type condition without child */
    SODGRAVEL_QUERY_REFERENCE = 33,     /* number not declared; label above 255 */
    SODGRAVEL_QUERY_NOT_VALID = 34,     /* not valid by Definition 4 */

    SODGRAVEL_TWO_TARGETS = 40,         /* a field that is no list meets two targets; place 0. Never given: 25 and 26 come first */
    SODGRAVEL_SIZE_ABOVE_ROOM = 50,     /* answering only: the size exceeds the room; place 0; size and visits are given */

    SODGRAVEL_FULL_NO_RESPONSE = 71,     /* judging only: the first sequence is no response or passes a maximum; place 0 */
    SODGRAVEL_SHORTENED_NO_RESPONSE = 72 /* judging only: the second sequence is no response or passes a maximum; place 0 */
};

/* The needed length of each work area, in elements. A longer one will do. */
enum sodgravel_needed {
    SODGRAVEL_SCHEMA_AREA = 14728,     /* uint32_t: the schema */
    SODGRAVEL_NODES_AREA = 15880,      /* uint32_t: nodes and edges */
    SODGRAVEL_PROPERTIES_AREA = 14344, /* uint32_t: properties */
    SODGRAVEL_VALUES_AREA = 8200,      /* uint32_t: property values */
    SODGRAVEL_INDEX_AREA = 3072,       /* uint32_t: of each node its edges and its properties */
    SODGRAVEL_QUERY_AREA = 3592,       /* uint32_t: the query's entries */
    SODGRAVEL_ROWS_AREA = 8192         /* uint64_t: the rows of multiplicities */
};

/* The maxima that a caller needs. */
enum sodgravel_maximum {
    SODGRAVEL_MAXIMUM_TEXT = 65535,   /* bytes of a text; a longer one is refused with 10, 20 or 30, place 0 */
    SODGRAVEL_MAXIMUM_ROOM = 16384,   /* numbers of a response; a larger room is refused with 1 */
    SODGRAVEL_MAXIMUM_SIZE = 1000000, /* sizes are exact up to this one */
    SODGRAVEL_SIZE_BEYOND = 1000001,  /* the size shown for all that are larger */
    SODGRAVEL_MAXIMUM_TOKENS = 16384, /* tokens of a sequence that is judged; a longer one is refused with 71 or 72 */
    SODGRAVEL_MAXIMUM_OPEN = 16       /* `{` open at once in a sequence that is judged; one with more is refused with 71 or 72 */
};

/*
 * The tokens of a response. A token below SODGRAVEL_LABELS is a value. A token from there on, up to SODGRAVEL_LABELS + 255, is the
 * label token - SODGRAVEL_LABELS (0 to 255), which stands for name and colon. Nothing else but the five below is a token.
 *
 * A response is a sequence of fields, which may be empty. A field is a label and its content: a value, null, `[` values `]`,
 * `{` fields `}`, or `[` objects `]` where each object is `{` fields `}`.
 */
enum sodgravel_token {
    SODGRAVEL_LABELS = 1000000000,
    SODGRAVEL_OPEN_OBJECT = 2000000001,  /* { */
    SODGRAVEL_CLOSE_OBJECT = 2000000002, /* } */
    SODGRAVEL_OPEN_LIST = 2000000003,    /* [ */
    SODGRAVEL_CLOSE_LIST = 2000000004,   /* ] */
    SODGRAVEL_NULL = 2000000005
};

/* What sizing and answering return. */
typedef struct sodgravel_outcome {
    uint32_t number; /* 0, or the number of the refusal (enum sodgravel_number) */
    uint32_t place;  /* the line that offends, or 0 */
    uint32_t size;   /* the length of the response, 1,000,001 where it is above 1,000,000; 0 in a refusal other than 50 */
    uint32_t visits; /* the pairs of entry and node that the response meets; 0 in a refusal other than 50 */
} sodgravel_outcome;

/* What a call returns that says yes or no. */
typedef struct sodgravel_reply {
    uint32_t yes;              /* 1 for yes; 0 for no, and in a refusal */
    sodgravel_outcome outcome; /* number 0 for yes and for no; the size is always 0 */
} sodgravel_reply;

/* Sizes a query: checks the three texts, and returns the size of the response and the visits. Never returns 1 or 50. */
sodgravel_outcome sodgravel_size(
    const uint8_t *schema, size_t schema_length,
    const uint8_t *graph, size_t graph_length,
    const uint8_t *query, size_t query_length,
    uint32_t *schema_area, size_t schema_area_length,
    uint32_t *nodes_area, size_t nodes_area_length,
    uint32_t *properties_area, size_t properties_area_length,
    uint32_t *values_area, size_t values_area_length,
    uint32_t *index_area, size_t index_area_length,
    uint32_t *query_area, size_t query_area_length,
    uint64_t *rows_area, size_t rows_area_length);

/*
 * Answers a query: the same, and writes the response at the head of the response buffer. The room is the smaller of `room` and
 * `response_length`. A response that is longer is refused with 50, and nothing is written.
 */
sodgravel_outcome sodgravel_answer(
    const uint8_t *schema, size_t schema_length,
    const uint8_t *graph, size_t graph_length,
    const uint8_t *query, size_t query_length,
    uint32_t *schema_area, size_t schema_area_length,
    uint32_t *nodes_area, size_t nodes_area_length,
    uint32_t *properties_area, size_t properties_area_length,
    uint32_t *values_area, size_t values_area_length,
    uint32_t *index_area, size_t index_area_length,
    uint32_t *query_area, size_t query_area_length,
    uint64_t *rows_area, size_t rows_area_length,
    uint32_t room,
    uint32_t *response, size_t response_length);

/*
 * Judges a shortened response: whether `shortened` can be made from `full` by striking out whole fields or whole objects of a
 * list, any number of times. Order is kept; values, null and lists of values are never altered; an object or a list that is
 * emptied stays as empty brackets. One label may stand several times in an object. The number is 0, 71 or 72; place, size and
 * visits are 0.
 */
sodgravel_reply sodgravel_judge(
    const uint32_t *full, size_t full_length,
    const uint32_t *shortened, size_t shortened_length);

#ifdef __cplusplus
}
#endif

#endif
