/*
 * Holds sodgravel_judge and its part of include/sodgravel.h to the library: yes, no, 71, 72, and 71 before 72; the most tokens and
 * the most open objects from both sides; nulls with length 0; two sequences that overlap, and one that is given twice. Every
 * expected reply is worked out by hand. After every call all five numbers are looked at, and that the sequences are as they were.
 * Each is allocated at exactly the length given, so that valgrind sees a step beyond it. Prints how many calls were made, or the
 * first that went wrong.
 */
#include "sodgravel.h"

#include <stdio.h>
#include <stdlib.h>
#include <string.h>

/* The tokens in short; a value is itself. */
#define L(label) (SODGRAVEL_LABELS + (label))
#define OBJECT SODGRAVEL_OPEN_OBJECT
#define OBJECT_END SODGRAVEL_CLOSE_OBJECT
#define LIST SODGRAVEL_OPEN_LIST
#define LIST_END SODGRAVEL_CLOSE_LIST
#define NONE SODGRAVEL_NULL
#define FOUR_EMPTY OBJECT, OBJECT_END, OBJECT, OBJECT_END, OBJECT, OBJECT_END, OBJECT, OBJECT_END

/* A sequence written in place. */
#define TOKENS(...) of((const uint32_t[]) { __VA_ARGS__ }, sizeof((const uint32_t[]) { __VA_ARGS__ }) / sizeof(uint32_t))

/* The sample's response. */
#define SAMPLE \
    L(0), LIST, OBJECT, L(9), 17, L(2), LIST, 5, 6, LIST_END, OBJECT_END, OBJECT, L(9), 18, L(3), NONE, OBJECT_END, LIST_END

/* A sequence; null where it is empty. */
typedef struct sequence {
    const uint32_t *tokens;
    size_t length;
} sequence;

static const sequence empty = { NULL, 0 };

static unsigned long made;

static sequence of(const uint32_t *tokens, size_t length)
{
    sequence s;

    s.tokens = tokens;
    s.length = length;
    return s;
}

/* Exactly `count` tokens; null where there are none. */
static uint32_t *lend(size_t count)
{
    uint32_t *lent;

    if (count == 0)
        return NULL;
    lent = (uint32_t *)malloc(count * sizeof(uint32_t));
    if (lent == NULL) {
        fprintf(stderr, "judge: no memory\n");
        exit(1);
    }
    return lent;
}

/* A copy of a sequence at its exact length. */
static uint32_t *copied(sequence s)
{
    uint32_t *copy = lend(s.length);

    if (copy != NULL)
        memcpy(copy, s.tokens, s.length * sizeof(uint32_t));
    return copy;
}

static void same_reply(const char *name, sodgravel_reply got, uint32_t yes, uint32_t number)
{
    if (got.yes == yes && got.outcome.number == number && got.outcome.place == 0 && got.outcome.size == 0
        && got.outcome.visits == 0)
        return;
    fprintf(stderr, "judge: %s: %lu, %lu %lu %lu %lu, not %lu, %lu 0 0 0\n", name, (unsigned long)got.yes,
        (unsigned long)got.outcome.number, (unsigned long)got.outcome.place, (unsigned long)got.outcome.size,
        (unsigned long)got.outcome.visits, (unsigned long)yes, (unsigned long)number);
    exit(1);
}

static void unchanged(const char *name, sequence before, const uint32_t *after)
{
    if (before.length == 0 || memcmp(before.tokens, after, before.length * sizeof(uint32_t)) == 0)
        return;
    fprintf(stderr, "judge: %s: a sequence is changed\n", name);
    exit(1);
}

/* Makes one call on copies of two sequences, and looks at all that it returns and leaves. */
static void make(const char *name, sequence full, sequence shortened, uint32_t yes, uint32_t number)
{
    uint32_t *first = copied(full);
    uint32_t *second = copied(shortened);

    same_reply(name, sodgravel_judge(first, full.length, second, shortened.length), yes, number);
    made++;
    unchanged(name, full, first);
    unchanged(name, shortened, second);
    free(first);
    free(second);
}

/* The same with one pointer for both. */
static void make_with_itself(const char *name, sequence s, uint32_t yes, uint32_t number)
{
    uint32_t *both = copied(s);

    same_reply(name, sodgravel_judge(both, s.length, both, s.length), yes, number);
    made++;
    unchanged(name, s, both);
    free(both);
}

static void says_yes(const char *name, sequence full, sequence shortened)
{
    make(name, full, shortened, 1, SODGRAVEL_ACCEPTED);
}

static void says_no(const char *name, sequence full, sequence shortened)
{
    make(name, full, shortened, 0, SODGRAVEL_ACCEPTED);
}

/* A response can be shortened to itself and to nothing, and nothing to no other. */
static void response(const char *name, sequence s)
{
    says_yes(name, s, s);
    says_yes(name, s, empty);
    says_no(name, empty, s);
    make_with_itself(name, s, 1, SODGRAVEL_ACCEPTED);
}

/* What is no response is refused in both places, and in the first where it stands in both. */
static void no_response(const char *name, sequence s)
{
    make(name, s, empty, 0, SODGRAVEL_FULL_NO_RESPONSE);
    make(name, empty, s, 0, SODGRAVEL_SHORTENED_NO_RESPONSE);
    make(name, s, s, 0, SODGRAVEL_FULL_NO_RESPONSE);
    make_with_itself(name, s, 0, SODGRAVEL_FULL_NO_RESPONSE);
}

static void try_empty(void)
{
    says_yes("nothing to nothing", empty, empty);
    response("a value", TOKENS(L(0), 5));
    response("the least and the largest", TOKENS(L(0), 0, L(255), 999999999));
    response("null", TOKENS(L(0), NONE));
    response("an empty object", TOKENS(L(0), OBJECT, OBJECT_END));
    response("an empty list", TOKENS(L(0), LIST, LIST_END));
    response("a list of values", TOKENS(L(0), LIST, 5, 5, LIST_END));
    response("a list of objects", TOKENS(L(0), LIST, OBJECT, OBJECT_END, OBJECT, L(0), 5, OBJECT_END, LIST_END));
    response("the sample", TOKENS(SAMPLE));
}

static void try_yes(void)
{
    const sequence sample = TOKENS(SAMPLE);
    const sequence twice = TOKENS(L(0), OBJECT, L(1), 5, OBJECT_END, L(0), OBJECT, L(1), 5, L(2), 6, OBJECT_END);

    says_yes("fields struck out", sample,
        TOKENS(L(0), LIST, OBJECT, L(2), LIST, 5, 6, LIST_END, OBJECT_END, OBJECT, L(9), 18, OBJECT_END, LIST_END));
    says_yes("the first object struck out", sample,
        TOKENS(L(0), LIST, OBJECT, L(9), 18, L(3), NONE, OBJECT_END, LIST_END));
    says_yes("the second object struck out", sample,
        TOKENS(L(0), LIST, OBJECT, L(9), 17, L(2), LIST, 5, 6, LIST_END, OBJECT_END, LIST_END));
    says_yes("both objects emptied", sample, TOKENS(L(0), LIST, OBJECT, OBJECT_END, OBJECT, OBJECT_END, LIST_END));
    says_yes("one object, empty", sample, TOKENS(L(0), LIST, OBJECT, OBJECT_END, LIST_END));
    says_yes("the list emptied", sample, TOKENS(L(0), LIST, LIST_END));
    says_yes("an object emptied", twice, TOKENS(L(0), OBJECT, OBJECT_END));
    says_yes("not the first with the label", twice, TOKENS(L(0), OBJECT, L(2), 6, OBJECT_END));
    says_yes("both with the label", twice,
        TOKENS(L(0), OBJECT, L(1), 5, OBJECT_END, L(0), OBJECT, L(2), 6, OBJECT_END));
    says_yes("not the first list with the label",
        TOKENS(L(0), LIST, OBJECT, L(1), 5, OBJECT_END, LIST_END,
            L(0), LIST, OBJECT, L(1), 5, OBJECT_END, OBJECT, OBJECT_END, LIST_END),
        TOKENS(L(0), LIST, OBJECT, L(1), 5, OBJECT_END, OBJECT, OBJECT_END, LIST_END));
}

static void try_no(void)
{
    const sequence sample = TOKENS(SAMPLE);
    const sequence object = TOKENS(L(0), OBJECT, L(1), 5, OBJECT_END);
    const sequence values = TOKENS(L(0), LIST, 5, 6, LIST_END);

    says_no("objects exchanged", sample,
        TOKENS(L(0), LIST, OBJECT, L(9), 18, OBJECT_END, OBJECT, L(9), 17, OBJECT_END, LIST_END));
    says_no("objects joined", sample, TOKENS(L(0), LIST, OBJECT, L(9), 17, L(9), 18, OBJECT_END, LIST_END));
    says_no("an object too many", sample,
        TOKENS(L(0), LIST, OBJECT, OBJECT_END, OBJECT, OBJECT_END, OBJECT, OBJECT_END, LIST_END));
    says_no("a list's object alone", sample, TOKENS(L(0), OBJECT, L(9), 17, OBJECT_END));
    says_no("a field of an inner object", sample, TOKENS(L(9), 17));
    says_no("null for a list", sample, TOKENS(L(0), NONE));
    says_no("an empty object for a list", sample, TOKENS(L(0), OBJECT, OBJECT_END));
    says_no("null for an object", object, TOKENS(L(0), NONE));
    says_no("an empty list for an object", object, TOKENS(L(0), LIST, LIST_END));
    says_no("another value", object, TOKENS(L(0), OBJECT, L(1), 6, OBJECT_END));
    says_no("a value that differs far up", object, TOKENS(L(0), OBJECT, L(1), 5 + (1 << 29), OBJECT_END));
    says_no("another label", object, TOKENS(L(1), OBJECT, L(1), 5, OBJECT_END));
    says_no("a label that differs far up", object, TOKENS(L(128), OBJECT, L(1), 5, OBJECT_END));
    says_no("a field too many", object, TOKENS(L(0), OBJECT, L(1), 5, L(1), 5, OBJECT_END));
    says_no("another order", TOKENS(L(0), 5, L(1), 6), TOKENS(L(1), 6, L(0), 5));
    says_no("a list of values cut", values, TOKENS(L(0), LIST, 5, LIST_END));
    says_no("a list of values emptied", values, TOKENS(L(0), LIST, LIST_END));
    says_no("a list of values, longer", values, TOKENS(L(0), LIST, 5, 6, 6, LIST_END));
    says_no("a value for a list of one", TOKENS(L(0), LIST, 5, LIST_END), TOKENS(L(0), 5));
    says_no("an object for null", TOKENS(L(0), NONE), TOKENS(L(0), OBJECT, OBJECT_END));
    says_no("the other object with the label first",
        TOKENS(L(0), OBJECT, L(1), 5, OBJECT_END, L(0), OBJECT, L(1), 5, L(2), 6, OBJECT_END),
        TOKENS(L(0), OBJECT, L(2), 6, OBJECT_END, L(0), OBJECT, L(1), 5, OBJECT_END));
}

static void try_forms(void)
{
    no_response("a value without a label", TOKENS(5));
    no_response("a label without content", TOKENS(L(0)));
    no_response("two labels", TOKENS(L(0), L(1), 5));
    no_response("two values", TOKENS(L(0), 5, 6));
    no_response("an object without a label", TOKENS(OBJECT, OBJECT_END));
    no_response("an object that is open", TOKENS(L(0), OBJECT, L(1), 5));
    no_response("an object that is not", TOKENS(L(0), 5, OBJECT_END));
    no_response("a value in an object", TOKENS(L(0), OBJECT, 5, OBJECT_END));
    no_response("a list that is open", TOKENS(L(0), LIST, 5));
    no_response("a list closed as an object", TOKENS(L(0), LIST, 5, OBJECT_END));
    no_response("an object closed as a list", TOKENS(L(0), OBJECT, L(1), 5, LIST_END));
    no_response("a field in a list", TOKENS(L(0), LIST, L(1), 5, LIST_END));
    no_response("null in a list", TOKENS(L(0), LIST, NONE, LIST_END));
    no_response("a list in a list", TOKENS(L(0), LIST, LIST, LIST_END, LIST_END));
    no_response("an object after a value", TOKENS(L(0), LIST, 5, OBJECT, OBJECT_END, LIST_END));
    no_response("a value after an object", TOKENS(L(0), LIST, OBJECT, OBJECT_END, 5, LIST_END));
}

/* The numbers next to the tokens, as label, as value and in a list. */
static void try_numbers(void)
{
    static const uint32_t others[] = { L(256), SODGRAVEL_OPEN_OBJECT - 1, SODGRAVEL_NULL + 1, UINT32_MAX };
    size_t i;

    for (i = 0; i < sizeof others / sizeof *others; i++) {
        no_response("no token for a label", TOKENS(others[i], 5));
        no_response("no token for a value", TOKENS(L(0), others[i]));
        no_response("no token in a list", TOKENS(L(0), LIST, 5, others[i], LIST_END));
    }
    no_response("a label for a value", TOKENS(L(0), SODGRAVEL_LABELS));
    no_response("a value for a label", TOKENS(SODGRAVEL_LABELS - 1, 5));
}

static void try_order(void)
{
    const sequence sound = TOKENS(L(0), 5);
    const sequence early = TOKENS(5);
    const sequence late = TOKENS(L(0), 5, L(1), 6, OBJECT_END);

    make("the second alone", sound, early, 0, SODGRAVEL_SHORTENED_NO_RESPONSE);
    make("the second alone, at its end", sound, late, 0, SODGRAVEL_SHORTENED_NO_RESPONSE);
    make("the first alone, at its end", late, sound, 0, SODGRAVEL_FULL_NO_RESPONSE);
    make("both, the second earlier", late, early, 0, SODGRAVEL_FULL_NO_RESPONSE);
    make("both, the first earlier", early, late, 0, SODGRAVEL_FULL_NO_RESPONSE);
    make("what does not fit, and no response", sound, TOKENS(L(1), 5, OBJECT_END), 0, SODGRAVEL_SHORTENED_NO_RESPONSE);
}

/* `count` fields of two tokens. The caller frees the tokens. */
static sequence fields(size_t count)
{
    uint32_t *tokens = lend(2 * count);
    size_t i;

    for (i = 0; i < count; i++) {
        tokens[2 * i] = L(i % 256);
        tokens[2 * i + 1] = (uint32_t)i;
    }
    return of(tokens, 2 * count);
}

/* One field, a list of `count` values. The caller frees the tokens. */
static sequence values(size_t count)
{
    uint32_t *tokens = lend(count + 3);
    size_t i;

    tokens[0] = L(0);
    tokens[1] = LIST;
    for (i = 0; i < count; i++)
        tokens[2 + i] = (uint32_t)i;
    tokens[2 + count] = LIST_END;
    return of(tokens, count + 3);
}

/* 16,384 tokens are 8,192 fields of two, or a list of 16,381 values. */
static void try_lengths(void)
{
    const sequence most[2] = { fields(SODGRAVEL_MAXIMUM_TOKENS / 2), values(SODGRAVEL_MAXIMUM_TOKENS - 3) };
    const sequence above[3] = { fields(SODGRAVEL_MAXIMUM_TOKENS / 2 + 1), values(SODGRAVEL_MAXIMUM_TOKENS - 2),
        fields(SODGRAVEL_MAXIMUM_TOKENS) };
    int i;

    for (i = 0; i < 2; i++) {
        response("the most tokens", most[i]);
        make("the second above the most", most[i], above[i], 0, SODGRAVEL_SHORTENED_NO_RESPONSE);
        make("the first above the most", above[i], most[i], 0, SODGRAVEL_FULL_NO_RESPONSE);
    }
    for (i = 0; i < 3; i++)
        no_response("more than the most tokens", above[i]);
    says_yes("all fields but the last", most[0], of(most[0].tokens, most[0].length - 2));
    says_yes("all fields but the first", most[0], of(most[0].tokens + 2, most[0].length - 2));
    says_no("the last field is not there", of(most[0].tokens, most[0].length - 2), most[0]);
    says_no("other fields", most[0], most[1]);
    for (i = 0; i < 2; i++)
        free((void *)most[i].tokens);
    for (i = 0; i < 3; i++)
        free((void *)above[i].tokens);
}

/* `depth` objects, one in the other, each in a list of its own where `listed`. The caller frees the tokens. */
static sequence nested(size_t depth, int listed)
{
    const size_t width = listed ? 3 : 2;
    uint32_t *tokens = lend(depth * (2 * width - 1));
    size_t at = 0, i;

    for (i = 0; i < depth; i++) {
        tokens[at++] = L(0);
        if (listed)
            tokens[at++] = LIST;
        tokens[at++] = OBJECT;
    }
    for (i = 0; i < depth; i++) {
        tokens[at++] = OBJECT_END;
        if (listed)
            tokens[at++] = LIST_END;
    }
    return of(tokens, at);
}

/* 16 `{` may be open at once. The `[` do not count, nor does a `{` that is closed. */
static void try_depths(void)
{
    int listed;

    for (listed = 0; listed < 2; listed++) {
        const sequence few = nested(3, listed);
        const sequence most = nested(SODGRAVEL_MAXIMUM_OPEN, listed);
        const sequence above = nested(SODGRAVEL_MAXIMUM_OPEN + 1, listed);

        response("the most open objects", most);
        no_response("more than the most open objects", above);
        says_yes("deep to less deep", most, few);
        says_no("less deep to deep", few, most);
        make("the second too deep", most, above, 0, SODGRAVEL_SHORTENED_NO_RESPONSE);
        make("the first too deep", above, most, 0, SODGRAVEL_FULL_NO_RESPONSE);
        free((void *)few.tokens);
        free((void *)most.tokens);
        free((void *)above.tokens);
    }
    response("twenty objects, one after the other",
        TOKENS(L(0), LIST, FOUR_EMPTY, FOUR_EMPTY, FOUR_EMPTY, FOUR_EMPTY, FOUR_EMPTY, LIST_END));
}

/* Two parts of one sequence: fields 0 to 2, and fields 1 to 3, of four. */
static void try_overlapping(void)
{
    const sequence four = TOKENS(L(0), 5, L(1), 6, L(2), 7, L(3), 8);
    uint32_t *lent = copied(four);

    same_reply("the head of it", sodgravel_judge(lent, 8, lent, 4), 1, SODGRAVEL_ACCEPTED);
    same_reply("the end of it", sodgravel_judge(lent, 8, lent + 4, 4), 1, SODGRAVEL_ACCEPTED);
    same_reply("more than it", sodgravel_judge(lent, 4, lent, 8), 0, SODGRAVEL_ACCEPTED);
    same_reply("two parts of it", sodgravel_judge(lent, 6, lent + 2, 6), 0, SODGRAVEL_ACCEPTED);
    same_reply("a part from a value on", sodgravel_judge(lent, 8, lent + 1, 6), 0, SODGRAVEL_SHORTENED_NO_RESPONSE);
    same_reply("nothing of it", sodgravel_judge(lent, 8, lent, 0), 1, SODGRAVEL_ACCEPTED);
    made += 6;
    unchanged("parts of one sequence", four, lent);
    free(lent);
}

int main(void)
{
    if (sizeof(sodgravel_reply) != 20 || offsetof(sodgravel_reply, yes) != 0 || offsetof(sodgravel_reply, outcome) != 4) {
        fprintf(stderr, "judge: another layout of the reply\n");
        return 1;
    }
    try_empty();
    try_yes();
    try_no();
    try_forms();
    try_numbers();
    try_order();
    try_lengths();
    try_depths();
    try_overlapping();
    printf("%lu calls\n", made);
    return 0;
}
