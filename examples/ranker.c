/*
 * A small ranker: it checks a grammar, shrinks it, weighs the readings of a sentence by the grammar and by the shrunk one, and names
 * the best reading. Every reading weighs the same by both. Of what is refused it says why, in words.
 */
#include <inttypes.h>
#include <stdio.h>

#include "peristhox.h"

/* The symbols: a noun has rank 0, "of" has rank 2. */
enum { NOUN, OF };

/* Scores add up. Two teams have written the noun's rule, each into a state of its own, 0 and 1; state 2 is a phrase. */
static const uint8_t grammar[] = {
    PERISTHOX_MAX_PLUS, 3, 2, 0, 2, /* arithmetic, states, symbols, the rank of each */
    0, 0, 1,                        /* final weights: nothing, nothing, 0 */
    5,                              /* transitions: symbol, children, target, the weight's code */
    NOUN, 0, 1,                     /* noun -> 0 weighs 0 */
    NOUN, 1, 1,                     /* noun -> 1 weighs 0 */
    OF, 0, 1, 2, 2,                 /* of(0, 1) -> 2 weighs -1 */
    OF, 0, 2, 2, 4,                 /* of(0, 2) -> 2 weighs -2 */
    OF, 2, 1, 2, 6                  /* of(2, 1) -> 2 weighs -3 */
};

#define NODES 5 /* of the largest reading */

struct reading {
    const char *text;
    size_t nodes;
    uint8_t tree[NODES]; /* a symbol for each node, in prefix order */
};

static const struct reading readings[] = {
    {"(noun of noun) of noun", 5, {OF, OF, NOUN, NOUN, NOUN}},
    {"noun of (noun of noun)", 5, {OF, NOUN, OF, NOUN, NOUN}},
    {"noun", 1, {NOUN}},
    {"noun of", 2, {OF, NOUN}}, /* not a whole tree */
};

/* What two other writers sent: the first pads its numbers, the second counts too high. */
static const struct {
    const char *from;
    size_t length;
    uint8_t bytes[8];
} sent[] = {
    {"a writer that pads", 6, {PERISTHOX_MAX_PLUS, 0x83, 0x00, 0x02, 0x00, 0x02}},
    {"a writer that counts too high", 8, {PERISTHOX_MAX_PLUS, 0xff, 0xff, 0xff, 0xff, 0x10, 0x02, 0x00}},
};

/* Each code in words. */
static const char *const reasons[] = {
    [PERISTHOX_DONE] = "done",
    [PERISTHOX_TABLE_ENDS] = "the table ends where a byte of a number is due",
    [PERISTHOX_PADDED_NUMBER] = "a number has a needless last zero byte",
    [PERISTHOX_OUT_OF_RANGE] = "a count, a rank or the arithmetic is outside its range",
    [PERISTHOX_NOT_IN_TABLE] = "a transition's symbol or state isn't in the table",
    [PERISTHOX_ZERO_CODE] = "a transition's code is 0",
    [PERISTHOX_NOT_ABOVE] = "a transition isn't above the one before",
    [PERISTHOX_TABLE_GOES_ON] = "bytes follow the last transition",
    [PERISTHOX_TREE_ENDS] = "the tree ends while a node is due",
    [PERISTHOX_UNKNOWN_SYMBOL] = "a node's symbol isn't in the table",
    [PERISTHOX_TREE_GOES_ON] = "bytes follow a finished tree",
    [PERISTHOX_TREE_TOO_LONG] = "a node is due and there is a byte at offset 4,096",
    [PERISTHOX_ROOM_TOO_SHORT] = "the lent room is too short",
    [PERISTHOX_NO_DIRECTION] = "the direction is above 1",
    [PERISTHOX_LARGE_NUMBER] = "a number's fifth byte is 16 or more",
};

static const char *reason(uint32_t code)
{
    return code < sizeof reasons / sizeof reasons[0] && reasons[code] ? reasons[code] : "a code of a later library";
}

/* Whether the call is done; else it says why not. */
static int done(const char *what, uint64_t answer)
{
    uint32_t code = PERISTHOX_CODE(answer);

    if (code == PERISTHOX_DONE)
        return 1;
    printf("%s: refused %" PRIu32 " at %" PRIu32 ", %s\n", what, code, PERISTHOX_FIGURE(answer), reason(code));
    return 0;
}

static int weigh(const uint8_t *table, size_t length, const struct reading *reading, int64_t *weight)
{
    int64_t sheet[NODES * PERISTHOX_STATES_MAX];

    return done(reading->text, peristhox_weigh(table, length, reading->tree, reading->nodes, sheet,
                                               sizeof sheet / sizeof sheet[0], weight));
}

static void print_weight(int64_t weight)
{
    if (weight == PERISTHOX_NOTHING)
        printf("nothing");
    else
        printf("%" PRId64, weight);
}

/* Weighs each reading by both tables and names the best. Whether all weights agree. */
static int rank(const uint8_t *shrunk, size_t length)
{
    const char *best = "none";
    int64_t greatest = PERISTHOX_NOTHING; /* which is below every number */
    int64_t before, after;
    size_t i;

    for (i = 0; i < sizeof readings / sizeof readings[0]; i++) {
        if (!weigh(grammar, sizeof grammar, &readings[i], &before) || !weigh(shrunk, length, &readings[i], &after))
            continue;
        printf("%s: ", readings[i].text);
        print_weight(before);
        printf(" before, ");
        print_weight(after);
        printf(" after\n");
        if (before != after)
            return 0;
        if (greatest < after) {
            greatest = after;
            best = readings[i].text;
        }
    }
    printf("best: %s\n", best);
    return 1;
}

int main(void)
{
    static uint8_t shrunk[PERISTHOX_TABLE_MAX];
    uint64_t answer;
    size_t length, i;

    for (i = 0; i < sizeof sent / sizeof sent[0]; i++)
        if (done(sent[i].from, peristhox_check(sent[i].bytes, sent[i].length)))
            return 1;

    answer = peristhox_check(grammar, sizeof grammar);
    if (!done("grammar", answer))
        return 1;
    printf("grammar: %" PRIu32 " states, %zu bytes\n", PERISTHOX_FIGURE(answer), sizeof grammar);

    answer = peristhox_shrink(PERISTHOX_BACKWARD, grammar, sizeof grammar, shrunk, sizeof shrunk);
    if (!done("shrink", answer))
        return 1;
    length = PERISTHOX_FIGURE(answer);
    printf("shrunk: %" PRIu32 " states, %zu bytes\n", PERISTHOX_FIGURE(peristhox_check(shrunk, length)), length);

    return rank(shrunk, length) ? 0 : 1;
}
