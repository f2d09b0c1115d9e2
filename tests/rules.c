/* The header's kinds, rules and places, on one sheet whose goal takes a rung by each rule; with another goal, what is missing of it; and with another
 * key of a lock, its refusal. One atom stands in a long record. Then the same with a rule switched off. */
#include "every_rule.h"
#include <stdio.h>
#include <string.h>

/* The rungs expected: gained entry, rule, first and second source, and the first byte of the set. */
static const unsigned rungs[][5] = {
    {X, ZUWENDRYK_RULE_LEFT, PAIR, ZUWENDRYK_NO_SOURCE, 0},
    {Y, ZUWENDRYK_RULE_RIGHT, PAIR, ZUWENDRYK_NO_SOURCE, 0},
    {M, ZUWENDRYK_RULE_OPEN, SEAL, X, 0},
    {Z, ZUWENDRYK_RULE_SUM, ZUWENDRYK_NO_SOURCE, ZUWENDRYK_NO_SOURCE, 1 << M | 1 << SUM},
    {W, ZUWENDRYK_RULE_UNLOCK, LOCK, PRIVATE, 0},
    {JOINED, ZUWENDRYK_RULE_JOIN, Z, X, 0},
    {SEALED, ZUWENDRYK_RULE_SEAL, JOINED, W, 0},
    {GOAL, ZUWENDRYK_RULE_LOCK, SEALED, PRIVATE, 0},
};
enum { RUNGS = sizeof rungs / sizeof rungs[0] };

static int expect(const char *what, unsigned found, unsigned expected) {
    if (found != expected) printf("rules: %s is %u, expected %u\n", what, found, expected);
    return found == expected;
}

static unsigned number(const uint8_t *p) { return p[0] * 256u + p[1]; }

static int same_rung(const uint8_t *rung, const unsigned *expected) {
    return expect("a gained entry", number(rung + ZUWENDRYK_RUNG_GAINED), expected[0]) &
           expect("a rule", number(rung + ZUWENDRYK_RUNG_RULE), expected[1]) &
           expect("a first source", number(rung + ZUWENDRYK_RUNG_FIRST), expected[2]) &
           expect("a second source", number(rung + ZUWENDRYK_RUNG_SECOND), expected[3]) &
           expect("a set", rung[ZUWENDRYK_RUNG_SET], expected[4]);
}

static uint8_t buffer[ZUWENDRYK_BUFFER(ZUWENDRYK_MOST_RUNGS)];

/* The set at a place of the buffer has these members, all below 16. */
static int same_set(const char *what, size_t at, unsigned members) {
    int good = expect(what, buffer[at] + 256u * buffer[at + 1], members);
    for (size_t i = 2; good && i < ZUWENDRYK_SET; i++) good = expect(what, buffer[at + i], 0);
    return good;
}

/* The verdict, over a buffer whose bytes were all set. */
static uint32_t verdict(const uint8_t *bytes, uint32_t cut) {
    memset(buffer, 0xee, sizeof buffer);
    return zuwendryk_verdict(bytes, sizeof sheet, cut, ZUWENDRYK_MOST_RUNGS, buffer, sizeof buffer);
}

static int reached(void) {
    int good = expect("the answer", verdict(sheet, HEARD), ZUWENDRYK_REACHED + RUNGS);
    good &= same_set("the gained set", ZUWENDRYK_GAINED_AT, (1 << ZERO) - 1 - (1 << PUBLIC));
    good &= same_set("the used set of a reached goal", ZUWENDRYK_USED_AT, 0);
    good &= same_set("the remainder of a reached goal", ZUWENDRYK_REMAINDER_AT, 0);
    for (unsigned i = 0; i < RUNGS; i++) good &= same_rung(buffer + ZUWENDRYK_BUFFER(i), rungs[i]);
    return good;
}

/* The sum of M and Z is heard first, and the goal is Z: it is used, and M is missing. Zero is gained by a rung. */
static int missing(void) {
    uint8_t other[sizeof sheet];
    memcpy(other, sheet, sizeof sheet);
    other[9] = Z;
    other[ZUWENDRYK_HEARD_AT(ENTRIES) + 1] = SUM;
    int good = expect("the answer to the other goal", verdict(other, 1), ZUWENDRYK_OUT_OF_REACH + 1);
    good &= same_set("the gained set with the other goal", ZUWENDRYK_GAINED_AT, 1 << SUM | 1 << ZERO);
    good &= same_set("the used set", ZUWENDRYK_USED_AT, 1 << SUM);
    good &= same_set("the remainder", ZUWENDRYK_REMAINDER_AT, 1 << M);
    good &= expect("the gained entry of the rung", number(buffer + ZUWENDRYK_FRONT + ZUWENDRYK_RUNG_GAINED), ZERO);
    return good;
}

/* The answer to the sheet with another key of the lock: a refused call leaves the buffer, and both calls refuse alike. */
static int keyed(unsigned key, uint32_t expected) {
    uint8_t other[sizeof sheet];
    memcpy(other, sheet, sizeof sheet);
    other[LOCK_AT + 4] = (uint8_t)key;
    int good = expect("the answer to another key", verdict(other, 1) >= ZUWENDRYK_REACHED ? 0 : verdict(other, 1), expected);
    good &= expect("the validity with another key", zuwendryk_validate(other, sizeof other), expected);
    for (size_t i = 0; expected && good && i < sizeof buffer; i++) good = expect("a byte of the buffer", buffer[i], 0xee);
    return good;
}

/* The key of a lock is a half by its own record, and stands above the lock. */
static int keys(void) {
    int good = 1;
    for (unsigned key = 0; key < ENTRIES; key++) {
        uint32_t wrong = key == PUBLIC || key == PRIVATE ? 0 : ZUWENDRYK_WRONG_HALF;
        good &= keyed(key, key < LOCK ? wrong : ZUWENDRYK_FORWARD);
    }
    return good;
}

/* The verdict by the rules of a byte, over a buffer whose bytes were all set. */
static uint32_t limited(const uint8_t *bytes, unsigned rules) {
    memset(buffer, 0xee, sizeof buffer);
    return zuwendryk_limited_verdict(bytes, sizeof sheet, HEARD, ZUWENDRYK_MOST_RUNGS, (uint8_t)rules, buffer, sizeof buffer);
}

/* With every rule on, the answer and the bytes are those of the other verdict. */
static int every_rule(void) {
    static uint8_t other[sizeof buffer];
    uint32_t answer = verdict(sheet, HEARD);
    memcpy(other, buffer, sizeof buffer);
    int good = expect("the answer with every rule", limited(sheet, ZUWENDRYK_EVERY_RULE), answer);
    return good & expect("the bytes with every rule, compared,", memcmp(buffer, other, sizeof buffer) != 0, 0);
}

/* Without a rule no rung is by it, and the goal is out of reach; only Y, which right gains, isn't used. Without sum the goal's own set is missing. */
static int without(unsigned rule) {
    uint32_t answer = limited(sheet, ZUWENDRYK_EVERY_RULE & ~(unsigned)ZUWENDRYK_SWITCH(rule));
    int good = expect("the verdict without a rule", answer / 1000 * 1000, rule == ZUWENDRYK_RULE_RIGHT ? ZUWENDRYK_REACHED : ZUWENDRYK_OUT_OF_REACH);
    for (uint32_t i = 0; i < answer % 1000; i++)
        good &= expect("the rule switched off, found,", number(buffer + ZUWENDRYK_BUFFER(i) + ZUWENDRYK_RUNG_RULE) == rule, 0);
    if (rule == ZUWENDRYK_RULE_SUM) {
        good &= same_set("the used set without sum", ZUWENDRYK_USED_AT, 0);
        good &= same_set("the remainder without sum", ZUWENDRYK_REMAINDER_AT, 1 << GOAL);
    }
    return good;
}

/* The switches are the bits of a byte, each rule alone. With open alone one seal is opened, once its key is heard in place of the pair. */
static int switches(void) {
    uint8_t other[sizeof sheet];
    unsigned sum = 0;
    int good = every_rule();
    for (unsigned rule = ZUWENDRYK_RULE_LEFT; rule <= ZUWENDRYK_RULE_LOCK; rule++) {
        sum += (unsigned)ZUWENDRYK_SWITCH(rule);
        good &= without(rule);
    }
    good &= expect("the sum of the switches", sum, ZUWENDRYK_EVERY_RULE);
    memcpy(other, sheet, sizeof sheet);
    other[9] = M;
    other[ZUWENDRYK_HEARD_AT(ENTRIES) + 1] = X;
    good &= expect("the answer with open alone", limited(other, ZUWENDRYK_SWITCH(ZUWENDRYK_RULE_OPEN)), ZUWENDRYK_REACHED + 1);
    good &= same_rung(buffer + ZUWENDRYK_FRONT, rungs[2]);
    good &= expect("the answer without a rule", limited(other, 0), ZUWENDRYK_OUT_OF_REACH);
    /* Zero isn't free without sum, and nothing is in its set. */
    other[9] = ZERO;
    good &= expect("zero with sum alone", limited(other, ZUWENDRYK_SWITCH(ZUWENDRYK_RULE_SUM)) / 1000, 1);
    good &= expect("zero without sum", limited(other, ZUWENDRYK_EVERY_RULE & ~ZUWENDRYK_SWITCH(ZUWENDRYK_RULE_SUM)) / 1000, 2);
    good &= same_set("the used set of zero", ZUWENDRYK_USED_AT, 0);
    good &= same_set("the remainder of zero", ZUWENDRYK_REMAINDER_AT, 0);
    return good;
}

int main(void) {
    int good = reached();
    good &= missing();
    good &= keys();
    good &= switches();
    return !good;
}
