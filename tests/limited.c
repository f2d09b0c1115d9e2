/* The verdict with a setting, called from C: by its prototype, and by pointers to functions whose setting is wider than a byte. The answer and the buffer
 * depend on the low 8 bits alone, whatever a caller leaves above them. */
#include "every_rule.h"
#include <stdio.h>
#include <string.h>

typedef uint32_t with_32_bits(const uint8_t *, size_t, uint32_t, uint32_t, uint32_t, uint8_t *, size_t);
typedef uint32_t with_64_bits(const uint8_t *, size_t, uint32_t, uint32_t, uint64_t, uint8_t *, size_t);

enum { NOT_NEEDED = ZUWENDRYK_SWITCH(ZUWENDRYK_RULE_RIGHT), EVERY = ZUWENDRYK_EVERY_RULE };

static uint8_t buffer[ZUWENDRYK_BUFFER(ZUWENDRYK_MOST_RUNGS)], other[sizeof buffer];
static unsigned calls, failed;

static void expect(const char *what, unsigned rules, unsigned found, unsigned expected) {
    calls++;
    if (found == expected) return;
    if (failed++ < 10) printf("limited: %s in setting %u is %u, expected %u\n", what, rules, found, expected);
}

/* The call over a buffer whose bytes were all set. */
static uint32_t limited(unsigned rules, uint32_t cut) {
    memset(buffer, 0xee, sizeof buffer);
    return zuwendryk_limited_verdict(sheet, sizeof sheet, cut, ZUWENDRYK_MOST_RUNGS, (uint8_t)rules, buffer, sizeof buffer);
}

/* The goal is reached where each rule that it needs is on, and no rung is by a rule that is off. */
static void every_setting(void) {
    for (unsigned rules = 0; rules <= EVERY; rules++) {
        uint32_t answer = limited(rules, HEARD), made = answer % 1000;
        int needed = (rules | NOT_NEEDED) == EVERY;
        expect("the verdict", rules, answer / 1000 * 1000, needed ? ZUWENDRYK_REACHED : ZUWENDRYK_OUT_OF_REACH);
        if (needed) expect("the number of rungs", rules, made, rules == EVERY ? 8 : 7);
        for (uint32_t i = 0; i < made; i++) {
            const uint8_t *rung = buffer + ZUWENDRYK_BUFFER(i) + ZUWENDRYK_RUNG_RULE;
            expect("the switch of a rung's rule", rules, rung[0] == 0 && (rules >> (rung[1] - 1) & 1), 1);
        }
        if (!(rules >> (ZUWENDRYK_RULE_SUM - 1) & 1)) {
            expect("the goal's byte in the remainder", rules, buffer[ZUWENDRYK_REMAINDER_AT + GOAL / 8], 1u << GOAL % 8);
            expect("the used set's first byte", rules, buffer[ZUWENDRYK_USED_AT], 0);
        }
    }
}

/* With every rule on the answer and the buffer are the full verdict's. */
static void full(void) {
    for (uint32_t cut = 0; cut <= HEARD + 1; cut++) {
        uint32_t answer = limited(EVERY, cut);
        memset(other, 0xee, sizeof other);
        expect("the answer", EVERY, answer, zuwendryk_verdict(sheet, sizeof sheet, cut, ZUWENDRYK_MOST_RUNGS, other, sizeof other));
        expect("the buffer's difference", EVERY, memcmp(buffer, other, sizeof buffer) != 0, 0);
    }
}

/* A refused call leaves the buffer, in each setting. */
static void refused(void) {
    for (unsigned rules = 0; rules <= EVERY; rules++) {
        memset(other, 0xee, sizeof other);
        expect("the answer past the log", rules, limited(rules, HEARD + 1), ZUWENDRYK_PAST_THE_LOG);
        expect("the buffer's difference", rules, memcmp(buffer, other, sizeof buffer) != 0, 0);
        expect("the answer with one byte less", rules,
               zuwendryk_limited_verdict(sheet, sizeof sheet, 0, 0, (uint8_t)rules, buffer, ZUWENDRYK_FRONT - 1), ZUWENDRYK_NO_SPACE);
        expect("the answer to no sheet", rules, zuwendryk_limited_verdict(sheet + 1, 9, 0, 0, (uint8_t)rules, buffer, sizeof buffer), ZUWENDRYK_NO_SHEET);
        expect("the buffer's difference", rules, memcmp(buffer, other, sizeof buffer) != 0, 0);
    }
}

/* The same call with these bits above the setting's byte, in 32 bits and in 64. The pointer is volatile, so that the compiler doesn't look through it. */
static void wider(unsigned rules, uint64_t above) {
    static void (*volatile call)(void) = (void (*)(void))zuwendryk_limited_verdict;
    uint32_t answer = limited(rules, HEARD);
    uint64_t wide = above << 8 | rules;
    memset(other, 0xee, sizeof other);
    expect("the answer by 32 bits", rules,
           ((with_32_bits *)call)(sheet, sizeof sheet, HEARD, ZUWENDRYK_MOST_RUNGS, (uint32_t)wide, other, sizeof other), answer);
    expect("the buffer's difference by 32 bits", rules, memcmp(buffer, other, sizeof buffer) != 0, 0);
    memset(other, 0xee, sizeof other);
    expect("the answer by 64 bits", rules,
           ((with_64_bits *)call)(sheet, sizeof sheet, HEARD, ZUWENDRYK_MOST_RUNGS, wide, other, sizeof other), answer);
    expect("the buffer's difference by 64 bits", rules, memcmp(buffer, other, sizeof buffer) != 0, 0);
}

static void bits_above(void) {
    static const uint64_t above[] = {0, 1, 0xff, 0xffffff, 0x800000, 0xa5a5a5, 0x5a5a5a5a5a5a5a, 0xffffffffffffff, 0x80000000000000};
    for (unsigned rules = 0; rules <= EVERY; rules++)
        for (size_t i = 0; i < sizeof above / sizeof above[0]; i++) wider(rules, above[i]);
}

int main(void) {
    every_setting();
    full();
    refused();
    bits_above();
    printf("limited: %u checks, %u failed\n", calls, failed);
    return failed != 0;
}
