/* The header's numbers, in a file that is both C and C++: the sizes are made in size_t, agree with the tables, and are constants. */
#include "zuwendryk.h"
#include <stdio.h>
#include <string.h>

static uint8_t sheet[ZUWENDRYK_LONGEST_SHEET], buffer[ZUWENDRYK_BUFFER(ZUWENDRYK_MOST_RUNGS)];
static unsigned failed;

static void expect(const char *what, size_t found, size_t expected) {
    if (found == expected) return;
    printf("header: %s is %zu, expected %zu\n", what, found, expected);
    failed++;
}

static void sizes(void) {
    int many = 200000000; /* 40 times this is more than an int holds */
    uint16_t few = 3;
    expect("the front", ZUWENDRYK_FRONT, 96);
    expect("the buffer of no rung", ZUWENDRYK_BUFFER(0), ZUWENDRYK_FRONT);
    expect("the buffer of the most rungs", sizeof buffer, ZUWENDRYK_FRONT + 10240);
    expect("a buffer of many rungs", ZUWENDRYK_BUFFER(many), ZUWENDRYK_FRONT + 8000000000u);
    expect("a buffer of few + 1 rungs", ZUWENDRYK_BUFFER(few + 1), ZUWENDRYK_FRONT + 160);
    expect("the type of a buffer's length", sizeof ZUWENDRYK_BUFFER(few), sizeof(size_t));
    expect("the gained set", ZUWENDRYK_GAINED_AT, 0);
    expect("the used set", ZUWENDRYK_USED_AT, ZUWENDRYK_GAINED_AT + ZUWENDRYK_SET);
    expect("the remainder", ZUWENDRYK_REMAINDER_AT, ZUWENDRYK_USED_AT + ZUWENDRYK_SET);
    expect("the end of the remainder", ZUWENDRYK_REMAINDER_AT + ZUWENDRYK_SET, ZUWENDRYK_FRONT);
    expect("the set in a rung", ZUWENDRYK_RUNG_SET + ZUWENDRYK_SET, ZUWENDRYK_RUNG);
    expect("where heard messages begin", ZUWENDRYK_HEARD_AT(5), 30);
    expect("where records begin", ZUWENDRYK_RECORDS_AT(5, few), 36);
    expect("the longest sheet", ZUWENDRYK_RECORDS_AT(ZUWENDRYK_MOST_ENTRIES, ZUWENDRYK_MOST_HEARD) + 5 + 255 * (1 + 2 * ZUWENDRYK_MOST_ITEMS),
           sizeof sheet);
}

/* The verdict on a sheet of one atom that nobody heard, in a record of this length, with no rung and so much of the buffer. */
static uint32_t atom(uint32_t number, uint8_t length, size_t space) {
    uint8_t one[] = {'S', 'H', 'T', '1', 0, 1, 0, 0, 0, 0, 0, 14, 0, length, ZUWENDRYK_KIND_ATOM, 0, 0, 0, 0};
    for (size_t i = 14u + length; i > 15; number >>= 8) one[--i] = number & 255u;
    return zuwendryk_verdict(one, 14u + length, 0, 0, buffer, space);
}

static uint32_t alone(uint32_t number, size_t space) { return atom(number, 3, space); }

/* Both records of an atom, and the numbers whose parts are names: those are no names. */
static void atoms(void) {
    static const uint32_t names[] = {0, 7, ZUWENDRYK_NAMES - 1};
    static const uint32_t others[] = {ZUWENDRYK_NAMES, 1007, 65535, 65536, 65543, 458752, 16777216, 117440512, 2147483648u, 4294967295u};
    for (size_t i = 0; i < sizeof names / sizeof names[0]; i++)
        expect("the answer to a name in a long record", atom(names[i], 5, sizeof buffer), ZUWENDRYK_REACHED);
    for (size_t i = 0; i < sizeof others / sizeof others[0]; i++)
        expect("the answer to another atom in a long record", atom(others[i], 5, sizeof buffer), ZUWENDRYK_OUT_OF_REACH);
    expect("the answer to a record of length 1", atom(7, 1, sizeof buffer), ZUWENDRYK_BAD_RECORD);
    expect("the answer to a record of length 2", atom(7, 2, sizeof buffer), ZUWENDRYK_BAD_RECORD);
    expect("the answer to a record of length 4", atom(7, 4, sizeof buffer), ZUWENDRYK_BAD_RECORD);
}

/* A sheet of one half that nobody heard: no number makes it a name. A longer record, as an atom may have, is none. */
static void half(uint8_t kind, uint32_t number) {
    uint8_t one[] = {'S', 'H', 'T', '1', 0, 1, 0, 0, 0, 0, 0, 14, 0, 3, kind, 0, 0, 0, 0};
    one[15] = number >> 8 & 255u;
    one[16] = number & 255u;
    expect("the answer to a half", zuwendryk_verdict(one, 17, 0, 0, buffer, sizeof buffer), ZUWENDRYK_OUT_OF_REACH);
    one[13] = 5;
    expect("the validity of a half of length 5", zuwendryk_validate(one, 19), ZUWENDRYK_BAD_RECORD);
}

static void halves(void) {
    for (uint32_t number = 0; number <= ZUWENDRYK_NAMES; number++) {
        half(ZUWENDRYK_KIND_PRIVATE, number);
        half(ZUWENDRYK_KIND_PUBLIC, number);
    }
    half(ZUWENDRYK_KIND_PUBLIC, 65535);
}

/* The last kind is a lock: the next one is no kind. */
static void kinds(void) {
    uint8_t one[] = {'S', 'H', 'T', '1', 0, 1, 0, 0, 0, 0, 0, 14, 0, 5, ZUWENDRYK_KIND_LOCK, 0, 0, 0, 0};
    expect("the validity of a lock of nothing", zuwendryk_validate(one, sizeof one), ZUWENDRYK_FORWARD);
    one[14] = ZUWENDRYK_KIND_LOCK + 1;
    expect("the validity of a kind that there isn't", zuwendryk_validate(one, sizeof one), ZUWENDRYK_BAD_RECORD);
}

static void version(void) {
    char text[64];
    sprintf(text, "%d.%d.%d", ZUWENDRYK_VERSION_MAJOR, ZUWENDRYK_VERSION_MINOR, ZUWENDRYK_VERSION_PATCH);
    expect("the version's text, compared with its numbers,", strcmp(text, ZUWENDRYK_VERSION) == 0, 1);
}

/* The switches, and the header's own expressions as a byte. */
static void switches(void) {
    static const size_t expected[] = {1, 2, 4, 8, 16, 32, 64, 128};
    const uint8_t no_sum = ZUWENDRYK_EVERY_RULE & ~ZUWENDRYK_SWITCH(ZUWENDRYK_RULE_SUM), open = ZUWENDRYK_SWITCH(ZUWENDRYK_RULE_OPEN);
    for (size_t rule = ZUWENDRYK_RULE_LEFT; rule <= ZUWENDRYK_RULE_LOCK; rule++)
        expect("a switch", ZUWENDRYK_SIZE(ZUWENDRYK_SWITCH(rule)), expected[rule - 1]);
    expect("every rule but sum", no_sum, 223);
    expect("open alone", open, 4);
    expect("the limited answer to a sheet of zeros", zuwendryk_limited_verdict(sheet, sizeof sheet, 0, 0, no_sum, buffer, sizeof buffer),
           ZUWENDRYK_NO_SHEET);
}

/* The quick verdict: its greatest budget, and one more; the length of its buffer. */
static void quick(void) {
    static uint8_t small[ZUWENDRYK_BUFFER(ZUWENDRYK_QUICK_RUNGS)];
    const uint8_t one[] = {'S', 'H', 'T', '1', 0, 1, 0, 0, 0, 0, 0, 14, 0, 1, ZUWENDRYK_KIND_ZERO};
    expect("the buffer of the quick verdict", sizeof small, 2656);
    expect("the quick answer", zuwendryk_quick_verdict(one, sizeof one, 0, ZUWENDRYK_QUICK_RUNGS, small, sizeof small), ZUWENDRYK_REACHED + 1);
    expect("the quick answer without a budget", zuwendryk_quick_verdict(one, sizeof one, 0, 0, small, ZUWENDRYK_FRONT), ZUWENDRYK_STOPPED);
    expect("the quick answer to a greater budget", zuwendryk_quick_verdict(one, sizeof one, 0, ZUWENDRYK_QUICK_RUNGS + 1, buffer, sizeof buffer),
           ZUWENDRYK_OVER_BUDGET);
    expect("the quick answer with a byte less", zuwendryk_quick_verdict(one, sizeof one, 0, ZUWENDRYK_QUICK_RUNGS, small, sizeof small - 1),
           ZUWENDRYK_NO_SPACE);
    expect("the quick answer to a later cut", zuwendryk_quick_verdict(one, sizeof one, 1, ZUWENDRYK_QUICK_RUNGS + 1, small, 0),
           ZUWENDRYK_PAST_THE_LOG);
}

int main(void) {
    sizes();
    switches();
    quick();
    version();
    atoms();
    halves();
    kinds();
    expect("the answer to a sheet of zeros", zuwendryk_verdict(sheet, sizeof sheet, 0, 0, buffer, sizeof buffer), ZUWENDRYK_NO_SHEET);
    expect("the answer to the last name on the hull label", alone(ZUWENDRYK_NAMES - 1, sizeof buffer), ZUWENDRYK_REACHED);
    expect("the answer to the first atom that is none", alone(ZUWENDRYK_NAMES, sizeof buffer), ZUWENDRYK_OUT_OF_REACH);
    expect("the answer with a buffer of the front alone", alone(ZUWENDRYK_NAMES, ZUWENDRYK_FRONT), ZUWENDRYK_OUT_OF_REACH);
    expect("the answer with one byte less", alone(ZUWENDRYK_NAMES, ZUWENDRYK_FRONT - 1), ZUWENDRYK_NO_SPACE);
    expect("the validity of a sheet of zeros", zuwendryk_validate(sheet, sizeof sheet), ZUWENDRYK_NO_SHEET);
    return failed != 0;
}
