/* Makes a sheet in memory from a table of terms, asks for its verdict after each message, and prints it with the rungs or what is missing, by
 * name. Status: 0, or 1 if a table of yours makes no good sheet or the text can't be written. */
#include "zuwendryk.h"
#include <stdio.h>
#include <string.h>

/* A term: its name, its kind, and how many numbers its record has. An atom has its own number, up to 4,294,967,295, and a half the number of its key
 * pair, up to 65,535; a pair, a seal, a lock and a sum have entry numbers. Atoms 0 to 255 are the names on the hull label, which every listener has: a
 * secret takes a higher number. */
struct term {
    const char *name;
    uint8_t kind;
    unsigned count;
    uint32_t numbers[2]; /* up to ZUWENDRYK_MOST_ITEMS for sums of more than two */
};

enum { KEY, PAD, MASKED_KEY, PLAN, SEALED_PLAN, ENTRIES };

/* The key goes over the air summed with a pad, a plan is sealed under the key, and then the pad is sent open. */
static const struct term terms[ENTRIES] = {
    {"key", ZUWENDRYK_KIND_ATOM, 1, {1007}},
    {"pad", ZUWENDRYK_KIND_ATOM, 1, {1009}},
    {"masked key", ZUWENDRYK_KIND_SUM, 2, {KEY, PAD}},
    {"plan", ZUWENDRYK_KIND_ATOM, 1, {1012}},
    {"sealed plan", ZUWENDRYK_KIND_SEAL, 2, {PLAN, KEY}},
};
static const uint16_t heard[] = {MASKED_KEY, SEALED_PLAN, PAD};
enum { HEARD = sizeof heard / sizeof heard[0], GOAL = PLAN };

/* A table that is too large does not compile: this array would have a negative length. */
typedef char table_fits[ENTRIES <= ZUWENDRYK_MOST_ENTRIES && HEARD <= ZUWENDRYK_MOST_HEARD ? 1 : -1];

static const char *const words[] = {"", "left", "right", "open", "join", "seal", "sum", "unlock", "lock"};

/* Writes the low 16 bits of a number, the high byte first, and answers the place after them. */
static uint8_t *put(uint8_t *at, size_t number) {
    at[0] = (uint8_t)(number >> 8);
    at[1] = (uint8_t)number;
    return at + 2;
}

/* An atom's number over 65,535 needs the long record: its high 16 bits stand before the low ones. */
static uint8_t *put_record(uint8_t *at, const struct term *term) {
    *at++ = term->kind;
    if (term->kind == ZUWENDRYK_KIND_ATOM && term->numbers[0] > UINT16_MAX) at = put(at, term->numbers[0] >> 16);
    for (unsigned i = 0; i < term->count; i++) at = put(at, term->numbers[i]);
    return at;
}

/* Writes the records and, before them, the place of each. Answers the sheet's length. */
static size_t put_records(uint8_t *sheet) {
    uint8_t *place = sheet + ZUWENDRYK_PLACES_AT, *record = sheet + ZUWENDRYK_RECORDS_AT(ENTRIES, HEARD);
    for (unsigned e = 0; e < ENTRIES; e++) {
        uint8_t *end = put_record(record, &terms[e]);
        place = put(put(place, (size_t)(record - sheet)), (size_t)(end - record));
        record = end;
    }
    return (size_t)(record - sheet);
}

/* Writes the whole sheet. Answers its length. */
static size_t make_sheet(uint8_t *sheet) {
    uint8_t *message = sheet + ZUWENDRYK_HEARD_AT(ENTRIES);
    memcpy(sheet, ZUWENDRYK_LETTERS, 4);
    put(put(put(sheet + 4, ENTRIES), HEARD), GOAL);
    for (unsigned k = 0; k < HEARD; k++) message = put(message, heard[k]);
    return put_records(sheet);
}

static unsigned number(const uint8_t *p) { return p[0] * 256u + p[1]; }

/* Prints the names of a set's members. */
static void print_set(const uint8_t *set) {
    for (unsigned e = 0; e < ENTRIES; e++)
        if (set[e / 8] >> (e % 8) & 1) printf(" (%s)", terms[e].name);
    printf("\n");
}

/* Prints a rung by the names of its terms. A source that isn't used has no name. */
static void print_rung(const uint8_t *rung) {
    unsigned first = number(rung + ZUWENDRYK_RUNG_FIRST), second = number(rung + ZUWENDRYK_RUNG_SECOND);
    printf("  %s: %s", terms[number(rung + ZUWENDRYK_RUNG_GAINED)].name, words[number(rung + ZUWENDRYK_RUNG_RULE)]);
    if (first != ZUWENDRYK_NO_SOURCE) printf(" (%s)", terms[first].name);
    if (second != ZUWENDRYK_NO_SOURCE) printf(" (%s)", terms[second].name);
    print_set(rung + ZUWENDRYK_RUNG_SET);
}

/* Prints what the listener lacks: the goal is the sum of the used terms and of the missing ones. */
static void print_missing(const uint8_t *buffer) {
    printf("  used:");
    print_set(buffer + ZUWENDRYK_USED_AT);
    printf("  missing:");
    print_set(buffer + ZUWENDRYK_REMAINDER_AT);
}

/* Prints the verdict after the first `cut` messages. Answers 0 if the call is refused. */
static int judge(const uint8_t *sheet, size_t len, uint32_t cut) {
    static uint8_t buffer[ZUWENDRYK_BUFFER(ENTRIES)]; /* a budget of as many rungs as entries is never used up */
    uint32_t answer = zuwendryk_verdict(sheet, len, cut, ENTRIES, buffer, sizeof buffer);
    if (answer < ZUWENDRYK_REACHED) {
        printf("refused %u\n", (unsigned)answer);
        return 0;
    }
    int reached = answer < ZUWENDRYK_OUT_OF_REACH;
    printf("%u heard: the %s is %s\n", (unsigned)cut, terms[GOAL].name, reached ? "reached" : "out of reach");
    for (uint32_t i = 0; reached && i < answer - ZUWENDRYK_REACHED; i++) print_rung(buffer + ZUWENDRYK_BUFFER(i));
    if (!reached) print_missing(buffer);
    return 1;
}

int main(void) {
    static uint8_t sheet[ZUWENDRYK_LONGEST_SHEET];
    size_t len = make_sheet(sheet);
    printf("a sheet of %u entries, %u bytes\n", (unsigned)ENTRIES, (unsigned)len);
    for (uint32_t cut = 0; cut <= HEARD; cut++)
        if (!judge(sheet, len, cut)) return 1;
    return fflush(stdout) || ferror(stdout) ? 1 : 0;
}
