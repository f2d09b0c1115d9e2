/* Asks for a verdict on the sheet in a file and prints its rungs or what is missing: verdict SHEET [CUT]. Without a cut all heard messages
 * count. Status: 0 for a verdict, 1 for a refused sheet or a file that can't be read or written, 2 for bad use. */
#include "zuwendryk.h"
#include <errno.h>
#include <stdio.h>
#include <string.h>

static const char *const words[] = {"", "left", "right", "open", "join", "seal", "sum", "unlock", "lock"};

static unsigned number(const uint8_t *p) { return p[0] * 256u + p[1]; }

/* A cut is decimal digits and nothing else, at most 4,294,967,295. Answers 0 for any other text. */
static int parse_cut(const char *text, uint32_t *cut) {
    uint32_t value = 0;
    if (!*text) return 0;
    for (; *text; text++) {
        if (*text < '0' || *text > '9') return 0;
        uint32_t digit = (uint32_t)(*text - '0');
        if (value > (UINT32_MAX - digit) / 10) return 0;
        value = 10 * value + digit;
    }
    *cut = value;
    return 1;
}

/* Reads a file's first bytes, at most so many. Answers 0 if it can't be opened or read. */
static int read_start(const char *name, uint8_t *bytes, size_t most, size_t *len) {
    FILE *f = fopen(name, "rb");
    if (!f) return 0;
    *len = fread(bytes, 1, most, f);
    int good = !ferror(f), why = errno;
    fclose(f);
    errno = why;
    return good;
}

/* Prints the members of a set. */
static void print_set(const uint8_t *set) {
    for (unsigned e = 0; e < ZUWENDRYK_MOST_ENTRIES; e++)
        if (set[e / 8] >> (e % 8) & 1) printf(" %u", e);
    printf("\n");
}

static void print_rung(const uint8_t *rung) {
    unsigned rule = number(rung + ZUWENDRYK_RUNG_RULE);
    printf("rung %u %s", number(rung + ZUWENDRYK_RUNG_GAINED), words[rule]);
    if (rule != ZUWENDRYK_RULE_SUM) printf(" %u", number(rung + ZUWENDRYK_RUNG_FIRST));
    if (number(rung + ZUWENDRYK_RUNG_SECOND) != ZUWENDRYK_NO_SOURCE) printf(" %u", number(rung + ZUWENDRYK_RUNG_SECOND));
    print_set(rung + ZUWENDRYK_RUNG_SET);
}

/* Prints what the listener lacks: the goal is the sum of the used entries and of the missing ones. */
static void print_missing(const uint8_t *buffer) {
    printf("used");
    print_set(buffer + ZUWENDRYK_USED_AT);
    printf("missing");
    print_set(buffer + ZUWENDRYK_REMAINDER_AT);
}

/* Prints the answer, with the rungs where the goal is reached. With a budget of ZUWENDRYK_MOST_RUNGS no answer is stopped. */
static void print_answer(uint32_t answer, const uint8_t *buffer) {
    if (answer < ZUWENDRYK_REACHED) printf("refused %u\n", (unsigned)answer);
    else if (answer >= ZUWENDRYK_OUT_OF_REACH) {
        printf("out of reach\n");
        print_missing(buffer);
    } else {
        printf("reached\n");
        for (uint32_t i = 0; i < answer - ZUWENDRYK_REACHED; i++) print_rung(buffer + ZUWENDRYK_BUFFER(i));
    }
}

int main(int argc, char **argv) {
    static uint8_t sheet[ZUWENDRYK_LONGEST_SHEET + 1]; /* one byte more, so that a longer file is refused */
    static uint8_t buffer[ZUWENDRYK_BUFFER(ZUWENDRYK_MOST_RUNGS)];
    uint32_t cut = 0;
    size_t len = 0;
    if (argc < 2 || argc > 3 || (argc == 3 && !parse_cut(argv[2], &cut))) {
        fprintf(stderr, "usage: verdict SHEET [CUT], with CUT a number from 0 to 4294967295\n");
        return 2;
    }
    if (!read_start(argv[1], sheet, sizeof sheet, &len)) {
        fprintf(stderr, "%s: can't be read: %s\n", argv[1], strerror(errno));
        return 1;
    }
    if (argc == 2 && len >= ZUWENDRYK_PLACES_AT) cut = number(sheet + 6);
    uint32_t answer = zuwendryk_verdict(sheet, len, cut, ZUWENDRYK_MOST_RUNGS, buffer, sizeof buffer);
    print_answer(answer, buffer);
    if (fflush(stdout) || ferror(stdout)) {
        fprintf(stderr, "the answer can't be written: %s\n", strerror(errno));
        return 1;
    }
    return answer < ZUWENDRYK_REACHED;
}
