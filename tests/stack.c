/* How many bytes of stack the calls touch, and whether they keep to the header's figures.
 *
 * Each call is made in a child process, on a thread whose stack is memory of this test: filled with one byte, above a page that may not be
 * touched. The thread first uses stack up until a given room is left above that page, then makes the call. With much room, the deepest byte
 * that changed gives the bytes that the call touches. With a room of the header's figure, a call that needs more ends the child by a signal.
 * Measured bytes include a few dozen of the frame that makes the call. Link with -z lazy and compile with -O1: then no child has called memcpy or
 * memset before, and the dynamic linker's work at the first use is measured too. */
#define _DEFAULT_SOURCE
#include "zuwendryk.h"
#include <limits.h>
#include <pthread.h>
#include <stdio.h>
#include <sys/mman.h>
#include <sys/wait.h>
#include <unistd.h>

enum { PAGE = 4096, MUCH = 256 * PAGE, SPARE = 32 * PAGE };

/* The worst sheet has 6 atoms, half of them in long records, and both halves of a key pair, then pairs, seals or locks, and twice sums of 64 items in
 * turn. So its last record is a sum, and the last but two a lock. */
enum {
    ENTRIES = ZUWENDRYK_MOST_ENTRIES,
    HEARD = ZUWENDRYK_MOST_HEARD,
    RUNGS = ZUWENDRYK_MOST_RUNGS,
    LAST_HEARD = ZUWENDRYK_HEARD_AT(ENTRIES) + 2 * (HEARD - 1),
    RECORDS = ZUWENDRYK_RECORDS_AT(ENTRIES, HEARD),
    SUM = 1 + 2 * ZUWENDRYK_MOST_ITEMS,
    LENGTH = RECORDS + 5 * 3 + 3 * 5 + (ENTRIES - 8) / 4 * (5 + 5 + SUM + SUM),
    LAST_RECORD = LENGTH - SUM,
    LAST_KEY = LENGTH - 2 * SUM - 2, /* the key of the last lock */
    PUBLIC = 6,
    PRIVATE = 7
};

static uint8_t sheet[LENGTH], buffer[ZUWENDRYK_BUFFER(RUNGS)];
static uint8_t *lowest; /* the stack's lowest byte, above the page that may not be touched */
enum { FULL = -1, QUICK = -2 };
static int setting = FULL; /* that of the verdict, or the full one, or the quick one */

/* What the child finds out, in memory that it shares with its parent. */
static struct result {
    uint32_t answer;
    uintptr_t top, deepest;
} *result;

enum kind { VERDICT, REFUSED, VALIDATE };

/* A call, with one number of the sheet changed before it if there is a place for it. */
struct call {
    const char *name;
    enum kind kind;
    uint32_t answer, more; /* the answer expected, or at most so much more */
    size_t len;
    uint32_t cut, budget;
    size_t space; /* the buffer's length */
    size_t place, number;
    size_t room;
    uint8_t fill;
};

static const struct call calls[] = {
    {"the worst sheet", VERDICT, ZUWENDRYK_OUT_OF_REACH + 1, RUNGS - 1, LENGTH, HEARD, RUNGS, sizeof buffer, 0, 0, 0, 0},
    {"the worst sheet, budget 1", VERDICT, ZUWENDRYK_STOPPED + 1, 0, LENGTH, HEARD, 1, sizeof buffer, 0, 0, 0, 0},
    {"the worst sheet, nothing heard", VERDICT, ZUWENDRYK_OUT_OF_REACH, 0, LENGTH, 0, RUNGS, sizeof buffer, 0, 0, 0, 0},
    {"the worst sheet, another goal", VERDICT, ZUWENDRYK_REACHED + 1, RUNGS - 1, LENGTH, HEARD, RUNGS, sizeof buffer, 8, 1, 0, 0},
    {"validate", VALIDATE, 0, 0, LENGTH, 0, 0, 0, 0, 0, 0, 0},
    {"validate, a forward number", VALIDATE, ZUWENDRYK_FORWARD, 0, LENGTH, 0, 0, 0, LAST_RECORD + 1, ENTRIES - 1, 0, 0},
    {"validate, a wrong half", VALIDATE, ZUWENDRYK_WRONG_HALF, 0, LENGTH, 0, 0, 0, LAST_KEY, ENTRIES - 4, 0, 0},
    {"no sheet", REFUSED, ZUWENDRYK_NO_SHEET, 0, LENGTH, HEARD, RUNGS, sizeof buffer, 2, 0, 0, 0},
    {"bad count", REFUSED, ZUWENDRYK_BAD_COUNT, 0, LENGTH, HEARD, RUNGS, sizeof buffer, 4, ENTRIES + 1, 0, 0},
    {"short list", REFUSED, ZUWENDRYK_SHORT_LIST, 0, RECORDS - 1, HEARD, RUNGS, sizeof buffer, 0, 0, 0, 0},
    {"bad pair", REFUSED, ZUWENDRYK_BAD_PAIR, 0, LENGTH - 1, HEARD, RUNGS, sizeof buffer, 0, 0, 0, 0},
    {"bad record", REFUSED, ZUWENDRYK_BAD_RECORD, 0, LENGTH, HEARD, RUNGS, sizeof buffer, LAST_RECORD, 0x0800, 0, 0},
    {"forward", REFUSED, ZUWENDRYK_FORWARD, 0, LENGTH, HEARD, RUNGS, sizeof buffer, LAST_RECORD + 1, ENTRIES - 1, 0, 0},
    {"wrong half", REFUSED, ZUWENDRYK_WRONG_HALF, 0, LENGTH, HEARD, RUNGS, sizeof buffer, LAST_KEY, ENTRIES - 4, 0, 0},
    {"not listed", REFUSED, ZUWENDRYK_NOT_LISTED, 0, LENGTH, HEARD, RUNGS, sizeof buffer, LAST_HEARD, ENTRIES, 0, 0},
    {"past the log", REFUSED, ZUWENDRYK_PAST_THE_LOG, 0, LENGTH, HEARD + 1, RUNGS, sizeof buffer, 0, 0, 0, 0},
    {"over budget", REFUSED, ZUWENDRYK_OVER_BUDGET, 0, LENGTH, HEARD, RUNGS + 1, sizeof buffer, 0, 0, 0, 0},
    {"no space", REFUSED, ZUWENDRYK_NO_SPACE, 0, LENGTH, HEARD, RUNGS, sizeof buffer - 1, 0, 0, 0, 0},
};

enum { CALLS = sizeof calls / sizeof calls[0] };

/* Byte by byte through a volatile pointer, so that no memset or memcpy is called. */
static uint8_t *put(uint8_t *at, size_t number) {
    volatile uint8_t *p = at;
    p[0] = (uint8_t)(number >> 8);
    p[1] = (uint8_t)number;
    return at + 2;
}

/* An entry number from 1 to below, by a small generator. */
static size_t part(size_t below) {
    static uint32_t seed = 77;
    seed = seed * 1664525u + 1013904223u;
    return 1 + (seed >> 8) % (below - 1);
}

static uint8_t *put_sum(uint8_t *at, size_t entry) {
    *at++ = ZUWENDRYK_KIND_SUM;
    for (int i = 0; i < ZUWENDRYK_MOST_ITEMS; i++) at = put(at, part(entry));
    return at;
}

/* The first eight entries: atoms, and the two halves. */
static uint8_t *put_own(uint8_t *at, size_t entry) {
    if (entry >= PUBLIC) {
        *at = entry == PUBLIC ? ZUWENDRYK_KIND_PUBLIC : ZUWENDRYK_KIND_PRIVATE;
        return put(at + 1, 1000);
    }
    *at++ = ZUWENDRYK_KIND_ATOM;
    if (entry % 2) at = put(at, 1); /* 65,536 more */
    return put(at, 1000 + entry);
}

/* No part is entry 0, so that nothing holds the goal. */
static uint8_t *put_record(uint8_t *at, size_t entry) {
    if (entry < 8) return put_own(at, entry);
    if (entry % 4 > 1) return put_sum(at, entry);
    int lock = entry % 8 == 5;
    *at = entry % 4 == 0 ? ZUWENDRYK_KIND_PAIR : lock ? ZUWENDRYK_KIND_LOCK : ZUWENDRYK_KIND_SEAL;
    at = put(at + 1, part(entry));
    return put(at, lock ? PUBLIC + entry / 8 % 2 : part(entry));
}

static void put_records(void) {
    uint8_t *place = sheet + ZUWENDRYK_PLACES_AT, *record = sheet + RECORDS;
    for (size_t e = 0; e < ENTRIES; e++) {
        uint8_t *end = put_record(record, e);
        place = put(put(place, (size_t)(record - sheet)), (size_t)(end - record));
        record = end;
    }
}

/* The heard messages are over the upper half of the entries, so that the lower half is left to the rungs. */
static void make_worst(void) {
    uint8_t *message = sheet + ZUWENDRYK_HEARD_AT(ENTRIES);
    put(put(sheet, 0x5348), 0x5431);
    put(put(put(sheet + 4, ENTRIES), HEARD), 0);
    for (size_t k = 0; k < HEARD; k++) message = put(message, ENTRIES - 1 - k * 7 % (ENTRIES / 2));
    put_records();
}

static __attribute__((noinline)) void make(const struct call *c) {
    result->top = (uintptr_t)__builtin_frame_address(0);
    if (c->kind == VALIDATE) result->answer = zuwendryk_validate(sheet, c->len);
    else if (setting == FULL) result->answer = zuwendryk_verdict(sheet, c->len, c->cut, c->budget, buffer, c->space);
    else if (setting == QUICK) result->answer = zuwendryk_quick_verdict(sheet, c->len, c->cut, c->budget, buffer, c->space);
    else result->answer = zuwendryk_limited_verdict(sheet, c->len, c->cut, c->budget, (uint8_t)setting, buffer, c->space);
}

/* Uses stack up until the room is left, then makes the call. */
static void *thread(void *arg) {
    const struct call *c = arg;
    uintptr_t here = (uintptr_t)__builtin_frame_address(0);
    volatile uint8_t used_up[here - ((uintptr_t)lowest + c->room)];
    used_up[0] = 0;
    (void)used_up[0];
    make(c);
    return NULL;
}

/* A stack of so many bytes above a page that may not be touched, each byte set. */
static void make_stack(size_t size, uint8_t fill) {
    uint8_t *area = mmap(NULL, PAGE + size, PROT_READ | PROT_WRITE, MAP_PRIVATE | MAP_ANONYMOUS, -1, 0);
    if (area == MAP_FAILED || mprotect(area, PAGE, PROT_NONE)) _exit(2);
    lowest = area + PAGE;
    for (volatile uint8_t *p = lowest; p < lowest + size; p++) *p = fill;
}

/* In the child: makes the call, then looks for the deepest byte that changed. */
static void child(struct call *c) {
    size_t size = (c->room + SPARE + PAGE - 1) / PAGE * PAGE;
    pthread_attr_t attributes;
    pthread_t id;
    if (c->place) put(sheet + c->place, c->number);
    make_stack(size, c->fill);
    if (pthread_attr_init(&attributes) || pthread_attr_setstack(&attributes, lowest, size)) _exit(2);
    if (pthread_create(&id, &attributes, thread, c) || pthread_join(id, NULL)) _exit(2);
    volatile uint8_t *p = lowest;
    while (p < lowest + size && *p == c->fill) p++;
    result->deepest = (uintptr_t)p;
    _exit(0);
}

/* Runs a call in a child. Answers the bytes touched, or 0 if the child did not come to its end. */
static size_t run(const struct call *call, size_t room, uint8_t fill) {
    struct call c = *call;
    int status = 0;
    c.room = room;
    c.fill = fill;
    fflush(stdout);
    pid_t id = fork();
    if (id == 0) child(&c);
    if (id < 0 || waitpid(id, &status, 0) != id) return 0;
    if (!WIFEXITED(status) || WEXITSTATUS(status)) return 0;
    return result->top - result->deepest;
}

/* Measures a call over two fills, since a byte written may have the fill's value; then runs it with the room said. Answers 1 if the
 * call answers as expected and keeps to the room. */
static int judge(const struct call *c, size_t said, size_t *most) {
    size_t once = run(c, MUCH, 0xa5), again = run(c, MUCH, 0x5a), bytes = once > again ? once : again;
    if (!once || !again || result->answer < c->answer || result->answer > c->answer + c->more) {
        printf("stack: %s: answer %u, expected %u or %u more\n", c->name, (unsigned)result->answer, (unsigned)c->answer, (unsigned)c->more);
        return 0;
    }
    if (bytes > *most) *most = bytes;
    if (bytes > said) {
        printf("stack: %s: touches %zu bytes, the header says %zu\n", c->name, bytes, said);
        return 0;
    }
    if (!run(c, said, 0xa5)) {
        printf("stack: %s: did not come to its end on a stack of the %zu bytes that the header says\n", c->name, said);
        return 0;
    }
    return 1;
}

/* The thread that the header says is enough. */
static void *plain_thread(void *arg) {
    (void)arg;
    if (setting == FULL) zuwendryk_verdict(sheet, LENGTH, HEARD, RUNGS, buffer, sizeof buffer);
    else if (setting == QUICK) zuwendryk_quick_verdict(sheet, LENGTH, HEARD, ZUWENDRYK_QUICK_RUNGS, buffer, sizeof buffer);
    else zuwendryk_limited_verdict(sheet, LENGTH, HEARD, RUNGS, (uint8_t)setting, buffer, sizeof buffer);
    return NULL;
}

static int plain(void) {
    pthread_attr_t attributes;
    pthread_t id;
    int status = 1;
    fflush(stdout);
    pid_t child_id = fork();
    if (child_id == 0) {
        int bad = pthread_attr_init(&attributes) || pthread_attr_setstacksize(&attributes, (size_t)PTHREAD_STACK_MIN + ZUWENDRYK_STACK);
        _exit(bad || pthread_create(&id, &attributes, plain_thread, NULL) || pthread_join(id, NULL));
    }
    return child_id > 0 && waitpid(child_id, &status, 0) == child_id && status == 0;
}

/* A call with the quick verdict's greatest budget in place of 256. */
static struct call quick(struct call c) {
    if (c.budget >= RUNGS) c.budget -= RUNGS - ZUWENDRYK_QUICK_RUNGS;
    c.space -= ZUWENDRYK_BUFFER(RUNGS) - ZUWENDRYK_BUFFER(ZUWENDRYK_QUICK_RUNGS);
    return c;
}

/* Judges every call with the present setting, and the thread. In another setting than the full one a verdict is any. Answers how many are good. */
static unsigned judge_all(size_t most[]) {
    unsigned passed = 0;
    for (unsigned i = 0; i < CALLS; i++) {
        struct call c = setting == QUICK && calls[i].kind != VALIDATE ? quick(calls[i]) : calls[i];
        if (c.kind == VERDICT && setting != FULL && setting != ZUWENDRYK_EVERY_RULE) {
            c.answer = ZUWENDRYK_REACHED;
            c.more = ZUWENDRYK_STOPPED + RUNGS - ZUWENDRYK_REACHED;
        }
        if (judge(&c, c.kind == VERDICT ? ZUWENDRYK_STACK : ZUWENDRYK_STACK_REFUSED, &most[c.kind])) passed++;
    }
    if (plain()) return passed + 1;
    printf("stack: a thread with a stack of PTHREAD_STACK_MIN + ZUWENDRYK_STACK did not come to its end, setting %d\n", setting);
    return passed;
}

/* The full verdict, the quick one, then the one with a setting: every rule on, none, sum alone, all but sum. */
int main(void) {
    static const int settings[] = {ZUWENDRYK_EVERY_RULE, 0, ZUWENDRYK_SWITCH(ZUWENDRYK_RULE_SUM), ZUWENDRYK_EVERY_RULE & ~ZUWENDRYK_SWITCH(ZUWENDRYK_RULE_SUM)};
    size_t most[] = {0, 0, 0}, fast[] = {0, 0, 0}, limited[] = {0, 0, 0};
    unsigned passed, count = (CALLS + 1) * (2 + sizeof settings / sizeof settings[0]);
    make_worst();
    result = mmap(NULL, PAGE, PROT_READ | PROT_WRITE, MAP_SHARED | MAP_ANONYMOUS, -1, 0);
    if (result == MAP_FAILED) return 2;
    passed = judge_all(most);
    setting = QUICK;
    passed += judge_all(fast);
    for (size_t i = 0; i < sizeof settings / sizeof settings[0]; i++) {
        setting = settings[i];
        passed += judge_all(limited);
    }
    printf("stack: touched by a verdict %zu bytes, a quick one %zu, with a setting %zu (said: %d), ", most[VERDICT], fast[VERDICT], limited[VERDICT], ZUWENDRYK_STACK);
    printf("by a refused one %zu, a quick one %zu, with a setting %zu, by validate %zu (said: %d)\n", most[REFUSED], fast[REFUSED], limited[REFUSED], most[VALIDATE],
           ZUWENDRYK_STACK_REFUSED);
    printf("stack: %u passed, %u failed\n", passed, count - passed);
    return passed != count;
}
