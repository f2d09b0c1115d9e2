/* A sheet whose goal takes a rung by each rule, for the tests in C. Each of these rungs but the one by right is needed for the goal. */
#ifndef EVERY_RULE_H
#define EVERY_RULE_H

#include "zuwendryk.h"

#define N(x) 0, (x)                /* a number below 256 */
#define SECRET(x) 3, 232 + (x)     /* 1,000 and a number below 24: an atom that isn't on the hull label */
#define LARGE(x) 0, 1, N(x)        /* 65,536 and a number below 256, in 4 bytes */
#define PLACE(at, len) N(at), N(len)

enum { X, Y, M, Z, W, SUM, PUBLIC, PRIVATE, PAIR, SEAL, LOCK, JOINED, SEALED, GOAL, ZERO, ENTRIES, HEARD = 5 };
enum { RECORDS = ZUWENDRYK_RECORDS_AT(ENTRIES, HEARD), LOCK_AT = RECORDS + 38 };

static const uint8_t sheet[] = {
    'S', 'H', 'T', '1', N(ENTRIES), N(HEARD), N(GOAL),
    PLACE(RECORDS, 3), PLACE(RECORDS + 3, 5), PLACE(RECORDS + 8, 3), PLACE(RECORDS + 11, 3), PLACE(RECORDS + 14, 3),
    PLACE(RECORDS + 17, 5), PLACE(RECORDS + 22, 3), PLACE(RECORDS + 25, 3), PLACE(RECORDS + 28, 5), PLACE(RECORDS + 33, 5),
    PLACE(LOCK_AT, 5), PLACE(RECORDS + 43, 5), PLACE(RECORDS + 48, 5), PLACE(RECORDS + 53, 5), PLACE(RECORDS + 58, 1),
    N(PAIR), N(SEAL), N(SUM), N(LOCK), N(PRIVATE),
    ZUWENDRYK_KIND_ATOM, SECRET(10),
    ZUWENDRYK_KIND_ATOM, LARGE(11),
    ZUWENDRYK_KIND_ATOM, SECRET(12),
    ZUWENDRYK_KIND_ATOM, SECRET(13),
    ZUWENDRYK_KIND_ATOM, SECRET(14),
    ZUWENDRYK_KIND_SUM, N(M), N(Z),
    ZUWENDRYK_KIND_PUBLIC, N(7),
    ZUWENDRYK_KIND_PRIVATE, N(7),
    ZUWENDRYK_KIND_PAIR, N(X), N(Y),
    ZUWENDRYK_KIND_SEAL, N(M), N(X),
    ZUWENDRYK_KIND_LOCK, N(W), N(PUBLIC),
    ZUWENDRYK_KIND_PAIR, N(Z), N(X),
    ZUWENDRYK_KIND_SEAL, N(JOINED), N(W),
    ZUWENDRYK_KIND_LOCK, N(SEALED), N(PRIVATE),
    ZUWENDRYK_KIND_ZERO,
};

#endif
