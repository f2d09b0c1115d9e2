/* zuwendryk.h: can a stranger who listens to a radio link work out a key?
 *
 * A sheet is a numbered table of up to 256 terms: zero, atoms, pairs, terms sealed under a key term, sums by exclusive or, halves of key pairs,
 * and terms locked under a half. It also lists the messages that were heard, in order, and names one entry as the goal. The calls here judge
 * whether a listener gains the goal from the names on the hull label and the messages heard before a cut. "Reached" comes with the steps,
 * called rungs. "Out of reach" is proved: no finite row of steps whatever, through terms of any size, gains the goal. It comes with what the
 * listener still lacks.
 *
 * A stranger whose receiver can't do everything has fewer rules. A second verdict takes a byte that says which; see SWITCHES. A third is for editors,
 * which ask after every keystroke: it makes at most 64 rungs; see QUICK.
 *
 * This header is the manual: version, linking, the sheet's bytes, the rules and their switches, the quick verdict, the answers, the buffer's bytes,
 * what is missing, stack, what a caller owes and what is proved, then the four calls. examples/build.c makes a sheet and asks for its verdict;
 * examples/verdict.c reads one from a file.
 */
#ifndef ZUWENDRYK_H
#define ZUWENDRYK_H

#include <stddef.h>
#include <stdint.h>

#ifdef __cplusplus
extern "C" {
#endif

/* VERSION. The same stands in zuwendryk.pc and in what `sheet --version` prints. The first number changes when a sheet can get another answer or
 * the buffer another layout:
 *
 *     5.2.0   zuwendryk_quick_verdict, a verdict of at most 64 rungs, and ZUWENDRYK_QUICK_RUNGS. No answer and no byte of the other calls changes, and
 *             a caller that was made for version 5.1 needs nothing.
 *     5.1.0   zuwendryk_limited_verdict, a verdict on a stranger who has only some of the rules, and macros for its switches. No answer and no byte
 *             of the other calls changes, and a caller that was made for version 5.0 needs nothing.
 *     5.0.0   Key pairs and locks: the kinds 5, 6 and 7, the rules 7 and 8, and refusal 12, wrong half. A caller that was made for version 4 has to
 *             expect both rules in a rung, and 12 among the answers of both calls. A sheet without these kinds gets the same answer and the same
 *             bytes. A sheet with one of them was refused, with 5 unless another refusal came first.
 *     4.0.0   An atom's number has up to 32 bits: its record may be long, and the longest sheet has 34,446 bytes. A caller that was made for
 *             version 3 is compiled anew if it takes the length of its reading area from ZUWENDRYK_LONGEST_SHEET: one that cuts its input
 *             after 34,445 bytes no longer has a sheet that is too long. A sheet of at most 34,444 bytes without long atom records gets the
 *             same answer and the same bytes. A long atom record was refused with 5, a sheet of 34,445 or 34,446 bytes with 1.
 *     3.0.0   Used set and remainder, 32 bytes each, stand between the gained set and the rungs. A caller that was made for version 2 has to
 *             lend 64 bytes more and to look for each rung 64 bytes later. If it has both from ZUWENDRYK_BUFFER, it is only compiled anew. A
 *             buffer that was just long enough before is refused now. Answers, gained set and rungs are as they were.
 *     2.0.0   Atoms 0 to 255 are on the hull label. A sheet that was made for version 1 and uses such numbers for secrets has to be numbered
 *             anew. */
#define ZUWENDRYK_VERSION_MAJOR 5
#define ZUWENDRYK_VERSION_MINOR 2
#define ZUWENDRYK_VERSION_PATCH 0
#define ZUWENDRYK_VERSION "5.2.0"

/* LINKING
 *
 * `tools/install PREFIX` proves the library and installs this header, the archive libzuwendryk.a, zuwendryk.pc and the man pages:
 *
 *     gcc -IPREFIX/include -o planner planner.c PREFIX/lib/libzuwendryk.a
 *     gcc -o planner planner.c $(PKG_CONFIG_PATH=PREFIX/lib/pkgconfig pkg-config --cflags --libs zuwendryk)
 *
 * The archive is built for Linux on x86-64 and links into no other program. It needs two functions of the C library, memcpy and memset, and
 * nothing else. Its code may stand at any address, so a shared object can be made of it:
 *
 *     gcc -shared -o libzuwendryk.so -Wl,--whole-archive PREFIX/lib/libzuwendryk.a -Wl,--no-whole-archive
 *
 * From Python, with the file "sheet" and the shared object in the working directory, after the first 3 messages:
 *
 *     import ctypes
 *     library = ctypes.CDLL("./libzuwendryk.so")
 *     verdict = library.zuwendryk_verdict
 *     verdict.argtypes = [ctypes.c_char_p, ctypes.c_size_t, ctypes.c_uint32, ctypes.c_uint32, ctypes.c_char_p, ctypes.c_size_t]
 *     verdict.restype = ctypes.c_uint32
 *     sheet = open("sheet", "rb").read()
 *     buffer = ctypes.create_string_buffer(96 + 40 * 256)
 *     print(verdict(sheet, len(sheet), 3, 256, buffer, len(buffer)))
 */

/* THE SHEET'S BYTES
 *
 * A number has 2 bytes, the high one first: 258 is 01 02. Only a record's kind has 1 byte, and an atom's own number may have 4, the highest
 * first: 65,543 is 00 01 00 07. Offsets count from the sheet's first byte.
 *
 *     offset          bytes   content
 *     0               4       the letters SHT1 (hexadecimal 53 48 54 31)
 *     4               2       n, how many entries there are, 1 to 256
 *     6               2       h, how many messages were heard, 0 to 256
 *     8               2       the goal: an entry number, 0 to n - 1
 *     10              4n      for each entry in turn, where its record is: the record's offset, then its length
 *     10 + 4n         2h      for each heard message in turn: its entry number. An entry may be heard again
 *     10 + 4n + 2h            the records in the order of the entries, each beginning where the last one ended; the sheet ends with the last
 *
 * Entries are numbered from 0. The record of an entry is the byte of its kind and then its numbers:
 *
 *     kind        numbers         length    the entry's term
 *     0 zero      none            1         the sum of nothing
 *     1 atom      its own         3 or 5    a key, a nonce, a name: anything without parts. Its number is any: 0 to 65,535 in 2 bytes, the
 *                                           short record of length 3, or 0 to 4,294,967,295 in 4, the long record of length 5. The same
 *                                           number is the same atom, in either record; 0 to 255 are the board's names on the hull label,
 *                                           which everyone knows
 *     2 pair      left, right     5         the two terms side by side
 *     3 seal      message, key    5         the message sealed under the key; any entry may be a key
 *     4 sum       0 to 64 items   1 + 2k    the sum of its k items by exclusive or. An item may stand there again, and then cancels out
 *     5 private   the pair's      3         the private half of the key pair with this number, 0 to 65,535
 *     6 public    the pair's      3         its public half. The two halves of a pair are opposite to each other
 *     7 lock      message, key    5         the message locked under the key, which is an entry of kind 5 or 6. The opposite half unlocks it
 *
 * Left, right, message, key and items are entry numbers, and each is lower than the number of the entry whose record it stands in. So a term
 * comes after its parts, and entry 0 is zero, an atom, a half or a sum of nothing. A key pair's number is no entry number.
 *
 * Neither half is public knowledge, whatever its number: a listener has it when it was heard or gained, and nothing gains a half that has no
 * entry. So a sheet with a public half that everyone knows lists its entry among the first heard messages. A lock under a public half is
 * encryption for the owner of the private one; a lock under a private half is a signature or a certificate, which shows its message to everyone
 * who has the public half.
 *
 * The key of a lock is of kind 5 or 6 by its own record. A sum that is the same term as a half is no key of a lock; see refusal 12.
 *
 * Two entries may be the same term, as the sum of 0 and 1 and the sum of 1 and 0. Then the lower number, the head, stands for both in what a
 * call hands back. Terms are the same when exclusive or makes them so, also inside pairs, seals and locks: order and grouping of a sum don't
 * matter, a term summed with itself is zero, and zero adds nothing. Atoms, pairs, seals, private halves, public halves and locks are never the
 * same as a term of another of these kinds.
 *
 * A head that is an atom, a pair, a seal, a half or a lock is called a standard entry. Every entry's term is the sum of exactly one set of
 * standard entries, which is empty for zero.
 *
 * docs/FORMAT.md goes through a sheet of 55 bytes and two of its answers, byte by byte. */
#define ZUWENDRYK_LETTERS "SHT1"
#define ZUWENDRYK_MOST_ENTRIES 256
#define ZUWENDRYK_MOST_HEARD 256
#define ZUWENDRYK_MOST_ITEMS 64       /* of one sum */
#define ZUWENDRYK_LONGEST_SHEET 34446 /* bytes; 255 sums of 64 items over one atom in a long record, and 256 heard messages */

#define ZUWENDRYK_NAMES 256           /* atoms with a lower number, in either record, are names on the hull label */

#define ZUWENDRYK_KIND_ZERO 0
#define ZUWENDRYK_KIND_ATOM 1
#define ZUWENDRYK_KIND_PAIR 2
#define ZUWENDRYK_KIND_SEAL 3
#define ZUWENDRYK_KIND_SUM 4
#define ZUWENDRYK_KIND_PRIVATE 5
#define ZUWENDRYK_KIND_PUBLIC 6
#define ZUWENDRYK_KIND_LOCK 7

/* A number as a size, so that the sums below are made in size_t whatever the type of their numbers. */
#ifdef __cplusplus
#define ZUWENDRYK_SIZE(x) (static_cast<size_t>(x))
#else
#define ZUWENDRYK_SIZE(x) ((size_t)(x))
#endif

/* Where in a sheet of n entries and h heard messages the places of the records, the heard messages and the records begin. */
#define ZUWENDRYK_PLACES_AT 10
#define ZUWENDRYK_HEARD_AT(n) (ZUWENDRYK_PLACES_AT + 4 * ZUWENDRYK_SIZE(n))
#define ZUWENDRYK_RECORDS_AT(n, h) (ZUWENDRYK_HEARD_AT(n) + 2 * ZUWENDRYK_SIZE(h))

/* RULES. A listener starts with the names on the hull label, also at cut 0: the atoms 0 to 255 that stand on the sheet, in the order of their
 * entries. Then come the heard messages before the cut, in their order. Each is gained as its head. After that one term is gained a rung:
 *
 *     rule        switch    gains                                  first source    second source    set
 *     1 left      1         the left of a pair                     the pair        65,535           zero
 *     2 right     2         the right of a pair                    the pair        65,535           zero
 *     3 open      4         the message of a seal whose key it has the seal        the key          zero
 *     4 join      8         the pair of two terms                  the left        the right        zero
 *     5 seal      16        a term sealed under a term             the message     the key          zero
 *     6 sum       32        the sum of a set of terms              65,535          65,535           the summed entries; none for zero
 *     7 unlock    64        the message of a lock                  the lock        the opposite     zero
 *                           whose key's opposite half it has                       half of its key
 *     8 lock      128       a term locked under a half             the message     the half         zero
 *
 * Of all rungs that could follow, a call makes the one that gains the lowest head; of several ways to gain it, that of the lowest rule, then of
 * the lowest first source. A sum is made of the one set that gives it among the gained entries that were not, when gained, sums of those gained
 * before. The call ends when the goal is gained, when no rung follows, or when the budget of rungs is used up. */
#define ZUWENDRYK_RULE_LEFT 1
#define ZUWENDRYK_RULE_RIGHT 2
#define ZUWENDRYK_RULE_OPEN 3
#define ZUWENDRYK_RULE_JOIN 4
#define ZUWENDRYK_RULE_SEAL 5
#define ZUWENDRYK_RULE_SUM 6
#define ZUWENDRYK_RULE_UNLOCK 7
#define ZUWENDRYK_RULE_LOCK 8
#define ZUWENDRYK_NO_SOURCE 65535
#define ZUWENDRYK_MOST_RUNGS 256 /* the greatest budget */
#define ZUWENDRYK_QUICK_RUNGS 64 /* that of the quick verdict */

/* SWITCHES. zuwendryk_limited_verdict takes a byte of eight switches, the lowest bit for rule 1. Only rungs by the rules that are switched on are
 * made. Every byte is good: with 0 a stranger makes no rung, with 255 he has every rule. Every other call has every rule on. The start, which terms are
 * the same, the order of the rungs, the refusals and the buffer's layout don't depend on the switches.
 *
 *     ZUWENDRYK_EVERY_RULE & ~ZUWENDRYK_SWITCH(ZUWENDRYK_RULE_SUM)     every rule but sum
 *     ZUWENDRYK_SWITCH(ZUWENDRYK_RULE_OPEN)                            open alone
 *
 * Without sum, zero isn't free: it is gained as any other term is, by hearing it or out of what was heard. At out of reach the used set is then
 * empty and the remainder is the goal's own set; see WHAT IS MISSING.
 *
 * A warning. To switch a rule off is a claim about the stranger's receiver, not about the protocol. Out of reach for a limited stranger says nothing
 * about one who has more rules. So ask with every rule first, and switch off only what the receiver surely can't do. */
#define ZUWENDRYK_SWITCH(rule) (1 << ((rule) - 1))
#define ZUWENDRYK_EVERY_RULE 255

/* QUICK. zuwendryk_quick_verdict is the verdict with every rule on for a budget of at most ZUWENDRYK_QUICK_RUNGS; a greater one is refused with 9. It makes at
 * most 64 rungs, and its buffer needs at most 2,656 bytes. With a budget of at most 64 it gives the answer and the bytes of zuwendryk_verdict. Where it says reached or out of reach, zuwendryk_verdict says the same number with every budget, unless it is refused or stopped.
 * On a sheet of up to 64 entries it is never stopped with a budget of 64. Where it is stopped, ask zuwendryk_verdict. */

/* ANSWERS of the verdicts: a refusal's number, or a verdict's number plus the number of rungs made, 0 to 256. So an answer below
 * ZUWENDRYK_REACHED is a refusal, and of any other answer / 1000 * 1000 is the verdict and answer % 1000 the rungs. */

/* Refusals. They are looked for in the order of their numbers, except that the records are taken entry by entry, and in each 5 comes before 6 and 6
 * before 12. So a 12 in one record comes before a 5 in a later one, and before 7 to 10. There is no 11. A refused call hands back the number alone, and
 * the buffer keeps every byte. */
#define ZUWENDRYK_NO_SHEET 1     /* under 10 bytes, over ZUWENDRYK_LONGEST_SHEET, or the four letters differ */
#define ZUWENDRYK_BAD_COUNT 2    /* n, h or the goal is outside its range */
#define ZUWENDRYK_SHORT_LIST 3   /* the sheet ends before its records would begin, at 10 + 4n + 2h */
#define ZUWENDRYK_BAD_PAIR 4     /* a record's place: length 0, an offset that isn't the last record's end, an end past the sheet; or bytes left over */
#define ZUWENDRYK_BAD_RECORD 5   /* a kind over 7, or a length that the kind doesn't have */
#define ZUWENDRYK_FORWARD 6      /* an entry number in a record that isn't lower than the record's own */
#define ZUWENDRYK_NOT_LISTED 7   /* a heard message, also one past the cut, whose entry number is n or more */
#define ZUWENDRYK_PAST_THE_LOG 8 /* cut over h */
#define ZUWENDRYK_OVER_BUDGET 9  /* budget over ZUWENDRYK_MOST_RUNGS; in the quick verdict, over ZUWENDRYK_QUICK_RUNGS */
#define ZUWENDRYK_NO_SPACE 10    /* a buffer shorter than ZUWENDRYK_BUFFER(budget) */
#define ZUWENDRYK_WRONG_HALF 12  /* a lock whose key entry isn't itself of kind 5 or 6 */

/* Verdicts. */
#define ZUWENDRYK_REACHED 1000      /* the goal is gained; the buffer holds the rungs that gain it */
#define ZUWENDRYK_OUT_OF_REACH 2000 /* it isn't, and no rung follows; the buffer says what is missing */
#define ZUWENDRYK_STOPPED 3000      /* it isn't, the budget is used up, and another rung follows; never with a budget of n or more */

/* THE BUFFER'S BYTES after a call that wasn't refused. Numbers have 2 bytes, the high one first.
 *
 *     offset          bytes   content
 *     0               32      the gained set: entry e is the bit of value 1 << e % 8 in byte e / 8. Only heads stand in it, those of names and
 *                             messages too
 *     32              32      the used set, in the gained set's form; zero where the verdict isn't out of reach
 *     64              32      the remainder, in the gained set's form; zero where the verdict isn't out of reach
 *     96 + 40i        40      rung i, counted from 0 in the order made:
 *       + 0           2         the gained entry
 *       + 2           2         the rule, 1 to 8
 *       + 4           2         the first source, or 65,535
 *       + 6           2         the second source, or 65,535
 *       + 8           32        the set of summed entries, in the gained set's form
 *     96 + 40 * made          the rest keeps its value, whatever the budget */
#define ZUWENDRYK_SET 32                /* bytes of a set */
#define ZUWENDRYK_GAINED_AT 0           /* where the sets before the rungs begin */
#define ZUWENDRYK_USED_AT 32
#define ZUWENDRYK_REMAINDER_AT 64
#define ZUWENDRYK_FRONT 96              /* bytes before the first rung */
#define ZUWENDRYK_RUNG 40               /* bytes of a rung */
#define ZUWENDRYK_RUNG_GAINED 0         /* where in a rung its parts begin */
#define ZUWENDRYK_RUNG_RULE 2
#define ZUWENDRYK_RUNG_FIRST 4
#define ZUWENDRYK_RUNG_SECOND 6
#define ZUWENDRYK_RUNG_SET 8
#define ZUWENDRYK_BUFFER(b) (ZUWENDRYK_FRONT + ZUWENDRYK_RUNG * ZUWENDRYK_SIZE(b)) /* bytes for a budget of b rungs; where rung b begins */

/* WHAT IS MISSING. At out of reach, used set and remainder say what the listener still lacks. The terms of both together sum to the goal's term.
 *
 *     used set    gained entries, of those that a sum rung draws on. It may be empty
 *     remainder   standard entries. It has at least one member, and no member is gained
 *
 * The listener lacks the sum of the remainder's terms, taken as one term. If he had it, the goal would be one sum away: the sum of it and the used
 * terms. So he can't gain it either. With several members it is their sum that counts: he could have it and still lack each of them.
 *
 * No member of the remainder is the highest-numbered standard entry in any sum of gained terms. Only one remainder and one used set are so, and
 * the remainder is written in the lowest-numbered terms that will do. So the order of the entries decides in which terms a planner reads the
 * answer: give the terms whose loss is feared, as pads and masks, lower numbers than the keys that they hide. Let a key be sent summed with a
 * pad, let nothing else be heard, and let the key be the goal:
 *
 *     entries                                      used set    remainder
 *     0 the pad, 1 the key, 2 the sum of both      2           0, the pad
 *     0 the key, 1 the pad, 2 the sum of both      none        0, the key itself
 *
 * The remainder is about sums alone. Another term may open another way to the goal, as the key of a seal or the opposite half of the key of a lock
 * that was heard. To see what the loss of a term would do, add its entry to the heard messages and ask again.
 *
 * All of this holds in every setting with sum switched on. Without sum the used set is empty and the remainder is the goal's own set, the one set of
 * standard entries whose sum is the goal's term. Both are empty for a goal that is zero. So the listener lacks the goal itself; members of the
 * remainder may be gained, where he only can't sum them. */

/* STACK. The most bytes of stack that a call itself touches, below its caller's own: a verdict's, and those of a call that is refused and of
 * zuwendryk_validate. They include what the dynamic linker takes when it looks up memcpy or memset at the first use. A thread made for a verdict
 * may have PTHREAD_STACK_MIN + ZUWENDRYK_STACK bytes. The figures are measured by a test on the archive, not proved. */
#define ZUWENDRYK_STACK 81920
#define ZUWENDRYK_STACK_REFUSED 1024

/* WHAT A CALLER OWES. No pointer is null, also where its length is 0. Each area has the length given. The buffer overlaps no byte of the sheet. While
 * a call runs nothing else writes the sheet, or touches the buffer. The stack has the room said above. Nothing can check these at run time.
 *
 * The calls use no heap, no global variable, no file and no errno. They may run in several threads at once, each with a buffer of its own; the
 * sheet may be one for all. The sheet and the buffer need no alignment, and what the buffer holds before a call doesn't matter. */

/* WHAT IS PROVED, by machine, for every sheet, cut, budget and buffer for which the caller gives what it owes: which number comes back; every byte
 * of the buffer afterwards; that the verdict is right; that no memory but the two areas and the stack is touched; and that the call ends. A verdict
 * is right when out of reach comes only where no finite row of steps gains the goal, through terms on the sheet or not, and with a budget of n or
 * more always there; and when the rungs of a reached goal follow from names, messages and each other, gain it, and are at most n.
 *
 * At out of reach it is proved that used set and remainder are as WHAT IS MISSING says: the used entries are of those that a sum rung draws on, and
 * the remainder's members are standard entries; they sum to the goal's term; no member of the remainder is the highest-numbered standard entry in
 * a sum of gained terms; no other two sets are so. The remainder isn't empty, and none of its members is gained. No finite row of steps gains the
 * sum of its terms, and a listener who had that sum would gain the goal.
 *
 * The same is proved of zuwendryk_limited_verdict for every byte of switches, with rows of steps by the rules switched on: out of reach comes only
 * where none of these gains the goal, and with a budget of n or more always there; the rungs handed back use no other rule; without sum, used set and
 * remainder are as said above. With ZUWENDRYK_EVERY_RULE it gives the answer and the bytes of zuwendryk_verdict. With a budget of 256, turning a switch
 * on never turns reached into out of reach, and where the goal stays out of reach no gained term is lost.
 *
 * What is said of zuwendryk_verdict is proved of zuwendryk_quick_verdict too; and that with a budget of at most 64, refused or not, its answer and bytes
 * are those of zuwendryk_verdict; and that any two answers on one sheet and cut, each from either call and with any budget, are the same number where
 * neither is refused or stopped. So are any two answers of zuwendryk_limited_verdict with one byte of switches.
 *
 * Making up values is no help: where a verdict is out of reach, it is proved that the goal stays so for a stranger who also starts with any finite
 * number of atoms that occur in no entry, and with all atoms 0 to 255. This is about atoms. A half of a key pair can open a lock, on the sheet or not.
 *
 * Assumed are the checker, the compiler's back end, and that keys are perfect: a seal shows nothing without its key, nor a lock without the opposite
 * half of its key. */

/* The verdict on a sheet after the first `cut` heard messages, 0 to h, with at most `budget` rungs, 0 to 256. The answers and the buffer's bytes are
 * said above. A budget of ZUWENDRYK_MOST_RUNGS is enough for every sheet. The time grows with the square of n. */
uint32_t zuwendryk_verdict(const uint8_t *sheet, size_t sheet_len, uint32_t cut, uint32_t budget, uint8_t *buffer, size_t buffer_len);

/* The same verdict on a stranger who has the rules that are switched on; see SWITCHES. It refuses what zuwendryk_verdict refuses, and every `rules` is
 * good. */
uint32_t zuwendryk_limited_verdict(const uint8_t *sheet, size_t sheet_len, uint32_t cut, uint32_t budget, uint8_t rules, uint8_t *buffer,
                                   size_t buffer_len);

/* The same verdict as zuwendryk_verdict for a budget of 0 to 64; see QUICK. A greater budget is refused with 9. */
uint32_t zuwendryk_quick_verdict(const uint8_t *sheet, size_t sheet_len, uint32_t cut, uint32_t budget, uint8_t *buffer, size_t buffer_len);

/* Is this a good sheet? The number of the refusal, 1 to 7 or 12, or 0 for a good one. */
uint32_t zuwendryk_validate(const uint8_t *sheet, size_t sheet_len);

#ifdef __cplusplus
}
#endif

#endif
