/* zunidelo.h: does any memory fit the guesses that a solver made? A check, a lookup in the model, and the lemma as clauses.
 *
 * EXAMPLE. The tests compile and run it as it stands here.
 *
 *     #include <stdio.h>
 *     #include "zunidelo.h"
 *
 *     int main(void) {
 *         uint8_t query[] = {
 *             0x01, 0, 4, 0, 0, 0, 5,                // base term 0, guessed 5
 *             0x01, 0, 4, 0, 0, 0, 5,                // base term 1, guessed 5
 *             0x03, 0, 0,                            // array term 0, a variable
 *             0x06, 0, 8, 0, 0, 0, 0, 0, 0, 0, 7,    // base term 2: array 0 read at base 0, guessed 7
 *             0x06, 0, 8, 0, 0, 0, 1, 0, 0, 0, 8,    // base term 3: array 0 read at base 1, guessed 8
 *         };
 *         uint8_t lemma[ZUNIDELO_LEMMA_BYTES];
 *         int32_t numbers[ZUNIDELO_CLAUSE_NUMBERS];
 *         uint64_t report[5];
 *
 *         if (zunidelo_check(query, sizeof query, lemma, sizeof lemma, report) == ZUNIDELO_CONFLICT) {
 *             printf("lemma:");
 *             for (uint64_t k = 0; k < report[3]; k++) printf(" %02x", lemma[k]);
 *             zunidelo_clauses(query, sizeof query, numbers, ZUNIDELO_CLAUSE_NUMBERS, report);
 *             printf("\nvariables %d, clauses %d, numbers %d\n", (int)report[2], (int)report[3], (int)report[4]);
 *         }
 *         query[38] = 7;    // the second read is guessed 7 as well
 *         if (zunidelo_check(query, sizeof query, lemma, sizeof lemma, report) == ZUNIDELO_CONSISTENT) {
 *             zunidelo_lookup(query, sizeof query, 0, 5, report);
 *             printf("array 0 at 5: %d\n", (int)report[2]);
 *         }
 *         query[0] = 0xff;  // no such tag
 *         if (zunidelo_check(query, sizeof query, lemma, sizeof lemma, report) == ZUNIDELO_REFUSED)
 *             printf("refused by %d at %d\n", (int)report[0], (int)report[1]);
 *         return 0;
 *     }
 *
 * It prints:
 *
 *     lemma: 21 00 04 00 00 00 01 25 00 04 00 02 00 03
 *     variables 161, clauses 129, numbers 546
 *     array 0 at 5: 7
 *     refused by 3 at 0
 *
 * PROMISES. Each function is proved to meet its contract for every string of bytes and every lent buffer; no caller checks first.
 * There is no set-up and no state, no memory is allocated, and a call may be made on several threads at once. What is owed by a caller
 * is what C itself asks: each pointer with a length points to so many elements (it may be any pointer where the length is 0, but not
 * a null pointer), report points to its four or five numbers, and a buffer that is written overlaps nothing else that is lent.
 *
 * RETURNED is one of
 *     ZUNIDELO_CONSISTENT   the query is accepted and some memories fit its guess
 *     ZUNIDELO_CONFLICT     the query is accepted and none do
 *     ZUNIDELO_REFUSED      the call is refused: report[0] has the number, report[1] the offset, and the others are 0
 *
 * REFUSALS by number. The offset is that of the first byte of the field at fault, and 0 for 1, 10, 11 and 12.
 *      1  the query has more than 4,096 bytes
 *      2  a field's head has fewer than 3 bytes left, or its value runs past the end
 *      3  unknown tag
 *      4  the length is not the tag's own
 *      5  one array, base or Boolean term too many
 *      6  a term not yet given is named
 *      7  a truth byte is neither 0 nor 1
 *      8  a witness is not a read, or reads another array, or the two index numbers differ
 *      9  an equality with truth 0 whose witnesses have equal guessed values
 *     10  the answer is longer than the lent buffer
 *     11  lookup: no such array term in the query, or an index of 2^32 or more
 *     12  lookup on a query in conflict; clauses for a consistent query
 *
 * FIXED NUMBERS. A base term of tag 01 is free and its value a guess; one of tag 08, with a value of 4 bytes as well, is a constant: it has
 * this value in every memory. A lemma compares no two fixed numbers, which would cost 64 clauses each time; between a fixed number and
 * another term a comparison stays, and so does every conclusion. A fixed number is refused as tag 01 is, and it is no read, so no witness.
 *
 * GROWING. A query in conflict stays in conflict whatever fields are put after it, and each front of an accepted query, cut between two fields,
 * is accepted: a search that extends queries at the end may drop one at its first ZUNIDELO_CONFLICT, by the same pointer and a lesser length.
 * A front's lemma holds in all memories of the whole and is false under the whole's guess, so that it may be added there as it stands (but not
 * the front's clauses, whose variables go by how many terms there are), and the cells of a consistent whole fit each of its fronts.
 *
 * FORMAT of a query, of the lemma and of the clauses, and what a loop of guesses owes: docs/FORMAT.md.
 *
 * STACK. A call needs at most ZUNIDELO_STACK_BYTES of stack, below the frame of its caller. This is measured, not proved: on x86-64, with
 * the archive that tests/library makes, over the largest queries of every class in both verdicts and over every refusal, by tests/stack.
 * On another processor, or in an archive that another compiler made, it may be a little more or less: tests/stack measures it there.
 * Where memset is bound at its first use, the dynamic linker needs stack of its own for that, some 3 KB in glibc; -z now avoids it.
 *
 * LINK with libzunidelo.a. The library calls nothing but memcpy and memset.
 */
#ifndef ZUNIDELO_H
#define ZUNIDELO_H

#include <stddef.h>
#include <stdint.h>

#ifdef __cplusplus
extern "C" {
#endif

/* An answer buffer of so many bytes holds every lemma, and a run of so many numbers every lemma's clauses. */
#define ZUNIDELO_LEMMA_BYTES 343
#define ZUNIDELO_CLAUSE_NUMBERS 12625

/* A call needs no more bytes of stack than these, on x86-64: see STACK above. */
#define ZUNIDELO_STACK_BYTES 9000

#define ZUNIDELO_CONSISTENT 0
#define ZUNIDELO_CONFLICT 1
#define ZUNIDELO_REFUSED 2

/* Checks a query. In a conflict the first report[3] bytes of answer are the lemma; all others, and all in the other cases, stay.
 * It is that of the way with the fewest writes, each of which costs a comparison, and among those the fewest steps (docs/FORMAT.md).
 * report: number, offset, pairs, length. */
uint32_t zunidelo_check(const uint8_t *query, size_t query_len, uint8_t *answer, size_t answer_len, uint64_t report[4]);

/* Looks up one cell of the model of a consistent query: the value that array term array has at index.
 * Returns ZUNIDELO_CONSISTENT or ZUNIDELO_REFUSED. report: number, offset, value, 0. */
uint32_t zunidelo_lookup(const uint8_t *query, size_t query_len, uint64_t array, uint64_t index, uint64_t report[4]);

/* Writes the clauses of a query in conflict: signed numbers of variables, each clause closed by 0. The first report[4] of numbers are
 * written; all others, and all where the call is refused, stay. numbers_len counts numbers, not bytes.
 * The fresh variables of every call start at the same number, the first after those of the terms: give each call's fresh variables
 * numbers that nothing else has before clauses of two calls meet in one solver, or it will call satisfiable problems unsatisfiable.
 * docs/FORMAT.md shows how, and says what else the caller owes.
 * Returns ZUNIDELO_CONFLICT or ZUNIDELO_REFUSED. report: number, offset, variables, clauses, count of numbers. */
uint32_t zunidelo_clauses(const uint8_t *query, size_t query_len, int32_t *numbers, size_t numbers_len, uint64_t report[5]);

#ifdef __cplusplus
}
#endif

#endif
