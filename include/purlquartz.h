/*
 * Purlquartz: machine-checked tools for the tables of LR(1) parsers.
 *
 * A book holds a parser's tables: T terminals (1 to 32), N nonterminals (0 to 32), S states (1 to
 * 128) and P productions (0 to 128). In memory it is a row of 16-bit cells, at most 8,485:
 *
 *   the form, 1 or 2; T; N; S; P
 *   for each production its left side and its length, 0 to 32
 *   in form 2 for each terminal its rank, the numbers 0 to T - 1 in any order
 *   for each state, for each terminal an action: 0 error, 1 accept, 2 + 2 s shift to state s,
 *     3 + 2 p reduce production p
 *   for each state, for each nonterminal a goto: 0 none, else the state + 1
 *
 * In bytes each number takes one to three, the fewest possible: groups of seven bits, lowest
 * first, the top bit set on all but the last. All numbers from 0 to 2,097,151 can be written so and
 * are read; one that is outside the range of its place, also one over 65,535, gets the refusal of
 * its place. The longest book has 16,679 bytes. Terminal 0 is the end mark: no state shifts it, and
 * accept stands only under it; it has a rank too. In form 1 a terminal's rank is its number. The
 * start is state 0. Every call that takes a book takes both forms.
 *
 * A list holds sentences that fail. It is numbers in bytes, as in a book, at most 128,770 bytes:
 *
 *   the count of entries, 0 to 128
 *   for each entry its length, 0 to 1,000, and so many symbols, 1 to T - 1; its lookahead, 0 to
 *     T - 1; its article number, that of its message, 0 to 2,097,151
 *
 * Nothing marks a list that was written before entries had article numbers: it is refused, or read
 * as its bytes now say.
 *
 * Slices. A slice is a pointer and a count of elements. The pointer must not be null, even when
 * the count is 0, and must be good for the count. Slices that are written to (not const) must
 * overlap no other. Nothing is allocated, and no pointer is kept after a call.
 *
 * Call stack. purlquartz_find, purlquartz_find_break, purlquartz_sentences and
 * purlquartz_break_sentences use less than 700,000 bytes of it; purlquartz_judge less than 80,000;
 * purlquartz_map, purlquartz_sets and purlquartz_check_certificate less than 60,000;
 * purlquartz_run, purlquartz_sort_list and purlquartz_join_lists less than 25,000; every other
 * call less than 1,000. These are rounded up from what was measured.
 *
 * Answers. Every call fills answer[0] to answer[7]: answer[0] is the kind, the others its values,
 * unused ones 0. The answer must not be null, and must overlap no slice. Kind 0 is a refusal,
 * answer[1] its number and answer[2] its place; then no lent memory but the answer has changed.
 * All inputs are checked before anything else happens, in the order: the book's cells or bytes;
 * the list or lists, sentence or certificate; then 17, 10, 11, 13, 12. The 12 of
 * purlquartz_sort_list and of purlquartz_join_lists alone comes later, once it is known that there
 * is a result.
 *
 *   number  cause                                              place
 *   1   a book, list or part of a certificate stops before a   where the missing number begins
 *       due number is complete
 *   2   a number is badly formed: padded, or its third byte    its first byte
 *       has the top bit set (in bytes only)
 *   3   the form is neither 1 nor 2                            the number's offset or index
 *   4   T, N, S or P outside its range                         the number's offset or index
 *   5   a production's left side or length outside its range   the number's offset or index
 *   6   something follows the last number                      where it begins
 *   7   a symbol is 0, or T or more                            its index; in a list or
 *                                                              certificate, its offset
 *   8   a sentence has over 1,000 symbols                      0; in a list or certificate, the
 *                                                              length's offset
 *   9   a list has over 128 entries                            the count's offset
 *   10  the state is S or more                                 0
 *   11  the lookahead is T or more                             0; in a list, its offset
 *   12  an output is too short                                 0
 *   13  work or stack cells are too few                        0
 *   14  an action outside its range, a shift under terminal    the number's offset or index
 *       0, or accept under another terminal
 *   15  a goto outside its range                               the number's offset or index
 *   16  a rank is T or more, or was used before                the number's offset or index
 *   17  a rank is not its terminal's number                    the cell's index
 *       (purlquartz_to_form_1 only)
 *
 * Offsets count bytes, indices count cells or symbols, all from 0.
 */
#ifndef PURLQUARTZ_H
#define PURLQUARTZ_H

#include <stddef.h>
#include <stdint.h>

#ifdef __cplusplus
extern "C" {
#endif

#define PURLQUARTZ_MOST_CELLS 8485u
#define PURLQUARTZ_MOST_BYTES 16679u
#define PURLQUARTZ_MOST_LIST_BYTES 128770u
#define PURLQUARTZ_SENTENCE_BYTES 1000u
#define PURLQUARTZ_STACK_CELLS 1024u
/* Map cells that are no length. */
#define PURLQUARTZ_LONG 1001u
#define PURLQUARTZ_UNREACHED 1002u

/* answer[0] of every refusal. */
#define PURLQUARTZ_REFUSED 0u

/* answer[0] of purlquartz_run, and the ending in a wrong entry's judgement. */
#define PURLQUARTZ_ACCEPTED 1u
#define PURLQUARTZ_ERROR 2u
#define PURLQUARTZ_BROKEN 3u
#define PURLQUARTZ_PASSED 4u
#define PURLQUARTZ_DEEP 5u
#define PURLQUARTZ_SPINNING 6u

/* answer[0] of purlquartz_find. */
#define PURLQUARTZ_FOUND_UNREACHED 1u
#define PURLQUARTZ_FOUND_LONG 2u
#define PURLQUARTZ_FOUND_SENTENCE 3u

/* answer[0] of purlquartz_find_break. */
#define PURLQUARTZ_BREAK_NONE 1u
#define PURLQUARTZ_BREAK_LONG 2u
#define PURLQUARTZ_BREAK_SENTENCE 3u

/* answer[0] of purlquartz_entry and purlquartz_next_entry. */
#define PURLQUARTZ_ENTRY_FOUND 1u
#define PURLQUARTZ_ENTRY_NONE 2u

/* answer[0] of purlquartz_judge. */
#define PURLQUARTZ_COMPLETE 1u
#define PURLQUARTZ_UNCOVERED 2u
#define PURLQUARTZ_REPEAT 3u
#define PURLQUARTZ_WRONG 4u
#define PURLQUARTZ_OUT_OF_ORDER 5u

/* answer[0] of purlquartz_sort_list, besides PURLQUARTZ_REPEAT and PURLQUARTZ_WRONG. */
#define PURLQUARTZ_SORTED 1u

/* answer[0] of purlquartz_join_lists, besides PURLQUARTZ_REPEAT, PURLQUARTZ_WRONG and
 * PURLQUARTZ_OUT_OF_ORDER; and answer[7] of it, whose fault or refusal it is. */
#define PURLQUARTZ_JOINED 1u
#define PURLQUARTZ_NO_LIST 0u
#define PURLQUARTZ_FIRST_LIST 1u
#define PURLQUARTZ_SECOND_LIST 2u

/* answer[0] of purlquartz_check_certificate, and answer[1] of a fault. */
#define PURLQUARTZ_CERTIFICATE_ACCEPTED 1u
#define PURLQUARTZ_CERTIFICATE_FAULT 2u
#define PURLQUARTZ_FAULT_RANGE 0u
#define PURLQUARTZ_FAULT_ROADS 1u
#define PURLQUARTZ_FAULT_START 2u
#define PURLQUARTZ_FAULT_TRANSITIONS 3u
#define PURLQUARTZ_FAULT_SHORT 4u
#define PURLQUARTZ_FAULT_SENTENCES 5u

/* How many cells a certificate's claims for crossings have: S * N * T * T. */
#define PURLQUARTZ_CROSSING_CELLS(t, n, s) \
    ((size_t)(s) * (size_t)(n) * (size_t)(t) * (size_t)(t))

/* How many work cells the finder needs: T * T * S * (N + 8). */
#define PURLQUARTZ_WORK_CELLS(t, n, s) \
    ((size_t)(t) * (size_t)(t) * (size_t)(s) * ((size_t)(n) + 8u))

/*
 * Reads a book from bytes into the first lent cells; the cells after them keep their values.
 * Kind 1: answer[1] is how many cells were written.
 * Refusals: 1 to 6 and 14 to 16 as the book is read; 12 if it has more cells than are lent.
 */
void purlquartz_read(const uint8_t *bytes, size_t byte_count,
                     uint16_t *cells, size_t cell_count,
                     uint64_t answer[8]);

/*
 * Checks the cells of a book.
 * Kind 1: answer[1] to answer[4] are T, N, S and P, answer[5] is the form.
 * Refusals: 1, 3, 4, 5, 16, 14, 15, 6. Every call that takes cells gives these first.
 */
void purlquartz_check(const uint16_t *cells, size_t cell_count,
                      uint64_t answer[8]);

/*
 * Writes the book that the cells hold to the first lent cells in form 1; the cells after them keep
 * their values. The ranks of form 2 are left out, which must be the terminals' numbers; a book of
 * form 1 is written as it is.
 * Kind 1: answer[1] is how many cells were written.
 * Refusals: those of purlquartz_check; 17 at the first rank that is not its terminal's number; 12
 * if the result has more cells than are lent.
 */
void purlquartz_to_form_1(const uint16_t *cells, size_t cell_count,
                          uint16_t *lent, size_t lent_count,
                          uint64_t answer[8]);

/*
 * Writes the book that the cells hold to the first lent cells in form 2; the cells after them keep
 * their values. To a book of form 1 the ranks 0 to T - 1 are added, in this order; a book of form 2
 * is written as it is, whatever its ranks.
 * Kind 1: answer[1] is how many cells were written.
 * Refusals: those of purlquartz_check; 12 if the result has more cells than are lent.
 */
void purlquartz_to_form_2(const uint16_t *cells, size_t cell_count,
                          uint16_t *lent, size_t lent_count,
                          uint64_t answer[8]);

/*
 * Writes the book that the cells hold to the first lent bytes; the bytes after them keep their
 * values.
 * Kind 1: answer[1] is how many bytes were written.
 * Refusals: those of purlquartz_check; 12 if the book has more bytes than are lent.
 */
void purlquartz_write(const uint16_t *cells, size_t cell_count,
                      uint8_t *bytes, size_t byte_count,
                      uint64_t answer[8]);

/*
 * Runs a sentence, symbols from 1 to T - 1 and at most 1,000 of them, with a lookahead. The first
 * 1,024 stack cells then hold the stack before the step that was not taken, bottom first, then
 * zeros; the cells after them keep their values.
 * Kinds: 1 accepted; 2 error; 3 broken, a reduction could not be done; 4 passed, the sentence is
 * in and the lookahead would be shifted; 5 deep, a push would make 1,025 states; 6 spinning, 4,096
 * reductions were done since the last shift or the start and a further one can be done. For each,
 * answer[1] is the top state, answer[2] the symbol looked at, answer[3] how many were taken in.
 * Refusals: those of purlquartz_check; 8; 7; 11; 13 if fewer than 1,024 stack cells are lent.
 */
void purlquartz_run(const uint16_t *cells, size_t cell_count,
                    const uint8_t *sentence, size_t sentence_count,
                    uint16_t lookahead,
                    uint16_t *stack, size_t stack_count,
                    uint64_t answer[8]);

/*
 * Finds the shortest sentence that brings the machine to the state with the lookahead, and of
 * several the earliest in order: the lower rank at the first difference. It stands at the front of
 * the buffer; the bytes after it, or all where there is none, keep their values. The first
 * T * T * S * (N + 8) work cells are zero afterwards.
 * Kinds: 1 unreached, no sequence reaches the pair, however long; 2 long, some sequence does, but
 * none of at most 1,000 symbols; 3 sentence, answer[1] is its length.
 * Refusals: those of purlquartz_check; 10; 11; 13 if fewer work cells are lent; 12 if the buffer
 * has fewer than 1,000 bytes.
 */
void purlquartz_find(const uint16_t *cells, size_t cell_count,
                     uint16_t state, uint16_t lookahead,
                     uint16_t *work, size_t work_count,
                     uint8_t *buffer, size_t buffer_count,
                     uint64_t answer[8]);

/*
 * Finds the shortest sentence that brings the machine to the state with the lookahead, with a stack
 * on which the reduction to be done there breaks, and of several the earliest in order. A reduction
 * of length n breaks if n or fewer states are stacked, or if the state that is on top once n are
 * taken off has no goto under its left side. Unlike in a run, the stack and the reductions before
 * are unlimited.
 * The sentence, the other bytes of the buffer and the work cells are left as by purlquartz_find.
 * Kinds: 1 none, no sequence does so, however long, or the action of the pair is not reduce; 2
 * long, some sequence does, but none of at most 1,000 symbols; 3 sentence, answer[1] is its length.
 * Refusals: those of purlquartz_find.
 */
void purlquartz_find_break(const uint16_t *cells, size_t cell_count,
                           uint16_t state, uint16_t lookahead,
                           uint16_t *work, size_t work_count,
                           uint8_t *buffer, size_t buffer_count,
                           uint64_t answer[8]);

/*
 * Writes the whole map to the first S * T lent cells, by state, then terminal: the least length of
 * a sentence that reaches the pair, 1,001 for long, 1,002 for unreached. The cells after them keep
 * their values; the work cells are left as by purlquartz_find.
 * Kind 1: answer[1] is S * T.
 * Refusals: those of purlquartz_check; 13 if too few work cells are lent; 12 if fewer than S * T
 * map cells are lent.
 */
void purlquartz_map(const uint16_t *cells, size_t cell_count,
                    uint16_t *work, size_t work_count,
                    uint16_t *map, size_t map_count,
                    uint64_t answer[8]);

/*
 * Writes the whole map, as purlquartz_map does, and to the first lent bytes the sentence of each
 * pair whose cell is 1,000 or less, in the map's order: its length and its symbols, numbers as in a
 * book, as a certificate has them. Each is the one that purlquartz_find answers. The cells and
 * bytes after them keep their values; the work cells are left as by purlquartz_find.
 * Kind 1: answer[1] is how many bytes the sentences have.
 * Refusals: those of purlquartz_check; 13 if too few work cells are lent; 12 if fewer than S * T
 * map cells are lent, then if fewer than S * T * 1,002 bytes are lent.
 */
void purlquartz_sentences(const uint16_t *cells, size_t cell_count,
                          uint16_t *work, size_t work_count,
                          uint16_t *map, size_t map_count,
                          uint8_t *bytes, size_t byte_count,
                          uint64_t answer[8]);

/*
 * The same of the sentences with which the reduction of a pair breaks, which purlquartz_find_break
 * answers: the map's cells are their least lengths, 1,001 for long, 1,002 for none.
 */
void purlquartz_break_sentences(const uint16_t *cells, size_t cell_count,
                                uint16_t *work, size_t work_count,
                                uint16_t *map, size_t map_count,
                                uint8_t *bytes, size_t byte_count,
                                uint64_t answer[8]);

/*
 * Writes for each state the set of lookaheads that it is reached with, long ones too, bit z for
 * terminal z, and beside it how many there are. The cells after the first S keep their values; the
 * work cells are left as by purlquartz_find.
 * Kind 1: answer[1] is S.
 * Refusals: those of purlquartz_check; 13 if too few work cells are lent; 12 if fewer than S cells
 * are lent for the sets or for the sizes.
 */
void purlquartz_sets(const uint16_t *cells, size_t cell_count,
                     uint16_t *work, size_t work_count,
                     uint32_t *sets, size_t set_count,
                     uint32_t *sizes, size_t size_count,
                     uint64_t answer[8]);

/*
 * Checks a list of sentences against a book: the count of entries, then for each its length, its
 * symbols, its lookahead and its article number; nothing after.
 * Kind 1: answer[1] is the offset of the first entry, answer[2] how many there are.
 * Refusals: those of purlquartz_check; then, in reading order, 1, 2, 9 for the count; for each
 * entry 1, 2, 8 for its length, 1, 2, 7 for each symbol, 1, 2, 11 for its lookahead, 1, 2 for its
 * article number, which may be any number; 6.
 */
void purlquartz_check_list(const uint16_t *cells, size_t cell_count,
                           const uint8_t *list, size_t list_count,
                           uint64_t answer[8]);

/*
 * Looks up one entry of a list by its index from 0.
 * Kinds: 1 found, answer[1] is the offset of its symbols in the list, answer[2] how many there
 * are, one a byte, answer[3] its lookahead, answer[4] its article number; 2 none, the list has no
 * such entry.
 * Refusals: those of purlquartz_check_list.
 */
void purlquartz_entry(const uint16_t *cells, size_t cell_count,
                      const uint8_t *list, size_t list_count,
                      size_t index,
                      uint64_t answer[8]);

/*
 * Goes from entry to entry of a checked list: the entry at an offset, of which so many entries are
 * left. The first offset and count are answer[1] and answer[2] of purlquartz_check_list, each later
 * pair answer[5] and answer[6] of this call. The book is not needed any more, and all entries
 * together take time in proportion to the list.
 * Kinds: 1 found, answer[1] to answer[4] as by purlquartz_entry, answer[5] the offset after the
 * entry, answer[6] how many are left after it; 2 none, no entry is left.
 * No refusals. Any offset, count and bytes may be given: the answer is also 2 if no whole entry
 * with symbols and a lookahead below 32 stands at the offset.
 */
void purlquartz_next_entry(const uint8_t *list, size_t list_count,
                           size_t offset, size_t left,
                           uint64_t answer[8]);

/*
 * Judges a list. An entry is wrong if its run ends neither as error nor as broken with the whole
 * sentence in; else it is out of order if it ends in a lower state than the entry before it; else
 * it repeats if it ends in the state of an earlier one. The first entry with such a fault is told.
 * Without one the list is complete if every state with a failing pair has its entry. A failing pair
 * is one whose action is error and that some sequence reaches, however long, or one whose action is
 * reduce and where some sequence, however long, makes that break: purlquartz_find_break then does
 * not answer none. Article numbers do not count. The work cells are left as by purlquartz_find, and
 * the first 1,024 stack cells are zero afterwards.
 * Kinds: 1 complete; 2 uncovered, answer[1] is the lowest state with a failing pair and no entry;
 * 3 repeat, answer[1] is the entry; 4 wrong, answer[1] is the entry, answer[2] the kind of its
 * run's ending as in purlquartz_run, answer[3] to answer[5] its state, symbol and taken; 5 out of
 * order, answer[1] is the entry.
 * Refusals: those of purlquartz_check_list; 13 if too few work or stack cells are lent.
 */
void purlquartz_judge(const uint16_t *cells, size_t cell_count,
                      const uint8_t *list, size_t list_count,
                      uint16_t *work, size_t work_count,
                      uint16_t *stack, size_t stack_count,
                      uint64_t answer[8]);

/*
 * Sorts a list: writes its entries, each with its article number, to the first lent bytes in
 * ascending order of the state where they fail; the bytes after them keep their values. They may
 * come in any order, but none may be wrong or repeat, as purlquartz_judge has it. The result is a
 * list of as many bytes; lists with the same entries, article numbers too, are written alike, and
 * one that is in order as it is.
 * Kinds: 1 sorted, answer[1] is how many bytes were written; 3 repeat and 4 wrong, the first entry
 * that is so, with the values of purlquartz_judge, and then no lent byte has changed.
 * Refusals: those of purlquartz_check_list; 12 if there is a result and it has more bytes than are
 * lent.
 */
void purlquartz_sort_list(const uint16_t *cells, size_t cell_count,
                          const uint8_t *list, size_t list_count,
                          uint8_t *bytes, size_t byte_count,
                          uint64_t answer[8]);

/*
 * Joins two lists for the same book: of each state that an entry of either list fails in, writes
 * the entry with fewer symbols to the first lent bytes, at equal length the first list's, in
 * ascending order of the states; the bytes after them keep their values. An entry that is taken
 * keeps its article number. Both lists must be complete or uncovered, as purlquartz_judge has it.
 * The result is a list without a fault, and complete if every state with a failing pair has an
 * entry in one of the lists.
 * Kinds: 1 joined, answer[1] is how many bytes were written; 3 repeat, 4 wrong and 5 out of order,
 * the first list's fault, or the second's if the first has none, with the values of
 * purlquartz_judge, and answer[7] is 1 or 2 for the list; then no lent byte has changed.
 * Refusals: those of purlquartz_check, answer[7] is 0; then those of purlquartz_check_list for the
 * first list, answer[7] is 1, and for the second, answer[7] is 2, each with an offset in its own
 * list and before any fault; 12 if there is a result and it has more bytes than are lent,
 * answer[7] is 0.
 */
void purlquartz_join_lists(const uint16_t *cells, size_t cell_count,
                           const uint8_t *first, size_t first_count,
                           const uint8_t *second, size_t second_count,
                           uint8_t *bytes, size_t byte_count,
                           uint64_t answer[8]);

/*
 * Checks a certificate, whoever made it. What is accepted is the book's map: the claims for pairs
 * are then what purlquartz_map writes, and no pair is long. A true certificate without long pairs
 * is accepted if its sentences reach their pairs within a run's limits. No memory is written but
 * the answer.
 *
 * Claims are least lengths: 0 to 1,000, 1,001 for long, 1,002 for unreached.
 *   crossings  S * N * T * T cells: the claim of state q, nonterminal x, first and following
 *              terminal stands at ((q * N + x) * T + first) * T + following, for each goto, be it
 *              there or none
 *   pairs      S * T cells, by state, then terminal, as the map's
 *   sentences  for each pair claimed at 1,000 or less, in the same order, a length and so many
 *              symbols, numbers as in a book; a pair claimed higher has none
 *
 * A shift counts 1, has its terminal for first and any following terminal. A goto that is there
 * counts its claim. A road is such transitions in a row, each one's following terminal the next
 * one's first; an empty road has equal first and following. Sums over 1,000 stop at 1,001, and
 * unreached with anything is unreached.
 *
 * Kinds: 1 accepted; 2 a fault, answer[1] is the first condition that is not met, answer[2] the
 * lowest index of a claim at which it is not. The crossings' claims are counted from 0 and the
 * pairs' go on after them: pair (s, z) has S * N * T * T + s * T + z. The conditions:
 *   0  no claim is over 1,002
 *   1  no crossing's claim is over any road from its state with its first and following terminal,
 *      as long as a production of its nonterminal and ending where that production is reduced on
 *      the following terminal; whether the goto is there or none
 *   2  each (0, z) is claimed 0
 *   3  no pair's claim is over that of any pair and one transition from the latter's state to the
 *      former's, its first terminal the latter's lookahead, its following terminal the former's
 *   4  no pair is claimed long
 *   5  each sentence has the claimed length, and its run with the pair's lookahead, as by
 *      purlquartz_run, has at some moment up to its ending all symbols in and the lookahead not,
 *      with the pair's state on top
 * Refusals: those of purlquartz_check; for the crossings 1 at their count if it is too low, or 6
 * at the first surplus cell; for the pairs likewise; then, with offsets in the sentences, for each
 * that is due 1, 2, 8 for its length and 1, 2, 7 for each symbol; 6.
 */
void purlquartz_check_certificate(const uint16_t *cells, size_t cell_count,
                                  const uint16_t *crossings, size_t crossing_count,
                                  const uint16_t *pairs, size_t pair_count,
                                  const uint8_t *sentences, size_t sentence_count,
                                  uint64_t answer[8]);

#ifdef __cplusplus
}
#endif

#endif
