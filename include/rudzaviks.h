/*
 * The C entries of the machine-list allocator. docs/FORMAT.md explains records, settings and the questions.
 *
 * A list is records of 8 words of 32 bits each, a table is pairs of words that LoadArgs records name.
 *
 * A slice passes as a pointer and a length in elements: words for a uint32_t pointer, bytes for a uint8_t pointer. The
 * pointer must be aligned for its elements and not null, even if the length is 0; what it then points to is not used.
 * A slice that may be written must not overlap any other slice of the same call. A flag is set if it is not 0.
 *
 * Every entry answers in one word of 64 bits. Bits 32 to 55 hold the number of the question that refused the list, and
 * are 0 if none did. A refusal is 2^32 x number + index: bits 0 to 31 hold the index of the record that was refused, 0
 * with questions 1 to 4. It changes nothing that was lent.
 *
 * Stack that a call takes at most, in bytes beyond the caller's frame; not proved, but measured on lists of all kinds, and held
 * by a test. For a list that passes questions 1 to 4 it goes by how many words its set must have:
 *
 *   rudzaviks_survey                                       1,024
 *   rudzaviks_optimize, the list being refused by 1 to 4     640
 *   rudzaviks_optimize, a set of at most 3,072 words      21,504
 *   rudzaviks_optimize, a set of at most 20,480 words     76,800
 *   rudzaviks_optimize, a longer set                   1,084,416
 *   rudzaviks_reduce                                      78,848
 */
#ifndef RUDZAVIKS_H
#define RUDZAVIKS_H

#include <stddef.h>
#include <stdint.h>

#ifdef __cplusplus
extern "C" {
#endif

/*
 * Surveys a list in one walk: which Gen registers it uses, how many they are, and where a label is. Used are the registers that
 * a record writes (with two of them only if both are Gen) and those of BranchIf's conditions; all 64 if compress. Answers the
 * index of the last Label with this number, or 4,294,967,295 if there is none. Questions 1, 3 and 5 to 7 are put; the fourth,
 * after the third, asks for at least these words, of which those that are not written stay as they were:
 *
 *   parts     4                             starts with a mask, one bit for each register, in two words, registers 0 to 31
 *                                           in the first; how many registers the mask names; and the answer again
 */
uint64_t rudzaviks_survey(
    const uint32_t *list, size_t list_len,
    const uint32_t *table, size_t table_len,
    uint32_t count_regs, uint32_t compress, uint32_t label,
    uint32_t *parts, size_t parts_len);

/*
 * Reduces a list. Answers the number of records that are left. All questions are put; the fourth asks for at least
 * these words, of which those that are not written stay as they were:
 *
 *   out       list_len                      starts with the reduced list
 *   colours   2 for each record             starts with the statics' colours, in order
 *   ends      2 for each record             starts with the statics' ends, in order
 *   set       4 for each record, table_len  starts with the read set, a space and an index for each member
 *   counts    8                             starts with how many records are left, how many statics and members of the
 *                                           set there are, how many nops, loads, moves and saves were dropped, and how
 *                                           full the registers got
 *
 * The last count is the largest number that a choice gives, 0 if none is made. A choice is made for each general register that
 * a record writes; its number is how many colours have, once it is made, a life above the record's index. A life is the largest
 * end of the statics that the colour was given since the last Label, Call, Branch or BranchIf, else 0. For an accepted list the
 * count is at most count_regs, and 0 exactly if no record reads a general register.
 */
uint64_t rudzaviks_optimize(
    const uint32_t *list, size_t list_len,
    const uint32_t *table, size_t table_len,
    uint32_t count_regs, uint32_t args, uint32_t complex_flag, uint32_t arm, uint32_t compress,
    uint32_t *out, size_t out_len,
    uint32_t *colours, size_t colours_len,
    uint32_t *ends, size_t ends_len,
    uint32_t *set, size_t set_len,
    uint32_t *counts, size_t counts_len);

/*
 * Reduces a list that comes as a file. Answers the number of records that are left.
 *
 * All words are 32 bits, lowest byte first, at any address. The file is count_regs, args and the flags complex, arm and
 * compress; the pair count and the pairs; the record count and the records. If a count is over 512, or the file is too
 * short or too long for its counts, the answer is 3 at 0, ahead of question 1. Then all questions are put; the
 * fourth asks for an output of at least 4 + 32 x the file's record count bytes. The output then starts with the number
 * of records that are left and these records; its other bytes stay as they were.
 */
uint64_t rudzaviks_reduce(
    const uint8_t *file, size_t file_len,
    uint8_t *out, size_t out_len);

#ifdef __cplusplus
}
#endif

#endif
