/* tanczotka.h: the C boundary of the solver: solving, showing one hole's answer, reading and writing a problem file. */

#ifndef TANCZOTKA_H
#define TANCZOTKA_H

#include <stddef.h>
#include <stdint.h>

#ifdef __cplusplus
extern "C" {
#endif

/* What is lent.
 *
 * A table is records of four words: tag, a, b, c. Lengths count words (a file's length counts bytes); any length will
 * do, odd ones too. A pointer is aligned and never NULL, also where the length is 0, and no two lent parts overlap.
 * Nothing is kept after a call, nothing is allocated, and calls on different memory may run at the same time. The calls
 * go down the stack as deep as terms are nested: 8 MB are enough for every input.
 *
 *   R = table_len / 4, at most 4,096       records that the table counts for; the first n are the problem
 *   C = queue_len / 2, at most 1,024       pairs that may wait in the queue
 *   output_len / 4, at most 4,096          records that the output counts for
 *
 * The solutions must have at least R words. What stands in table words after the first n records, in solutions, queue
 * and output before the call does not matter. */

#define TANCZOTKA_NONE UINT32_C(4294967295)
#define TANCZOTKA_MOST_RECORDS 4096
#define TANCZOTKA_MOST_PAIRS 1024
#define TANCZOTKA_MOST_FILE_RECORDS 2048
#define TANCZOTKA_MOST_FILE_BYTES 28672

enum tanczotka_tag {
    TANCZOTKA_BT = 1,  /* base type:        its base number */
    TANCZOTKA_AR = 2,  /* arrow type:       domain type, result type */
    TANCZOTKA_KO = 3,  /* constant:         its type */
    TANCZOTKA_HO = 4,  /* hole:             context list or NONE, base type record */
    TANCZOTKA_CE = 5,  /* list cell:        element, rest or NONE */
    TANCZOTKA_LA = 6,  /* lambda:           body */
    TANCZOTKA_CA = 7,  /* constant applied: constant, argument list or NONE */
    TANCZOTKA_VA = 8,  /* variable applied: variable number, argument list or NONE */
    TANCZOTKA_HA = 9,  /* hole applied:     hole, argument list or NONE */
    TANCZOTKA_EQ = 10  /* equation:         left term, right term, type */
};

enum tanczotka_answer {
    TANCZOTKA_SOLVED = 0,
    TANCZOTKA_CLASH = 1,        /* different rigid heads meet */
    TANCZOTKA_ESCAPE = 2,       /* a variable has no place in the solved hole's context */
    TANCZOTKA_OCCURS = 3,       /* the hole lies inside its own solution */
    TANCZOTKA_TOO_SMALL = 4,    /* n above R (write: or above 2,048), fewer than R words for solutions, a table smaller
                                   than the file */
    TANCZOTKA_BAD_RECORD = 5,   /* place: the lowest record that breaks a rule of records */
    TANCZOTKA_ILL_TYPED = 6,    /* place: the lowest equation with a side that does not check */
    TANCZOTKA_NO_PATTERN = 7,   /* place: the lowest offending hole occurrence */
    TANCZOTKA_QUEUE_FULL = 8,   /* waiting pairs plus new ones exceed C */
    TANCZOTKA_TABLE_FULL = 9,   /* the next record would have number R */
    TANCZOTKA_NO_HOLE = 10,     /* show: the asked record is no input hole */
    TANCZOTKA_OUTPUT_FULL = 11, /* show: the output has too few records */
    TANCZOTKA_BAD_LENGTH = 12,  /* file longer than 28,672 bytes or not a multiple of 14 */
    TANCZOTKA_BAD_MARK = 13,    /* place: the record with an unknown mark */
    TANCZOTKA_FILE_FULL = 14    /* write: the output is shorter than the file */
};

/* A reply packs four fields of 16 bits, lowest first: answer, place, used, and one that is 0.
 * Place is 0 where none is named. Used is 0 unless the answer is 0. */

static inline unsigned tanczotka_answer(uint64_t reply) { return (unsigned)(reply & 0xFFFF); }
static inline unsigned tanczotka_place(uint64_t reply) { return (unsigned)(reply >> 16 & 0xFFFF); }
static inline unsigned tanczotka_used(uint64_t reply) { return (unsigned)(reply >> 32 & 0xFFFF); }

/* Solves the problem in the first n records of the table. Used: n plus the records written.
 *
 * Left behind: answers 4 to 7 write nothing. Answers 1, 2, 3, 8, 9: records n to R-1 all zero, the first R solution
 * words NONE, the first 2 * C queue words 0. Answer 0: the input records unchanged, new records from n on, the rest up
 * to R zero; solution word k is the record of the solution if record k is a solved hole, otherwise NONE; the first
 * 2 * C queue words 0. Words past these ranges are never touched. */
uint64_t tanczotka_solve(uint32_t *table, size_t table_len, size_t n, uint32_t *solutions, size_t solutions_len,
                         uint32_t *queue, size_t queue_len);

/* Solves, then writes the answer of the input hole `hole` with all solved holes expanded into the output; its head is
 * the last record written. Used: the output's records. References to constants and holes are table numbers, all others
 * output numbers; variable j outside any lambda is the j-th entry of the hole's context.
 *
 * Left behind: as tanczotka_solve leaves it, where answer 10 writes nothing and answer 11 leaves table, solutions and
 * queue as answer 0 does. The output: untouched unless the answer is 0 or 11; unused counted records are zeroed, with
 * answer 11 all of them. */
uint64_t tanczotka_show(uint32_t *table, size_t table_len, size_t n, uint32_t *solutions, size_t solutions_len,
                        uint32_t *queue, size_t queue_len, size_t hole, uint32_t *output, size_t output_len);

/* Reads a problem file, records of 14 bytes: a mark of two letters, then a, b, c little-endian. Used: the records read.
 * Answers other than 0 write nothing; answer 0 writes the file's records and no other word. */
uint64_t tanczotka_read(const uint8_t *file, size_t file_len, uint32_t *table, size_t table_len);

/* Writes the first n records of the table as a problem file of 14 * n bytes, of at most 2,048 records. They must keep the
 * rules of records; they need not be typed or patterns, and later records do not matter. Used: n. Reading the file gives
 * the same n records, and writing the records that were read gives the same bytes. After tanczotka_solve has answered 0,
 * the first `used` records keep the rules, so they can be written, up to 2,048 of them.
 *
 * Left behind: answers 4, 5 and 14, in this order, write nothing. Answer 0: the first 14 * n bytes are the file, the
 * bytes past them stay. The table is only read. */
uint64_t tanczotka_write(const uint32_t *table, size_t table_len, size_t n, uint8_t *file, size_t file_len);

#ifdef __cplusplus
}
#endif

#endif
