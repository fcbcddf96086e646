/* Dengwizo: a proved evaluator for step sheets, on lent bytes and numbers.
 *
 * Link libservices.a (building panel/ makes it, in target/staticlib; x86-64, and nothing but a C library's memory
 * functions besides).
 *
 * Lending. A buffer is a pointer, never null, and its length, for which the pointer must be valid; a length of 0 is
 * allowed. No two buffers of a call may overlap, nor may a walk's length lie in one of them. Nothing else is asked: a
 * function answers for whatever bytes and numbers it is lent, stays within them, keeps no pointer and no state,
 * allocates nothing and may be called by several threads at a time, each with its own scratch, result and walk.
 * The table and the list are never written.
 *
 * Answers. Each function answers number + 65,536 * place + 4,294,967,296 * count. Number 0 means granted, with place 0;
 * any other is a refusal, and the place is a record. The count is the number of records after an accepted check, the
 * number of bindings with 32 and 33, and otherwise 0.
 *
 * What is written. With DENGWIZO_SHORT_SCRATCH and DENGWIZO_SHORT_RESULT nothing. Otherwise the first 65,536 bytes of
 * the scratch end as zeros, granted or not; it need not be zero before. Bytes beyond those that a call needs are
 * untouched. What else is written stands with each function.
 */
#ifndef DENGWIZO_H
#define DENGWIZO_H

#include <stddef.h>
#include <stdint.h>

#ifdef __cplusplus
extern "C" {
#endif

/* Lengths. */
enum {
    DENGWIZO_SCRATCH_SIZE = 65536, /* bytes of scratch that every call needs */
    DENGWIZO_VALUE_SIZE = 512,     /* bytes of result that evaluating needs: the most of a value */
    DENGWIZO_LIST_LENGTH = 64,     /* entries of a walk: the most of a choice list */
    DENGWIZO_TABLE_SIZE = 2400,    /* the most bytes of a table */
    DENGWIZO_TABLE_RECORDS = 200   /* the most records of a table */
};

/* The kinds of values. A value is its length (16 bits, little-endian, of the whole record), its kind (16 bits) and its
 * contents: a byte 0 or 1; 4 bytes, two's complement, little-endian; the records of its items, for a map key, value,
 * key, value; or, for a quote, its number (16 bits, little-endian). */
enum {
    DENGWIZO_BOOLEAN = 1,
    DENGWIZO_INTEGER = 2,
    DENGWIZO_SET = 3,
    DENGWIZO_SEQUENCE = 4,
    DENGWIZO_MAP = 5,
    DENGWIZO_TUPLE = 6,
    DENGWIZO_QUOTE = 7
};

/* The numbers of the refusals: 1 to 10 from the input, in the order in which they are tested, and 20 to 35 from the
 * state of the run. */
enum {
    DENGWIZO_SHORT_SCRATCH = 1,    /* scratch shorter than 65,536 bytes */
    DENGWIZO_SHORT_RESULT = 2,     /* result buffer shorter than 512 bytes */
    DENGWIZO_BAD_SIZE = 3,         /* table empty or over 2,400 bytes */
    DENGWIZO_RECORD_FORM = 4,      /* a record cut off, or of a wrong length, kind, operator, name or literal */
    DENGWIZO_RECORD_COUNT = 5,     /* over 200 records */
    DENGWIZO_OPERANDS = 6,         /* an operand not lower, of the wrong sort or named before; a record never named */
    DENGWIZO_NAMES = 7,            /* a name not bound around it, or bound around the binder of its pattern */
    DENGWIZO_LOOSE_CONDITION = 8,  /* a let-be or a loose let inside a condition */
    DENGWIZO_HEIGHT = 9,           /* height over 32 */
    DENGWIZO_LIST_SIZE = 10,       /* a list longer than 64, or a walk lent with fewer than 64 entries */
    DENGWIZO_KIND = 20,            /* wrong kind */
    DENGWIZO_RANGE = 21,           /* integer out of range */
    DENGWIZO_ZERO = 22,            /* div, rem or mod by 0 */
    DENGWIZO_NO_MATCH = 23,        /* let without a match */
    DENGWIZO_NO_BINDING = 24,      /* let-be with no satisfying binding */
    DENGWIZO_NOT_UNIQUE = 25,      /* iota without exactly one */
    DENGWIZO_ABSENT = 26,          /* hd or tl of [], dinter of {}, absent index or key */
    DENGWIZO_CLASH = 27,           /* one key, two values */
    DENGWIZO_LARGE = 28,           /* value over 512 bytes */
    DENGWIZO_SPLIT = 29,           /* a union or munion pattern met by over 7 members or entries */
    DENGWIZO_BINDINGS = 30,        /* over 255 distinct bindings */
    DENGWIZO_CHOICES = 31,         /* a 65th choice */
    DENGWIZO_USED_UP = 32,         /* list used up; the count is the number of bindings */
    DENGWIZO_TOO_HIGH = 33,        /* entry not below the number of bindings, which is the count */
    DENGWIZO_LEFT_OVER = 34,       /* entries left over */
    DENGWIZO_NO_NEXT = 35          /* no next list */
};

/* Checks a table. */
uint64_t dengwizo_check(const uint8_t *table, size_t table_length,
                        uint8_t *scratch, size_t scratch_length);

/* Evaluates a table under a choice list. The first 512 bytes of the result become the value and then zeros, all zeros
 * when refused. */
uint64_t dengwizo_evaluate(const uint8_t *table, size_t table_length,
                           const uint8_t *list, size_t list_length,
                           uint8_t *scratch, size_t scratch_length,
                           uint8_t *result, size_t result_length);

/* Gives the first complete list of a table: the first 64 entries become the list and then zeros, and *length its length,
 * whatever they held. A refusal leaves both. */
uint64_t dengwizo_first(const uint8_t *table, size_t table_length,
                        uint8_t *entries, size_t entries_length, size_t *length,
                        uint8_t *scratch, size_t scratch_length);

/* Steps from the complete list that the walk holds, its first *length entries, to the next in dictionary order, written
 * as by dengwizo_first. DENGWIZO_NO_NEXT after the last; 32, 33 or 34 from a list that is not complete. A refusal leaves
 * the walk. */
uint64_t dengwizo_step(const uint8_t *table, size_t table_length,
                       uint8_t *entries, size_t entries_length, size_t *length,
                       uint8_t *scratch, size_t scratch_length);

/* The parts of an answer. */
static inline unsigned dengwizo_number(uint64_t answer)
{
    return (unsigned)(answer & 0xFFFF);
}

static inline unsigned dengwizo_place(uint64_t answer)
{
    return (unsigned)(answer >> 16 & 0xFFFF);
}

static inline unsigned dengwizo_count(uint64_t answer)
{
    return (unsigned)(answer >> 32);
}

#ifdef __cplusplus
}
#endif

#endif
