/* JAB Code symbols: a message written as a matrix of colour indices, and a sampled matrix read.
 *
 * One primary or secondary symbol of 4 or 8 colours, as ISO/IEC 23634 and BSI TR-03137-2 define it. Each call answers every
 * input; what it answers and what it leaves in each buffer is proved equal to a definition (crates/jabcode_c). No call keeps
 * anything between calls, allocates memory, or calls anything but memset; two calls with different buffers may run at once.
 * As compiled, the stack frames of all functions together take less than 4 KB, none calls itself, and there is no floating
 * arithmetic.
 *
 * What the caller owes, and no call can test:
 * - A pointer is not null, also where its length is 0, is aligned for its type, and points at as many elements as the length
 *   beside it says (params and answer: at one).
 * - A buffer that a call stores to overlaps no other argument. These are answer and work in every call that has them, matrix in
 *   jab_write, and message and places in jab_read.
 *
 * The archive is for x86-64, where size_t has 64 bits.
 */
#ifndef JABCODE_H
#define JABCODE_H

#include <stddef.h>
#include <stdint.h>

#ifdef __cplusplus
extern "C" {
#endif

/* The parameters. Any numbers may stand here; those outside these ranges are refused with 1.
 *
 * Set members by name, {.kind = 0, .horizontal = 1, ..}: one that is not named is 0. All members are of one type, so that the struct
 * lies in memory as an array of them does, in this order. */
typedef struct {
    uint32_t kind;       /* 0 primary, 1 secondary */
    uint32_t horizontal; /* side-version, 1 to 32; a side has 17 + 4 * side-version modules */
    uint32_t vertical;   /* side-version, 1 to 32 */
    uint32_t colours;    /* N, 4 or 8 */
    uint32_t black;      /* index of black; these three are below N and all different */
    uint32_t cyan;       /* index of cyan */
    uint32_t yellow;     /* index of yellow */
    uint32_t wc;         /* 3 to 8, and below wr */
    uint32_t wr;         /* 4 to 9 */
    uint32_t mask;       /* 0 to 7 */
    uint32_t turn;       /* 0 or 1: how the alignment patterns X0 and X1 lie */
} jab_params;

/* reserved: the palette and metadata modules, three numbers to an entry: column and row, counted from 1, and colour index. At
 * most 1,024 entries, each inside the symbol, on no finder or alignment pattern, on a module of its own, and with a colour below
 * N. reserved_len counts numbers, not entries.
 *
 * A matrix has one byte a module, a colour index, row after row from the upper left. */

/* The numbers of an answer. The first that applies is given, in the order of the list, and of 12 and 13 the one met first in the
 * stream.
 *
 *    0  done
 *    1  a parameter is outside its range
 *    2  bad reserved list. The place is the number of whole entries where reserved_len is not a multiple of three, else 1,024
 *       where there are more entries, else the first bad entry, counted from 0
 *    3  the capacity C is below wr, or above 4,096 bits
 *    4  matrix_len is not columns * rows
 *    5  work_len is below what jab_sizes says
 *    6  write: the message's stream and its end mark exceed the net bits. They take 1 bit for an empty message, 8 * n + 12 for n
 *       bytes from 1 to 15, and 8 * n + 25 for more; no symbol has room for a message that would take a second run
 *    7  read: a module is N or more. The place is the first such module's index in the matrix, counted from 0
 *    8  retired: no call gives it. It meant a wrong stuffing bit, which is counted now and refuses nothing
 *    9  read: the word cannot be mended (stuck)
 *   16  read: there are more repairs than places_len
 *   10  read: a spare message column is 1
 *   11  read: the net bits are all 0
 *   12  read: a code that 4.3 of BSI TR-03137-2 does not define, or the stream ends inside one
 *   13  read: ECI or FNC1
 *   14  read: the message is longer than its buffer
 *
 * The place is 0 with all numbers but 2 and 7. Every number of an answer is given as it is, for every input. */

/* The answer of jab_sizes. The sizes are 0 on refusal. */
typedef struct {
    uint64_t number; /* 0 to 3 */
    uint64_t place;
    uint64_t columns;
    uint64_t rows;
    uint64_t capacity; /* C, in bits */
    uint64_t net;      /* Pn, the net bits */
    uint64_t work;     /* the least work_len of the other two calls */
    uint64_t gross;    /* Pg, the bits of a codeword */
    uint64_t checks;   /* K, the checks: no read has more repairs, and so no more places */
} jab_sizes_answer;

/* The answer of jab_write. */
typedef struct {
    uint64_t number; /* 0 to 6 */
    uint64_t place;
} jab_write_answer;

/* The answer of jab_read. On a refusal the length is 0. The three counts are given with 0, 9 to 14 and 16, and are 0 with others. */
typedef struct {
    uint64_t number; /* 0 to 5, 7, 9 to 14, or 16 */
    uint64_t place;
    uint64_t length;   /* of the message, in bytes */
    uint64_t repairs;  /* never more than unmet */
    uint64_t unmet;    /* the checks that were unmet in the word received */
    uint64_t stuffing; /* the stuffing bits that were wrong, 0 to 8; they lie outside the word and say nothing about it */
} jab_read_answer;

/* What a symbol needs. */
void jab_sizes(const jab_params *params, const uint16_t *reserved, size_t reserved_len, jab_sizes_answer *answer);

/* Writes message into matrix.
 *
 * On 0 every module of matrix is stored; on a refusal matrix is as it came. work is scratch of at least as many bytes as
 * jab_sizes says; whatever it holds on entry, all work_len bytes of it are 0 afterwards, but with 1 to 5 it is not touched. */
void jab_write(const jab_params *params, const uint16_t *reserved, size_t reserved_len, const uint8_t *message, size_t message_len,
               uint8_t *matrix, size_t matrix_len, uint8_t *work, size_t work_len, jab_write_answer *answer);

/* Reads a sampled matrix into message, and says which bits it turned.
 *
 * On 0 the first bytes of message, as many as the answer's length says, are the message and the others are as they came; on a
 * refusal all of message is as it came. work is as in jab_write.
 *
 * Each repair turned one bit of the word received, the lowest-numbered in more unmet checks than met ones. On 0 the first numbers of
 * places, as many as the answer's repairs, are the places of these bits, in the order of repair: a place twice where a bit was turned
 * twice. The others are as they came, and on a refusal, whichever it is, all of places is. A place is a bit's number in the word
 * received, counted from 1: the word is the first Pg of the C bits, once mask and interleaving are undone. It is no module's index.
 *
 * places_len counts numbers, and no more than that are ever stored. Where a word that is mended has more repairs, the answer is 16,
 * none is stored, and repairs says how many numbers a second call has to lend. As many numbers as jab_sizes says that there are checks
 * are always enough, and so are as many as the answer's unmet. A caller who wants no places lends as many numbers as there are checks,
 * and looks at none. With places_len 0 (places is not null then, either) each label that a repair mends is refused with 16. */
void jab_read(const jab_params *params, const uint16_t *reserved, size_t reserved_len, const uint8_t *matrix, size_t matrix_len,
              uint8_t *work, size_t work_len, uint8_t *message, size_t message_len, uint16_t *places, size_t places_len,
              jab_read_answer *answer);

#ifdef __cplusplus
}
#endif

#endif
