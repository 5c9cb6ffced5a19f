/*
 * The layer ticket and its checker: residue arithmetic modulo p = 2147483647
 * (a prime, 2^31 - 1), the challenge check, the full check, the ticket writer,
 * these three for bias tickets, the quotes for both kinds, and the challenge
 * check one row at a step.
 *
 * A call cannot test this, and asks it of its caller:
 *
 * - Each pointer is valid for as many items as the length beside it says: bytes
 *   of a ticket or an output, numbers of a list, of a vector or of the operands
 *   a, b and bias. NULL is taken where that length is 0.
 * - A writer's output lies apart from its operands, and nothing else writes to
 *   what is lent, or reads the output, before the call returns.
 *
 * With that, nothing is undefined: every call takes every number, whatever its
 * value, every byte and every length, and returns. It reads no more than is
 * lent, writes to nothing but a writer's output, keeps nothing between calls
 * and uses no heap, so any number of threads may call at once.
 *
 * In the residue calls a residue is handed in by any number that is equal to it
 * modulo p: an argument of p or more is reduced first. A residue that is handed
 * out is the least one, from 0 to p - 1.
 *
 * Link libdikdumar.a, which `bash .ci/build` writes to target/staticlib/.
 * It holds the residue calls too, so dikdumar_residue.h and its archive are not
 * needed beside it.
 */
#ifndef DIKDUMAR_H
#define DIKDUMAR_H

#include <stddef.h>
#include <stdint.h>

/* The version of this interface, for a program to test. */
#ifndef DIKDUMAR_VERSION
#define DIKDUMAR_VERSION "2.3.1"
#define DIKDUMAR_VERSION_MAJOR 2
#define DIKDUMAR_VERSION_MINOR 3
#define DIKDUMAR_VERSION_PATCH 1
#endif

#ifdef __cplusplus
extern "C" {
#endif

/* Residues */

/* The least residue of x. */
uint32_t dikdumar_reduce(uint32_t x);

/* The least residue of x + y. */
uint32_t dikdumar_add(uint32_t x, uint32_t y);

/* The least residue of x - y, also where x is below y. */
uint32_t dikdumar_subtract(uint32_t x, uint32_t y);

/* The least residue of the exact product of x and y. */
uint32_t dikdumar_multiply(uint32_t x, uint32_t y);

/* The least residue of a signed number, any of the 2^32. */
uint32_t dikdumar_from_signed(int32_t x);

/*
 * The signed entry that the residue x stands for: the number from
 * -(p - 1)/2 to (p - 1)/2 that is equal to x modulo p.
 */
int32_t dikdumar_to_signed(uint32_t x);

/* 2^k for k from 0 to 30, and 0 for every larger k. */
uint32_t dikdumar_power_of_two(uint32_t k);

/* Tickets */

/*
 * The public numbers of a check. They come from the caller, never from the
 * ticket. Below, l, m, n, s, a, T, v and o stand for them in this order.
 *
 * A sum has o added to it and is then divided by the scale, rounded down. So a
 * rounding of 0 rounds down, and one of scale/2 to the nearest, halves up: over
 * 10 with o = 5, 24 gives 2, 25 gives 3 and -25 gives -2.
 *
 * A setting fits when m*T^2 + o + a - 1 <= 2^(v-1)*a and 2^v*a < p. Any v that
 * fits is taken, not only the smallest.
 */
typedef struct {
    uint32_t rows;     /* l, rows of A: 1 to 32 */
    uint32_t inner;    /* m, columns of A and rows of B: 1 to 64 */
    uint32_t columns;  /* n, columns of B: 1 to 32 */
    uint32_t vectors;  /* s, challenge vectors: 1 to 8 */
    uint32_t scale;    /* a, by which sums are divided: 2 to 65536 */
    uint32_t bound;    /* T, entries of A and B are from -T to T: 1 to 32767 */
    uint32_t width;    /* v, quotients are from -2^(v-1) to 2^(v-1) - 1: 1 to 30 */
    uint32_t rounding; /* o, added to a sum before it is divided: 0 to a - 1 */
} dikdumar_setting;

/*
 * The answer of a call; the table at each says what its numbers mean. A ticket
 * is accepted, or written, where number is 0 and only there; of a run only where
 * its mark says that it is complete, too.
 */
typedef struct {
    uint32_t number;   /* what was found, 0 to 22 */
    uint32_t place;    /* where, by the number; the length of a written ticket; the next vector of a run */
    uint32_t row;      /* the row that was caught, from 0, or the next row of a run; else 0 */
    uint32_t products; /* the products counted, else 0 */
} dikdumar_answer;

/*
 * Checks a ticket against a list of challenges.
 *
 * The ticket holds A (l by m), B (m by n), quotients q and remainders r (both l
 * by n) in this order, each row by row, in records of 8 bytes:
 *
 *     byte 0      kind: 1 for A, 2 for B, 3 for a quotient, 4 for a remainder
 *     byte 1      zero
 *     byte 2, 3   row, column, from 0
 *     byte 4-7    value: a least residue, little-endian
 *
 * The claim at row i, column j is true when a*q + r - o is the exact sum of
 * A(i,k)*B(k,j) over all k. The list holds s vectors of n least residues, one
 * vector after another, none of them all zeros. For each vector X, B times X is
 * worked out once, and then for each row both sides are compared modulo p: the
 * a*q + r - o of the row times X, and the row of A times that. A true ticket is
 * accepted with every such list. A false one passes only where its errors
 * cancel, so the list is to be drawn at random once the ticket is fixed; with
 * one column it never passes.
 *
 *     number  meaning                                    place
 *        0    accepted                                   0
 *        1    l, m, n or s outside its limits            0
 *        2    a, T or v outside its limits               0
 *        3    the setting does not fit                   0
 *        4    ticket's length not 8*(l*m + m*n + 2*l*n)  0
 *        5    kind, zero byte, row or column unexpected  record
 *        6    value of p or more                         record
 *        7    entry of A or B below -T or above T        record
 *        8    quotient not from -2^(v-1) to 2^(v-1) - 1  record
 *        9    remainder of a or more                     record
 *       10    list's length not s*n                      0
 *       11    list number of p or more                   index in the list
 *       12    caught: the two sides of a row differ      vector t
 *       19    o not below a                              0
 *       21    a vector of zeros                          vector t
 *
 * The first test that fails decides: 1, 2, 19, 3 and 4, then record after record
 * each by 5, 6 and its own range, then 10, 11, 21 and 12. Records are counted
 * from 0 over the whole ticket. Row and products are 0 except in these answers:
 *
 *     number  row    products
 *        0    0      s*(m*n + l*n + l*m)
 *       12    row i  t*(m*n + l*n + l*m) + m*n + (i + 1)*(n + m)
 */
dikdumar_answer dikdumar_challenge_check(dikdumar_setting setting,
                                         const uint8_t *ticket, size_t ticket_length,
                                         const uint32_t *list, size_t list_length);

/*
 * Checks every claim of a ticket, row by row, with no list.
 *
 * The ticket is read as by the challenge check. Then each exact sum of
 * A(i,k)*B(k,j) over all k is made and compared with a*q + r - o. It accepts the
 * true tickets and no other: each quotient is the floor of its sum plus o over
 * the scale (rounded down, also below zero), and each remainder what is left.
 *
 *     number  meaning                                    place
 *        0    accepted                                   0
 *        1    l, m, n or s outside its limits            0
 *        2    a, T or v outside its limits               0
 *        3    the setting does not fit                   0
 *        4    ticket's length not 8*(l*m + m*n + 2*l*n)  0
 *        5    kind, zero byte, row or column unexpected  record
 *        6    value of p or more                         record
 *        7    entry of A or B below -T or above T        record
 *        8    quotient not from -2^(v-1) to 2^(v-1) - 1  record
 *        9    remainder of a or more                     record
 *       16    untrue claim, at row i, column j           i*n + j
 *       19    o not below a                              0
 *
 * The first test that fails decides: 1, 2, 19, 3 to 9 as in the challenge check,
 * then 16, row by row. s is tested with the rest of the setting, and not used.
 * Row and products are 0 except in these answers:
 *
 *     number  row  products
 *        0    0    l*m*n
 *       16    0    m*(i*n + j + 1)
 */
dikdumar_answer dikdumar_full_check(dikdumar_setting setting,
                                    const uint8_t *ticket, size_t ticket_length);

/*
 * Writes the one ticket for A and B whose claims are true.
 *
 * A (l by m) and B (m by n) are handed in as signed numbers, row by row, and may
 * hold any of the 2^32. The ticket is written to the beginning of the output, in
 * the records described above: A, B, the quotients and the remainders. Each
 * quotient is the floor of its sum plus o over the scale (rounded down, also
 * below zero), each remainder what is left. The full check accepts the ticket,
 * and the challenge check does with every list of s*n least residues of which no
 * vector is all zeros.
 *
 *     number  meaning                                    place
 *        0    written                                    8*(l*m + m*n + 2*l*n)
 *        1    l, m, n or s outside its limits            0
 *        2    a, T or v outside its limits               0
 *        3    the setting does not fit                   0
 *       13    length of A not l*m, or of B not m*n       0 for A, 1 for B
 *       14    number of A or B below -T or above T       index in A, then B
 *       15    output shorter than the ticket             0
 *       19    o not below a                              0
 *
 * The place of 0 is the ticket's length in bytes. The index of a number of B is
 * counted on from A: the first is l*m.
 *
 * The first test that fails decides: 1, 2, 19, 3, 13 for A, 13 for B, 14 from
 * the first number on, 15. s is tested with the rest of the setting, and not
 * used. Row and products are 0 except in this answer:
 *
 *     number  row  products
 *        0    0    l*m*n
 *
 * Where the number is 0, the output past the ticket's length stays as it is.
 * Where it is another, no byte of the output is changed.
 */
dikdumar_answer dikdumar_write_ticket(dikdumar_setting setting,
                                      const int32_t *a, size_t a_length,
                                      const int32_t *b, size_t b_length,
                                      uint8_t *output, size_t output_length);

/* Bias tickets */

/*
 * The public numbers of a check of bias tickets: a setting, whose letters stand
 * for its numbers as above, and the bound of the bias, W.
 *
 * It fits when m*T^2 + W + o + a - 1 <= 2^(v-1)*a and 2^v*a < p. Any v that fits
 * is taken, not only the smallest.
 */
typedef struct {
    dikdumar_setting setting; /* l, m, n, s, a, T, v and o, within the limits above */
    uint32_t bias_bound;      /* W, entries of the bias are from -W to W: 0 to 2^30 */
} dikdumar_bias_setting;

/*
 * Checks a bias ticket against a list of challenges.
 *
 * A bias ticket holds A (l by m), B (m by n), the bias c (l by n), quotients q
 * and remainders r (both l by n) in this order, each row by row, in the records
 * of a ticket, with kind 5 for an entry of the bias.
 *
 * The claim at row i, column j is true when a*q + r - o is the exact sum of
 * A(i,k)*B(k,j) over all k, plus c(i,j). The list holds s vectors of n least
 * residues, one vector after another, none of them all zeros. For each vector X,
 * B times X is worked out once, and then for each row both sides are compared
 * modulo p: the a*q + r - o of the row times X, and the row of A times that plus
 * the row of the bias times X. A true ticket is accepted with every such list. A
 * false one passes only where its errors cancel, so the list is to be drawn at
 * random once the ticket is fixed; with one column it never passes.
 *
 *     number  meaning                                    place
 *        0    accepted                                   0
 *        1    l, m, n or s outside its limits            0
 *        2    a, T or v outside its limits               0
 *        3    the setting does not fit                   0
 *        4    ticket's length not 8*(l*m + m*n + 3*l*n)  0
 *        5    kind, zero byte, row or column unexpected  record
 *        6    value of p or more                         record
 *        7    entry of A or B below -T or above T        record
 *        8    quotient not from -2^(v-1) to 2^(v-1) - 1  record
 *        9    remainder of a or more                     record
 *       10    list's length not s*n                      0
 *       11    list number of p or more                   index in the list
 *       12    caught: the two sides of a row differ      vector t
 *       17    W above 2^30                               0
 *       18    bias entry below -W or above W             record
 *       19    o not below a                              0
 *       21    a vector of zeros                          vector t
 *
 * The first test that fails decides: 1, 2, 17, 19, 3 and 4, then record after
 * record each by 5, 6 and its own range (7, 18, 8 or 9), then 10, 11, 21 and 12.
 * Records are counted from 0 over the whole ticket. Row and products are 0
 * except in these answers:
 *
 *     number  row    products
 *        0    0      s*(m*n + 2*l*n + l*m)
 *       12    row i  t*(m*n + 2*l*n + l*m) + m*n + (i + 1)*(2*n + m)
 */
dikdumar_answer dikdumar_bias_challenge_check(dikdumar_bias_setting setting,
                                              const uint8_t *ticket, size_t ticket_length,
                                              const uint32_t *list, size_t list_length);

/*
 * Checks every claim of a bias ticket, row by row, with no list.
 *
 * The ticket is read as by the challenge check of bias tickets. Then each exact
 * sum of A(i,k)*B(k,j) over all k, plus c(i,j), is made and compared with
 * a*q + r - o. It accepts the true bias tickets and no other: each quotient is
 * the floor of its sum plus bias plus o over the scale (rounded down, also below
 * zero), and each remainder what is left.
 *
 *     number  meaning                                    place
 *        0    accepted                                   0
 *        1    l, m, n or s outside its limits            0
 *        2    a, T or v outside its limits               0
 *        3    the setting does not fit                   0
 *        4    ticket's length not 8*(l*m + m*n + 3*l*n)  0
 *        5    kind, zero byte, row or column unexpected  record
 *        6    value of p or more                         record
 *        7    entry of A or B below -T or above T        record
 *        8    quotient not from -2^(v-1) to 2^(v-1) - 1  record
 *        9    remainder of a or more                     record
 *       16    untrue claim, at row i, column j           i*n + j
 *       17    W above 2^30                               0
 *       18    bias entry below -W or above W             record
 *       19    o not below a                              0
 *
 * The first test that fails decides: 1, 2, 17, 19, 3 to 9 and 18 in the order of
 * the challenge check of bias tickets, then 16, row by row. s is tested with the
 * rest of the setting, and not used. Row and products are 0 except in these
 * answers:
 *
 *     number  row  products
 *        0    0    l*m*n
 *       16    0    m*(i*n + j + 1)
 */
dikdumar_answer dikdumar_bias_full_check(dikdumar_bias_setting setting,
                                         const uint8_t *ticket, size_t ticket_length);

/*
 * Writes the one bias ticket for A, B and a bias whose claims are true.
 *
 * A (l by m), B (m by n) and the bias (l by n) are handed in as signed numbers,
 * row by row, and may hold any of the 2^32. The ticket is written to the
 * beginning of the output: A, B, the bias, the quotients and the remainders.
 * Each quotient is the floor of its sum plus bias plus o over the scale (rounded
 * down, also below zero), each remainder what is left. The full check of bias
 * tickets accepts the ticket, and their challenge check does with every list of
 * s*n least residues of which no vector is all zeros.
 *
 *     number  meaning                                                    place
 *        0    written                                                    8*(l*m + m*n + 3*l*n)
 *        1    l, m, n or s outside its limits                            0
 *        2    a, T or v outside its limits                               0
 *        3    the setting does not fit                                   0
 *       13    length of A not l*m, of B not m*n, or of the bias not l*n  0 for A, 1 for B, 2 for the bias
 *       14    number of A or B below -T or above T                       index in A, then B
 *       15    output shorter than the ticket                             0
 *       17    W above 2^30                                               0
 *       18    number of the bias below -W or above W                     index after A and B
 *       19    o not below a                                              0
 *
 * The place of 0 is the ticket's length in bytes. The indices are counted on
 * from A into B, and from B into the bias: the first of B is l*m, the first of
 * the bias l*m + m*n.
 *
 * The first test that fails decides: 1, 2, 17, 19, 3, 13 for A, 13 for B, 13
 * for the bias, 14 from the first number of A on, 18 from the first of the bias
 * on, 15. s is tested with the rest of the setting, and not used. Row and
 * products are 0 except in this answer:
 *
 *     number  row  products
 *        0    0    l*m*n
 *
 * Where the number is 0, the output past the ticket's length stays as it is.
 * Where it is another, no byte of the output is changed.
 */
dikdumar_answer dikdumar_write_bias_ticket(dikdumar_bias_setting setting,
                                           const int32_t *a, size_t a_length,
                                           const int32_t *b, size_t b_length,
                                           const int32_t *bias, size_t bias_length,
                                           uint8_t *output, size_t output_length);

/* Quotes */

/*
 * What the tickets of a setting need, whatever the operands. Where number is not
 * 0, the four figures are 0.
 */
typedef struct {
    uint32_t number;             /* 0, or why there are no figures: 1, 2, 17, 19 or 20 */
    uint32_t width;              /* the smallest v with which the setting fits */
    uint32_t length;             /* the bytes of a ticket, the place of the writer's answer */
    uint32_t full_products;      /* the products of a full check that accepts */
    uint32_t challenge_products; /* the products of a challenge check that accepts */
} dikdumar_quote;

/*
 * The quote for tickets of a setting, before there are operands.
 *
 * setting.width is not read. The smallest v is given with which the setting fits:
 * m*T^2 + o + a - 1 <= 2^(v-1)*a and 2^v*a < p. With every v with which it fits,
 * the writer and the checks report the length and the products that are quoted.
 *
 *     number  meaning
 *        0    quoted
 *        1    l, m, n or s outside its limits
 *        2    a or T outside its limits
 *       19    o not below a
 *       20    no v from 1 to 30 fits
 *
 * The first test that fails decides: 1, 2, 19, 20. The figures of number 0:
 *
 *     width  length                   full_products  challenge_products
 *     v      8*(l*m + m*n + 2*l*n)    l*m*n          s*(m*n + l*n + l*m)
 */
dikdumar_quote dikdumar_quote_ticket(dikdumar_setting setting);

/*
 * The quote for bias tickets of a setting, before there are operands.
 *
 * setting.setting.width is not read. The smallest v is given with which the
 * setting fits: m*T^2 + W + o + a - 1 <= 2^(v-1)*a and 2^v*a < p. With every v
 * with which it fits, the writer and the checks of bias tickets report the length
 * and the products that are quoted.
 *
 *     number  meaning
 *        0    quoted
 *        1    l, m, n or s outside its limits
 *        2    a or T outside its limits
 *       17    W above 2^30
 *       19    o not below a
 *       20    no v from 1 to 30 fits
 *
 * The first test that fails decides: 1, 2, 17, 19, 20. The figures of number 0:
 *
 *     width  length                   full_products  challenge_products
 *     v      8*(l*m + m*n + 3*l*n)    l*m*n          s*(m*n + 2*l*n + l*m)
 */
dikdumar_quote dikdumar_quote_bias_ticket(dikdumar_bias_setting setting);

/* Stepped checks */

/* The marks of a run. */
enum {
    DIKDUMAR_UNDER_WAY = 0, /* there is a next row */
    DIKDUMAR_CAUGHT = 1,    /* the two sides of a row differ */
    DIKDUMAR_COMPLETE = 2,  /* no row is left */
    DIKDUMAR_REFUSED = 3    /* a test fails: the answer has its number */
};

/*
 * The state of a run, which is a challenge check of a plain ticket that makes one
 * row at a step, and to which vectors can be added meanwhile. The caller keeps
 * it: it is handed in by value, and what the call makes of it is handed back.
 *
 * Any numbers may stand in it, whoever made them, and each call answers to them
 * as its rules say. Below, t stands for its vector.
 */
typedef struct {
    dikdumar_setting setting; /* l, m, n, s, a, T, v and o; an addition raises s */
    uint32_t list[256];       /* the vectors one after another; past list_length it is not read */
    uint32_t list_length;     /* how many numbers of it are the list; 10 where not s*n, so above 256 too */
    uint32_t vector;          /* t, the next vector, from 0 */
    uint32_t row;             /* the next row, from 0 */
    uint32_t u[64];           /* B times vector t, from that vector's first row on; past m it is not read */
    uint32_t caught;          /* 0: not caught; any other number: caught in vector, row */
} dikdumar_run;

/*
 * What a call makes of a run. The mark says how to read the answer:
 *
 *     mark        number  place   row       products
 *     under way      0    next t  next row  t*(m*n + l*n + l*m) + row*(n + m),
 *                                           and m*n more where row is not 0
 *     caught        12    t       row       t*(m*n + l*n + l*m) + m*n + (row + 1)*(n + m)
 *     complete       0    0       0         s*(m*n + l*n + l*m)
 *     refused      others, with their places; row and products are 0
 *
 * Number 0 under way accepts nothing yet. The numbers are worked out from t and
 * row, whoever made the state. One whose t is s or more, or whose row is l or
 * more, is complete, also where it says that it is caught.
 *
 * A run ends where it is caught or complete. If each state was handed in as the
 * run last handed it back, and the same ticket was lent throughout, the answer
 * that ends it is that of dikdumar_challenge_check to the ticket with the final
 * list, s being its count of vectors. Of a run in which another ticket was lent
 * in between, no more is promised than what each step does by itself.
 */
typedef struct {
    dikdumar_run run;       /* the state handed back */
    uint32_t mark;          /* DIKDUMAR_UNDER_WAY, _CAUGHT, _COMPLETE or _REFUSED */
    dikdumar_answer answer; /* as the mark says */
} dikdumar_run_answer;

/*
 * Begins a run with the vectors of a list, and makes no row.
 *
 * The ticket and the list are those of dikdumar_challenge_check, and are tested
 * as there. The state handed back holds the setting, the list with zeros after
 * it and its length, and 0 in every other number.
 *
 *     number  meaning                                    place
 *        0    under way                                  0
 *        1    l, m, n or s outside its limits            0
 *        2    a, T or v outside its limits               0
 *        3    the setting does not fit                   0
 *        4    ticket's length not 8*(l*m + m*n + 2*l*n)  0
 *        5    kind, zero byte, row or column unexpected  record
 *        6    value of p or more                         record
 *        7    entry of A or B below -T or above T        record
 *        8    quotient not from -2^(v-1) to 2^(v-1) - 1  record
 *        9    remainder of a or more                     record
 *       10    list's length not s*n                      0
 *       11    list number of p or more                   index in the list
 *       19    o not below a                              0
 *       21    a vector of zeros                          vector t
 *
 * The first test that fails decides: 1, 2, 19, 3 and 4, then record after record
 * each by 5, 6 and its own range, then 10, 11 and 21. Row and products are 0. The
 * mark is DIKDUMAR_UNDER_WAY, or DIKDUMAR_REFUSED, and then every number of the
 * state handed back is 0.
 */
dikdumar_run_answer dikdumar_run_begin(dikdumar_setting setting,
                                       const uint8_t *ticket, size_t ticket_length,
                                       const uint32_t *list, size_t list_length);

/*
 * Makes the next row of a run.
 *
 * The ticket that is lent and the state's setting and list are tested first, as
 * by dikdumar_challenge_check, at every step. Then a run that is caught or
 * complete gives its answer again. Else both sides of the row are compared for
 * vector t. In row 0, B times the vector is worked out from the ticket lent; in
 * the rows after it the state's u is taken, each number of it modulo p.
 *
 *     number  meaning                                    place
 *        0    under way, or complete                     next t, or 0
 *        1    l, m, n or s outside its limits            0
 *        2    a, T or v outside its limits               0
 *        3    the setting does not fit                   0
 *        4    ticket's length not 8*(l*m + m*n + 2*l*n)  0
 *        5    kind, zero byte, row or column unexpected  record
 *        6    value of p or more                         record
 *        7    entry of A or B below -T or above T        record
 *        8    quotient not from -2^(v-1) to 2^(v-1) - 1  record
 *        9    remainder of a or more                     record
 *       10    list's length not s*n                      0
 *       11    list number of p or more                   index in the list
 *       12    caught: the two sides of a row differ      vector t
 *       19    o not below a                              0
 *       21    a vector of zeros                          vector t
 *
 * The first test that fails decides: 1, 2, 19, 3 and 4, then record after record
 * each by 5, 6 and its own range, then 10, 11 and 21. Row and products are 0
 * except in these answers:
 *
 *     number  row             products
 *        0    next row, or 0  those so far, or s*(m*n + l*n + l*m)
 *       12    row i           t*(m*n + l*n + l*m) + m*n + (i + 1)*(n + m)
 *
 * A refusal hands the state back as it came, and so does a run that is caught or
 * complete. Where a row is made, this changes and nothing else:
 *
 *     u       in row 0 its first m numbers, which become B times the vector
 *     caught  becomes 1 where the sides differ; vector and row stay
 *     row     goes up by one where the sides are equal, and from the last to 0
 *     vector  goes up by one with that
 *
 * After the last row of the last vector the run is complete at once.
 */
dikdumar_run_answer dikdumar_run_step(dikdumar_run run, const uint8_t *ticket, size_t ticket_length);

/*
 * Adds one vector at the end of a run's list, and makes no row.
 *
 * The vector holds n least residues, not all of them 0. It is tested as what
 * comes after the state's list, and places are counted in the list with it. No
 * ticket is lent.
 *
 *     number  meaning                                                place
 *        0    under way                                              next t
 *        1    l, m, n or s outside its limits                        0
 *        2    a, T or v outside its limits                           0
 *        3    the setting does not fit                               0
 *       10    list's length not s*n, or the vector's not n           0
 *       11    list number of p or more                               index in the list
 *       19    o not below a                                          0
 *       21    a vector of zeros                                      vector t
 *       22    the run is caught or complete, or holds eight vectors  0
 *
 * The first test that fails decides: 1, 2, 19 and 3, then 10, 11 and 21 of the
 * state's list, then 10, 11 and 21 of the vector, then 22. Row and products are 0
 * except in this answer:
 *
 *     number  row       products
 *        0    next row  those so far
 *
 * The mark is DIKDUMAR_UNDER_WAY, or DIKDUMAR_REFUSED, and then the state is
 * handed back as it came. Where the vector is added, it stands after the list,
 * list_length goes up by n and s by one, and nothing else changes.
 */
dikdumar_run_answer dikdumar_run_add(dikdumar_run run, const uint32_t *vector, size_t vector_length);

#ifdef __cplusplus
}
#endif

#endif
