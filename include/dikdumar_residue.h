/*
 * Residue arithmetic modulo p = 2147483647 (a prime, 2^31 - 1).
 *
 * Every call takes every value of its arguments; nothing is undefined and
 * nothing is written anywhere. A residue is handed in by any number that is
 * equal to it modulo p: an argument of p or more is reduced first. A residue
 * that is handed out is the least one, from 0 to p - 1.
 *
 * Link libdikdumar_residue.a, which `bash .ci/build` writes to
 * target/staticlib/.
 */
#ifndef DIKDUMAR_RESIDUE_H
#define DIKDUMAR_RESIDUE_H

#include <stdint.h>

/* The version of this interface, for a program to test. */
#ifndef DIKDUMAR_VERSION
#define DIKDUMAR_VERSION "2.3.1"
#define DIKDUMAR_VERSION_MAJOR 2
#define DIKDUMAR_VERSION_MINOR 3
#define DIKDUMAR_VERSION_PATCH 1
#endif

#ifdef __cplusplus
extern "C" {
#endif

/* The least residue of x. */
uint32_t dikdumar_reduce(uint32_t x);

/* The least residue of x + y. */
uint32_t dikdumar_add(uint32_t x, uint32_t y);

/* The least residue of x - y, also where x is below y. */
uint32_t dikdumar_subtract(uint32_t x, uint32_t y);

/* The least residue of the exact product of x and y. */
uint32_t dikdumar_multiply(uint32_t x, uint32_t y);

/* The least residue of a signed number, any of the 2^32. */
uint32_t dikdumar_from_signed(int32_t x);

/*
 * The signed entry that the residue x stands for: the number from
 * -(p - 1)/2 to (p - 1)/2 that is equal to x modulo p.
 */
int32_t dikdumar_to_signed(uint32_t x);

/* 2^k for k from 0 to 30, and 0 for every larger k. */
uint32_t dikdumar_power_of_two(uint32_t k);

#ifdef __cplusplus
}
#endif

#endif
