/* Boltamber's C library: numbers only. Both functions answer any numbers and end; neither reads or writes memory.
 *
 *   scripts/staticlib host        writes target/staticlib/libhost.a, x86-64 code, with the two functions below
 */
#ifndef BOLTAMBER_H
#define BOLTAMBER_H

#include <stdint.h>

#ifdef __cplusplus
extern "C" {
#endif

/* The published PDEP at 64 bits, by the mask's own count: bit k of the source stands at the k-th set bit of the mask,
 * source bits from the mask's count on are ignored, and all else is 0. It never refuses. */
uint64_t boltamber_deposit(uint64_t source, uint64_t mask);

/* The position, 0 to 63, of the word's set bit that has exactly `rank` set bits below it; 64 where the rank is not below
 * the word's set bits. */
uint64_t boltamber_select(uint64_t word, uint64_t rank);

#ifdef __cplusplus
}
#endif

#endif
