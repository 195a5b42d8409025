/* Comparisons that print what differs and count it. */
#ifndef EXPECT_H
#define EXPECT_H

#include <stddef.h>
#include <stdint.h>

extern unsigned failures, comparisons;

void expect_number(const char *what, uint64_t got, uint64_t wanted);
void expect_numbers(const char *what, const uint64_t *got, const uint64_t *wanted, size_t n);
void expect_octets(const char *what, const uint8_t *got, const uint8_t *wanted, size_t n);

/* What stands in arrays and buffers before a call, to see what stays. */
#define STAYS UINT64_C(0xabcdef0123456789)
#define STAYS_OCTET 0xa5
void fill_numbers(uint64_t *array, size_t n);
void fill_octets(uint8_t *buffer, size_t n);

/* A function of octets and an offset that answers a number and an array. */
typedef uint32_t (*reading)(const uint8_t *octets, size_t octets_length, size_t at, uint64_t *out, size_t out_length);

/* Calls it with arrays of every length from 0 to n + 2: each must take as many of the n wanted numbers as it has room for,
 * and nothing behind them. */
void expect_reading(const char *what, reading call, const uint8_t *octets, size_t octets_length, size_t at,
                    uint32_t answer, const uint64_t *wanted, size_t n);

#endif
