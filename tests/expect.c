/* Comparisons that print what differs and count it. */
#include "expect.h"

#include <inttypes.h>
#include <stdio.h>

unsigned failures, comparisons;

void expect_number(const char *what, uint64_t got, uint64_t wanted) {
    comparisons++;
    if (got == wanted) return;
    failures++;
    printf("%s: %" PRIu64 ", not %" PRIu64 "\n", what, got, wanted);
}

void expect_numbers(const char *what, const uint64_t *got, const uint64_t *wanted, size_t n) {
    comparisons++;
    for (size_t i = 0; i < n; i++) {
        if (got[i] == wanted[i]) continue;
        failures++;
        printf("%s, number %zu: %" PRIu64 ", not %" PRIu64 "\n", what, i, got[i], wanted[i]);
        return;
    }
}

void expect_octets(const char *what, const uint8_t *got, const uint8_t *wanted, size_t n) {
    comparisons++;
    for (size_t i = 0; i < n; i++) {
        if (got[i] == wanted[i]) continue;
        failures++;
        printf("%s, octet %zu: %u, not %u\n", what, i, got[i], wanted[i]);
        return;
    }
}

void fill_numbers(uint64_t *array, size_t n) {
    for (size_t i = 0; i < n; i++) array[i] = STAYS;
}

void fill_octets(uint8_t *buffer, size_t n) {
    for (size_t i = 0; i < n; i++) buffer[i] = STAYS_OCTET;
}

void expect_reading(const char *what, reading call, const uint8_t *octets, size_t octets_length, size_t at,
                    uint32_t answer, const uint64_t *wanted, size_t n) {
    for (size_t room = 0; room <= n + 2 && room <= 60; room++) {
        uint64_t out[64], after[64];
        fill_numbers(out, 64);
        fill_numbers(after, 64);
        for (size_t i = 0; i < n && i < room; i++) after[i] = wanted[i];
        expect_number(what, call(octets, octets_length, at, out, room), answer);
        expect_numbers(what, out, after, 64);
    }
}
