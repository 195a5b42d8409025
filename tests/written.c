/* A buffer and an array that writers are lent, and what must be in them afterwards. */
#include "written.h"

#include "../include/sflow4.h"
#include "expect.h"

#include <string.h>

uint8_t buffer[ROOM];
uint64_t out[3];

void renew(void) {
    fill_octets(buffer, ROOM);
    fill_numbers(out, 3);
}

void expect_written(const char *what, uint32_t answer, const struct octets *wanted) {
    uint8_t after[ROOM];
    uint64_t array[3];
    fill_octets(after, ROOM);
    fill_numbers(array, 3);
    memcpy(after, wanted->at, wanted->length);
    array[SFLOW4_WRITTEN_LENGTH] = wanted->length;
    expect_number(what, answer, SFLOW4_DONE);
    expect_octets(what, buffer, after, ROOM);
    expect_numbers(what, out, array, 3);
}

void expect_refused(const char *what, uint32_t answer, uint32_t number, const uint8_t *before) {
    uint64_t array[3];
    fill_numbers(array, 3);
    expect_number(what, answer, number);
    expect_octets(what, buffer, before, ROOM);
    expect_numbers(what, out, array, 3);
}
