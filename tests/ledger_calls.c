/* Calls of the ledger. */
#include "calls.h"

#include "../include/sflow4.h"
#include "expect.h"

#include <string.h>

enum { N = SFLOW4_LEDGER_NUMBERS };

/* A table, two numbers more behind it, and what it should be. */
static uint64_t table[N + 2], wanted[N + 2];

static void empty(void) {
    memset(table, 0, sizeof table);
    fill_numbers(table + N, 2);
    memcpy(wanted, table, sizeof table);
}

static void expect_table(const char *what, uint32_t answer, uint32_t number) {
    expect_number(what, answer, number);
    expect_numbers(what, table, wanted, N + 2);
}

static void rows(void) {
    const uint64_t first[] = {1, 2, 601, 602, 603, 604, 605, 7, 4294967290u, 0, 0};
    const uint64_t second[] = {1, 1, 601, 602, 603, 604, 606, 8, 9, 0, 0};
    const uint64_t later[] = {1, 2, 601, 602, 603, 604, 605, 9, 10, 1, 16};
    empty();
    memcpy(wanted, first, sizeof first);
    expect_table("ledger, first", sflow4_ledger(table, N + 2, 2, 601, 602, 603, 604, 605, 7, 4294967290u), 0);
    memcpy(wanted + SFLOW4_LEDGER_COLUMNS, second, sizeof second);
    expect_table("ledger, another source", sflow4_ledger(table, N + 2, 1, 601, 602, 603, 604, 606, 8, 9), 0);
    memcpy(wanted, later, sizeof later);
    expect_table("ledger, later", sflow4_ledger(table, N + 2, 2, 601, 602, 603, 604, 605, 9, 10), 0);
    expect_table("ledger, the same again", sflow4_ledger(table, N + 2, 2, 601, 602, 603, 604, 605, 9, 11), SFLOW4_REFUSED_REPEATED);
    expect_table("ledger, before it", sflow4_ledger(table, N + 2, 2, 601, 602, 603, 604, 605, 8, 12), SFLOW4_REFUSED_BACKWARD);
}

/* Of an IPv4 agent the first word alone tells; numbers wider than 32 bits are read modulo 2^32. */
static void same_source(void) {
    empty();
    expect_number("ledger, IPv4", sflow4_ledger(table, N, 1, 601, 0, 0, 0, 605, 7, 8), 0);
    expect_number("ledger, IPv4, other words", sflow4_ledger(table, N, 1, 601, 1, 2, 3, 605, 7, 8), SFLOW4_REFUSED_REPEATED);
    table[SFLOW4_ROW_SEQUENCE_NUMBER] += UINT64_C(1) << 32;
    expect_number("ledger, wide number", sflow4_ledger(table, N, 1, 601, 0, 0, 0, 605, 7, 8), SFLOW4_REFUSED_REPEATED);
    expect_number("ledger, another agent", sflow4_ledger(table, N, 1, 602, 0, 0, 0, 605, 7, 8), 0);
    expect_number("ledger, another agent", table[SFLOW4_LEDGER_COLUMNS + SFLOW4_ROW_AGENT], 602);
}

static void full(void) {
    empty();
    for (uint32_t i = 0; i < SFLOW4_LEDGER_ROWS; i++)
        expect_number("ledger, filling", sflow4_ledger(table, N, 1, 1, 0, 0, 0, i, 5, 6), 0);
    memcpy(wanted, table, sizeof table);
    expect_table("ledger, full", sflow4_ledger(table, N, 1, 1, 0, 0, 0, 64, 5, 6), SFLOW4_REFUSED_TABLE_FULL);
    wanted[63 * SFLOW4_LEDGER_COLUMNS + SFLOW4_ROW_SEQUENCE_NUMBER] = 15;
    wanted[63 * SFLOW4_LEDGER_COLUMNS + SFLOW4_ROW_SAMPLE_POOL] = 26;
    wanted[63 * SFLOW4_LEDGER_COLUMNS + SFLOW4_ROW_LOST_TOTAL] = 9;
    wanted[63 * SFLOW4_LEDGER_COLUMNS + SFLOW4_ROW_POOL_TOTAL] = 20;
    expect_table("ledger, its last row", sflow4_ledger(table, N, 1, 1, 0, 0, 0, 63, 15, 26), 0);
}

static void short_table(void) {
    empty();
    expect_table("ledger, 703 numbers", sflow4_ledger(table, N - 1, 1, 2, 3, 4, 5, 6, 7, 8), SFLOW4_REFUSED_SHORT_ARRAY);
    expect_table("ledger, no numbers", sflow4_ledger(table, 0, 1, 2, 3, 4, 5, 6, 7, 8), SFLOW4_REFUSED_SHORT_ARRAY);
}

void ledger_calls(void) {
    rows();
    same_source();
    full();
    short_table();
}
