/* A buffer and an array that writers are lent, and what must be in them afterwards. */
#ifndef WRITTEN_H
#define WRITTEN_H

#include "octets.h"

enum { ROOM = 512 };

/* The buffer and the array of the next call. */
extern uint8_t buffer[ROOM];
extern uint64_t out[3];

/* Fills both, to see what stays. */
void renew(void);

/* The buffer has these octets and, behind them, what was there; the array has the length, and what was there. */
void expect_written(const char *what, uint32_t answer, const struct octets *wanted);

/* A refusal leaves both as they were. */
void expect_refused(const char *what, uint32_t answer, uint32_t number, const uint8_t *before);

#endif
