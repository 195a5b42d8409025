/* The parts of the test of calls. */
#ifndef CALLS_H
#define CALLS_H

void reading_calls(void);
void writing_calls(void);
void appending_calls(void);
void ledger_calls(void);
void rule_set_calls(void);
void lines_calls(void);

#endif
