/* Calls every function of sflow4.h, with values that all differ, and compares its answers, arrays and buffers with those that
 * the forms and rules demand; prints what differs, and exits with status 1 if anything does. */
#include "calls.h"

#include "expect.h"

#include <stdio.h>

int main(void) {
    reading_calls();
    writing_calls();
    appending_calls();
    ledger_calls();
    rule_set_calls();
    lines_calls();
    printf("%u comparisons, %u failed\n", comparisons, failures);
    return failures != 0;
}
