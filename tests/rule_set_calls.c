/* Calls of the check and the engine of rule sets. */
#include "calls.h"

#include "../include/sflow4.h"
#include "expect.h"
#include "forms.h"

#include <string.h>

static void put_rule(struct octets *o, unsigned attribute, unsigned opcode, uint32_t mask, uint32_t value, unsigned parameter) {
    put_octets(o, "Ru", 2);
    put_octet(o, attribute);
    put_octet(o, opcode);
    put_word(o, mask);
    put_word(o, value);
    put_octet(o, parameter);
    for (int i = 0; i < 3; i++) put_octet(o, 0);
}

/* home, depth and held of the rule put last */
static void declare(struct octets *o, unsigned home, unsigned depth, unsigned held) {
    o->at[o->length - 3] = (uint8_t)home;
    o->at[o->length - 2] = (uint8_t)depth;
    o->at[o->length - 1] = (uint8_t)held;
}

static uint32_t check(const uint8_t *octets, size_t n, size_t at, uint64_t *out, size_t room) {
    (void)at;
    return rtfm_check(octets, n, out, room);
}

static void checks(void) {
    const uint64_t none = 0, second = 2;
    struct octets o = {{0}, 0};
    expect_reading("check, nothing", check, o.at, 0, 0, RTFM_REFUSED_SET_LENGTH, &none, 1);
    put_rule(&o, RTFM_SOURCE_INTERFACE, 12, 0xffffffff, 406, 2);
    put_rule(&o, RTFM_NULL, 3, 0, 0, 0);
    declare(&o, 0, 0, 1);
    expect_reading("check, second rule declares otherwise", check, o.at, o.length, 0, RTFM_REFUSED_SUCCESSOR, &(const uint64_t){1}, 1);
    o.at[3] = 10;
    declare(&o, 0, 0, 0);
    expect_reading("check, accepted", check, o.at, o.length, 0, RTFM_ACCEPTED, &none, 1);
    expect_reading("check, 31 octets", check, o.at, 31, 0, RTFM_REFUSED_SET_LENGTH, &none, 1);
    o.at[17] = 0;
    expect_reading("check, mark", check, o.at, o.length, 0, RTFM_REFUSED_MARK, &second, 1);
    o.at[17] = 'u';
    o.at[18] = 23;
    expect_reading("check, attribute 23", check, o.at, o.length, 0, RTFM_REFUSED_ATTRIBUTE, &second, 1);
}

/* The sample that the engine runs on; its rules come in expect_reading's octets. */
static struct octets sample;

static uint32_t run(const uint8_t *octets, size_t n, size_t at, uint64_t *out, size_t room) {
    (void)at;
    return rtfm_run(octets, n, sample.at, sample.length, out, room);
}

static void expect_run(const char *what, const struct octets *rules, uint32_t answer, const uint64_t *wanted) {
    expect_reading(what, run, rules->at, rules->length, 0, answer, wanted, RTFM_RUN_NUMBERS);
}

static void counted(void) {
    uint64_t wanted[RTFM_RUN_NUMBERS] = {0, 3};
    struct octets rules = {{0}, 0};
    put_rule(&rules, RTFM_SOURCE_INTERFACE, 1, 0xffffffff, 5, 0);
    put_rule(&rules, RTFM_DEST_TRANS_ADDRESS, 15, 0xff, 216, 4);
    put_rule(&rules, RTFM_NULL, 1, 0, 0, 0);
    put_rule(&rules, RTFM_SOURCE_PEER_ADDRESS, 4, 0xf0, 0x99, 0);
    declare(&rules, 0, 0, 1);
    wanted[RTFM_RUN_MASKS + RTFM_DEST_TRANS_ADDRESS] = 0xff;
    wanted[RTFM_RUN_VALUES + RTFM_DEST_TRANS_ADDRESS] = 216;
    wanted[RTFM_RUN_MASKS + RTFM_SOURCE_PEER_ADDRESS] = 0xf0;
    wanted[RTFM_RUN_VALUES + RTFM_SOURCE_PEER_ADDRESS] = 0xd0;
    sample.length = 0;
    put_flow(&sample);
    expect_run("run, count the packet's", &rules, RTFM_COUNT_PKT, wanted);
    rules.at[51] = 3;
    wanted[RTFM_RUN_VALUES + RTFM_SOURCE_PEER_ADDRESS] = 0x99;
    expect_run("run, count", &rules, RTFM_COUNT, wanted);
}

static void answered(void) {
    uint64_t wanted[RTFM_RUN_NUMBERS] = {0, 1};
    struct octets rules = {{0}, 0};
    put_rule(&rules, RTFM_SOURCE_INTERFACE, 1, 0xffffffff, 406, 0);
    sample.length = 0;
    put_flow(&sample);
    expect_run("run, ignore", &rules, RTFM_IGNORE, wanted);
    rules.at[2] = RTFM_DEST_INTERFACE;
    expect_run("run, no match", &rules, RTFM_NO_MATCH, wanted);
    wanted[RTFM_RUN_RULES] = 0;
    sample.length -= 1;
    expect_run("run, part of a sample", &rules, RTFM_REFUSED_NOT_ONE_FLOW_SAMPLE, wanted);
    wanted[RTFM_RUN_RULE] = 1;
    rules.at[3] = 18;
    expect_run("run, opcode 18", &rules, RTFM_REFUSED_OPCODE, wanted);
}

void rule_set_calls(void) {
    checks();
    counted();
    answered();
}
