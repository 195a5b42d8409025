/* Calls of the listing of captures. */
#include "calls.h"

#include "../include/sflow4.h"
#include "expect.h"
#include "forms.h"

#include <string.h>

enum { ROOM = 1024 };

static uint8_t output[ROOM];

/* The output has this text and, behind it, what was there. */
static void expect_text(const char *what, const char *text) {
    uint8_t after[ROOM];
    fill_octets(after, ROOM);
    memcpy(after, text, strlen(text));
    expect_octets(what, output, after, ROOM);
}

/* A capture of two records and a part of a third. */
static void put_capture(struct octets *o) {
    put_word(o, 0x73460048);
    put_ipv4_head(o, 1);
    put_vlan(o);
    put_word(o, 0x73460004);
    put_word(o, 5);
    put_octets(o, "sF\0", 3);
}

static void lines(void) {
    const char *text = "12 agent 10.0.0.7 seq 1 length 72\n counters at 24 length 48 source 1.100 seq 5\n13 refused 2 at 0\n";
    uint64_t state[8] = {1000, 11, 3, 20, 77, 78, STAYS, STAYS};
    const uint64_t wanted[8] = {1084, 13, 4, 21, 84, strlen(text), STAYS, STAYS};
    struct octets capture = {{0}, 0};
    put_capture(&capture);
    fill_octets(output, ROOM);
    expect_number("lines", sflow4_lines(capture.at, capture.length, output, ROOM, state, 8), SFLOW4_LINES_NO_RECORD);
    expect_numbers("lines", state, wanted, 8);
    expect_text("lines", text);
}

static void stops(void) {
    const char *first = "1 agent 10.0.0.7 seq 1 length 72\n counters at 24 length 48 source 1.100 seq 5\n";
    const uint64_t none[6] = {0}, one[6] = {76, 1, 0, 1, 76, strlen(first)};
    uint64_t state[6] = {0};
    struct octets capture = {{0}, 0};
    put_capture(&capture);
    fill_octets(output, ROOM);
    expect_number("lines, 299 octets", sflow4_lines(capture.at, capture.length, output, 299, state, 6), SFLOW4_LINES_OUTPUT);
    expect_numbers("lines, 299 octets", state, none, 6);
    expect_text("lines, 299 octets", "");
    capture.at[76] = 0;
    expect_number("lines, wrong mark", sflow4_lines(capture.at, capture.length, output, ROOM, state, 6), SFLOW4_LINES_BAD_RECORD);
    expect_numbers("lines, wrong mark", state, one, 6);
    expect_text("lines, wrong mark", first);
    fill_octets(output, ROOM);
    expect_number("lines, 5 numbers", sflow4_lines(capture.at, capture.length, output, ROOM, state, 5), SFLOW4_REFUSED_SHORT_ARRAY);
    expect_numbers("lines, 5 numbers", state, one, 6);
    expect_text("lines, 5 numbers", "");
    expect_number("lines, nothing", sflow4_lines(capture.at, 0, output, ROOM, state, 6), SFLOW4_LINES_NO_RECORD);
}

static void ends(void) {
    const char *bad = "capture bad at 701\nrecords 702 refused 703 samples 704\n", *good = "records 702 refused 703 samples 704\n";
    uint64_t out[2] = {STAYS, STAYS};
    fill_octets(output, ROOM);
    expect_number("end lines, 122 octets", sflow4_end_lines(output, 122, 701, 702, 703, 704, 1, out, 2), SFLOW4_REFUSED_NO_ROOM);
    expect_number("end lines, 122 octets", out[0], STAYS);
    expect_text("end lines, 122 octets", "");
    expect_number("end lines, bad", sflow4_end_lines(output, 123, 701, 702, 703, 704, 5, out, 2), SFLOW4_DONE);
    expect_number("end lines, bad", out[0], strlen(bad));
    expect_number("end lines, bad", out[1], STAYS);
    expect_text("end lines, bad", bad);
    fill_octets(output, ROOM);
    expect_number("end lines", sflow4_end_lines(output, ROOM, 701, 702, 703, 704, 0, out, 2), SFLOW4_DONE);
    expect_number("end lines", out[0], strlen(good));
    expect_text("end lines", good);
    out[0] = STAYS;
    expect_number("end lines, no array", sflow4_end_lines(output, ROOM, 701, 702, 703, 704, 0, out, 0), SFLOW4_DONE);
    expect_number("end lines, no array", out[0], STAYS);
}

void lines_calls(void) {
    lines();
    stops();
    ends();
}
