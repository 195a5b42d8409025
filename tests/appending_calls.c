/* Calls of the functions that append a sample from its values. */
#include "calls.h"

#include "../include/sflow4.h"
#include "expect.h"
#include "forms.h"
#include "written.h"

#include <stdio.h>
#include <string.h>

/* What the four functions take; each takes a part of it. */
struct values {
    size_t limit, length;
    uint32_t words[10], packet[16], protocol, frame_length, counter_words[4];
    size_t words_length, packet_length, header_length, numbers_length;
    uint8_t header[260];
    uint64_t numbers[SFLOW4_MAX_COUNTERS + 1];
    struct octets entries;
};

/* A function, with values that it takes and that all differ, and the sample that they are. */
struct append {
    const char *name;
    uint32_t (*call)(const struct values *v, size_t out_length);
    void (*put)(struct octets *o);
    uint32_t kind;        /* sflow4_write's for its packet data; 0 where it has none */
    size_t packet_length; /* words of its packet */
    uint32_t packet;      /* the first of them */
};

static uint32_t append_header(const struct values *v, size_t out_length) {
    return sflow4_append_header(buffer, ROOM, v->limit, v->length, v->words, v->words_length, v->protocol, v->frame_length,
                                v->header, v->header_length, v->entries.at, v->entries.length, out, out_length);
}

static uint32_t append_ipv4(const struct values *v, size_t out_length) {
    return sflow4_append_ipv4(buffer, ROOM, v->limit, v->length, v->words, v->words_length, v->packet, v->packet_length,
                              v->entries.at, v->entries.length, out, out_length);
}

static uint32_t append_ipv6(const struct values *v, size_t out_length) {
    return sflow4_append_ipv6(buffer, ROOM, v->limit, v->length, v->words, v->words_length, v->packet, v->packet_length,
                              v->entries.at, v->entries.length, out, out_length);
}

static uint32_t append_counters(const struct values *v, size_t out_length) {
    return sflow4_append_counters(buffer, ROOM, v->limit, v->length, v->counter_words[0], v->counter_words[1],
                                  v->counter_words[2], v->counter_words[3], v->numbers, v->numbers_length, out, out_length);
}

static void put_entries(struct octets *o) {
    put_switch(o);
    put_url(o);
}

static void put_flow_of(struct octets *o, void (*put_packet)(struct octets *)) {
    put_flow_words(o);
    put_packet(o);
    put_word(o, 2);
    put_entries(o);
}

static void put_header_flow(struct octets *o) { put_flow_of(o, put_header_data); }
static void put_ipv6_flow(struct octets *o) { put_flow_of(o, put_ipv6_data); }

enum { HEADER, IPV4, IPV6, COUNTERS, APPENDS };

static const struct append appends[APPENDS] = {
    {"append, header", append_header, put_header_flow, SFLOW4_WRITE_HEADER, 0, 0},
    {"append, IPv4", append_ipv4, put_flow, SFLOW4_WRITE_IPV4, SFLOW4_APPEND_IPV4_WORDS, 211},
    {"append, IPv6", append_ipv6, put_ipv6_flow, SFLOW4_WRITE_IPV6, SFLOW4_APPEND_IPV6_WORDS, 221},
    {"append, counters", append_counters, put_vlan, 0, 0, 0},
};

static struct values values_of(const struct append *a) {
    struct values v = {.limit = 400, .length = 36, .words_length = SFLOW4_APPEND_FLOW_WORDS, .protocol = 11,
                       .frame_length = 202, .header = "head+", .header_length = 5, .numbers_length = 6,
                       .packet_length = a->packet_length, .counter_words = {5, 0x01000064, 20, 7},
                       .numbers = {100, 501, 502, 503, 504, 505}};
    for (uint32_t i = 0; i < 7; i++) v.words[i] = 401 + i;
    for (uint32_t i = 0; i < 16; i++) v.packet[i] = a->packet + i;
    v.words[SFLOW4_APPEND_EXTENDED_COUNT] = 2;
    put_entries(&v.entries);
    return v;
}

static size_t end_of(const struct append *a) {
    struct octets o = {{0}, 0};
    a->put(&o);
    return 36 + o.length;
}

/* The sample that the other writers write from the values. */
static struct octets written_from(const struct append *a, const struct values *v) {
    const uint32_t header[] = {v->protocol, v->frame_length};
    const uint32_t *words = a->kind == SFLOW4_WRITE_HEADER ? header : v->packet;
    struct octets packet = {{0}, 0}, sample = {{0}, 0};
    uint64_t length[1] = {0};
    if (a->kind == 0) {
        sflow4_write_counters(v->counter_words[0], v->counter_words[1], v->counter_words[2], v->counter_words[3], v->numbers,
                              v->numbers_length, sample.at, sizeof sample.at, length, 1);
    } else {
        sflow4_write(a->kind, words, a->kind == SFLOW4_WRITE_HEADER ? 2 : v->packet_length, v->header, v->header_length,
                     v->header, 0, packet.at, sizeof packet.at, length, 1);
        packet.length = length[0];
        sflow4_write(SFLOW4_WRITE_FLOW, v->words, v->words_length, packet.at, packet.length, v->entries.at, v->entries.length,
                     sample.at, sizeof sample.at, length, 1);
    }
    sample.length = length[0];
    return sample;
}

/* A datagram without samples, of an IPv6 agent: 36 octets. */
static void start_datagram(void) {
    renew();
    sflow4_start(buffer, ROOM, 400, 2, 101, 102, 103, 104, 105, 106, out, 3);
    fill_numbers(out, 3);
}

/* The datagram with the sample, behind which all stays; the same as with the sample written and then appended as octets; limits
 * that are just enough and larger; an array of no length; a limit below the datagram so far. */
static void appended(const struct append *a) {
    struct values v = values_of(a);
    struct octets sample = written_from(a, &v), wanted = {{0}, 0};
    put_ipv6_head(&wanted, 1);
    a->put(&wanted);
    start_datagram();
    expect_written(a->name, sflow4_append(buffer, ROOM, v.limit, v.length, sample.at, sample.length, out, 3), &wanted);
    start_datagram();
    expect_written(a->name, a->call(&v, 3), &wanted);
    v.limit = wanted.length;
    start_datagram();
    expect_written(a->name, a->call(&v, 3), &wanted);
    start_datagram();
    expect_number(a->name, a->call(&v, 0), SFLOW4_DONE);
    expect_number(a->name, out[0], STAYS);
    expect_octets(a->name, buffer, wanted.at, wanted.length);
    v.length = wanted.length;
    v.limit = wanted.length - 1;
    expect_number("append, longer than the limit", a->call(&v, 3), SFLOW4_REFUSED_BAD_DATAGRAM);
    expect_number("append, longer than the limit", out[0], STAYS);
    expect_octets("append, longer than the limit", buffer, wanted.at, wanted.length);
}

/* Every sample behind the one before; none has extended entries. */
static void appended_in_turn(void) {
    struct octets wanted = {{0}, 0};
    size_t length = 36;
    put_ipv6_head(&wanted, APPENDS);
    start_datagram();
    for (int i = 0; i < APPENDS; i++) {
        struct values v = values_of(&appends[i]);
        v.limit = ROOM;
        v.length = length;
        v.words[SFLOW4_APPEND_EXTENDED_COUNT] = 0;
        v.entries.length = 0;
        struct octets sample = written_from(&appends[i], &v);
        put_octets(&wanted, sample.at, sample.length);
        expect_number("append, in turn", appends[i].call(&v, 1), SFLOW4_DONE);
        length = out[SFLOW4_WRITTEN_LENGTH];
    }
    expect_written("append, in turn", SFLOW4_DONE, &wanted);
}

/* Counters of every version: the same as with the sample written and then appended as octets. */
static void every_version(void) {
    const size_t counts[] = {19, 32, 37, 19, 33, 19, 6};
    for (uint32_t version = 1; version <= 7; version++) {
        struct values v = values_of(&appends[COUNTERS]);
        struct octets wanted = {{0}, 0};
        v.counter_words[3] = version;
        v.numbers_length = counts[version - 1];
        for (size_t i = 0; i < v.numbers_length; i++) v.numbers[i] = 1000 * version + i;
        const struct octets sample = written_from(&appends[COUNTERS], &v);
        start_datagram();
        expect_number("append, versions", sflow4_append(buffer, ROOM, 400, 36, sample.at, sample.length, out, 3), SFLOW4_DONE);
        put_octets(&wanted, buffer, out[SFLOW4_WRITTEN_LENGTH]);
        start_datagram();
        expect_written("append, versions", append_counters(&v, 3), &wanted);
    }
}

/* What is wrong with values, and the number it is refused with. */
struct fault {
    const char *what;
    uint32_t number;
    unsigned functions; /* whose it is: a bit for each */
    void (*put)(struct values *v, const struct append *a);
};

#define FAULT(name) static void name(struct values *v, const struct append *a)
FAULT(limit_35) { (void)a, v->limit = 35; }
FAULT(limit_65508) { (void)a, v->limit = 65508; }
FAULT(limit_above) { (void)a, v->limit = ROOM + 1; }
FAULT(length_35) { (void)a, v->length = 35; }
FAULT(length_37) { (void)a, v->length = 37; }
FAULT(length_above) { (void)a, v->length = SIZE_MAX; }
FAULT(version_5) { (void)v, (void)a, buffer[3] = 5; }
FAULT(samples_1) { (void)v, (void)a, buffer[35] = 1; }
FAULT(words_7) { (void)a, v->words_length = 7; }
FAULT(words_9) { (void)a, v->words_length = 9; }
FAULT(words_0) { (void)a, v->words_length = 0; }
FAULT(packet_less) { v->packet_length = a->packet_length - 1; }
FAULT(packet_more) { v->packet_length = a->packet_length + 1; }
FAULT(count_1) { (void)a, v->words[SFLOW4_APPEND_EXTENDED_COUNT] = 1; }
FAULT(count_3) { (void)a, v->words[SFLOW4_APPEND_EXTENDED_COUNT] = 3; }
FAULT(count_most) { (void)a, v->words[SFLOW4_APPEND_EXTENDED_COUNT] = UINT32_MAX; }
FAULT(entries_less) { (void)a, v->entries.length = 39; }
FAULT(entries_none) { (void)a, v->entries.length = 0; }
FAULT(entries_type) { (void)a, v->entries.at[3] = 6; }
FAULT(protocol_0) { (void)a, v->protocol = 0; }
FAULT(protocol_14) { (void)a, v->protocol = 14; }
FAULT(header_257) { (void)a, v->header_length = 257; }
FAULT(counters_0) { (void)a, v->counter_words[3] = 0; }
FAULT(counters_8) { (void)a, v->counter_words[3] = 8; }
FAULT(numbers_5) { (void)a, v->numbers_length = 5; }
FAULT(numbers_7) { (void)a, v->numbers_length = 7; }
FAULT(numbers_wide) { (void)a, v->numbers[5] = UINT64_C(1) << 32; }
FAULT(no_room) { v->limit = end_of(a) - 1; }

enum { ALL = 15, FLOWS = 1 << HEADER | 1 << IPV4 | 1 << IPV6, PACKETS = 1 << IPV4 | 1 << IPV6 };

/* In the order in which they are refused. */
static const struct fault faults[] = {
    {"limit 35", SFLOW4_REFUSED_BAD_LIMIT, ALL, limit_35},
    {"limit 65508", SFLOW4_REFUSED_BAD_LIMIT, ALL, limit_65508},
    {"limit above the buffer", SFLOW4_REFUSED_BAD_LIMIT, ALL, limit_above},
    {"35 octets", SFLOW4_REFUSED_BAD_DATAGRAM, ALL, length_35},
    {"37 octets", SFLOW4_REFUSED_BAD_DATAGRAM, ALL, length_37},
    {"length past the end", SFLOW4_REFUSED_BAD_DATAGRAM, ALL, length_above},
    {"version 5", SFLOW4_REFUSED_BAD_DATAGRAM, ALL, version_5},
    {"a sample that is not there", SFLOW4_REFUSED_BAD_DATAGRAM, ALL, samples_1},
    {"7 words", SFLOW4_REFUSED_BAD_VALUE, FLOWS, words_7},
    {"9 words", SFLOW4_REFUSED_BAD_VALUE, FLOWS, words_9},
    {"no words", SFLOW4_REFUSED_BAD_VALUE, FLOWS, words_0},
    {"a word less of the packet", SFLOW4_REFUSED_BAD_VALUE, PACKETS, packet_less},
    {"a word more of the packet", SFLOW4_REFUSED_BAD_VALUE, PACKETS, packet_more},
    {"count 1", SFLOW4_REFUSED_BAD_VALUE, FLOWS, count_1},
    {"count 3", SFLOW4_REFUSED_BAD_VALUE, FLOWS, count_3},
    {"count 4294967295", SFLOW4_REFUSED_BAD_VALUE, FLOWS, count_most},
    {"an octet less of the entries", SFLOW4_REFUSED_BAD_VALUE, FLOWS, entries_less},
    {"no octet of the entries", SFLOW4_REFUSED_BAD_VALUE, FLOWS, entries_none},
    {"an entry of type 6", SFLOW4_REFUSED_BAD_VALUE, FLOWS, entries_type},
    {"protocol 0", SFLOW4_REFUSED_BAD_VALUE, 1 << HEADER, protocol_0},
    {"protocol 14", SFLOW4_REFUSED_BAD_VALUE, 1 << HEADER, protocol_14},
    {"header of 257", SFLOW4_REFUSED_BAD_VALUE, 1 << HEADER, header_257},
    {"counters version 0", SFLOW4_REFUSED_BAD_VALUE, 1 << COUNTERS, counters_0},
    {"counters version 8", SFLOW4_REFUSED_BAD_VALUE, 1 << COUNTERS, counters_8},
    {"5 numbers", SFLOW4_REFUSED_BAD_VALUE, 1 << COUNTERS, numbers_5},
    {"7 numbers", SFLOW4_REFUSED_BAD_VALUE, 1 << COUNTERS, numbers_7},
    {"a wide word", SFLOW4_REFUSED_BAD_VALUE, 1 << COUNTERS, numbers_wide},
    {"an octet less of the limit", SFLOW4_REFUSED_NO_ROOM, ALL, no_room},
};

/* A call that is wrong in two ways gives the earlier number. The earlier fault is put last, so that it stands where both are
 * of one parameter. */
static void expect_fault(const struct append *a, const struct fault *earlier, const struct fault *later) {
    struct values v = values_of(a);
    uint8_t before[ROOM];
    char what[160];
    snprintf(what, sizeof what, "%s, %s, %s", a->name, earlier->what, later->what);
    start_datagram();
    later->put(&v, a);
    earlier->put(&v, a);
    memcpy(before, buffer, ROOM);
    expect_refused(what, a->call(&v, 3), earlier->number, before);
}

static void refused(unsigned function) {
    const size_t n = sizeof faults / sizeof faults[0];
    for (size_t i = 0; i < n; i++)
        for (size_t j = i; j < n; j++)
            if (faults[i].functions & faults[j].functions & 1u << function) expect_fault(&appends[function], &faults[i], &faults[j]);
}

void appending_calls(void) {
    for (unsigned i = 0; i < APPENDS; i++) {
        appended(&appends[i]);
        refused(i);
    }
    appended_in_turn();
    every_version();
}
