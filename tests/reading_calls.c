/* Calls of the reader's functions. */
#include "calls.h"

#include "../include/sflow4.h"
#include "expect.h"
#include "forms.h"

#include <string.h>

static uint32_t read_datagram(const uint8_t *octets, size_t n, size_t at, uint64_t *out, size_t room) {
    (void)at;
    return sflow4_read(octets, n, out, room);
}

static void refused(const char *what, reading call, const struct octets *o, size_t at, uint32_t number, uint64_t place) {
    expect_reading(what, call, o->at, o->length, at, number, &place, 1);
}

static void accepted_datagrams(void) {
    struct octets v4 = {{0}, 0}, v6 = {{0}, 0};
    const uint64_t v4_wanted[SFLOW4_HEAD_NUMBERS] = {1, 0x0a000007, 0, 0, 0, 1, 1000, 1, 24};
    const uint64_t v6_wanted[SFLOW4_HEAD_NUMBERS] = {2, 101, 102, 103, 104, 105, 106, 2, 36};
    put_ipv4_head(&v4, 1);
    put_vlan(&v4);
    expect_reading("read, IPv4 agent", read_datagram, v4.at, v4.length, 0, 0, v4_wanted, SFLOW4_HEAD_NUMBERS);
    put_ipv6_head(&v6, 2);
    put_flow(&v6);
    put_vlan(&v6);
    expect_reading("read, IPv6 agent", read_datagram, v6.at, v6.length, 0, 0, v6_wanted, SFLOW4_HEAD_NUMBERS);
}

static void refused_datagrams(void) {
    static uint8_t long_one[SFLOW4_MAX_DATAGRAM + 1];
    const uint64_t start = 0;
    struct octets o = {{0}, 0}, five = {{0}, 0};
    refused("read, nothing", read_datagram, &o, 0, SFLOW4_REFUSED_CUT_ITEM, 0);
    put_word(&five, 5);
    refused("read, version 5", read_datagram, &five, 0, SFLOW4_REFUSED_VERSION, 0);
    put_ipv4_head(&o, 1);
    refused("read, sample missing", read_datagram, &o, 0, SFLOW4_REFUSED_CUT_ITEM, 24);
    put_word(&o, 3);
    refused("read, sample type 3", read_datagram, &o, 0, SFLOW4_REFUSED_SAMPLE_TYPE, 24);
    o.length = 23;
    refused("read, count cut", read_datagram, &o, 0, SFLOW4_REFUSED_CUT_ITEM, 20);
    o.length = 0;
    put_ipv4_head(&o, 0);
    put_octet(&o, 0);
    refused("read, an octet more", read_datagram, &o, 0, SFLOW4_REFUSED_TRAILING_OCTETS, 24);
    o.at[7] = 3;
    refused("read, agent type 3", read_datagram, &o, 0, SFLOW4_REFUSED_ADDRESS_TYPE, 4);
    expect_reading("read, too long", read_datagram, long_one, sizeof long_one, 0, SFLOW4_REFUSED_TOO_LONG, &start, 1);
}

static void flow_samples(void) {
    const uint64_t header[] = {1, 4, 60, 401, 402, 403, 404, 405, 406, 407, 1, 0, 64, 11, 202, 52, 5};
    const uint64_t ipv4[] = {1, 4, 112, 401, 402, 403, 404, 405, 406, 407, 2, 2, 76, 211, 212, 213, 214, 215, 216, 217, 218};
    const uint64_t ipv6[] = {1,   4,   96,  401, 402, 403, 404, 405, 406, 407, 3,   0,   100, 221,
                             222, 223, 224, 225, 226, 227, 228, 229, 230, 231, 232, 233, 234};
    struct octets h = {{0}, 0}, v4 = {{0}, 0}, v6 = {{0}, 0};
    put_word(&h, 77);
    put_flow_words(&h);
    put_header_data(&h);
    put_word(&h, 0);
    expect_reading("sample, header", sflow4_sample, h.at, h.length, 4, 0, header, 17);
    put_word(&v4, 77);
    put_flow(&v4);
    expect_reading("sample, IPv4", sflow4_sample, v4.at, v4.length, 4, 0, ipv4, 21);
    put_word(&v6, 77);
    put_flow_words(&v6);
    put_ipv6_data(&v6);
    put_word(&v6, 0);
    expect_reading("sample, IPv6", sflow4_sample, v6.at, v6.length, 4, 0, ipv6, 27);
}

static void counter_samples(void) {
    struct octets o = {{0}, 0};
    const uint64_t wanted[SFLOW4_SAMPLE_NUMBERS] = {2, 8, 48, 5, 0x01000064, 20, 7, 6, 100, 501, 502, 503, 504, 505};
    put_words(&o, 77, 2);
    put_vlan(&o);
    expect_reading("sample, counters", sflow4_sample, o.at, o.length, 8, 0, wanted, SFLOW4_SAMPLE_NUMBERS);
    o.at[27] = 8;
    refused("sample, counters version 8", sflow4_sample, &o, 8, SFLOW4_REFUSED_COUNTERS_VERSION, 24);
}

static void refused_samples(void) {
    struct octets o = {{0}, 0};
    put_flow_words(&o);
    put_header_data(&o);
    put_word(&o, 1);
    refused("sample, entry missing", sflow4_sample, &o, 0, SFLOW4_REFUSED_CUT_ITEM, 60);
    refused("sample, past the end", sflow4_sample, &o, 70, SFLOW4_REFUSED_CUT_ITEM, 70);
    refused("sample, far past the end", sflow4_sample, &o, SIZE_MAX, SFLOW4_REFUSED_CUT_ITEM, SIZE_MAX);
    o.at[55] = 9;
    refused("sample, padding", sflow4_sample, &o, 0, SFLOW4_REFUSED_PADDING, 55);
    o.at[46] = 1;
    refused("sample, header over 256", sflow4_sample, &o, 0, SFLOW4_REFUSED_HEADER_LENGTH, 44);
    o.at[39] = 14;
    refused("sample, header protocol 14", sflow4_sample, &o, 0, SFLOW4_REFUSED_HEADER_PROTOCOL, 36);
    o.at[35] = 4;
    refused("sample, packet data type 4", sflow4_sample, &o, 0, SFLOW4_REFUSED_PACKET_DATA_TYPE, 32);
}

static void refused_next_hop(void) {
    struct octets o = {{0}, 0};
    put_flow_words(&o);
    put_ipv4_data(&o);
    put_word(&o, 1);
    put_router(&o);
    o.at[79] = 0;
    refused("sample, next hop type 0", sflow4_sample, &o, 0, SFLOW4_REFUSED_ADDRESS_TYPE, 76);
}

static void extended_entries(void) {
    const uint64_t switched[] = {1, 24, 301, 302, 303, 304};
    const uint64_t router[] = {2, 36, 2, 311, 312, 313, 314, 315, 316};
    const uint64_t gateway[] = {3, 80, 321, 322, 323, 2, 24, 3, 64, 334};
    const uint64_t user[] = {4, 28, 12, 4, 20, 7};
    const uint64_t url[] = {5, 24, 2, 16, 6};
    const struct { const char *what; void (*put)(struct octets *); const uint64_t *wanted; size_t n; } cases[] = {
        {"extended, switch", put_switch, switched, 6}, {"extended, router", put_router, router, 9},
        {"extended, gateway", put_gateway, gateway, 10}, {"extended, user", put_user, user, 6},
        {"extended, URL", put_url, url, 5},
    };
    for (size_t i = 0; i < sizeof cases / sizeof cases[0]; i++) {
        struct octets o = {{0}, 0};
        put_word(&o, 77);
        cases[i].put(&o);
        put_word(&o, 78);
        expect_reading(cases[i].what, sflow4_extended, o.at, o.length, 4, 0, cases[i].wanted, cases[i].n);
    }
}

static void refused_entries(void) {
    struct octets o = {{0}, 0}, gateway = {{0}, 0}, router = {{0}, 0};
    put_word(&o, 6);
    refused("extended, type 6", sflow4_extended, &o, 0, SFLOW4_REFUSED_EXTENDED_TYPE, 0);
    refused("extended, past the end", sflow4_extended, &o, 9, SFLOW4_REFUSED_CUT_ITEM, 9);
    o.length = 0;
    put_url(&o);
    o.at[7] = 3;
    refused("extended, direction 3", sflow4_extended, &o, 0, SFLOW4_REFUSED_URL_DIRECTION, 4);
    put_gateway(&gateway);
    gateway.at[23] = 3;
    refused("extended, segment type 3", sflow4_extended, &gateway, 0, SFLOW4_REFUSED_SEGMENT_TYPE, 20);
    put_router(&router);
    router.at[7] = 0;
    refused("extended, next hop type 0", sflow4_extended, &router, 0, SFLOW4_REFUSED_ADDRESS_TYPE, 4);
}

static void path_segments(void) {
    const uint64_t set[] = {1, 20, 2, 12}, sequence[] = {2, 40, 3, 28};
    struct octets o = {{0}, 0};
    put_word(&o, 77);
    put_set(&o);
    put_sequence(&o);
    expect_reading("segment, set", sflow4_segment, o.at, o.length, 4, 0, set, SFLOW4_SEGMENT_NUMBERS);
    expect_reading("segment, sequence", sflow4_segment, o.at, o.length, 20, 0, sequence, SFLOW4_SEGMENT_NUMBERS);
    refused("segment, type 77", sflow4_segment, &o, 0, SFLOW4_REFUSED_SEGMENT_TYPE, 0);
    refused("segment, past the end", sflow4_segment, &o, 41, SFLOW4_REFUSED_CUT_ITEM, 41);
    o.length = 37;
    refused("segment, cut", sflow4_segment, &o, 20, SFLOW4_REFUSED_CUT_ITEM, 36);
}

void reading_calls(void) {
    accepted_datagrams();
    refused_datagrams();
    flow_samples();
    counter_samples();
    refused_samples();
    refused_next_hop();
    extended_entries();
    refused_entries();
    path_segments();
}
