/* Calls of the writers. */
#include "calls.h"

#include "../include/sflow4.h"
#include "expect.h"
#include "forms.h"
#include "written.h"

#include <string.h>

static void started(void) {
    struct octets v4 = {{0}, 0}, v6 = {{0}, 0};
    uint8_t before[ROOM];
    fill_octets(before, ROOM);
    put_ipv4_head(&v4, 0);
    put_ipv6_head(&v6, 0);
    renew();
    expect_written("start, IPv4", sflow4_start(buffer, ROOM, 400, 1, 0x0a000007, 2, 3, 4, 1, 1000, out, 3), &v4);
    renew();
    expect_written("start, IPv6", sflow4_start(buffer, ROOM, 400, 2, 101, 102, 103, 104, 105, 106, out, 3), &v6);
    renew();
    expect_refused("start, limit 35", sflow4_start(buffer, ROOM, 35, 1, 1, 2, 3, 4, 5, 6, out, 3), SFLOW4_REFUSED_BAD_LIMIT, before);
    expect_refused("start, limit above the buffer", sflow4_start(buffer, ROOM, ROOM + 1, 1, 1, 2, 3, 4, 5, 6, out, 3),
                   SFLOW4_REFUSED_BAD_LIMIT, before);
    expect_refused("start, type 3", sflow4_start(buffer, ROOM, 400, 3, 1, 2, 3, 4, 5, 6, out, 3), SFLOW4_REFUSED_BAD_VALUE, before);
    expect_number("start, no array", sflow4_start(buffer, ROOM, 400, 1, 0x0a000007, 2, 3, 4, 1, 1000, out, 0), SFLOW4_DONE);
    expect_number("start, no array", out[0], STAYS);
}

static void appended(void) {
    struct octets flow = {{0}, 0}, one = {{0}, 0}, two = {{0}, 0}, vlan = {{0}, 0};
    put_flow(&flow);
    put_vlan(&vlan);
    put_ipv6_head(&one, 1);
    put_flow(&one);
    put_ipv6_head(&two, 2);
    put_flow(&two);
    put_vlan(&two);
    renew();
    sflow4_start(buffer, ROOM, 300, 2, 101, 102, 103, 104, 105, 106, out, 3);
    expect_written("append, flow", sflow4_append(buffer, ROOM, 300, 36, flow.at, flow.length, out, 3), &one);
    fill_numbers(out, 3);
    expect_written("append, counters", sflow4_append(buffer, ROOM, 300, one.length, vlan.at, vlan.length, out, 3), &two);
}

static void refused_appends(void) {
    struct octets vlan = {{0}, 0};
    uint8_t before[ROOM];
    put_vlan(&vlan);
    renew();
    sflow4_start(buffer, ROOM, 300, 1, 0x0a000007, 0, 0, 0, 1, 1000, out, 3);
    fill_numbers(out, 3);
    memcpy(before, buffer, ROOM);
    expect_refused("append, limit 65508", sflow4_append(buffer, ROOM, 65508, 24, vlan.at, 48, out, 3), SFLOW4_REFUSED_BAD_LIMIT, before);
    expect_refused("append, 23 octets", sflow4_append(buffer, ROOM, 300, 23, vlan.at, 48, out, 3), SFLOW4_REFUSED_BAD_DATAGRAM, before);
    expect_refused("append, length past the end", sflow4_append(buffer, ROOM, 300, SIZE_MAX, vlan.at, 48, out, 3),
                   SFLOW4_REFUSED_BAD_DATAGRAM, before);
    expect_refused("append, part of a sample", sflow4_append(buffer, ROOM, 300, 24, vlan.at, 47, out, 3), SFLOW4_REFUSED_BAD_VALUE, before);
    expect_refused("append, limit 71", sflow4_append(buffer, ROOM, 71, 24, vlan.at, 48, out, 3), SFLOW4_REFUSED_NO_ROOM, before);
    expect_number("append, limit 72", sflow4_append(buffer, ROOM, 72, 24, vlan.at, 48, out, 3), SFLOW4_DONE);
}

/* Writes a kind into buffers of enough room and of an octet less. */
static void expect_form(const char *what, uint32_t kind, const uint32_t *words, size_t n, const struct octets *first,
                        const struct octets *second, void (*put)(struct octets *)) {
    struct octets wanted = {{0}, 0};
    uint8_t before[ROOM];
    fill_octets(before, ROOM);
    put(&wanted);
    renew();
    expect_written(what, sflow4_write(kind, words, n, first->at, first->length, second->at, second->length, buffer,
                                      wanted.length, out, 3), &wanted);
    renew();
    expect_refused(what, sflow4_write(kind, words, n, first->at, first->length, second->at, second->length, buffer,
                                      wanted.length - 1, out, 3), SFLOW4_REFUSED_NO_ROOM, before);
}

static void written_packets(void) {
    const uint32_t header[] = {11, 202}, ipv4[] = {211, 212, 213, 214, 215, 216, 217, 218};
    const uint32_t ipv6[] = {221, 222, 223, 224, 225, 226, 227, 228, 229, 230, 231, 232, 233, 234};
    struct octets none = {{0}, 0}, head = {{0}, 0};
    put_octets(&head, "head+", 5);
    expect_form("write, header", SFLOW4_WRITE_HEADER, header, 2, &head, &none, put_header_data);
    expect_form("write, IPv4", SFLOW4_WRITE_IPV4, ipv4, 8, &none, &none, put_ipv4_data);
    expect_form("write, IPv6", SFLOW4_WRITE_IPV6, ipv6, 14, &none, &none, put_ipv6_data);
}

static void written_entries(void) {
    const uint32_t switched[] = {301, 302, 303, 304}, router[] = {2, 311, 312, 313, 314, 315, 316};
    const uint32_t ipv4_router[] = {1, 311, 312, 313, 314, 315, 316};
    const uint32_t gateway[] = {321, 322, 323, 2, 334, 331, 332, 333}, direction[] = {2};
    struct octets none = {{0}, 0}, path = {{0}, 0}, anna = {{0}, 0}, bernard = {{0}, 0}, url = {{0}, 0};
    put_set(&path);
    put_sequence(&path);
    put_octets(&anna, "anna", 4);
    put_octets(&bernard, "bernard", 7);
    put_octets(&url, "/index", 6);
    expect_form("write, switch", SFLOW4_WRITE_SWITCH, switched, 4, &none, &none, put_switch);
    expect_form("write, router", SFLOW4_WRITE_ROUTER, router, 7, &none, &none, put_router);
    expect_form("write, router, IPv4", SFLOW4_WRITE_ROUTER, ipv4_router, 7, &none, &none, put_ipv4_router);
    expect_form("write, gateway", SFLOW4_WRITE_GATEWAY, gateway, 8, &path, &none, put_gateway);
    expect_form("write, user", SFLOW4_WRITE_USER, direction, 0, &anna, &bernard, put_user);
    expect_form("write, URL", SFLOW4_WRITE_URL, direction, 1, &url, &none, put_url);
}

static void written_samples(void) {
    const uint32_t set[] = {1, 341, 342}, sequence[] = {2, 351, 352, 353};
    const uint32_t words[] = {401, 402, 403, 404, 405, 406, 407, 2};
    struct octets none = {{0}, 0}, packet = {{0}, 0}, entries = {{0}, 0};
    put_ipv4_data(&packet);
    put_switch(&entries);
    put_url(&entries);
    expect_form("write, set", SFLOW4_WRITE_SEGMENT, set, 3, &none, &none, put_set);
    expect_form("write, sequence", SFLOW4_WRITE_SEGMENT, sequence, 4, &none, &none, put_sequence);
    expect_form("write, flow sample", SFLOW4_WRITE_FLOW, words, 8, &packet, &entries, put_flow);
}

/* Values that are not in the grammar, numbers of words that a kind does not have, and kinds that there are not. */
static void refused_values(void) {
    const struct { const char *what; uint32_t kind, words[15]; size_t n, first; } cases[] = {
        {"write, kind 0", 0, {0}, 0, 0}, {"write, kind 4", 4, {0}, 0, 0}, {"write, kind 22", 22, {0}, 8, 0},
        {"write, protocol 14", SFLOW4_WRITE_HEADER, {14, 1}, 2, 0}, {"write, header of 257", SFLOW4_WRITE_HEADER, {1, 1}, 2, 257},
        {"write, header, 3 words", SFLOW4_WRITE_HEADER, {1, 1, 1}, 3, 0}, {"write, IPv4, 7 words", SFLOW4_WRITE_IPV4, {0}, 7, 0},
        {"write, IPv6, 15 words", SFLOW4_WRITE_IPV6, {0}, 15, 0}, {"write, switch, 5 words", SFLOW4_WRITE_SWITCH, {0}, 5, 0},
        {"write, router, type 3", SFLOW4_WRITE_ROUTER, {3}, 7, 0}, {"write, router, 6 words", SFLOW4_WRITE_ROUTER, {1}, 6, 0},
        {"write, gateway, 4 words", SFLOW4_WRITE_GATEWAY, {0}, 4, 0},
        {"write, gateway, no path", SFLOW4_WRITE_GATEWAY, {1, 2, 3, 1, 4}, 5, 0},
        {"write, user, 1 word", SFLOW4_WRITE_USER, {0}, 1, 0}, {"write, direction 0", SFLOW4_WRITE_URL, {0}, 1, 3},
        {"write, segment type 3", SFLOW4_WRITE_SEGMENT, {3}, 1, 0}, {"write, segment, no words", SFLOW4_WRITE_SEGMENT, {0}, 0, 0},
        {"write, flow, no packet data", SFLOW4_WRITE_FLOW, {1, 2, 3, 4, 5, 6, 7, 0}, 8, 0},
    };
    const uint8_t first[257] = {0};
    uint8_t before[ROOM];
    fill_octets(before, ROOM);
    for (size_t i = 0; i < sizeof cases / sizeof cases[0]; i++) {
        renew();
        expect_refused(cases[i].what, sflow4_write(cases[i].kind, cases[i].words, cases[i].n, first, cases[i].first, first, 0,
                                                   buffer, ROOM, out, 3), SFLOW4_REFUSED_BAD_VALUE, before);
    }
}

static void written_counters(void) {
    uint64_t numbers[7] = {100, 501, 502, 503, 504, 505, 506};
    struct octets vlan = {{0}, 0};
    uint8_t before[ROOM];
    fill_octets(before, ROOM);
    put_vlan(&vlan);
    renew();
    expect_written("counters", sflow4_write_counters(5, 0x01000064, 20, 7, numbers, 6, buffer, 48, out, 3), &vlan);
    renew();
    expect_refused("counters, 47 octets", sflow4_write_counters(5, 6, 20, 7, numbers, 6, buffer, 47, out, 3), SFLOW4_REFUSED_NO_ROOM, before);
    expect_refused("counters, version 8", sflow4_write_counters(5, 6, 20, 8, numbers, 6, buffer, ROOM, out, 3), SFLOW4_REFUSED_BAD_VALUE, before);
    expect_refused("counters, 7 numbers", sflow4_write_counters(5, 6, 20, 7, numbers, 7, buffer, ROOM, out, 3), SFLOW4_REFUSED_BAD_VALUE, before);
    numbers[0] = UINT64_C(1) << 32;
    expect_refused("counters, a wide word", sflow4_write_counters(5, 6, 20, 7, numbers, 6, buffer, ROOM, out, 3),
                   SFLOW4_REFUSED_BAD_VALUE, before);
}

void writing_calls(void) {
    started();
    appended();
    refused_appends();
    written_packets();
    written_entries();
    written_samples();
    refused_values();
    written_counters();
}
