/* A collector of sFlow version 4 datagrams:
 *
 *     collector PORT COUNT
 *
 * listens on 127.0.0.1, UDP port PORT (0: any free one, which it prints), receives COUNT datagrams and prints what it counted:
 * datagrams refused, by number and place; what each source of flow samples has lost; packets by what the rules say of them. */
#define _POSIX_C_SOURCE 200112L
#include "sflow4.h"
#include "tally.h"

#include <arpa/inet.h>
#include <errno.h>
#include <inttypes.h>
#include <netinet/in.h>
#include <stdio.h>
#include <stdlib.h>
#include <string.h>
#include <sys/socket.h>
#include <unistd.h>

/* Counts TCP and UDP packets by protocol and destination port, all other IP packets together. A record is mark, attribute,
 * opcode; mask; value; parameter, home, depth, held. */
static const uint8_t RULES[] = {
    /* 1: SourcePeerType is 0, the packet is not seen to be IP: Ignore */
    0x52, 0x75, 8, 1, 255, 255, 255, 255, 0, 0, 0, 0, 0, 0, 0, 0,
    /* 2: SourceTransType is 6, TCP: PushPktToAct 5, which queues the protocol and goes to rule 5, untested */
    0x52, 0x75, 11, 15, 255, 255, 255, 255, 0, 0, 0, 6, 5, 0, 0, 0,
    /* 3: SourceTransType is 17, UDP: the same */
    0x52, 0x75, 11, 15, 255, 255, 255, 255, 0, 0, 0, 17, 5, 0, 0, 0,
    /* 4: Null, which always succeeds: Count, with nothing in the key */
    0x52, 0x75, 0, 3, 0, 0, 0, 0, 0, 0, 0, 0, 0, 0, 0, 0,
    /* 5: DestTransAddress: CountPkt, which puts the packet's port into the key too; one item, the protocol, is held on arrival */
    0x52, 0x75, 22, 4, 255, 255, 255, 255, 0, 0, 0, 0, 0, 0, 0, 1,
};

/* What was counted. */
static uint64_t datagrams, refused_datagrams, flow_samples, counter_samples;
static struct tally refusals, entry_refusals, answers;
static uint64_t ledger[SFLOW4_LEDGER_NUMBERS];

static void fail(const char *what) {
    fprintf(stderr, "collector: %s: %s\n", what, strerror(errno));
    exit(1);
}

static void check_rules(void) {
    uint64_t rule[1];
    uint32_t number = rtfm_check(RULES, sizeof RULES, rule, 1);
    if (number == RTFM_ACCEPTED) return;
    fprintf(stderr, "collector: the rule set is refused, %" PRIu32 " at rule %" PRIu64 "\n", number, rule[0]);
    exit(1);
}

static void count(struct tally *tally, const uint64_t key[TALLY_KEY]) {
    if (tally_add(tally, key) != 0) fail("cannot count");
}

static void enter(const uint64_t *head, const uint64_t *sample) {
    const uint64_t *agent = head + SFLOW4_HEAD_AGENT;
    uint64_t key[TALLY_KEY] = {0};
    key[0] = sflow4_ledger(ledger, SFLOW4_LEDGER_NUMBERS, (uint32_t)head[SFLOW4_HEAD_AGENT_TYPE], (uint32_t)agent[0],
                           (uint32_t)agent[1], (uint32_t)agent[2], (uint32_t)agent[3],
                           (uint32_t)sample[SFLOW4_SAMPLE_SOURCE_ID], (uint32_t)sample[SFLOW4_SAMPLE_SEQUENCE_NUMBER],
                           (uint32_t)sample[SFLOW4_FLOW_SAMPLE_POOL]);
    if (key[0] != SFLOW4_DONE) count(&entry_refusals, key);
}

static void sort_by_rules(const uint8_t *sample, size_t n) {
    uint64_t out[RTFM_RUN_NUMBERS], key[TALLY_KEY] = {0};
    key[0] = rtfm_run(RULES, sizeof RULES, sample, n, out, RTFM_RUN_NUMBERS);
    memcpy(key + 1, out + RTFM_RUN_MASKS, 2 * RTFM_ATTRIBUTES * sizeof *key);
    count(&answers, key);
}

static void take_samples(const uint8_t *octets, size_t n, const uint64_t *head) {
    size_t at = (size_t)head[SFLOW4_HEAD_FIRST_SAMPLE];
    for (uint64_t left = head[SFLOW4_HEAD_SAMPLE_COUNT]; left > 0; left--) {
        uint64_t sample[SFLOW4_SAMPLE_NUMBERS];
        if (sflow4_sample(octets, n, at, sample, SFLOW4_SAMPLE_NUMBERS) != SFLOW4_DONE) return;
        if (sample[SFLOW4_SAMPLE_KIND] == SFLOW4_FLOW) {
            flow_samples++;
            enter(head, sample);
            sort_by_rules(octets + at, (size_t)sample[SFLOW4_SAMPLE_LENGTH]);
        } else counter_samples++;
        at += (size_t)sample[SFLOW4_SAMPLE_LENGTH];
    }
}

static void take_datagram(const uint8_t *octets, size_t n) {
    uint64_t head[SFLOW4_HEAD_NUMBERS], key[TALLY_KEY] = {0};
    datagrams++;
    key[0] = sflow4_read(octets, n, head, SFLOW4_HEAD_NUMBERS);
    if (key[0] == SFLOW4_DONE) take_samples(octets, n, head);
    else {
        refused_datagrams++;
        key[1] = head[SFLOW4_PLACE];
        count(&refusals, key);
    }
}

static void print_address(uint64_t type, const uint64_t *words) {
    uint32_t a = (uint32_t)words[0];
    if (type == 1) printf("%u.%u.%u.%u", a >> 24, a >> 16 & 255, a >> 8 & 255, a & 255);
    else for (int i = 0; i < 4; i++) printf("%08" PRIx32, (uint32_t)words[i]);
}

static void print_sources(void) {
    for (int i = 0; i < SFLOW4_LEDGER_ROWS; i++) {
        const uint64_t *row = ledger + i * SFLOW4_LEDGER_COLUMNS;
        uint32_t source = (uint32_t)row[SFLOW4_ROW_SOURCE_ID];
        if (row[SFLOW4_ROW_USED] == 0) continue;
        printf("source %" PRIu32 ".%" PRIu32 " of ", source >> 24, source & 0xffffff);
        print_address(row[SFLOW4_ROW_AGENT_TYPE], row + SFLOW4_ROW_AGENT);
        printf(": lost %" PRIu64 " pool %" PRIu64 "\n", row[SFLOW4_ROW_LOST_TOTAL], row[SFLOW4_ROW_POOL_TOTAL]);
    }
}

static const char *answer_name(uint64_t answer) {
    static const char *names[] = {"refused", "Ignore", "NoMatch", "Count", "CountPkt"};
    return names[answer <= RTFM_COUNT_PKT ? answer : 0];
}

static const char *attribute_name(int attribute) {
    switch (attribute) {
    case RTFM_SOURCE_TRANS_TYPE: return "protocol";
    case RTFM_DEST_TRANS_ADDRESS: return "port";
    default: return "attribute";
    }
}

static void print_answers(void) {
    for (size_t i = 0; i < answers.used; i++) {
        const struct tally_row *row = answers.rows + i;
        const uint64_t *masks = row->key + 1, *values = masks + RTFM_ATTRIBUTES;
        printf("%s", answer_name(row->key[0]));
        for (int a = 0; a < RTFM_ATTRIBUTES; a++)
            if (masks[a] != 0 || values[a] != 0) printf(" %s %" PRIu64, attribute_name(a), values[a]);
        printf(": %" PRIu64 "\n", row->times);
    }
}

static void print_counts(void) {
    printf("datagrams %" PRIu64 " refused %" PRIu64 "\n", datagrams, refused_datagrams);
    for (size_t i = 0; i < refusals.used; i++)
        printf("refused %" PRIu64 " at %" PRIu64 ": %" PRIu64 "\n", refusals.rows[i].key[0], refusals.rows[i].key[1],
               refusals.rows[i].times);
    printf("samples %" PRIu64 " flow %" PRIu64 " counters %" PRIu64 "\n", flow_samples + counter_samples, flow_samples,
           counter_samples);
    print_sources();
    for (size_t i = 0; i < entry_refusals.used; i++)
        printf("not entered %" PRIu64 ": %" PRIu64 "\n", entry_refusals.rows[i].key[0], entry_refusals.rows[i].times);
    print_answers();
}

/* A socket on 127.0.0.1; its port is printed. */
static int listen_on(uint16_t port) {
    struct sockaddr_in address = {.sin_family = AF_INET, .sin_port = htons(port)};
    socklen_t length = sizeof address;
    int s = socket(AF_INET, SOCK_DGRAM, 0);
    address.sin_addr.s_addr = htonl(INADDR_LOOPBACK);
    if (s < 0) fail("cannot make a socket");
    if (bind(s, (struct sockaddr *)&address, sizeof address) != 0) fail("cannot listen on this port of 127.0.0.1");
    if (getsockname(s, (struct sockaddr *)&address, &length) != 0) fail("cannot tell the port");
    printf("listening on 127.0.0.1 port %u\n", ntohs(address.sin_port));
    fflush(stdout);
    return s;
}

static void receive(int s, uint64_t wanted) {
    static uint8_t octets[65536];
    while (datagrams < wanted) {
        ssize_t n = recv(s, octets, sizeof octets, 0);
        if (n >= 0) take_datagram(octets, (size_t)n);
        else if (errno != EINTR) fail("cannot receive");
    }
}

/* The number that a text of digits alone is, or max + 1. */
static uint64_t number_in(const char *text, uint64_t max) {
    uint64_t value = 0;
    if (*text == 0) return max + 1;
    for (; *text; text++) {
        if (*text < '0' || *text > '9') return max + 1;
        value = 10 * value + (uint64_t)(*text - '0');
        if (value > max) return max + 1;
    }
    return value;
}

int main(int argc, char **argv) {
    uint64_t port = argc == 3 ? number_in(argv[1], 65535) : 65536;
    uint64_t wanted = argc == 3 ? number_in(argv[2], UINT32_MAX) : 0;
    int s;
    if (port > 65535 || wanted == 0 || wanted > UINT32_MAX) {
        fprintf(stderr, "collector receives sFlow datagrams on 127.0.0.1 and prints what it counted:\n"
                        "  collector PORT COUNT\n"
                        "PORT is the UDP port, 0 to 65535 (0: any free one); COUNT is how many datagrams, 1 to 4294967295.\n");
        return 2;
    }
    check_rules();
    s = listen_on((uint16_t)port);
    receive(s, wanted);
    close(s);
    print_counts();
    return ferror(stdout) || fflush(stdout) != 0;
}
