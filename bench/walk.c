/* Reads a datagram many times with the hand-written reader of datagram.h, and prints a sum of what it found, the same as that of `library ours`:
     walk read TURNS FILE   the whole datagram accepted or refused
     walk walk TURNS FILE   all values of all samples, taken while the datagram is read
   Of packet data it gives the values of headers, of extended data those of switch entries: the inputs have no others. */
#include <stdio.h>
#include <stdlib.h>
#include <string.h>

#include "datagram.h"

/* A sample's values. */
struct values {
    uint32_t words[7], extended, header[3];
    size_t header_at;
    uint32_t version, count;
    uint64_t counters[37];
};

static uint64_t be64(const uint8_t *p) {
    return (uint64_t)be32(p) << 32 | be32(p + 4);
}

/* So many words, their check made already. */
static void take_words(struct input *in, uint32_t *to, size_t count) {
    for (size_t i = 0; i < count; i++) to[i] = be32(in->s + in->at + 4 * i);
    in->at += 4 * count;
}

/* So many counters of 4 octets, then one of 8 if it is asked for. */
static const uint8_t *take_counters(const uint8_t *p, uint64_t **to, size_t count, int wide) {
    for (size_t i = 0; i < count; i++, p += 4) *(*to)++ = be32(p);
    if (!wide) return p;
    *(*to)++ = be64(p);
    return p + 8;
}

/* The counters of a whole body, and how many there are. */
static uint32_t counters_of(const uint8_t *p, uint32_t version, uint64_t *first) {
    uint64_t *to = first;
    if (version == 7) take_counters(take_counters(p, &to, 1, 1), &to, 4, 0);
    else {
        p = take_counters(p, &to, 2, 1);
        p = take_counters(p, &to, 2, 1);
        p = take_counters(p, &to, 6, 1);
        p = take_counters(p, &to, 6, 0);
        if (version == 2) take_counters(p, &to, 13, 0);
        if (version == 3) take_counters(p, &to, 18, 0);
        if (version == 5) {
            static const size_t between[6] = {1, 1, 5, 1, 0, 0};
            for (int i = 0; i < 6; i++) p = take_counters(p, &to, between[i], 1);
        }
    }
    return (uint32_t)(to - first);
}

/* The packet data of a flow sample, with the values of a header. */
static int packet_values(struct input *in, struct values *v) {
    size_t at = in->at;
    int r = packet(in);
    if (r || be32(in->s + at) != 1) return r;
    for (int i = 0; i < 3; i++) v->header[i] = be32(in->s + at + 4 + 4 * i);
    v->header_at = at + 16;
    return 0;
}

/* An extended entry; adds the values of a switch. */
static int extended_values(struct input *in, uint64_t *sum) {
    size_t at = in->at;
    int r = extended(in);
    if (r || be32(in->s + at) != 1) return r;
    for (int i = 0; i < 5; i++) *sum += be32(in->s + at + 4 * i);
    return 0;
}

static int flow_values(struct input *in, struct values *v, uint64_t *sum) {
    int r = 0;
    if (in->n - in->at < 28) return skip_words(in, 7);
    take_words(in, v->words, 7);
    if ((r = packet_values(in, v)) || (r = word(in, &v->extended))) return r;
    for (int i = 0; i < 7; i++) *sum += v->words[i];
    *sum += 1 + v->extended + v->header[0] + v->header[1] + v->header[2] + v->header_at;
    for (uint32_t left = v->extended; left > 0 && !r; left--) r = extended_values(in, sum);
    return r;
}

static int counter_values(struct input *in, struct values *v, uint64_t *sum) {
    size_t at = in->at;
    int r = counters(in);
    if (r) return r;
    for (int i = 0; i < 4; i++) v->words[i] = be32(in->s + at + 4 * i);
    v->count = counters_of(in->s + at + 16, v->words[3], v->counters);
    for (int i = 0; i < 4; i++) *sum += v->words[i];
    for (uint32_t i = 0; i < v->count; i++) *sum += v->counters[i];
    *sum += v->count;
    return 0;
}

static int sample_values(struct input *in, uint64_t *sum) {
    static struct values v;
    size_t at = in->at;
    uint32_t kind;
    int r = word(in, &kind);
    if (r) return r;
    if (kind < 1 || kind > 2) { in->at = at; return 4; }
    r = kind == 1 ? flow_values(in, &v, sum) : counter_values(in, &v, sum);
    *sum += kind + at + (in->at - at);
    return r;
}

static uint64_t of_head(const uint8_t *s, const struct head *h) {
    uint64_t sum = h->kind + (uint64_t)h->sequence + h->uptime + h->count + h->first;
    for (int i = 0; i < (h->kind == 1 ? 1 : 4); i++) sum += be32(s + 8 + 4 * i);
    return sum;
}

/* What one turn finds; of a refused datagram the number and the place. */
static uint64_t turn(const uint8_t *s, size_t n, int all) {
    struct input in = {s, n, 0};
    struct head head;
    uint64_t sum = 0;
    int r = all ? begin(&in, &head) : datagram(&in, &head);
    for (uint32_t left = r || !all ? 0 : head.count; left > 0 && !r; left--) r = sample_values(&in, &sum);
    if (!r && in.at < in.n) r = 13;
    return r ? (uint64_t)r + in.at : sum + of_head(s, &head);
}

int main(int count, char **given) {
    static uint8_t s[65536];
    if (count != 4 || (strcmp(given[1], "read") && strcmp(given[1], "walk"))) {
        fprintf(stderr, "usage: walk read|walk TURNS FILE\n");
        return 1;
    }
    FILE *file = fopen(given[3], "rb");
    if (!file) { perror(given[3]); return 1; }
    size_t n = fread(s, 1, sizeof s, file);
    uint64_t sum = 0;
    int all = !strcmp(given[1], "walk");
    unsigned long turns = strtoul(given[2], NULL, 10);
    for (unsigned long i = 1; i <= turns; i++) {
        s[15] = (uint8_t)i;
        __asm__ volatile("" ::: "memory");
        sum += turn(s, n, all);
    }
    printf("%llu\n", (unsigned long long)sum);
    return 0;
}
