/* A hand-written reader of sFlow version 4 datagrams, for comparison: walk.c times it, list.c prints a capture's lines with it. Each function answers 0,
   or the number of the refusal; in->at is then its offset. */
#include <stddef.h>
#include <stdint.h>

struct input { const uint8_t *s; size_t n, at; };

static uint32_t be32(const uint8_t *p) {
    return (uint32_t)p[0] << 24 | (uint32_t)p[1] << 16 | (uint32_t)p[2] << 8 | p[3];
}

static int word(struct input *in, uint32_t *v) {
    if (in->n - in->at < 4) return 1;
    *v = be32(in->s + in->at);
    in->at += 4;
    return 0;
}

/* An item of so many octets. */
static int skip(struct input *in, size_t octets) {
    if (in->n - in->at < octets) return 1;
    in->at += octets;
    return 0;
}

/* So many words, each an item. */
static int skip_words(struct input *in, size_t count) {
    size_t whole = (in->n - in->at) / 4;
    in->at += 4 * (whole < count ? whole : count);
    return whole < count;
}

static int octets(struct input *in, uint32_t length) {
    size_t whole = ((size_t)length + 3) / 4 * 4;
    if (in->n - in->at < whole) return 1;
    for (size_t i = length; i < whole; i++)
        if (in->s[in->at + i] != 0) { in->at += i; return 12; }
    in->at += whole;
    return 0;
}

static int string(struct input *in) {
    uint32_t length;
    int r = word(in, &length);
    return r ? r : octets(in, length);
}

static int words(struct input *in) {
    uint32_t count;
    int r = word(in, &count);
    return r ? r : skip_words(in, count);
}

static int address(struct input *in, uint32_t *kind) {
    size_t at = in->at;
    int r = word(in, kind);
    if (r) return r;
    if (*kind == 1) return skip(in, 4);
    if (*kind == 2) return skip(in, 16);
    in->at = at;
    return 3;
}

/* Protocol, frame length, the header's length and octets. */
static int header(struct input *in) {
    uint32_t protocol, length;
    size_t at = in->at;
    int r = word(in, &protocol);
    if (r) return r;
    if (protocol < 1 || protocol > 13) { in->at = at; return 6; }
    if ((r = skip(in, 4))) return r;
    at = in->at;
    if ((r = word(in, &length))) return r;
    if (length > 256) { in->at = at; return 7; }
    return octets(in, length);
}

static int ipv6(struct input *in) {
    int r;
    if ((r = skip_words(in, 2)) || (r = skip(in, 16)) || (r = skip(in, 16))) return r;
    return skip_words(in, 4);
}

static int packet(struct input *in) {
    uint32_t kind;
    size_t at = in->at;
    int r = word(in, &kind);
    if (r) return r;
    if (kind == 1) return header(in);
    if (kind == 2) return skip_words(in, 8);
    if (kind == 3) return ipv6(in);
    in->at = at;
    return 5;
}

static int gateway(struct input *in) {
    uint32_t count, kind;
    int r = skip_words(in, 3);
    if (r || (r = word(in, &count))) return r;
    while (count-- > 0) {
        size_t at = in->at;
        if ((r = word(in, &kind))) return r;
        if (kind < 1 || kind > 2) { in->at = at; return 9; }
        if ((r = words(in))) return r;
    }
    if ((r = words(in))) return r;
    return skip(in, 4);
}

static int extended(struct input *in) {
    uint32_t kind, v;
    size_t at = in->at;
    int r = word(in, &kind);
    if (r) return r;
    switch (kind) {
    case 1: return skip_words(in, 4);
    case 2: return (r = address(in, &v)) ? r : skip_words(in, 2);
    case 3: return gateway(in);
    case 4: return (r = string(in)) ? r : string(in);
    case 5:
        at = in->at;
        if ((r = word(in, &v))) return r;
        if (v < 1 || v > 2) { in->at = at; return 10; }
        return string(in);
    }
    in->at = at;
    return 8;
}

static int flow(struct input *in) {
    uint32_t count;
    int r = skip_words(in, 7);
    if (r || (r = packet(in)) || (r = word(in, &count))) return r;
    while (!r && count-- > 0) r = extended(in);
    return r;
}

/* For each version of counters: the counters that have 8 octets, the first counter being bit 0. */
static const uint64_t hypers[8] = {0, 0x1024, 0x1024, 0x1024, 0x1024, 0x1d0501024, 0x1024, 2};

/* A body of counters, of the version's octets. In a cut one the offset is that of the first counter that is not whole. */
static int body(struct input *in, uint32_t version) {
    static const size_t octets[8] = {0, 88, 140, 160, 88, 168, 88, 28};
    if (!skip(in, octets[version])) return 0;
    for (uint64_t wide = hypers[version]; !skip(in, wide & 1 ? 8 : 4); wide >>= 1) {}
    return 1;
}

static int counters(struct input *in) {
    uint32_t version;
    int r = skip_words(in, 3);
    size_t at = in->at;
    if (r || (r = word(in, &version))) return r;
    if (version < 1 || version > 7) { in->at = at; return 11; }
    return body(in, version);
}

static int sample(struct input *in, uint32_t *kind) {
    size_t at = in->at;
    int r = word(in, kind);
    if (r) return r;
    if (*kind == 1) return flow(in);
    if (*kind == 2) return counters(in);
    in->at = at;
    return 4;
}

struct head { uint32_t kind, sequence, uptime, count; size_t first; };

/* What comes before the samples. */
static int begin(struct input *in, struct head *head) {
    uint32_t v;
    int r;
    if (in->n > 65507) return 14;
    if ((r = word(in, &v))) return r;
    if (v != 4) { in->at = 0; return 2; }
    if ((r = address(in, &head->kind)) || (r = word(in, &head->sequence)) || (r = word(in, &head->uptime)) || (r = word(in, &head->count))) return r;
    head->first = in->at;
    return 0;
}

/* The whole datagram. */
static int datagram(struct input *in, struct head *head) {
    uint32_t kind;
    int r = begin(in, head);
    if (r) return r;
    for (uint32_t left = head->count; left > 0; left--)
        if ((r = sample(in, &kind))) return r;
    return in->at < in->n ? 13 : 0;
}
