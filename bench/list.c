/* Lists the capture on standard input with buffered reads and printf, as crates/lister does, for comparison. */
#include <stdio.h>

#include "datagram.h"

static unsigned long long records, refused, samples;

static void agent(const uint8_t *s, uint32_t kind) {
    if (kind == 1) printf("%u.%u.%u.%u", s[8], s[9], s[10], s[11]);
    else for (int i = 0; i < 16; i++) printf("%02x", s[8 + i]);
}

static void accepted(const uint8_t *s, size_t n, const struct head *head) {
    struct input in = {s, n, head->first};
    printf("%llu agent ", records);
    agent(s, head->kind);
    printf(" seq %u length %zu\n", head->sequence, n);
    for (uint32_t left = head->count; left > 0; left--) {
        size_t at = in.at;
        uint32_t kind = 0;
        sample(&in, &kind);
        uint32_t source = be32(s + at + 8);
        printf(" %s at %zu length %zu source %u.%u seq %u\n",
            kind == 1 ? "flow" : "counters", at, in.at - at, source >> 24, source & 0xffffff, be32(s + at + 4));
    }
    samples += head->count;
}

static void record(const uint8_t *s, size_t n) {
    struct input in = {s, n, 0};
    struct head head;
    int r = datagram(&in, &head);
    records++;
    if (r) {
        refused++;
        printf("%llu refused %d at %zu\n", records, r, in.at);
    } else accepted(s, n, &head);
}

int main(void) {
    static uint8_t s[65536];
    static char input[262144], output[262144];
    unsigned long long offset = 0;
    setvbuf(stdin, input, _IOFBF, sizeof input);
    setvbuf(stdout, output, _IOFBF, sizeof output);
    for (;;) {
        uint8_t mark[4];
        size_t got = fread(mark, 1, 4, stdin), n = (size_t)mark[2] << 8 | mark[3];
        if (got == 0) break;
        if (got < 4 || mark[0] != 0x73 || mark[1] != 0x46 || n > 65507 || fread(s, 1, n, stdin) < n) {
            printf("capture bad at %llu\n", offset);
            break;
        }
        record(s, n);
        offset += 4 + n;
    }
    printf("records %llu refused %llu samples %llu\n", records, refused, samples);
    return 0;
}
