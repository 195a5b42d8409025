/* Octets put one behind the other. */
#include "octets.h"

#include <string.h>

void put_octet(struct octets *o, unsigned value) {
    if (o->length < sizeof o->at) o->at[o->length++] = (uint8_t)value;
}

void put_word(struct octets *o, uint32_t value) {
    for (int shift = 24; shift >= 0; shift -= 8) put_octet(o, value >> shift & 255);
}

void put_hyper(struct octets *o, uint64_t value) {
    put_word(o, (uint32_t)(value >> 32));
    put_word(o, (uint32_t)value);
}

void put_words(struct octets *o, uint32_t first, unsigned n) {
    for (unsigned i = 0; i < n; i++) put_word(o, first + i);
}

void put_octets(struct octets *o, const void *from, size_t n) {
    for (size_t i = 0; i < n; i++) put_octet(o, ((const uint8_t *)from)[i]);
}

void put_string(struct octets *o, const char *text) {
    size_t n = strlen(text);
    put_word(o, (uint32_t)n);
    put_octets(o, text, n);
    while (n++ % 4) put_octet(o, 0);
}
