/* Octets put one behind the other, to write datagrams and rule sets by hand. */
#ifndef OCTETS_H
#define OCTETS_H

#include <stddef.h>
#include <stdint.h>

struct octets {
    uint8_t at[1024];
    size_t length;
};

void put_octet(struct octets *o, unsigned value);
void put_word(struct octets *o, uint32_t value);
void put_hyper(struct octets *o, uint64_t value);
/* n words: first, first + 1, .. */
void put_words(struct octets *o, uint32_t first, unsigned n);
void put_octets(struct octets *o, const void *from, size_t n);
/* a length word, the characters, and zero octets up to a multiple of four */
void put_string(struct octets *o, const char *text);

#endif
