/* Every form of a datagram, put by hand. */
#include "forms.h"

void put_ipv4_head(struct octets *o, uint32_t samples) {
    put_word(o, 4);
    put_word(o, 1);
    put_word(o, 0x0a000007);
    put_word(o, 1);
    put_word(o, 1000);
    put_word(o, samples);
}

void put_ipv6_head(struct octets *o, uint32_t samples) {
    put_word(o, 4);
    put_word(o, 2);
    put_words(o, 101, 6);
    put_word(o, samples);
}

void put_header_data(struct octets *o) {
    put_word(o, 1);
    put_word(o, 11);
    put_word(o, 202);
    put_string(o, "head+");
}

void put_ipv4_data(struct octets *o) {
    put_word(o, 2);
    put_words(o, 211, 8);
}

void put_ipv6_data(struct octets *o) {
    put_word(o, 3);
    put_words(o, 221, 14);
}

void put_switch(struct octets *o) {
    put_word(o, 1);
    put_words(o, 301, 4);
}

void put_router(struct octets *o) {
    put_word(o, 2);
    put_word(o, 2);
    put_words(o, 311, 6);
}

void put_ipv4_router(struct octets *o) {
    put_word(o, 2);
    put_word(o, 1);
    put_word(o, 311);
    put_words(o, 315, 2);
}

void put_gateway(struct octets *o) {
    put_word(o, 3);
    put_words(o, 321, 3);
    put_word(o, 2);
    put_set(o);
    put_sequence(o);
    put_word(o, 3);
    put_words(o, 331, 4);
}

void put_user(struct octets *o) {
    put_word(o, 4);
    put_string(o, "anna");
    put_string(o, "bernard");
}

void put_url(struct octets *o) {
    put_word(o, 5);
    put_word(o, 2);
    put_string(o, "/index");
}

void put_set(struct octets *o) {
    put_word(o, 1);
    put_word(o, 2);
    put_words(o, 341, 2);
}

void put_sequence(struct octets *o) {
    put_word(o, 2);
    put_word(o, 3);
    put_words(o, 351, 3);
}

void put_flow_words(struct octets *o) {
    put_word(o, 1);
    put_words(o, 401, 7);
}

void put_flow(struct octets *o) {
    put_flow_words(o);
    put_ipv4_data(o);
    put_word(o, 2);
    put_switch(o);
    put_url(o);
}

void put_vlan(struct octets *o) {
    put_word(o, 2);
    put_word(o, 5);
    put_word(o, 0x01000064);
    put_word(o, 20);
    put_word(o, 7);
    put_word(o, 100);
    put_hyper(o, 501);
    put_words(o, 502, 4);
}
