/* Every form of a datagram, put by hand with values that all differ. */
#ifndef FORMS_H
#define FORMS_H

#include "octets.h"

/* version, an IPv4 agent 10.0.0.7, sequence number 1, uptime 1000, and a count of samples: 24 octets */
void put_ipv4_head(struct octets *o, uint32_t samples);
/* version, an IPv6 agent with the words 101 to 104, sequence number 105, uptime 106, and a count of samples: 36 octets */
void put_ipv6_head(struct octets *o, uint32_t samples);

/* packet data with their type word */
void put_header_data(struct octets *o); /* protocol 11, frame length 202, "head+" */
void put_ipv4_data(struct octets *o);   /* words 211 to 218 */
void put_ipv6_data(struct octets *o);   /* words 221 to 234 */

/* extended entries with their type word */
void put_switch(struct octets *o);      /* words 301 to 304 */
void put_router(struct octets *o);      /* next hop IPv6, words 311 to 314, masks 315, 316 */
void put_ipv4_router(struct octets *o); /* next hop IPv4, word 311, masks 315, 316 */
void put_gateway(struct octets *o);     /* 321 to 323, the two segments, communities 331 to 333, preference 334 */
void put_user(struct octets *o);        /* "anna" and "bernard" */
void put_url(struct octets *o);         /* destination, "/index" */
void put_set(struct octets *o);         /* a path segment: a set of 341, 342 */
void put_sequence(struct octets *o);    /* a path segment: a sequence of 351 to 353 */

/* flow sample words 401 to 407, with the type word before them */
void put_flow_words(struct octets *o);
/* a flow sample with IPv4 data, a switch and a URL entry */
void put_flow(struct octets *o);
/* a VLAN counter sample: sequence number 5, source 01000064, interval 20, vlan 100, the rest 501 to 505 */
void put_vlan(struct octets *o);

#endif
