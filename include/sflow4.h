/* sFlow version 4 datagrams (RFC 3176), a ledger of lost flow samples, RTFM rule sets (RFC 2722) and listings of captures.
 *
 * The functions are in libexport.a, for x86-64. They are proved: each answers for every input, changes only what is said
 * here, allocates nothing, keeps nothing between calls, and may be called from several threads at once.
 *
 * A slice is a pointer and how many elements it points to. The caller sees to this:
 *   - a pointer is valid for the length that is given with it, and aligned for its type;
 *   - the pointer of an empty slice is not null (any other pointer will do);
 *   - a buffer, array or table that the function writes to does not overlap any other slice of the same call.
 *
 * Results beyond one number go into a lent array, "out", of 64-bit numbers. It takes as many of them, from the first on,
 * as it has room for; what lies behind them stays as it was. An array of length 0 takes none.
 *
 * Offsets and lengths are in octets, offsets from the beginning of the octets given, the first octet being 0.
 * An address has a type (1 IPv4, 2 IPv6) and four words a to d, each four octets of it with the first octet on top: the
 * address 10.0.0.7 is 0x0a000007 and three zeros. */
#ifndef SFLOW4_H
#define SFLOW4_H

#include <stddef.h>
#include <stdint.h>

#ifdef __cplusplus
extern "C" {
#endif

/* Numbers that the functions answer. A name's comment says what it means where it is a refusal. */
enum {
    SFLOW4_DONE = 0,
    /* of the reader; the place is an offset */
    SFLOW4_REFUSED_CUT_ITEM = 1,           /* fewer octets are left than the item has */
    SFLOW4_REFUSED_VERSION = 2,            /* version not 4 */
    SFLOW4_REFUSED_ADDRESS_TYPE = 3,       /* address type not 1 or 2, of the agent or of a next hop */
    SFLOW4_REFUSED_SAMPLE_TYPE = 4,        /* sample type not 1 or 2 */
    SFLOW4_REFUSED_PACKET_DATA_TYPE = 5,   /* packet data type not 1 to 3 */
    SFLOW4_REFUSED_HEADER_PROTOCOL = 6,    /* header protocol not 1 to 13 */
    SFLOW4_REFUSED_HEADER_LENGTH = 7,      /* header longer than 256 octets; the place is its length word */
    SFLOW4_REFUSED_EXTENDED_TYPE = 8,      /* extended data type not 1 to 5 */
    SFLOW4_REFUSED_SEGMENT_TYPE = 9,       /* path segment type not 1 or 2 */
    SFLOW4_REFUSED_URL_DIRECTION = 10,     /* URL direction not 1 or 2 */
    SFLOW4_REFUSED_COUNTERS_VERSION = 11,  /* counters version not 1 to 7 */
    SFLOW4_REFUSED_PADDING = 12,           /* a padding octet is not zero; the place is that octet */
    SFLOW4_REFUSED_TRAILING_OCTETS = 13,   /* octets after the last sample; the place is the first of them */
    SFLOW4_REFUSED_TOO_LONG = 14,          /* longer than 65,507 octets; the place is 0 */
    /* of the writers */
    SFLOW4_REFUSED_NO_ROOM = 20,           /* the new end would pass the limit, or the buffer is too short */
    SFLOW4_REFUSED_BAD_LIMIT = 21,         /* the limit is outside 36 to 65,507, or above the buffer's length */
    SFLOW4_REFUSED_BAD_VALUE = 22,         /* a value is not in the grammar, or the octets are not exactly one sample */
    SFLOW4_REFUSED_BAD_DATAGRAM = 23,      /* the datagram so far does not pass the reader, or is longer than the limit */
    /* of the ledger */
    SFLOW4_REFUSED_TABLE_FULL = 40,        /* all 64 rows belong to other sources */
    SFLOW4_REFUSED_REPEATED = 41,          /* the sequence number is the one kept */
    SFLOW4_REFUSED_BACKWARD = 42,          /* the sequence number went back: it is 2^31 or more ahead, modulo 2^32 */
    /* of these functions alone */
    SFLOW4_REFUSED_SHORT_ARRAY = 99        /* the table or the state has too few numbers */
};

/* Numbers that rtfm_check and rtfm_run answer. */
enum {
    RTFM_ACCEPTED = 0,                     /* rtfm_check alone */
    RTFM_IGNORE = 1,                       /* 1 to 4: rtfm_run alone */
    RTFM_NO_MATCH = 2,
    RTFM_COUNT = 3,
    RTFM_COUNT_PKT = 4,
    RTFM_REFUSED_NOT_ONE_FLOW_SAMPLE = 18, /* rtfm_run alone; no rule is named */
    RTFM_REFUSED_SET_LENGTH = 30,          /* length 0, not a multiple of 16, or more than 255 rules; no rule is named */
    RTFM_REFUSED_MARK = 31,                /* the mark is not 52 75 */
    RTFM_REFUSED_ATTRIBUTE = 32,           /* no such attribute */
    RTFM_REFUSED_OPCODE = 33,              /* opcode not 1 to 17, or 8 or 9 */
    RTFM_REFUSED_DEPTH_OR_HELD = 34,       /* depth over 4, or held over 16 */
    RTFM_REFUSED_FIRST_RULE = 35,          /* rule 1 with home, depth or held not 0 */
    RTFM_REFUSED_RETURN_HOME = 36,         /* Return with home 0 */
    RTFM_REFUSED_TARGET = 37,              /* a goto not ahead or to no rule; a Return with parameter 0 or back to no rule */
    RTFM_REFUSED_QUEUE = 38,               /* PopTo with held 0; a push, Count or CountPkt with held 16 */
    RTFM_REFUSED_SUCCESSOR = 39            /* a successor declares another home, depth or held than it has on arrival */
};

/* Sizes. */
enum {
    SFLOW4_MAX_DATAGRAM = 65507,   /* octets of the longest datagram, and the largest limit */
    SFLOW4_MIN_LIMIT = 36,         /* the smallest limit */
    SFLOW4_LEDGER_ROWS = 64,
    SFLOW4_LEDGER_COLUMNS = 11,
    SFLOW4_LEDGER_NUMBERS = 704,   /* numbers of a ledger's table */
    SFLOW4_MAX_COUNTERS = 37,      /* counters of the version that has most (3, token ring) */
    SFLOW4_LINES_ROOM = 222796,    /* octets of output that take the lines of any one record */
    SFLOW4_END_LINES_ROOM = 123,   /* octets of output that sflow4_end_lines asks for */
    RTFM_RULE_OCTETS = 16,
    RTFM_MAX_RULES = 255,
    RTFM_ATTRIBUTES = 23           /* the key has a mask and a value for each attribute's number, 0 to 22 */
};

/* Where a refusal's place is, in any array: an offset for the reader, a rule's number for rule sets. */
enum { SFLOW4_PLACE = 0 };

/* sflow4_read's array. */
enum {
    SFLOW4_HEAD_AGENT_TYPE = 0,    /* 1 IPv4, 2 IPv6 */
    SFLOW4_HEAD_AGENT = 1,         /* the address's four words, 1 to 4 */
    SFLOW4_HEAD_SEQUENCE_NUMBER = 5,
    SFLOW4_HEAD_UPTIME = 6,        /* in milliseconds */
    SFLOW4_HEAD_SAMPLE_COUNT = 7,
    SFLOW4_HEAD_FIRST_SAMPLE = 8,  /* offset of the first sample */
    SFLOW4_HEAD_NUMBERS = 9
};

/* Reads a whole datagram.
 * Answers 0 where it is well formed: out takes the nine numbers above.
 * Else answers the refusal, 1 to 14: out takes its place, an offset. */
uint32_t sflow4_read(const uint8_t *octets, size_t octets_length, uint64_t *out, size_t out_length);

/* sflow4_sample's array. */
enum {
    SFLOW4_SAMPLE_KIND = 0,        /* SFLOW4_FLOW or SFLOW4_COUNTER */
    SFLOW4_SAMPLE_OFFSET = 1,      /* of its type word */
    SFLOW4_SAMPLE_LENGTH = 2,      /* with its type word: the next sample is at offset plus length */
    SFLOW4_SAMPLE_SEQUENCE_NUMBER = 3,
    SFLOW4_SAMPLE_SOURCE_ID = 4,   /* top octet: 0 interface, 1 VLAN, 2 entity; low three octets: its index */
    /* a flow sample */
    SFLOW4_FLOW_SAMPLING_RATE = 5,
    SFLOW4_FLOW_SAMPLE_POOL = 6,
    SFLOW4_FLOW_DROPS = 7,
    SFLOW4_FLOW_INPUT = 8,
    SFLOW4_FLOW_OUTPUT = 9,
    SFLOW4_FLOW_PACKET_TYPE = 10,  /* SFLOW4_PACKET_HEADER, SFLOW4_PACKET_IPV4 or SFLOW4_PACKET_IPV6 */
    SFLOW4_FLOW_EXTENDED_COUNT = 11,
    SFLOW4_FLOW_FIRST_EXTENDED = 12, /* offset of the first extended entry */
    /* its packet data, a header: protocols 1 Ethernet, 2 token bus, 3 token ring, 4 FDDI, 5 frame relay, 6 X.25, 7 PPP,
     * 8 SMDS, 9 AAL5, 10 AAL5-IP, 11 IPv4, 12 IPv6, 13 MPLS */
    SFLOW4_HEADER_PROTOCOL = 13,
    SFLOW4_HEADER_FRAME_LENGTH = 14,
    SFLOW4_HEADER_OFFSET = 15, /* of the header's octets */
    SFLOW4_HEADER_LENGTH = 16,
    /* IPv4 */
    SFLOW4_IPV4_LENGTH = 13,
    SFLOW4_IPV4_PROTOCOL = 14,
    SFLOW4_IPV4_SOURCE = 15,
    SFLOW4_IPV4_DESTINATION = 16,
    SFLOW4_IPV4_SOURCE_PORT = 17,
    SFLOW4_IPV4_DESTINATION_PORT = 18,
    SFLOW4_IPV4_TCP_FLAGS = 19,
    SFLOW4_IPV4_TOS = 20,
    /* IPv6 */
    SFLOW4_IPV6_LENGTH = 13,
    SFLOW4_IPV6_PROTOCOL = 14,
    SFLOW4_IPV6_SOURCE = 15,       /* four words, 15 to 18 */
    SFLOW4_IPV6_DESTINATION = 19,  /* four words, 19 to 22 */
    SFLOW4_IPV6_SOURCE_PORT = 23,
    SFLOW4_IPV6_DESTINATION_PORT = 24,
    SFLOW4_IPV6_TCP_FLAGS = 25,
    SFLOW4_IPV6_PRIORITY = 26,
    /* a counter sample */
    SFLOW4_COUNTER_INTERVAL = 5,
    SFLOW4_COUNTER_VERSION = 6,    /* 1 generic, 2 Ethernet, 3 token ring, 4 FDDI, 5 VG, 6 WAN, 7 VLAN */
    SFLOW4_COUNTER_COUNT = 7,      /* how many counters the version has */
    SFLOW4_COUNTER_FIRST = 8,      /* 37 numbers, 8 to 44: the counters in the RFC's order, zeros behind them */
    SFLOW4_SAMPLE_NUMBERS = 45     /* numbers that every sample fits in */
};

/* Kinds of samples. */
enum { SFLOW4_FLOW = 1, SFLOW4_COUNTER = 2 };

/* Types of packet data. */
enum { SFLOW4_PACKET_HEADER = 1, SFLOW4_PACKET_IPV4 = 2, SFLOW4_PACKET_IPV6 = 3 };

/* Reads the sample whose type word is at an offset.
 * Answers 0 where it is well formed: out takes the numbers above, 17, 21 or 27 of a flow sample with a header, IPv4 or
 * IPv6, 45 of a counter sample.
 * Else answers the refusal, 1 or 3 to 12: out takes its place, an offset. An offset past the end is a cut item (1) there. */
uint32_t sflow4_sample(const uint8_t *octets, size_t octets_length, size_t at, uint64_t *out, size_t out_length);

/* sflow4_extended's array. */
enum {
    SFLOW4_EXTENDED_KIND = 0,      /* SFLOW4_EXTENDED_SWITCH to SFLOW4_EXTENDED_URL */
    SFLOW4_EXTENDED_NEXT = 1,      /* offset behind the entry: there the next one begins */
    /* switch */
    SFLOW4_SWITCH_SOURCE_VLAN = 2,
    SFLOW4_SWITCH_SOURCE_PRIORITY = 3,
    SFLOW4_SWITCH_DESTINATION_VLAN = 4,
    SFLOW4_SWITCH_DESTINATION_PRIORITY = 5,
    /* router */
    SFLOW4_ROUTER_NEXT_HOP_TYPE = 2, /* 1 IPv4, 2 IPv6 */
    SFLOW4_ROUTER_NEXT_HOP = 3,    /* the address's four words, 3 to 6 */
    SFLOW4_ROUTER_SOURCE_MASK = 7,
    SFLOW4_ROUTER_DESTINATION_MASK = 8,
    /* gateway */
    SFLOW4_GATEWAY_AS = 2,
    SFLOW4_GATEWAY_SOURCE_AS = 3,
    SFLOW4_GATEWAY_SOURCE_PEER_AS = 4,
    SFLOW4_GATEWAY_SEGMENT_COUNT = 5,
    SFLOW4_GATEWAY_FIRST_SEGMENT = 6, /* offset of the first path segment */
    SFLOW4_GATEWAY_COMMUNITY_COUNT = 7,
    SFLOW4_GATEWAY_FIRST_COMMUNITY = 8, /* offset of the first community, a word */
    SFLOW4_GATEWAY_LOCAL_PREFERENCE = 9,
    /* user */
    SFLOW4_USER_SOURCE_OFFSET = 2,
    SFLOW4_USER_SOURCE_LENGTH = 3,
    SFLOW4_USER_DESTINATION_OFFSET = 4,
    SFLOW4_USER_DESTINATION_LENGTH = 5,
    /* URL */
    SFLOW4_URL_DIRECTION = 2,          /* direction: 1 the source's, 2 the destination's */
    SFLOW4_URL_OFFSET = 3,
    SFLOW4_URL_LENGTH = 4,
    SFLOW4_EXTENDED_NUMBERS = 10   /* numbers that every entry fits in */
};

/* Types of extended data. */
enum {
    SFLOW4_EXTENDED_SWITCH = 1,
    SFLOW4_EXTENDED_ROUTER = 2,
    SFLOW4_EXTENDED_GATEWAY = 3,
    SFLOW4_EXTENDED_USER = 4,
    SFLOW4_EXTENDED_URL = 5
};

/* Reads the extended entry whose type word is at an offset.
 * Answers 0 where it is well formed: out takes the numbers above, 6 of a switch, 9 of a router, 10 of a gateway, 6 of a
 * user, 5 of a URL entry.
 * Else answers the refusal, 1, 3, 8, 9, 10 or 12: out takes its place, an offset. An offset past the end is a cut item (1)
 * there. */
uint32_t sflow4_extended(const uint8_t *octets, size_t octets_length, size_t at, uint64_t *out, size_t out_length);

/* sflow4_segment's array. */
enum {
    SFLOW4_SEGMENT_KIND = 0,       /* SFLOW4_SEGMENT_SET or SFLOW4_SEGMENT_SEQUENCE */
    SFLOW4_SEGMENT_NEXT = 1,       /* offset behind the segment: there the next one begins */
    SFLOW4_SEGMENT_WORD_COUNT = 2, /* how many numbers of autonomous systems it has */
    SFLOW4_SEGMENT_FIRST_WORD = 3, /* offset of the first of them, a word */
    SFLOW4_SEGMENT_NUMBERS = 4
};

/* Types of path segments. */
enum { SFLOW4_SEGMENT_SET = 1, SFLOW4_SEGMENT_SEQUENCE = 2 };

/* Reads the path segment at an offset.
 * Answers 0 where it is well formed: out takes the four numbers above.
 * Else answers the refusal, 1 or 9: out takes its place, an offset. An offset past the end is a cut item (1) there. */
uint32_t sflow4_segment(const uint8_t *octets, size_t octets_length, size_t at, uint64_t *out, size_t out_length);

/* Where the writers put the length. */
enum { SFLOW4_WRITTEN_LENGTH = 0 };

/* Writes a datagram without samples to the front of a buffer, to grow up to a limit: agent address, sequence number and
 * uptime in milliseconds.
 * Answers 0: the buffer's first 24 octets (IPv4 agent) or 36 (IPv6) are the datagram, those behind stay; out takes its
 * length.
 * Else answers SFLOW4_REFUSED_BAD_LIMIT (21), or SFLOW4_REFUSED_BAD_VALUE (22) where the agent's type is neither 1 nor 2:
 * the buffer and out stay as they were. The words b to d of an IPv4 agent are not looked at. */
uint32_t sflow4_start(uint8_t *buffer, size_t buffer_length, size_t limit, uint32_t agent_type, uint32_t a, uint32_t b,
                      uint32_t c, uint32_t d, uint32_t sequence_number, uint32_t uptime, uint64_t *out,
                      size_t out_length);

/* Puts one sample, given as octets, behind the datagram that is the buffer's first length octets, and adds 1 to the
 * datagram's count of samples. For a sample whose octets are there already, as one that sflow4_sample found; a sample of
 * which the values are at hand needs no octets of its own: sflow4_append_header, sflow4_append_ipv4, sflow4_append_ipv6 and
 * sflow4_append_counters write it where it belongs.
 * Answers 0: out takes the new length; octets behind the new end stay.
 * Else answers, tested in this order, SFLOW4_REFUSED_BAD_LIMIT (21), SFLOW4_REFUSED_BAD_DATAGRAM (23),
 * SFLOW4_REFUSED_BAD_VALUE (22: the octets are not exactly one sample) or SFLOW4_REFUSED_NO_ROOM (20): the buffer and out
 * stay as they were. */
uint32_t sflow4_append(uint8_t *buffer, size_t buffer_length, size_t limit, size_t length, const uint8_t *sample,
                       size_t sample_length, uint64_t *out, size_t out_length);

/* The words of a flow sample that is appended, whatever its packet data. */
enum {
    SFLOW4_APPEND_SEQUENCE_NUMBER = 0,
    SFLOW4_APPEND_SOURCE_ID = 1,
    SFLOW4_APPEND_SAMPLING_RATE = 2,
    SFLOW4_APPEND_SAMPLE_POOL = 3,
    SFLOW4_APPEND_DROPS = 4,
    SFLOW4_APPEND_INPUT = 5,
    SFLOW4_APPEND_OUTPUT = 6,
    SFLOW4_APPEND_EXTENDED_COUNT = 7, /* how many extended entries the entries' octets are */
    SFLOW4_APPEND_FLOW_WORDS = 8
};

/* The packet's words for sflow4_append_ipv4. */
enum {
    SFLOW4_APPEND_IPV4_LENGTH = 0,
    SFLOW4_APPEND_IPV4_PROTOCOL = 1,
    SFLOW4_APPEND_IPV4_SOURCE = 2,
    SFLOW4_APPEND_IPV4_DESTINATION = 3,
    SFLOW4_APPEND_IPV4_SOURCE_PORT = 4,
    SFLOW4_APPEND_IPV4_DESTINATION_PORT = 5,
    SFLOW4_APPEND_IPV4_TCP_FLAGS = 6,
    SFLOW4_APPEND_IPV4_TOS = 7,
    SFLOW4_APPEND_IPV4_WORDS = 8
};

/* The packet's words for sflow4_append_ipv6. */
enum {
    SFLOW4_APPEND_IPV6_LENGTH = 0,
    SFLOW4_APPEND_IPV6_PROTOCOL = 1,
    SFLOW4_APPEND_IPV6_SOURCE = 2,      /* four words, 2 to 5 */
    SFLOW4_APPEND_IPV6_DESTINATION = 6, /* four words, 6 to 9 */
    SFLOW4_APPEND_IPV6_SOURCE_PORT = 10,
    SFLOW4_APPEND_IPV6_DESTINATION_PORT = 11,
    SFLOW4_APPEND_IPV6_TCP_FLAGS = 12,
    SFLOW4_APPEND_IPV6_PRIORITY = 13,
    SFLOW4_APPEND_IPV6_WORDS = 14
};

/* Puts a flow sample with a sampled header behind the datagram that is the buffer's first length octets, and adds 1 to the
 * datagram's count of samples. Words are the sample's eight words above; protocol (1 to 13), frame length and header (at
 * most 256 octets) are its packet data; entries are the octets of its extended entries, one behind the other, as
 * sflow4_write wrote them (kinds 11 to 15), none where the count is 0.
 * Answers 0: out takes the new length; octets behind the new end stay.
 * Else answers, tested in this order, SFLOW4_REFUSED_BAD_LIMIT (21), SFLOW4_REFUSED_BAD_DATAGRAM (23),
 * SFLOW4_REFUSED_BAD_VALUE (22: the words are not eight, the protocol or the header's length is not in the grammar, or the
 * entries are not exactly so many) or SFLOW4_REFUSED_NO_ROOM (20): the buffer and out stay as they were. */
uint32_t sflow4_append_header(uint8_t *buffer, size_t buffer_length, size_t limit, size_t length, const uint32_t *words,
                              size_t words_length, uint32_t protocol, uint32_t frame_length, const uint8_t *header,
                              size_t header_length, const uint8_t *entries, size_t entries_length, uint64_t *out,
                              size_t out_length);

/* The same with IPv4 packet data, the eight words above.
 * Answers as sflow4_append_header does; SFLOW4_REFUSED_BAD_VALUE (22) where the words are not eight, the packet's are not
 * eight, or the entries are not exactly so many. */
uint32_t sflow4_append_ipv4(uint8_t *buffer, size_t buffer_length, size_t limit, size_t length, const uint32_t *words,
                            size_t words_length, const uint32_t *packet, size_t packet_length, const uint8_t *entries,
                            size_t entries_length, uint64_t *out, size_t out_length);

/* The same with IPv6 packet data, the fourteen words above.
 * Answers as sflow4_append_header does; SFLOW4_REFUSED_BAD_VALUE (22) where the words are not eight, the packet's are not
 * fourteen, or the entries are not exactly so many. */
uint32_t sflow4_append_ipv6(uint8_t *buffer, size_t buffer_length, size_t limit, size_t length, const uint32_t *words,
                            size_t words_length, const uint32_t *packet, size_t packet_length, const uint8_t *entries,
                            size_t entries_length, uint64_t *out, size_t out_length);

/* Puts a counter sample behind the datagram that is the buffer's first length octets, and adds 1 to the datagram's count of
 * samples. The numbers are the counters of the version in the RFC's order: 19 for versions 1, 4 and 6, 32 for 2, 37 for 3,
 * 33 for 5, 6 for 7.
 * Answers 0: out takes the new length; octets behind the new end stay.
 * Else answers, tested in this order, SFLOW4_REFUSED_BAD_LIMIT (21), SFLOW4_REFUSED_BAD_DATAGRAM (23),
 * SFLOW4_REFUSED_BAD_VALUE (22: the version is not 1 to 7, the numbers are not as many as it has or one is too large for its
 * field) or SFLOW4_REFUSED_NO_ROOM (20): the buffer and out stay as they were. */
uint32_t sflow4_append_counters(uint8_t *buffer, size_t buffer_length, size_t limit, size_t length,
                                uint32_t sequence_number, uint32_t source_id, uint32_t interval, uint32_t version,
                                const uint64_t *numbers, size_t numbers_length, uint64_t *out, size_t out_length);

/* Kinds for sflow4_write: the words and octets that each takes. All but a path segment are written with their type word. */
enum {
    SFLOW4_WRITE_HEADER = 1,   /* words: protocol, frame length; first: the header's octets, at most 256 */
    SFLOW4_WRITE_IPV4 = 2,     /* 8 words: length, protocol, source, destination, source port, destination port, TCP flags, TOS */
    SFLOW4_WRITE_IPV6 = 3,     /* 14 words: length, protocol, source's 4, destination's 4, source port, destination port,
                                * TCP flags, priority */
    SFLOW4_WRITE_SWITCH = 11,  /* 4 words: source VLAN, source priority, destination VLAN, destination priority */
    SFLOW4_WRITE_ROUTER = 12,  /* 7 words: next hop's type and its 4 (of IPv4 only the first is looked at), source mask,
                                * destination mask */
    SFLOW4_WRITE_GATEWAY = 13, /* 5 words: AS, source AS, source peer AS, count of segments, local preference; behind them
                                * the communities; first: the segments' octets, one behind the other */
    SFLOW4_WRITE_USER = 14,    /* no words; first: the source user, second: the destination user */
    SFLOW4_WRITE_URL = 15,     /* 1 word: direction, 1 or 2; first: the URL */
    SFLOW4_WRITE_SEGMENT = 16, /* type, 1 or 2; behind it the numbers of autonomous systems */
    SFLOW4_WRITE_FLOW = 21     /* 8 words: sequence number, source id, sampling rate, sample pool, drops, input, output, count
                                * of extended entries; first: the packet data's octets, second: the entries' octets */
};

/* Writes a form from its values to the front of a buffer. Octets that the kind does not use are not looked at.
 * Answers 0: out takes the length written; octets behind it stay.
 * Else answers SFLOW4_REFUSED_BAD_VALUE (22) where the kind is none of these, the words are not as many as it has, or a
 * value or the octets given are not in the grammar, then SFLOW4_REFUSED_NO_ROOM (20) where the buffer is too short: the
 * buffer and out stay as they were. */
uint32_t sflow4_write(uint32_t kind, const uint32_t *words, size_t words_length, const uint8_t *first, size_t first_length,
                      const uint8_t *second, size_t second_length, uint8_t *buffer, size_t buffer_length, uint64_t *out,
                      size_t out_length);

/* Writes a counter sample, with its type word, to the front of a buffer. The numbers are the counters of the version in
 * the RFC's order: 19 for versions 1, 4 and 6, 32 for 2, 37 for 3, 33 for 5, 6 for 7.
 * Answers 0: out takes the length written; octets behind it stay.
 * Else answers SFLOW4_REFUSED_BAD_VALUE (22) where the version is not 1 to 7, the numbers are not as many as it has or one
 * is too large for its field, then SFLOW4_REFUSED_NO_ROOM (20) where the buffer is too short: the buffer and out stay as
 * they were. */
uint32_t sflow4_write_counters(uint32_t sequence_number, uint32_t source_id, uint32_t interval, uint32_t version,
                               const uint64_t *numbers, size_t numbers_length, uint8_t *buffer, size_t buffer_length,
                               uint64_t *out, size_t out_length);

/* Columns of a row of the ledger's table: row i begins at number 11 * i. An empty table is 704 zeros. */
enum {
    SFLOW4_ROW_USED = 0,           /* 0 where the row is free, else the row belongs to a source; 1 is stored */
    SFLOW4_ROW_AGENT_TYPE = 1,
    SFLOW4_ROW_AGENT = 2,          /* the address's four words, 2 to 5 */
    SFLOW4_ROW_SOURCE_ID = 6,
    SFLOW4_ROW_SEQUENCE_NUMBER = 7, /* of the last sample entered */
    SFLOW4_ROW_SAMPLE_POOL = 8,    /* of the last sample entered */
    SFLOW4_ROW_LOST_TOTAL = 9,     /* samples lost, modulo 2^64 */
    SFLOW4_ROW_POOL_TOTAL = 10     /* packets that could have been sampled, modulo 2^64 */
};

/* Enters a flow sample of an agent in a ledger's table. A source is an agent and a source id; of an agent of type 1 word a
 * alone tells, of any other all four words. Columns 1 to 8 are read modulo 2^32. Flow samples only: counter samples have
 * sequence numbers of their own, so do not enter them.
 * Answers 0: the eleven numbers of the sample's row (its source's lowest, else the lowest free one) are those of the row
 * afterwards; every other number stays as it was.
 * Else answers SFLOW4_REFUSED_TABLE_FULL (40), SFLOW4_REFUSED_REPEATED (41) or SFLOW4_REFUSED_BACKWARD (42); or
 * SFLOW4_REFUSED_SHORT_ARRAY (99) where the table has fewer than 704 numbers: the table stays as it was. */
uint32_t sflow4_ledger(uint64_t *table, size_t table_length, uint32_t agent_type, uint32_t a, uint32_t b, uint32_t c,
                       uint32_t d, uint32_t source_id, uint32_t sequence_number, uint32_t sample_pool);

/* Checks a rule set: records of 16 octets.
 * Answers 0 where it is accepted: out takes 0.
 * Else answers the refusal, 30 to 39: out takes the number of the rule that is named, 0 for RTFM_REFUSED_SET_LENGTH. */
uint32_t rtfm_check(const uint8_t *rules, size_t rules_length, uint64_t *out, size_t out_length);

/* rtfm_run's array. */
enum {
    RTFM_RUN_RULE = 0,             /* the rule that a refusal names, else 0 */
    RTFM_RUN_RULES = 1,            /* how many rules were come to, failed tests included; 0 in a refusal */
    RTFM_RUN_MASKS = 2,            /* the key's 23 masks, 2 to 24, each at its attribute's number */
    RTFM_RUN_VALUES = 25,          /* the key's 23 values, 25 to 47 */
    RTFM_RUN_NUMBERS = 48
};

/* Attributes of a flow sample, by their numbers in RFC 2722. */
enum {
    RTFM_NULL = 0,
    RTFM_SOURCE_INTERFACE = 4,
    RTFM_SOURCE_PEER_TYPE = 8,
    RTFM_SOURCE_PEER_ADDRESS = 9,
    RTFM_SOURCE_TRANS_TYPE = 11,
    RTFM_SOURCE_TRANS_ADDRESS = 12,
    RTFM_DEST_INTERFACE = 14,
    RTFM_DEST_PEER_TYPE = 18,
    RTFM_DEST_PEER_ADDRESS = 19,
    RTFM_DEST_TRANS_TYPE = 21,
    RTFM_DEST_TRANS_ADDRESS = 22
};

/* Runs a rule set on a flow sample, both as octets; the sample from its type word to its end.
 * Answers RTFM_IGNORE (1), RTFM_NO_MATCH (2), RTFM_COUNT (3) or RTFM_COUNT_PKT (4); or the check's refusal, 30 to 39; or
 * RTFM_REFUSED_NOT_ONE_FLOW_SAMPLE (18). Out takes the 48 numbers above in any case; the key is all zero but after 3 and
 * 4.
 * The rule set is checked anew in every call. An accepted one of n rules comes to at most n + n^2 + n^3 + n^4 + n^5 rules;
 * without Gosub to at most n, while nested Gosubs can take seconds a sample. */
uint32_t rtfm_run(const uint8_t *rules, size_t rules_length, const uint8_t *sample, size_t sample_length, uint64_t *out,
                  size_t out_length);

/* The state of a listing. The first four are 0 at first and handed from call to call. */
enum {
    SFLOW4_LINES_OFFSET = 0,       /* octets of the capture listed so far */
    SFLOW4_LINES_RECORDS = 1,      /* records listed so far */
    SFLOW4_LINES_REFUSED = 2,      /* refused ones among them */
    SFLOW4_LINES_SAMPLES = 3,      /* samples of the accepted ones */
    SFLOW4_LINES_TAKEN = 4,        /* octets of this call's capture that were listed */
    SFLOW4_LINES_WRITTEN = 5,      /* octets of this call's output that are lines */
    SFLOW4_LINES_NUMBERS = 6
};

/* What sflow4_lines answers. */
enum {
    SFLOW4_LINES_NO_RECORD = 0,    /* what is left is no whole record */
    SFLOW4_LINES_OUTPUT = 1,       /* the output may be too short for the next record */
    SFLOW4_LINES_BAD_RECORD = 2    /* the next record has a wrong mark or length */
};

/* Lists the whole records at the front of a part of a capture, as lines of text at the front of the output. A record is the
 * mark 73 46, a length of two octets, and a datagram of that length.
 * Answers 0, 1 or 2 as above: the state's six numbers are those afterwards, numbers behind them stay; octets of the output
 * behind the lines stay. Listing goes on at the octet behind those taken: after 0 with more octets of the capture, after 1
 * with the output free again. An output of SFLOW4_LINES_ROOM octets takes any record. After 2, or where the capture ends
 * and octets are left, the capture is bad there (see sflow4_end_lines).
 * Or answers SFLOW4_REFUSED_SHORT_ARRAY (99) where the state has fewer than six numbers: nothing is changed. */
uint32_t sflow4_lines(const uint8_t *capture, size_t capture_length, uint8_t *output, size_t output_length,
                      uint64_t *state, size_t state_length);

/* Writes what follows a capture's last record to the front of the output: where bad is not 0 the line "capture bad at"
 * with the offset, then the last line with the counts. The four numbers are those of the state.
 * Answers 0: out takes the length of the lines; octets behind them stay.
 * Or answers SFLOW4_REFUSED_NO_ROOM (20) where the output has fewer than 123 octets: the output and out stay as they were. */
uint32_t sflow4_end_lines(uint8_t *output, size_t output_length, uint64_t offset, uint64_t records, uint64_t refused,
                          uint64_t samples, uint32_t bad, uint64_t *out, size_t out_length);

#ifdef __cplusplus
}
#endif

#endif
