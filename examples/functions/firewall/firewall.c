/* A firewall: what is behind port 0 may begin flows to what is behind port 1, which may only answer. */
#include "vigor.h"

/* How long a flow without a frame stays, in nanoseconds. */
extern const uint64_t span;

/* The table of flows: an index for each key, the time of each index, and the key again by its index. */
extern map_t flows;
extern chain_t ages;
extern vector_t keys;

/* Ethernet, before what it carries. */
struct ethernet_header {
    uint8_t destination[6];
    uint8_t source[6];
    uint8_t type[2];
} __attribute__((packed));

/* IPv4 without options, RFC 791 section 3.1. */
struct ipv4_header {
    uint8_t version_and_length;
    uint8_t service;
    uint8_t total_length[2];
    uint8_t identification[2];
    uint8_t fragment[2];
    uint8_t time_to_live;
    uint8_t protocol;
    uint8_t checksum[2];
    uint8_t source[4];
    uint8_t destination[4];
} __attribute__((packed));

/* What UDP (RFC 768) and TCP (RFC 793 section 3.1) begin with. */
struct ports_header {
    uint8_t source[2];
    uint8_t destination[2];
    uint8_t rest[4];
} __attribute__((packed));

/* What tells a flow from another: the key of the table, 13 bytes. */
struct flow {
    uint32_t src;
    uint32_t dst;
    uint16_t sport;
    uint16_t dport;
    uint8_t proto;
} __attribute__((packed));

/* Two bytes in network order, as a number. */
static uint64_t be16(uint8_t *bytes) {
    return (uint64_t)bytes[0] << 8 | bytes[1];
}

/* Four bytes in network order, as a number. */
static uint64_t be32(uint8_t *bytes) {
    return (uint64_t)bytes[0] << 24 | (uint64_t)bytes[1] << 16 | (uint64_t)bytes[2] << 8 | bytes[3];
}

/* The difference, or 0 where it would be negative; without a branch. */
static uint64_t minus(uint64_t a, uint64_t b) {
    return (a - b) & (0 - (uint64_t)(a >= b));
}

/* Reads the flow that the frame belongs to; answers 0 where the frame is none of UDP or TCP over IPv4, is a fragment, or has IP options. */
static int read_flow(struct flow *flow) {
    uint32_t length = packet_length();
    if (length < 42) {
        return 0;
    }
    struct ethernet_header *ethernet = packet_borrow(14);
    struct ipv4_header *ip = packet_borrow(20);
    struct ports_header *l4 = packet_borrow(8);
    uint64_t type = be16(ethernet->type);
    uint64_t version_and_length = ip->version_and_length;
    uint64_t fragment = be16(ip->fragment);
    uint64_t protocol = ip->protocol;
    flow->src = be32(ip->source);
    flow->dst = be32(ip->destination);
    flow->sport = be16(l4->source);
    flow->dport = be16(l4->destination);
    flow->proto = protocol;
    /* The last chunk goes back first, and all before any test, so that no way out can forget one. */
    packet_return(l4);
    packet_return(ip);
    packet_return(ethernet);
    /* IPv4 with a header of five words (RFC 791); bit 15 of the flags is reserved, bit 14 forbids fragments, and neither makes one. */
    if (type != 0x0800 || version_and_length != 0x45 || (fragment & 0x3fff) != 0) {
        return 0;
    }
    return protocol == 17 || (protocol == 6 && length >= 54);
}

/* Gives a new flow an index, the time and an entry; answers 0 where there is no index left. */
static int add_flow(struct flow *flow, uint64_t now, uint32_t *index) {
    if (!chain_allocate(ages, index, now)) {
        return 0;
    }
    struct flow *key = vector_borrow(keys, *index);
    key->src = flow->src;
    key->dst = flow->dst;
    key->sport = flow->sport;
    key->dport = flow->dport;
    key->proto = flow->proto;
    vector_return(keys, key);
    map_put(flows, flow, *index);
    return 1;
}

/* From inside: the flow is remembered, or remembered anew, and let out. */
static int let_out(struct flow *flow, uint64_t now) {
    uint32_t index;
    if (map_get(flows, flow, &index)) {
        chain_rejuvenate(ages, index, now);
    } else if (!add_flow(flow, now, &index)) {
        return -1;
    }
    return 1;
}

/* From outside: only an answer to a flow that is remembered gets in. */
static int let_in(struct flow *flow, uint64_t now) {
    struct flow asked;
    asked.src = flow->dst;
    asked.dst = flow->src;
    asked.sport = flow->dport;
    asked.dport = flow->sport;
    asked.proto = flow->proto;
    uint32_t index;
    if (!map_get(flows, &asked, &index)) {
        return -1;
    }
    chain_rejuvenate(ages, index, now);
    return 0;
}

int nf_process(uint16_t port, uint64_t now) {
    expire_items(flows, ages, keys, minus(now, span));
    struct flow flow;
    if (!read_flow(&flow)) {
        return -1;
    }
    if (port == 0) {
        return let_out(&flow, now);
    }
    return let_in(&flow, now);
}
