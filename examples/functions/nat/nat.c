/* An address translator after RFC 3022 (traditional NAPT): what is behind port 0 shares one address towards port 1. */
#include "vigor.h"

/* The shared address, and the first of the ports that flows get there; flow i has start_port + i. */
extern const uint32_t external_ip;
extern const uint16_t start_port;
/* How many flows there may be at a time. */
extern const uint32_t capacity;
/* How long a flow without a frame stays, in nanoseconds. */
extern const uint64_t span;

/* The table of flows: an index for each key, the time of each index, and the key again by its index. */
extern map_t flows;
extern chain_t ages;
extern vector_t keys;

/* Ethernet, before what it carries. */
struct ethernet_header {
    uint8_t destination[6];
    uint8_t source[6];
    uint8_t type[2];
} __attribute__((packed));

/* IPv4 without options, RFC 791 section 3.1. */
struct ipv4_header {
    uint8_t version_and_length;
    uint8_t service;
    uint8_t total_length[2];
    uint8_t identification[2];
    uint8_t fragment[2];
    uint8_t time_to_live;
    uint8_t protocol;
    uint8_t checksum[2];
    uint8_t source[4];
    uint8_t destination[4];
} __attribute__((packed));

/* UDP, RFC 768. */
struct udp_header {
    uint8_t source[2];
    uint8_t destination[2];
    uint8_t length[2];
    uint8_t checksum[2];
} __attribute__((packed));

/* TCP without options, RFC 793 section 3.1. */
struct tcp_header {
    uint8_t source[2];
    uint8_t destination[2];
    uint8_t sequence[4];
    uint8_t acknowledgment[4];
    uint8_t offset_and_flags[2];
    uint8_t window[2];
    uint8_t checksum[2];
    uint8_t urgent[2];
} __attribute__((packed));

/* What tells a flow from another: the key of the table, 13 bytes. */
struct flow {
    uint32_t src;
    uint32_t dst;
    uint16_t sport;
    uint16_t dport;
    uint8_t proto;
} __attribute__((packed));

/* Two bytes in network order, as a number. */
static uint64_t be16(uint8_t *bytes) {
    return (uint64_t)bytes[0] << 8 | bytes[1];
}

/* Four bytes in network order, as a number. */
static uint64_t be32(uint8_t *bytes) {
    return (uint64_t)bytes[0] << 24 | (uint64_t)bytes[1] << 16 | (uint64_t)bytes[2] << 8 | bytes[3];
}

/* A number's lowest two bytes in network order. */
static void put16(uint8_t *bytes, uint64_t value) {
    bytes[0] = value >> 8;
    bytes[1] = value;
}

/* A number's lowest four bytes in network order. */
static void put32(uint8_t *bytes, uint64_t value) {
    bytes[0] = value >> 24;
    bytes[1] = value >> 16;
    bytes[2] = value >> 8;
    bytes[3] = value;
}

/* The difference, or 0 where it would be negative; without a branch. */
static uint64_t minus(uint64_t a, uint64_t b) {
    return (a - b) & (0 - (uint64_t)(a >= b));
}

/* One round of the one's complement sum: what was carried out of 16 bits comes back at the bottom. */
static uint64_t fold(uint64_t sum) {
    return (sum & 65535) + (sum >> 16);
}

/* RFC 1624 equation 3, for one 16-bit word that changes from m to n: HC' = ~(~HC + ~m + m'). */
static uint64_t adjust16(uint64_t checksum, uint64_t m, uint64_t n) {
    return minus(65535, fold(fold(minus(65535, checksum) + minus(65535, m) + n)));
}

/* The same for 32 bits: two words, the higher one first. */
static uint64_t adjust32(uint64_t checksum, uint64_t m, uint64_t n) {
    return adjust16(adjust16(checksum, m >> 16, n >> 16), m & 65535, n & 65535);
}

/* A UDP or TCP checksum covers the addresses (the pseudo header of RFC 768 and 793) and the ports. */
static uint64_t adjust_l4(uint64_t checksum, uint64_t address, uint64_t new_address, uint64_t port, uint64_t new_port) {
    return adjust16(adjust32(checksum, address, new_address), port, new_port);
}

/* RFC 768: a checksum of 0 says that there is none, and one that comes to 0 is sent as 65535. Without a branch. */
static uint64_t adjust_udp(uint64_t checksum, uint64_t address, uint64_t new_address, uint64_t port, uint64_t new_port) {
    uint64_t adjusted = adjust_l4(checksum, address, new_address, port, new_port);
    uint64_t full = adjusted | 65535 * (uint64_t)(adjusted == 0);
    return full & (0 - (uint64_t)(checksum != 0));
}

/* Reads the flow that the frame belongs to; answers 0 where the frame is none of UDP or TCP over IPv4, is a fragment, or has IP options. */
static int read_flow(struct flow *flow) {
    uint32_t length = packet_length();
    if (length < 42) {
        return 0;
    }
    struct ethernet_header *ethernet = packet_borrow(14);
    struct ipv4_header *ip = packet_borrow(20);
    struct udp_header *l4 = packet_borrow(8);
    uint64_t type = be16(ethernet->type);
    uint64_t version_and_length = ip->version_and_length;
    uint64_t fragment = be16(ip->fragment);
    uint64_t protocol = ip->protocol;
    flow->src = be32(ip->source);
    flow->dst = be32(ip->destination);
    flow->sport = be16(l4->source);
    flow->dport = be16(l4->destination);
    flow->proto = protocol;
    /* The last chunk goes back first, and all before any test, so that no way out can forget one. */
    packet_return(l4);
    packet_return(ip);
    packet_return(ethernet);
    /* IPv4 with a header of five words (RFC 791); bit 15 of the flags is reserved, bit 14 forbids fragments, and neither makes one. */
    if (type != 0x0800 || version_and_length != 0x45 || (fragment & 0x3fff) != 0) {
        return 0;
    }
    return protocol == 17 || (protocol == 6 && length >= 54);
}

/* Gives a new flow an index, the time and an entry; answers 0 where there is no index left. */
static int add_flow(struct flow *flow, uint64_t now, uint32_t *index) {
    if (!chain_allocate(ages, index, now)) {
        return 0;
    }
    struct flow *key = vector_borrow(keys, *index);
    key->src = flow->src;
    key->dst = flow->dst;
    key->sport = flow->sport;
    key->dport = flow->dport;
    key->proto = flow->proto;
    vector_return(keys, key);
    map_put(flows, flow, *index);
    return 1;
}

/* The frame leaves with another source address and port. */
static void translate_source(struct flow *flow, uint64_t address, uint64_t port) {
    struct ethernet_header *ethernet = packet_borrow(14);
    struct ipv4_header *ip = packet_borrow(20);
    put16(ip->checksum, adjust32(be16(ip->checksum), flow->src, address));
    put32(ip->source, address);
    if (flow->proto == 17) {
        struct udp_header *udp = packet_borrow(8);
        put16(udp->checksum, adjust_udp(be16(udp->checksum), flow->src, address, flow->sport, port));
        put16(udp->source, port);
        packet_return(udp);
    } else {
        struct tcp_header *tcp = packet_borrow(20);
        put16(tcp->checksum, adjust_l4(be16(tcp->checksum), flow->src, address, flow->sport, port));
        put16(tcp->source, port);
        packet_return(tcp);
    }
    packet_return(ip);
    packet_return(ethernet);
}

/* The frame leaves with another destination address and port. */
static void translate_destination(struct flow *flow, uint64_t address, uint64_t port) {
    struct ethernet_header *ethernet = packet_borrow(14);
    struct ipv4_header *ip = packet_borrow(20);
    put16(ip->checksum, adjust32(be16(ip->checksum), flow->dst, address));
    put32(ip->destination, address);
    if (flow->proto == 17) {
        struct udp_header *udp = packet_borrow(8);
        put16(udp->checksum, adjust_udp(be16(udp->checksum), flow->dst, address, flow->dport, port));
        put16(udp->destination, port);
        packet_return(udp);
    } else {
        struct tcp_header *tcp = packet_borrow(20);
        put16(tcp->checksum, adjust_l4(be16(tcp->checksum), flow->dst, address, flow->dport, port));
        put16(tcp->destination, port);
        packet_return(tcp);
    }
    packet_return(ip);
    packet_return(ethernet);
}

/* From inside (RFC 3022 section 2.2): a flow that is new gets the next index, and so a port of its own at the shared address. */
static int send_out(struct flow *flow, uint64_t now) {
    uint32_t index;
    if (map_get(flows, flow, &index)) {
        chain_rejuvenate(ages, index, now);
    } else if (!add_flow(flow, now, &index)) {
        return -1;
    }
    translate_source(flow, external_ip, (uint64_t)start_port + index);
    return 1;
}

/* From outside: the destination port tells the flow, and only who was asked by it may answer. */
static int send_in(struct flow *flow, uint64_t now) {
    uint64_t port = flow->dport;
    if (flow->dst != external_ip || port < start_port || port >= (uint64_t)start_port + capacity) {
        return -1;
    }
    uint32_t index = minus(port, start_port);
    if (!chain_is_allocated(ages, index)) {
        return -1;
    }
    struct flow *key = vector_borrow(keys, index);
    int asked = key->dst == flow->src && key->dport == flow->sport && key->proto == flow->proto;
    uint64_t address = key->src;
    uint64_t inside_port = key->sport;
    vector_return(keys, key);
    if (!asked) {
        return -1;
    }
    chain_rejuvenate(ages, index, now);
    translate_destination(flow, address, inside_port);
    return 0;
}

int nf_process(uint16_t port, uint64_t now) {
    expire_items(flows, ages, keys, minus(now, span));
    struct flow flow;
    if (!read_flow(&flow)) {
        return -1;
    }
    if (port == 0) {
        return send_out(&flow, now);
    }
    return send_in(&flow, now);
}
