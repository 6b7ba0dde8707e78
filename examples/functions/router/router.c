/* A router: where an IPv4 frame goes is told by the longest route that its destination matches (RFC 1812 section 5.2.4.3). */
#include "vigor.h"

/* Which port each route leads to. */
extern prefix_t routes;

/* Ethernet, before what it carries. */
struct ethernet_header {
    uint8_t destination[6];
    uint8_t source[6];
    uint8_t type[2];
} __attribute__((packed));

/* IPv4 without options, RFC 791 section 3.1. */
struct ipv4_header {
    uint8_t version_and_length;
    uint8_t service;
    uint8_t total_length[2];
    uint8_t identification[2];
    uint8_t fragment[2];
    uint8_t time_to_live;
    uint8_t protocol;
    uint8_t checksum[2];
    uint8_t source[4];
    uint8_t destination[4];
} __attribute__((packed));

/* Two bytes in network order, as a number. */
static uint64_t be16(uint8_t *bytes) {
    return (uint64_t)bytes[0] << 8 | bytes[1];
}

/* Four bytes in network order, as a number. */
static uint64_t be32(uint8_t *bytes) {
    return (uint64_t)bytes[0] << 24 | (uint64_t)bytes[1] << 16 | (uint64_t)bytes[2] << 8 | bytes[3];
}

int nf_process(uint16_t port, uint64_t now) {
    if (packet_length() < 34) {
        return -1;
    }
    struct ethernet_header *ethernet = packet_borrow(14);
    struct ipv4_header *ip = packet_borrow(20);
    uint64_t type = be16(ethernet->type);
    uint32_t address = be32(ip->destination);
    packet_return(ip);
    packet_return(ethernet);
    if (type != 0x0800) {
        return -1;
    }
    uint16_t to;
    if (!prefix_lookup(routes, address, &to)) {
        return -1;
    }
    return to;
}
