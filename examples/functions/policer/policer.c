/* A traffic policer: what goes to a host by port 0 is held to a rate by a bucket of tokens (RFC 2697's, with one bucket a host). */
#include "vigor.h"

/* A token, which is a byte, comes every 2 to the power of shift nanoseconds; a bucket holds at most burst of them. */
extern const uint8_t shift;
extern const uint32_t burst;
/* How long a host that gets no frame is remembered, in nanoseconds. */
extern const uint64_t span;

/* The table of hosts: an index for each address, the time of each index, and the address again by its index. */
extern map_t hosts;
extern chain_t ages;
extern vector_t keys;
/* Each host's bucket, by its index. */
extern vector_t buckets;

/* Ethernet, before what it carries. */
struct ethernet_header {
    uint8_t destination[6];
    uint8_t source[6];
    uint8_t type[2];
} __attribute__((packed));

/* IPv4 without options, RFC 791 section 3.1. */
struct ipv4_header {
    uint8_t version_and_length;
    uint8_t service;
    uint8_t total_length[2];
    uint8_t identification[2];
    uint8_t fragment[2];
    uint8_t time_to_live;
    uint8_t protocol;
    uint8_t checksum[2];
    uint8_t source[4];
    uint8_t destination[4];
} __attribute__((packed));

/* A host is told by its address. */
struct host {
    uint32_t ip;
};

/* How many bytes may go at once, as it was at a time. */
struct bucket {
    uint64_t left;
    uint64_t time;
};

/* Two bytes in network order, as a number. */
static uint64_t be16(uint8_t *bytes) {
    return (uint64_t)bytes[0] << 8 | bytes[1];
}

/* Four bytes in network order, as a number. */
static uint64_t be32(uint8_t *bytes) {
    return (uint64_t)bytes[0] << 24 | (uint64_t)bytes[1] << 16 | (uint64_t)bytes[2] << 8 | bytes[3];
}

/* The difference, or 0 where it would be negative; without a branch. */
static uint64_t minus(uint64_t a, uint64_t b) {
    return (a - b) & (0 - (uint64_t)(a >= b));
}

static uint64_t lesser(uint64_t a, uint64_t b) {
    return a < b ? a : b;
}

/* Reads the frame's destination; answers 0 where it is no IPv4. */
static int read_host(struct host *host, uint32_t length) {
    if (length < 34) {
        return 0;
    }
    struct ethernet_header *ethernet = packet_borrow(14);
    struct ipv4_header *ip = packet_borrow(20);
    uint64_t type = be16(ethernet->type);
    host->ip = be32(ip->destination);
    packet_return(ip);
    packet_return(ethernet);
    return type == 0x0800;
}

/* Gives a new host an index, the time and an entry; answers 0 where there is no index left. */
static int add_host(struct host *host, uint64_t now, uint32_t *index) {
    if (!chain_allocate(ages, index, now)) {
        return 0;
    }
    struct host *key = vector_borrow(keys, *index);
    key->ip = host->ip;
    vector_return(keys, key);
    map_put(hosts, host, *index);
    return 1;
}

/* Takes the frame's bytes out of what the bucket has, where it has as many; answers whether. */
static int spend(struct bucket *bucket, uint64_t tokens, uint32_t length, uint64_t now) {
    bucket->time = now;
    if (tokens >= length) {
        bucket->left = minus(tokens, length);
        return 1;
    }
    bucket->left = tokens;
    return 0;
}

int nf_process(uint16_t port, uint64_t now) {
    expire_items(hosts, ages, keys, minus(now, span));
    if (port == 0) {
        return 1;
    }
    uint32_t length = packet_length();
    struct host host;
    if (!read_host(&host, length)) {
        return -1;
    }
    uint32_t index;
    int known = map_get(hosts, &host, &index);
    if (known) {
        chain_rejuvenate(ages, index, now);
    } else if (!add_host(&host, now, &index)) {
        return -1;
    }
    struct bucket *bucket = vector_borrow(buckets, index);
    uint64_t tokens = burst;
    if (known) {
        tokens = lesser(burst, bucket->left + (minus(now, bucket->time) >> shift));
    }
    int goes = spend(bucket, tokens, length, now);
    vector_return(buckets, bucket);
    if (goes) {
        return 0;
    }
    return -1;
}
