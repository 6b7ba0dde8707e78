/* A learning bridge of four ports, after IEEE 802.1D without its spanning tree: it learns where each address is from what it sends. */
#include "vigor.h"

/* How long an address that sends nothing is remembered, in nanoseconds. */
extern const uint64_t span;

/* The table of addresses: an index for each, the time of each index, and the address again by its index. */
extern map_t macs;
extern chain_t ages;
extern vector_t keys;
/* Where each address is, by its index. */
extern vector_t places;

/* Ethernet, before what it carries. */
struct ethernet_header {
    uint8_t destination[6];
    uint8_t source[6];
    uint8_t type[2];
} __attribute__((packed));

/* An address as it stands in a frame. */
struct mac {
    uint8_t addr[6];
};

/* The port that an address was last seen at. */
struct place {
    uint16_t at_port;
};

/* The difference, or 0 where it would be negative; without a branch. */
static uint64_t minus(uint64_t a, uint64_t b) {
    return (a - b) & (0 - (uint64_t)(a >= b));
}

static void copy_address(uint8_t *to, uint8_t *from) {
    for (int i = 0; i < 6; i++) {
        to[i] = from[i];
    }
}

/* Reads the frame's two addresses. */
static void read_addresses(struct mac *source, struct mac *destination) {
    struct ethernet_header *ethernet = packet_borrow(14);
    copy_address(source->addr, ethernet->source);
    copy_address(destination->addr, ethernet->destination);
    packet_return(ethernet);
}

/* Gives a new address an index, the time and an entry; answers 0 where there is no index left. */
static int add_address(struct mac *mac, uint64_t now, uint32_t *index) {
    if (!chain_allocate(ages, index, now)) {
        return 0;
    }
    struct mac *key = vector_borrow(keys, *index);
    copy_address(key->addr, mac->addr);
    vector_return(keys, key);
    map_put(macs, mac, *index);
    return 1;
}

/* Remembers that the sender is at this port. Where the table is full a new sender isn't learned. */
static void learn(struct mac *source, uint16_t port, uint64_t now) {
    uint32_t index;
    if (map_get(macs, source, &index)) {
        chain_rejuvenate(ages, index, now);
    } else if (!add_address(source, now, &index)) {
        return;
    }
    struct place *place = vector_borrow(places, index);
    place->at_port = port;
    vector_return(places, place);
}

int nf_process(uint16_t port, uint64_t now) {
    expire_items(macs, ages, keys, minus(now, span));
    if (packet_length() < 14) {
        return -1;
    }
    struct mac source;
    struct mac destination;
    read_addresses(&source, &destination);
    learn(&source, port, now);
    uint32_t index;
    if (!map_get(macs, &destination, &index)) {
        /* Nobody knows where it is: by every port but this one. */
        return -2;
    }
    struct place *place = vector_borrow(places, index);
    int at_port = place->at_port;
    vector_return(places, place);
    if (at_port == port) {
        /* It is where the frame comes from, and has seen it. */
        return -1;
    }
    return at_port;
}
