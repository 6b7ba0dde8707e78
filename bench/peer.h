/* The objects of a function over the peer library, made by what bench/peer.py writes. */
#ifndef PEER_H
#define PEER_H

#include "vigor.h"

map_t peer_map(uint32_t capacity, uint32_t key_length);
chain_t peer_chain(const char *name, uint32_t range);
vector_t peer_vector(const char *name, uint32_t length, uint32_t size);
prefix_t peer_prefix(void);
void peer_route(prefix_t p, uint32_t address, uint32_t length, uint16_t value);
void peer_fill(vector_t v, uint32_t i, const uint8_t *bytes);

/* Written for each function: how many ports there are, and what makes its objects. */
extern const uint16_t peer_ports;
void peer_set_up(void);

#endif
