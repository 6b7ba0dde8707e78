/* The library that a network function for vigor calls, for compilers and editors. vigor itself skips every #include: it knows these
 * names. What each call needs, does and answers is in docs/LIBRARY.md. */
#ifndef VIGOR_H
#define VIGOR_H

#include <stdint.h>

/* From keys of a fixed length in bytes to indices. */
typedef struct map *map_t;
/* Indices that are handed out, each with the time of its last use in nanoseconds. */
typedef struct chain *chain_t;
/* Cells of a fixed length in bytes, by index; a cell is borrowed and given back. */
typedef struct vector *vector_t;
/* Routes: prefixes of 32-bit addresses, each with a value. */
typedef struct prefix *prefix_t;

/* The frame, from its first byte on, in chunks that are borrowed one after the other and given back in the opposite order. */
uint32_t packet_length(void);
void *packet_borrow(uint32_t n);
void packet_return(void *p);

int map_get(map_t m, void *key, uint32_t *index);
void map_put(map_t m, void *key, uint32_t index);
void map_erase(map_t m, void *key);
uint32_t map_size(map_t m);

int chain_allocate(chain_t c, uint32_t *index, uint64_t t);
int chain_is_allocated(chain_t c, uint32_t i);
void chain_rejuvenate(chain_t c, uint32_t i, uint64_t t);
void chain_free(chain_t c, uint32_t i);

uint32_t expire_items(map_t m, chain_t c, vector_t v, uint64_t before);

void *vector_borrow(vector_t v, uint32_t i);
void vector_return(vector_t v, void *p);

int prefix_lookup(prefix_t p, uint32_t address, uint16_t *value);

/* The function: the port that a frame came in at and its time in nanoseconds; answers the port that it leaves by, -1 to drop it, or -2
 * to send it by every port but its own. */
int nf_process(uint16_t port, uint64_t now);

#endif
