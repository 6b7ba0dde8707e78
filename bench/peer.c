/* The fifteen calls of vigor's library in plain C, and a program around a function: the peer that benches and comparisons name.
 *
 *     peer time IN..    handles the captures' frames and prints frames, verdicts and nanoseconds a frame
 *     peer print IN..   prints a line a frame: port, time, verdict, indices handed out, bytes; and the tables at the end
 *
 * Built together with the function's own text and what bench/peer.py writes for its specification and configuration. Captures are read
 * to memory first, one a port, little-endian with nanoseconds, and handled in order of time, then port; the clock stands around the
 * handling alone. Nothing is checked that the function owes. */
#include <stdio.h>
#include <stdlib.h>
#include <string.h>
#include <time.h>

#include "peer.h"

static void *taken(size_t count, size_t size) {
    void *bytes = calloc(count ? count : 1, size);
    if (!bytes) {
        fprintf(stderr, "peer: no memory\n");
        exit(1);
    }
    return bytes;
}

/* ---- the frame, in chunks */

static uint8_t *frame;
static uint32_t frame_length;
static uint32_t place;

uint32_t packet_length(void) {
    return frame_length;
}

void *packet_borrow(uint32_t n) {
    uint8_t *chunk = frame + place;
    place += n;
    return chunk;
}

void packet_return(void *p) {
    place = (uint8_t *)p - frame;
}

/* ---- a hash table with open addressing and tombstones that are swept by a shift back */

struct map {
    uint32_t key_length;
    uint32_t size;
    uint32_t slots;
    uint8_t *keys;
    uint32_t *indices; /* one more than the index; 0 where the slot is empty */
};

map_t peer_map(uint32_t capacity, uint32_t key_length) {
    map_t m = taken(1, sizeof *m);
    m->key_length = key_length;
    m->slots = 2;
    while (m->slots < 2 * capacity) {
        m->slots *= 2;
    }
    m->keys = taken(m->slots, key_length);
    m->indices = taken(m->slots, sizeof *m->indices);
    return m;
}

static uint32_t home_of(map_t m, const uint8_t *key) {
    uint64_t hash = 0xcbf29ce484222325;
    for (uint32_t i = 0; i < m->key_length; i++) {
        hash = (hash ^ key[i]) * 0x100000001b3;
    }
    hash ^= hash >> 32;
    return hash & (m->slots - 1);
}

/* The slot of a key, or the empty one where the look for it ended. */
static uint32_t slot_of(map_t m, const uint8_t *key) {
    uint32_t at = home_of(m, key);
    while (m->indices[at] && memcmp(m->keys + (size_t)at * m->key_length, key, m->key_length)) {
        at = (at + 1) & (m->slots - 1);
    }
    return at;
}

int map_get(map_t m, void *key, uint32_t *index) {
    uint32_t at = slot_of(m, key);
    if (!m->indices[at]) {
        return 0;
    }
    uint32_t found = m->indices[at] - 1;
    memcpy(index, &found, sizeof found);
    return 1;
}

void map_put(map_t m, void *key, uint32_t index) {
    uint32_t at = slot_of(m, key);
    memcpy(m->keys + (size_t)at * m->key_length, key, m->key_length);
    m->indices[at] = index + 1;
    m->size += 1;
}

void map_erase(map_t m, void *key) {
    uint32_t hole = slot_of(m, key);
    uint32_t at = hole;
    m->indices[hole] = 0;
    m->size -= 1;
    for (;;) {
        at = (at + 1) & (m->slots - 1);
        if (!m->indices[at]) {
            return;
        }
        uint32_t home = home_of(m, m->keys + (size_t)at * m->key_length);
        /* An entry may go to the hole where its home isn't between the hole and itself. */
        if (((at - home) & (m->slots - 1)) >= ((at - hole) & (m->slots - 1))) {
            memcpy(m->keys + (size_t)hole * m->key_length, m->keys + (size_t)at * m->key_length, m->key_length);
            m->indices[hole] = m->indices[at];
            m->indices[at] = 0;
            hole = at;
        }
    }
}

uint32_t map_size(map_t m) {
    return m->size;
}

/* ---- a chain: a list of indices by age, and a list of free ones */

struct chain {
    const char *name;
    uint32_t range;
    uint32_t count;
    uint32_t free; /* the first free index, or range */
    uint32_t *next; /* range stands for the list's two ends */
    uint32_t *previous;
    uint64_t *times;
    uint8_t *allocated;
    struct chain *older; /* the chain made before */
};

static struct chain *chains;

#define MOST_NEW 64
static const char *new_names[MOST_NEW];
static uint32_t new_indices[MOST_NEW];
static uint32_t new_count;

chain_t peer_chain(const char *name, uint32_t range) {
    chain_t c = taken(1, sizeof *c);
    c->name = name;
    c->range = range;
    c->next = taken(range + 1, sizeof *c->next);
    c->previous = taken(range + 1, sizeof *c->previous);
    c->times = taken(range, sizeof *c->times);
    c->allocated = taken(range, 1);
    c->next[range] = range;
    c->previous[range] = range;
    for (uint32_t i = 0; i < range; i++) {
        c->next[i] = i + 1;
    }
    c->older = chains;
    chains = c;
    return c;
}

static void unlinked(chain_t c, uint32_t i) {
    c->next[c->previous[i]] = c->next[i];
    c->previous[c->next[i]] = c->previous[i];
}

static void linked_last(chain_t c, uint32_t i, uint64_t t) {
    uint32_t last = c->previous[c->range];
    c->next[last] = i;
    c->previous[i] = last;
    c->next[i] = c->range;
    c->previous[c->range] = i;
    c->times[i] = t;
}

int chain_allocate(chain_t c, uint32_t *index, uint64_t t) {
    if (c->free == c->range) {
        return 0;
    }
    uint32_t i = c->free;
    c->free = c->next[i];
    c->allocated[i] = 1;
    c->count += 1;
    linked_last(c, i, t);
    new_names[new_count] = c->name;
    new_indices[new_count] = i;
    new_count += 1;
    memcpy(index, &i, sizeof i);
    return 1;
}

int chain_is_allocated(chain_t c, uint32_t i) {
    return c->allocated[i];
}

void chain_rejuvenate(chain_t c, uint32_t i, uint64_t t) {
    unlinked(c, i);
    linked_last(c, i, t);
}

void chain_free(chain_t c, uint32_t i) {
    unlinked(c, i);
    c->allocated[i] = 0;
    c->count -= 1;
    c->next[i] = c->free;
    c->free = i;
}

/* ---- cells */

struct vector {
    const char *name;
    uint32_t length;
    uint32_t size;
    uint8_t *bytes;
    struct vector *older;
};

static struct vector *vectors;

vector_t peer_vector(const char *name, uint32_t length, uint32_t size) {
    vector_t v = taken(1, sizeof *v);
    v->name = name;
    v->length = length;
    v->size = size;
    v->bytes = taken(length, size);
    v->older = vectors;
    vectors = v;
    return v;
}

void peer_fill(vector_t v, uint32_t i, const uint8_t *bytes) {
    memcpy(v->bytes + (size_t)i * v->size, bytes, v->size);
}

void *vector_borrow(vector_t v, uint32_t i) {
    return v->bytes + (size_t)i * v->size;
}

void vector_return(vector_t v, void *p) {
    (void)v;
    (void)p;
}

uint32_t expire_items(map_t m, chain_t c, vector_t v, uint64_t before) {
    uint32_t count = 0;
    for (uint32_t i = c->next[c->range]; i != c->range && c->times[i] < before; i = c->next[c->range]) {
        map_erase(m, vector_borrow(v, i));
        chain_free(c, i);
        count += 1;
    }
    return count;
}

/* ---- routes: a table of values for each length of prefix, by hash */

struct prefix {
    map_t tables[33];
    uint16_t *values[33];
    uint32_t counts[33];
};

#define MOST_ROUTES 65536

prefix_t peer_prefix(void) {
    prefix_t p = taken(1, sizeof *p);
    return p;
}

static uint32_t masked(uint32_t address, uint32_t length) {
    return length ? address & (0xffffffffu << (32 - length)) : 0;
}

void peer_route(prefix_t p, uint32_t address, uint32_t length, uint16_t value) {
    uint32_t key = masked(address, length);
    uint32_t index;
    if (!p->tables[length]) {
        p->tables[length] = peer_map(MOST_ROUTES, sizeof key);
        p->values[length] = taken(MOST_ROUTES, sizeof *p->values[length]);
    }
    if (!map_get(p->tables[length], &key, &index)) {
        index = p->counts[length]++;
        map_put(p->tables[length], &key, index);
    }
    p->values[length][index] = value;
}

int prefix_lookup(prefix_t p, uint32_t address, uint16_t *value) {
    for (uint32_t length = 33; length-- > 0;) {
        uint32_t key = masked(address, length);
        uint32_t index;
        if (p->tables[length] && map_get(p->tables[length], &key, &index)) {
            memcpy(value, &p->values[length][index], sizeof *value);
            return 1;
        }
    }
    return 0;
}

/* ---- captures, and the program */

struct arrival {
    uint64_t time;
    uint16_t port;
    uint32_t length;
    uint8_t *bytes;
    size_t number;
    int verdict;
};

static struct arrival *arrivals;
static size_t arrival_count;
static size_t arrival_room;

static uint32_t le32(const uint8_t *bytes) {
    return bytes[0] | bytes[1] << 8 | bytes[2] << 16 | (uint32_t)bytes[3] << 24;
}

static void read_capture(const char *name, uint16_t port) {
    FILE *file = fopen(name, "rb");
    uint8_t header[24];
    uint8_t record[16];
    if (!file || fread(header, 1, 24, file) != 24 || le32(header) != 0xa1b23c4d) {
        fprintf(stderr, "peer: %s is no little-endian capture with nanoseconds\n", name);
        exit(1);
    }
    while (fread(record, 1, 16, file) == 16) {
        if (arrival_count == arrival_room) {
            arrival_room = arrival_room ? 2 * arrival_room : 1024;
            arrivals = realloc(arrivals, arrival_room * sizeof *arrivals);
        }
        struct arrival *a = &arrivals[arrival_count];
        a->number = arrival_count++;
        a->time = le32(record) * 1000000000ull + le32(record + 4);
        a->port = port;
        a->length = le32(record + 8);
        a->bytes = taken(a->length, 1);
        if (fread(a->bytes, 1, a->length, file) != a->length) {
            fprintf(stderr, "peer: %s is cut\n", name);
            exit(1);
        }
    }
    fclose(file);
}

static int earlier(const void *left, const void *right) {
    const struct arrival *a = left;
    const struct arrival *b = right;
    if (a->time != b->time) {
        return a->time < b->time ? -1 : 1;
    }
    if (a->port != b->port) {
        return a->port < b->port ? -1 : 1;
    }
    return a->number < b->number ? -1 : 1;
}

static void handle(struct arrival *a) {
    frame = a->bytes;
    frame_length = a->length;
    place = 0;
    new_count = 0;
    a->verdict = nf_process(a->port, a->time);
}

static void print_bytes(const uint8_t *bytes, uint32_t count) {
    for (uint32_t i = 0; i < count; i++) {
        printf("%02x", bytes[i]);
    }
    printf(count ? "\n" : "-\n");
}

static void print_frame(const struct arrival *a) {
    printf("frame %u %llu %d", a->port, (unsigned long long)a->time, a->verdict);
    for (uint32_t i = 0; i < new_count; i++) {
        printf(" %s:%u", new_names[i], new_indices[i]);
    }
    printf(" ");
    print_bytes(a->bytes, a->length);
}

static void print_tables(void) {
    for (struct chain *c = chains; c; c = c->older) {
        for (uint32_t i = 0; i < c->range; i++) {
            if (c->allocated[i]) {
                printf("index %s %u %llu\n", c->name, i, (unsigned long long)c->times[i]);
            }
        }
    }
    for (struct vector *v = vectors; v; v = v->older) {
        for (uint32_t i = 0; i < v->length; i++) {
            const uint8_t *cell = v->bytes + (size_t)i * v->size;
            uint8_t any = 0;
            for (uint32_t b = 0; b < v->size; b++) {
                any |= cell[b];
            }
            if (any) {
                printf("cell %s %u ", v->name, i);
                print_bytes(cell, v->size);
            }
        }
    }
}

static void print_all(void) {
    for (size_t k = 0; k < arrival_count; k++) {
        handle(&arrivals[k]);
        print_frame(&arrivals[k]);
    }
    print_tables();
}

static void time_all(void) {
    struct timespec begin;
    struct timespec end;
    size_t sent = 0;
    size_t flooded = 0;
    clock_gettime(CLOCK_MONOTONIC, &begin);
    for (size_t k = 0; k < arrival_count; k++) {
        handle(&arrivals[k]);
    }
    clock_gettime(CLOCK_MONOTONIC, &end);
    for (size_t k = 0; k < arrival_count; k++) {
        sent += arrivals[k].verdict >= 0;
        flooded += arrivals[k].verdict == -2;
    }
    double taken_time = (end.tv_sec - begin.tv_sec) * 1e9 + (end.tv_nsec - begin.tv_nsec);
    printf("frames %zu sent %zu dropped %zu flooded %zu\n", arrival_count, sent, arrival_count - sent - flooded, flooded);
    printf("%.1f nanoseconds a frame\n", arrival_count ? taken_time / arrival_count : 0.0);
}

int main(int argc, char **argv) {
    if (argc != 2 + peer_ports || (strcmp(argv[1], "time") && strcmp(argv[1], "print"))) {
        fprintf(stderr, "usage: peer time|print IN.., a capture for each of %u ports\n", peer_ports);
        return 2;
    }
    for (uint16_t port = 0; port < peer_ports; port++) {
        read_capture(argv[2 + port], port);
    }
    qsort(arrivals, arrival_count, sizeof *arrivals, earlier);
    peer_set_up();
    if (strcmp(argv[1], "time")) {
        print_all();
    } else {
        time_all();
    }
    return 0;
}
