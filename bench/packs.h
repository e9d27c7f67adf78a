/* Packs for the bench, made from a seed: the same ones in every run and on every machine. */
#ifndef PACKS_H
#define PACKS_H

#include "wickswarm.h"

enum { NODES = WICK_NODES_MOST, ARCS = WICK_ARCS_MOST, SITES = WICK_SITES_MOST, TEXT = WICK_TEXT_MOST, LIST = WICK_K_MOST };

/* A text, with room for the line that makes it too long. */
struct text {
    size_t len;
    uint8_t bytes[TEXT + 64];
};

/* A region as tables, and the same region as the three texts. */
struct pack {
    size_t n, m, s;
    uint16_t tails[ARCS], heads[ARCS], sites[SITES];
    uint32_t weights[ARCS];
    int32_t xs[NODES], ys[NODES];
    struct text graph, coordinates, site_list;
};

/* The next number of a fixed sequence, 0 to below - 1. */
size_t draw(uint64_t *seed, size_t below);

/* Streets on a bent grid of width times height nodes, numbered without regard to place: both ways along each side of a block, and a few
 * diagonals both ways, four arcs a node in all. No site yet. */
void make_town(struct pack *p, size_t width, size_t height, uint64_t seed);

/* That many different nodes as sites. */
void put_sites(struct pack *p, size_t s, uint64_t seed);

/* No arc leads to node number v any more; each that did leads to another neighbour of its tail, or back to its tail. */
void cut_off(struct pack *p, uint16_t v);

/* The arcs by tail, and in no order. */
void group_arcs(struct pack *p);
void shuffle_arcs(struct pack *p, uint64_t seed);

/* A region of few nodes and short arcs, with parallel arcs, self-loops and many equal lengths. */
void make_crossing(struct pack *p, uint64_t *seed);

/* The texts from the tables, coordinates in no order; 0 where one is too long. */
int write_texts(struct pack *p, uint64_t seed);

#endif
