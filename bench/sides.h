/* The two sides: the library's archive and the peer, behind the same calls (peer.h says what they are). */
#ifndef SIDES_H
#define SIDES_H

#include "packs.h"

typedef uint64_t read_graph_call(const uint8_t *text, size_t text_len, uint16_t *tails, size_t tails_len, uint16_t *heads,
                                 size_t heads_len, uint32_t *weights, size_t weights_len);
typedef uint64_t read_coordinates_call(const uint8_t *text, size_t text_len, size_t n, int32_t *xs, size_t xs_len, int32_t *ys,
                                       size_t ys_len);
typedef uint64_t read_sites_call(const uint8_t *text, size_t text_len, size_t n, uint16_t *sites, size_t sites_len);
typedef uint64_t search_call(const uint16_t *tails, size_t tails_len, const uint16_t *heads, size_t heads_len, const uint32_t *weights,
                             size_t weights_len, const int32_t *xs, size_t xs_len, const int32_t *ys, size_t ys_len, const uint16_t *sites,
                             size_t sites_len, size_t n, size_t m, size_t s, size_t query, size_t k, uint32_t *work, size_t work_len,
                             uint16_t *listed, size_t listed_len, uint32_t *lengths, size_t lengths_len, uint16_t *ends, size_t ends_len,
                             uint16_t *routes, size_t routes_len);
typedef uint64_t panel_call(const uint16_t *tails, size_t tails_len, const uint16_t *heads, size_t heads_len, const uint32_t *weights,
                            size_t weights_len, const int32_t *xs, size_t xs_len, const int32_t *ys, size_t ys_len, const uint16_t *sites,
                            size_t sites_len, size_t n, size_t m, size_t s, size_t query, uint32_t *work, size_t work_len,
                            uint16_t *listed, size_t listed_len, uint32_t *lengths, size_t lengths_len, uint16_t *ends, size_t ends_len,
                            uint16_t *routes, size_t routes_len);

struct side {
    read_graph_call *read_graph;
    read_coordinates_call *read_coordinates;
    read_sites_call *read_sites;
    search_call *search;
    panel_call *panel;
};

extern const struct side library, peer;

/* What a search is lent to write in, with some entries more than any search may use. */
struct rooms {
    uint32_t work[4 * NODES + 8], lengths[LIST + 4];
    uint16_t listed[LIST + 4], ends[LIST + 4], routes[LIST * NODES + 8];
};

/* The counts, the query and k of a search, the lengths of all that it is lent, and whether it is the panel call, which is handed no k. */
struct ask {
    size_t n, m, s, query, k;
    size_t tails, heads, weights, xs, ys, sites;
    size_t work, listed, lengths, ends, routes;
    int by_panel;
};

/* A search of a pack with everything lent whole. */
struct ask ask_of(const struct pack *p, size_t query, size_t k);

uint64_t search(const struct side *side, const struct pack *p, const struct ask *a, struct rooms *to);

/* Asks both sides the same and compares the answers and every entry of every buffer: the searches and the texts of a pack, these with damage
 * done to them, and small regions with many equal lengths. A difference is printed. tell() says how many calls were alike, and is 0 if any differed. */
void agree_on_pack(const struct pack *p, size_t k);
void agree_on_damage(const struct pack *p, size_t times, uint64_t seed);
void agree_on_crossings(size_t times, uint64_t seed);
int tell(void);

#endif
