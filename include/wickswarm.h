/* Wickswarm for a panel in C99 or C++: reads a region's road graph, node coordinates and fuel sites, and finds the k sites nearest by
 * road from a node. Link libpanel.a, which `rt lib --cpu x86-64` in crates/panel writes into out/.
 *
 * A buffer is lent as a pointer and the number of its entries. What a caller owes: the pointer leads to that many entries, aligned as C
 * aligns them, and no buffer that a call may write overlaps another of the same call. The pointer of a buffer with 0 entries is not
 * looked at and may be NULL. Nothing else is asked: any bytes, any numbers and any lengths are answered.
 *
 * A call keeps nothing between calls, allocates nothing and calls nothing of yours. Its answer comes back by value, as one number. A
 * refused call leaves every lent buffer as it was, the work memory included; an accepted one changes what is said at the call, and no
 * entry past those. Each call is proved to do this for every input; docs/CALLS.md says where.
 */
#ifndef WICKSWARM_H
#define WICKSWARM_H

#include <stddef.h>
#include <stdint.h>

#ifdef __cplusplus
extern "C" {
#endif

/* ---- limits */

#define WICK_TEXT_MOST 65536
#define WICK_NODES_MOST 1024
#define WICK_ARCS_MOST 4096
#define WICK_SITES_MOST 128
#define WICK_WEIGHT_MOST 1000000
#define WICK_COORDINATE_MOST 200000000
#define WICK_K_MOST 32
#define WICK_PANEL_K 4

/* ---- the entries that a search's buffers need, for n nodes and k sites; with WICK_NODES_MOST they serve every region */

#define WICK_WORK_ENTRIES(n) (4 * (size_t)(n))
#define WICK_LIST_ENTRIES(k) ((size_t)(k))
#define WICK_ROUTE_ENTRIES(n, k) ((size_t)(k) * (size_t)(n))

/* a buffer for a text that is read from a file: one byte more than a text may have, so that a longer one is refused and not cut */
#define WICK_TEXT_ENTRIES (WICK_TEXT_MOST + 1)

/* ---- refusals, by number */

enum wick_refusal {
    WICK_ACCEPTED = 0,
    WICK_TEXT_TOO_LONG = 1,     /* text over 65,536 bytes; place 0 */
    WICK_NOT_PERMITTED = 2,     /* line not of a permitted form for that text; its line */
    WICK_PROBLEM_MISPLACED = 3, /* data before the problem line, a second problem line, or none; the line, 0 if none */
    WICK_COUNT_OUTSIDE = 4,     /* a count out of its limits, or N that differs; the line, 0 if handed in */
    WICK_NODE_OUTSIDE = 5,      /* node number outside 1 to N; the line or entry */
    WICK_VALUE_OUTSIDE = 6,     /* weight or coordinate out of range; the line or entry */
    WICK_DATA_MISCOUNTED = 7,   /* one data line too many, or too few at the end; the line, 0 if too few */
    WICK_GIVEN_TWICE = 8,       /* node given twice in coordinates or sites; the later line or entry */
    WICK_TABLE_SHORT = 9,       /* data table shorter than its count; the line in a reader, else 0 */
    WICK_ARC_SHORT = 10,        /* arc shorter than the straight line; its entry */
    WICK_QUERY_OUTSIDE = 11,    /* query node outside 1 to N; 0 */
    WICK_K_OUTSIDE = 12,        /* k outside 1 to 32; 0 */
    WICK_ROOM_SHORT = 13        /* work or answer buffer too short; 0 */
};

/* ---- an answer, and its parts: the refusal's number in the highest 8 bits, and two fields of 28 bits below it */

typedef uint64_t wick_answer;

static inline unsigned wick_number(wick_answer a) { return (unsigned)(a >> 56); }
static inline uint32_t wick_first(wick_answer a) { return (uint32_t)(a >> 28) & 0xFFFFFFFu; }
static inline uint32_t wick_second(wick_answer a) { return (uint32_t)a & 0xFFFFFFFu; }

/* whether the call was accepted: 1 or 0 */
static inline int wick_accepted(wick_answer a) { return wick_number(a) == WICK_ACCEPTED; }

/* of a refused call: where; lines and entries count from 1 */
static inline uint32_t wick_place(wick_answer a) { return wick_first(a); }

/* of an accepted reading: N, and the number of entries read (M, N or S) */
static inline uint32_t wick_nodes(wick_answer a) { return wick_first(a); }
static inline uint32_t wick_rows(wick_answer a) { return wick_second(a); }

/* of an accepted search or panel call: the number of sites listed, and of nodes taken */
static inline uint32_t wick_listed(wick_answer a) { return wick_first(a); }
static inline uint32_t wick_taken(wick_answer a) { return wick_second(a); }

/* of wick_route: the stretch of the route buffer */
static inline uint32_t wick_offset(wick_answer a) { return wick_first(a); }
static inline uint32_t wick_size(wick_answer a) { return wick_second(a); }

/* ---- the readers */

/* Reads a graph text ("p sp N M", "a U V W"). Refused: 1, 2, 3, 4, 5, 6, 7 or 9, and the tables are as they were. Accepted: N and M; the
 * first M entries of each table are the arcs in the text's order, and later entries are as they were. */
wick_answer wick_read_graph(const uint8_t *text, size_t text_len,
                            uint16_t *tails, size_t tails_len,
                            uint16_t *heads, size_t heads_len,
                            uint32_t *weights, size_t weights_len);

/* Reads a coordinate text ("p aux sp co N", "v ID X Y") of a graph with that many nodes. Refused: 1 to 9, and the tables are as they were.
 * Accepted: N and N; entry v - 1 of each table is that of node v, and later entries than N are as they were. */
wick_answer wick_read_coordinates(const uint8_t *text, size_t text_len, size_t nodes,
                                  int32_t *xs, size_t xs_len,
                                  int32_t *ys, size_t ys_len);

/* Reads a site text ("p aux sp ss S", "s ID") of a graph with that many nodes. Refused: 1, 2, 3, 4, 5, 7, 8 or 9, and the table is as it
 * was. Accepted: N and S; the first S entries are the sites in the text's order, and later entries are as they were. */
wick_answer wick_read_sites(const uint8_t *text, size_t text_len, size_t nodes,
                            uint16_t *sites, size_t sites_len);

/* ---- the search */

/* The k sites nearest by road from the query node, with lengths and routes, in a region of n nodes, m arcs and s sites. It trusts no table.
 * Refused: 4, 5, 6, 8, 9, 10, 11, 12 or 13, and the five buffers are as they were. Accepted: the number of sites listed and of nodes
 * taken; the front of `listed`, `lengths` and `ends` has an entry for each site, by length and then number, `routes` has the routes
 * back to back, and the first 4n entries of `work` are 0. Later entries are as they were. */
wick_answer wick_search(const uint16_t *tails, size_t tails_len,
                        const uint16_t *heads, size_t heads_len,
                        const uint32_t *weights, size_t weights_len,
                        const int32_t *xs, size_t xs_len,
                        const int32_t *ys, size_t ys_len,
                        const uint16_t *sites, size_t sites_len,
                        size_t n, size_t m, size_t s, size_t query, size_t k,
                        uint32_t *work, size_t work_len,
                        uint16_t *listed, size_t listed_len,
                        uint32_t *lengths, size_t lengths_len,
                        uint16_t *ends, size_t ends_len,
                        uint16_t *routes, size_t routes_len);

/* The panel call: wick_search with k = WICK_PANEL_K. */
wick_answer wick_panel(const uint16_t *tails, size_t tails_len,
                       const uint16_t *heads, size_t heads_len,
                       const uint32_t *weights, size_t weights_len,
                       const int32_t *xs, size_t xs_len,
                       const int32_t *ys, size_t ys_len,
                       const uint16_t *sites, size_t sites_len,
                       size_t n, size_t m, size_t s, size_t query,
                       uint32_t *work, size_t work_len,
                       uint16_t *listed, size_t listed_len,
                       uint32_t *lengths, size_t lengths_len,
                       uint16_t *ends, size_t ends_len,
                       uint16_t *routes, size_t routes_len);

/* The route of a rank, as the stretch of the route buffer where it was written: entries wick_offset to wick_offset + wick_size - 1, from
 * the query node to the site. It writes nothing. Both are 0 if the rank is 0 or above the number of ends lent, or its ends are out of
 * order or outside the buffer. Lend the ends that are listed, so that an older entry is not taken for one. */
wick_answer wick_route(const uint16_t *routes, size_t routes_len,
                       const uint16_t *ends, size_t ends_len,
                       size_t rank);

#ifdef __cplusplus
}
#endif

#endif
