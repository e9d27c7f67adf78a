#include "peer.h"

#include <math.h>
#include <string.h>

enum {
    TEXT_MOST = 65536,
    NODES_MOST = 1024,
    ARCS_MOST = 4096,
    SITES_MOST = 128,
    WEIGHT_MOST = 1000000,
    COORDINATE_MOST = 200000000,
    K_MOST = 32,
    PANEL_K = 4
};

enum {
    TEXT_TOO_LONG = 1,
    NOT_PERMITTED,
    PROBLEM_MISPLACED,
    COUNT_OUTSIDE,
    NODE_OUTSIDE,
    VALUE_OUTSIDE,
    DATA_MISCOUNTED,
    GIVEN_TWICE,
    TABLE_SHORT,
    ARC_SHORT,
    QUERY_OUTSIDE,
    K_OUTSIDE,
    ROOM_SHORT
};

/* The readers share one loop, which is wanted once for each kind of text. */
#if defined(__GNUC__)
#define FOR_EACH_KIND static inline __attribute__((always_inline))
#else
#define FOR_EACH_KIND static inline
#endif

static uint64_t refused(uint64_t number, uint64_t place) { return number << 56 | place << 28; }

static uint64_t accepted(uint64_t first, uint64_t second) { return first << 28 | second; }

/* 1 to most, of an unsigned number: 0 wraps round. */
static inline int within(size_t x, size_t most) { return x - 1 < most; }

static inline int is_coordinate(int32_t z) { return (uint32_t)z + COORDINATE_MOST <= 2u * COORDINATE_MOST; }

static inline uint32_t is_marked(const uint32_t *marks, uint32_t v) { return marks[v >> 5] >> (v & 31) & 1; }

static inline void mark(uint32_t *marks, uint32_t v) { marks[v >> 5] |= (uint32_t)1 << (v & 31); }

/* ---- Reading. Every line that is looked at ends with LF, so no pointer has to be compared with the end of the text. */

static inline int is_blank(uint8_t b) { return b == ' ' || b == '\t'; }

static inline const uint8_t *past_blanks(const uint8_t *p) {
    while (is_blank(*p)) p++;
    return p;
}

/* At the line's LF, or at the one CR before it. */
static inline int is_end(const uint8_t *p) { return *p == '\n' || (*p == '\r' && p[1] == '\n'); }

static inline const uint8_t *next_line(const uint8_t *p) { return p + (*p == '\r') + 1; }

/* From the end of a field to the next one, or to the line's end. NULL if the field doesn't end here. */
static inline const uint8_t *past_field(const uint8_t *p) {
    if (is_blank(*p)) return past_blanks(p + 1);
    return is_end(p) ? p : NULL;
}

/* Past a field that is that word, and the blanks after it; NULL for another field. */
static inline const uint8_t *past_word(const uint8_t *p, const char *word) {
    while (*word != 0)
        if (*p++ != (uint8_t)*word++) return NULL;
    return past_field(p);
}

/* Past a number of 1 to 9 digits. The value of a longer one may have wrapped, and isn't looked at. */
static inline const uint8_t *past_number(const uint8_t *p, uint32_t *value) {
    const uint8_t *start = p;
    uint32_t v = 0, digit;
    while ((digit = (uint32_t)*p - '0') < 10) {
        v = v * 10 + digit;
        p++;
    }
    if (!within((size_t)(p - start), 9)) return NULL;
    *value = v;
    return past_field(p);
}

static inline const uint8_t *past_signed(const uint8_t *p, int32_t *value) {
    uint32_t size;
    int below = *p == '-';
    p = past_number(p + below, &size);
    if (p == NULL) return NULL;
    *value = below ? -(int32_t)size : (int32_t)size;
    return p;
}

enum kind { GRAPH, COORDINATES, SITES };

/* What a data line says: a node and, by the kind of text, a head and a weight, or X and Y. */
struct entry {
    uint32_t node, head, weight;
    int32_t x, y;
};

/* The accepted lines of a text, until the last one has been judged: of a graph in three columns, by node for coordinates. */
struct columns {
    uint16_t nodes[ARCS_MOST], heads[ARCS_MOST];
    uint32_t weights[ARCS_MOST];
    int32_t xs[NODES_MOST], ys[NODES_MOST];
};

struct counts {
    uint32_t nodes, rows;
};

/* The fields of a problem line after p, to the line's end; NULL if they aren't of the form. */
FOR_EACH_KIND const uint8_t *problem(enum kind kind, const uint8_t *p, struct counts *c) {
    if (kind != GRAPH && (p = past_word(p, "aux")) == NULL) return NULL;
    if ((p = past_word(p, "sp")) == NULL) return NULL;
    if (kind == COORDINATES && (p = past_word(p, "co")) == NULL) return NULL;
    if (kind == SITES && (p = past_word(p, "ss")) == NULL) return NULL;
    if (kind != SITES && (p = past_number(p, &c->nodes)) == NULL) return NULL;
    if (kind == COORDINATES) c->rows = c->nodes;
    if (kind != COORDINATES && (p = past_number(p, &c->rows)) == NULL) return NULL;
    return is_end(p) ? p : NULL;
}

/* The fields of a data line after its first, to the line's end; NULL if they aren't of the form. */
FOR_EACH_KIND const uint8_t *data(enum kind kind, const uint8_t *p, struct entry *e) {
    if ((p = past_number(p, &e->node)) == NULL) return NULL;
    if (kind == GRAPH) {
        if ((p = past_number(p, &e->head)) == NULL) return NULL;
        if ((p = past_number(p, &e->weight)) == NULL) return NULL;
    }
    if (kind == COORDINATES) {
        if ((p = past_signed(p, &e->x)) == NULL) return NULL;
        if ((p = past_signed(p, &e->y)) == NULL) return NULL;
    }
    return is_end(p) ? p : NULL;
}

/* 5, 6 and 8 of a data line, or 0; an entry without a fault is kept as that row. */
FOR_EACH_KIND uint32_t keep(enum kind kind, const struct entry *e, uint32_t n, uint32_t row, uint32_t *given, struct columns *to) {
    if (!within(e->node, n)) return NODE_OUTSIDE;
    if (kind == GRAPH) {
        if (!within(e->head, n)) return NODE_OUTSIDE;
        if (!within(e->weight, WEIGHT_MOST)) return VALUE_OUTSIDE;
        to->heads[row] = (uint16_t)e->head;
        to->weights[row] = e->weight;
    }
    if (kind == COORDINATES) {
        if (!is_coordinate(e->x) || !is_coordinate(e->y)) return VALUE_OUTSIDE;
        to->xs[e->node - 1] = e->x;
        to->ys[e->node - 1] = e->y;
    }
    if (kind != GRAPH) {
        if (is_marked(given, e->node - 1)) return GIVEN_TWICE;
        mark(given, e->node - 1);
    }
    if (kind != COORDINATES) to->nodes[row] = (uint16_t)e->node;
    return 0;
}

/* Judges a text, and keeps its entries. The lines up to the last LF are read where they stand; bytes after it are a last line, which is
 * read in a copy that ends with LF. */
FOR_EACH_KIND uint64_t judge(enum kind kind, const uint8_t *text, size_t text_len, size_t handed, size_t room, struct columns *to) {
    uint8_t last[TEXT_MOST + 1];
    uint32_t given[NODES_MOST / 32] = {0};
    struct counts c = {(uint32_t)handed, 0};
    uint32_t row = 0, line = 0;
    uint32_t rows_most = kind == GRAPH ? ARCS_MOST : kind == COORDINATES ? NODES_MOST : SITES_MOST;
    uint8_t data_word = kind == GRAPH ? 'a' : kind == COORDINATES ? 'v' : 's';
    int begun = 0;

    if (text_len > TEXT_MOST) return refused(TEXT_TOO_LONG, 0);
    if (kind != GRAPH && !within(handed, NODES_MOST)) return refused(COUNT_OUTSIDE, 0);

    size_t whole = text_len;
    while (whole > 0 && text[whole - 1] != '\n') whole--;
    const uint8_t *p = text, *stop = text + whole;
    for (int copied = whole == text_len;;) {
        if (p == stop) {
            if (copied) break;
            memcpy(last, text + whole, text_len - whole);
            last[text_len - whole] = '\n';
            p = last;
            stop = last + (text_len - whole) + 1;
            copied = 1;
        }
        line++;
        p = past_blanks(p);
        if (is_end(p)) {
            p = next_line(p);
            continue;
        }
        uint8_t word = *p;
        p = past_field(p + 1);
        if (p == NULL) return refused(NOT_PERMITTED, line);
        if (word == data_word) {
            struct entry e;
            p = data(kind, p, &e);
            if (p == NULL) return refused(NOT_PERMITTED, line);
            if (!begun) return refused(PROBLEM_MISPLACED, line);
            if (row == c.rows) return refused(DATA_MISCOUNTED, line);
            uint32_t fault = keep(kind, &e, c.nodes, row, given, to);
            if (fault != 0) return refused(fault, line);
            row++;
            p = next_line(p);
        } else if (word == 'c') {
            p = (const uint8_t *)memchr(p, '\n', (size_t)(stop - p)) + 1;
        } else if (word == 'p') {
            struct counts said = c;
            p = problem(kind, p, &said);
            if (p == NULL) return refused(NOT_PERMITTED, line);
            if (begun) return refused(PROBLEM_MISPLACED, line);
            if (!within(said.nodes, NODES_MOST) || said.rows > rows_most) return refused(COUNT_OUTSIDE, line);
            if (kind == COORDINATES && said.nodes != handed) return refused(COUNT_OUTSIDE, line);
            if (said.rows > room) return refused(TABLE_SHORT, line);
            c = said;
            begun = 1;
            p = next_line(p);
        } else {
            return refused(NOT_PERMITTED, line);
        }
    }
    if (!begun) return refused(PROBLEM_MISPLACED, 0);
    if (row != c.rows) return refused(DATA_MISCOUNTED, 0);
    return accepted(c.nodes, c.rows);
}

static inline int is_refused(uint64_t answer) { return answer >> 56 != 0; }

static inline size_t rows_of(uint64_t answer) { return answer & (((uint64_t)1 << 28) - 1); }

static inline size_t least(size_t a, size_t b) { return a < b ? a : b; }

uint64_t peer_read_graph(const uint8_t *text, size_t text_len, uint16_t *tails, size_t tails_len, uint16_t *heads, size_t heads_len,
                         uint32_t *weights, size_t weights_len) {
    struct columns from;
    uint64_t answer = judge(GRAPH, text, text_len, 0, least(tails_len, least(heads_len, weights_len)), &from);
    if (is_refused(answer)) return answer;
    memcpy(tails, from.nodes, rows_of(answer) * sizeof *tails);
    memcpy(heads, from.heads, rows_of(answer) * sizeof *heads);
    memcpy(weights, from.weights, rows_of(answer) * sizeof *weights);
    return answer;
}

uint64_t peer_read_coordinates(const uint8_t *text, size_t text_len, size_t n, int32_t *xs, size_t xs_len, int32_t *ys, size_t ys_len) {
    struct columns from;
    uint64_t answer = judge(COORDINATES, text, text_len, n, least(xs_len, ys_len), &from);
    if (is_refused(answer)) return answer;
    memcpy(xs, from.xs, n * sizeof *xs);
    memcpy(ys, from.ys, n * sizeof *ys);
    return answer;
}

uint64_t peer_read_sites(const uint8_t *text, size_t text_len, size_t n, uint16_t *sites, size_t sites_len) {
    struct columns from;
    uint64_t answer = judge(SITES, text, text_len, n, sites_len, &from);
    if (is_refused(answer)) return answer;
    memcpy(sites, from.nodes, rows_of(answer) * sizeof *sites);
    return answer;
}

/* ---- Searching. Nodes are 0 to N-1 inside, one less than in the tables. */

#define NONE 0xFFFF
#define UNSEEN 0xFFFFFFFFu

/* An open node as the heap has it: its total, then whether it is a site, then its number, so that the least one goes next. A total is
 * below 2^31: a length is at most 1,023,000,000, and a straight line below 2^30. */
static inline uint64_t key_of(uint32_t length, uint32_t line, uint32_t site, uint32_t v) {
    return ((uint64_t)length + line) << 17 | site << 16 | v;
}

/* The keys of open nodes, and after them one that is above all, so that every parent has two children to choose from. */
struct heap {
    size_t size;
    uint64_t keys[ARCS_MOST + 2];
};

static inline void rise(struct heap *h, size_t i, uint64_t key) {
    while (i > 0) {
        size_t parent = (i - 1) / 2;
        if (h->keys[parent] <= key) break;
        h->keys[i] = h->keys[parent];
        i = parent;
    }
    h->keys[i] = key;
}

static inline void push(struct heap *h, uint64_t key) {
    h->size++;
    h->keys[h->size] = UINT64_MAX;
    rise(h, h->size - 1, key);
}

/* Puts a key in the place of the least: the gap goes down to a leaf, and the key, which is most often large, up from there. */
static inline void replace_least(struct heap *h, uint64_t key) {
    size_t i = 0, child;
    while ((child = 2 * i + 1) < h->size) {
        child += h->keys[child + 1] < h->keys[child];
        h->keys[i] = h->keys[child];
        i = child;
    }
    rise(h, i, key);
}

static inline void pop(struct heap *h) {
    uint64_t last = h->keys[--h->size];
    h->keys[h->size] = UINT64_MAX;
    if (h->size > 0) replace_least(h, last);
}

/* The sites not yet taken, side by side. */
struct aims {
    size_t count;
    int32_t xs[SITES_MOST], ys[SITES_MOST];
    uint16_t nodes[SITES_MOST];
};

static inline uint64_t squares(int32_t ax, int32_t ay, int32_t bx, int32_t by) {
    int64_t dx = (int64_t)ax - bx, dy = (int64_t)ay - by;
    return (uint64_t)(dx * dx) + (uint64_t)(dy * dy);
}

/* The largest whole number whose square is at most x, for x below 2^60: the machine's root is at most one off. */
static inline uint32_t root(uint64_t x) {
    uint64_t r = (uint64_t)(int64_t)sqrt((double)(int64_t)x);
    if (r * r > x) r--;
    if ((r + 1) * (r + 1) <= x) r++;
    return (uint32_t)r;
}

/* The straight line to the closest of the sites not yet taken, and which site that is. One root, of the least square. */
static inline uint32_t line_from(const struct aims *aims, int32_t x, int32_t y, uint16_t *closest) {
    uint64_t best = squares(x, y, aims->xs[0], aims->ys[0]);
    size_t at = 0;
    for (size_t j = 1; j < aims->count; j++) {
        uint64_t square = squares(x, y, aims->xs[j], aims->ys[j]);
        if (square < best) {
            best = square;
            at = j;
        }
    }
    *closest = aims->nodes[at];
    return root(best);
}

static inline void drop_aim(struct aims *aims, uint32_t v) {
    size_t j = 0;
    while (aims->nodes[j] != v) j++;
    aims->count--;
    aims->xs[j] = aims->xs[aims->count];
    aims->ys[j] = aims->ys[aims->count];
    aims->nodes[j] = aims->nodes[aims->count];
}

static uint64_t judge_points(const int32_t *xs, const int32_t *ys, size_t n) {
    for (size_t v = 0; v < n; v++)
        if (!is_coordinate(xs[v]) || !is_coordinate(ys[v])) return refused(VALUE_OUTSIDE, v + 1);
    return 0;
}

/* Judges the arcs, and chains them by tail in the same pass: first[u], and from each the next of the same tail. */
static uint64_t judge_arcs(const uint16_t *tails, const uint16_t *heads, const uint32_t *weights, const int32_t *xs, const int32_t *ys,
                           size_t n, size_t m, uint16_t *first, uint16_t *next) {
    memset(first, 0xFF, n * sizeof *first);
    for (size_t i = 0; i < m; i++) {
        uint32_t u = tails[i] - 1u, v = heads[i] - 1u, w = weights[i];
        if (u >= n || v >= n) return refused(NODE_OUTSIDE, i + 1);
        if (!within(w, WEIGHT_MOST)) return refused(VALUE_OUTSIDE, i + 1);
        if ((uint64_t)w * w < squares(xs[u], ys[u], xs[v], ys[v])) return refused(ARC_SHORT, i + 1);
        next[i] = first[u];
        first[u] = (uint16_t)i;
    }
    return 0;
}

static uint64_t judge_sites(const uint16_t *sites, const int32_t *xs, const int32_t *ys, size_t n, size_t s, uint32_t *is_site,
                            struct aims *aims) {
    for (size_t j = 0; j < s; j++) {
        uint32_t v = sites[j] - 1u;
        if (v >= n) return refused(NODE_OUTSIDE, j + 1);
        if (is_marked(is_site, v)) return refused(GIVEN_TWICE, j + 1);
        mark(is_site, v);
        aims->xs[j] = xs[v];
        aims->ys[j] = ys[v];
        aims->nodes[j] = (uint16_t)v;
    }
    aims->count = s;
    return 0;
}

/* The routes of the listed sites, back to back, by the node before each. */
static void write_routes(const uint16_t *before, uint32_t query, const uint16_t *listed, size_t count, uint16_t *ends, uint16_t *routes) {
    size_t end = 0;
    for (size_t i = 0; i < count; i++) {
        uint32_t site = listed[i] - 1u, v;
        for (v = site, end++; v != query; v = before[v]) end++;
        ends[i] = (uint16_t)end;
        uint16_t *to = routes + end;
        for (v = site; v != query; v = before[v]) *--to = (uint16_t)(v + 1);
        *--to = (uint16_t)(query + 1);
    }
}

uint64_t peer_search(const uint16_t *tails, size_t tails_len, const uint16_t *heads, size_t heads_len, const uint32_t *weights,
                     size_t weights_len, const int32_t *xs, size_t xs_len, const int32_t *ys, size_t ys_len, const uint16_t *sites,
                     size_t sites_len, size_t n, size_t m, size_t s, size_t query, size_t k, uint32_t *work, size_t work_len,
                     uint16_t *listed, size_t listed_len, uint32_t *lengths, size_t lengths_len, uint16_t *ends, size_t ends_len,
                     uint16_t *routes, size_t routes_len) {
    if (!within(n, NODES_MOST) || m > ARCS_MOST || s > SITES_MOST) return refused(COUNT_OUTSIDE, 0);
    if (tails_len < m || heads_len < m || weights_len < m || xs_len < n || ys_len < n || sites_len < s) return refused(TABLE_SHORT, 0);
    if (!within(query, n)) return refused(QUERY_OUTSIDE, 0);
    if (!within(k, K_MOST)) return refused(K_OUTSIDE, 0);
    if (work_len < 4 * n || listed_len < k || lengths_len < k || ends_len < k || routes_len < k * n) return refused(ROOM_SHORT, 0);

    uint64_t fault;
    uint16_t first[NODES_MOST], next[ARCS_MOST];
    uint32_t is_site[NODES_MOST / 32] = {0};
    struct aims aims;
    if ((fault = judge_points(xs, ys, n)) != 0) return fault;
    if ((fault = judge_arcs(tails, heads, weights, xs, ys, n, m, first, next)) != 0) return fault;
    if ((fault = judge_sites(sites, xs, ys, n, s, is_site, &aims)) != 0) return fault;

    /* Of each node seen: its best length, the lowest node before it that gives that length, its straight line and the site that this
     * leads to, and its key in the heap. A key that isn't the node's own any more is of a longer length or of a node that has been taken,
     * and is passed by. is_gone has the sites taken. */
    uint32_t length[NODES_MOST], line[NODES_MOST], is_gone[NODES_MOST / 32] = {0};
    uint16_t before[NODES_MOST], closest[NODES_MOST];
    uint64_t key[NODES_MOST];
    struct heap heap;
    size_t most = least(k, s), count = 0, taken = 0;
    uint32_t q = (uint32_t)query - 1;

    memset(length, 0xFF, n * sizeof *length);
    heap.size = 0;
    if (s > 0) {
        length[q] = 0;
        line[q] = line_from(&aims, xs[q], ys[q], &closest[q]);
        key[q] = key_of(0, line[q], is_marked(is_site, q), q);
        push(&heap, key[q]);
    }
    while (count < most && heap.size > 0) {
        uint64_t top = heap.keys[0];
        uint32_t u = top & 0xFFFF;
        if (top != key[u]) {
            pop(&heap);
            continue;
        }
        uint32_t site = is_marked(is_site, u);
        /* Estimates only grow as sites are taken, so one is renewed only when its node comes up and its site has gone. */
        if (is_marked(is_gone, closest[u])) {
            line[u] = line_from(&aims, xs[u], ys[u], &closest[u]);
            key[u] = key_of(length[u], line[u], site, u);
            replace_least(&heap, key[u]);
            continue;
        }
        pop(&heap);
        key[u] = UINT64_MAX;
        taken++;
        if (site) {
            listed[count] = (uint16_t)(u + 1);
            lengths[count] = length[u];
            count++;
            if (count == most) break;
            mark(is_gone, u);
            drop_aim(&aims, u);
        }
        /* A head that has been taken has its shortest length, as no arc is shorter than the straight line, so nothing shortens it; but
         * a lower node that gives the same length may still come. */
        for (uint32_t i = first[u]; i != NONE; i = next[i]) {
            uint32_t v = heads[i] - 1u, by = length[u] + weights[i];
            if (by > length[v]) continue;
            if (by == length[v]) {
                if (u < before[v]) before[v] = (uint16_t)u;
                continue;
            }
            if (length[v] == UNSEEN) line[v] = line_from(&aims, xs[v], ys[v], &closest[v]);
            length[v] = by;
            before[v] = (uint16_t)u;
            key[v] = key_of(by, line[v], is_marked(is_site, v), v);
            push(&heap, key[v]);
        }
    }
    write_routes(before, q, listed, count, ends, routes);
    memset(work, 0, 4 * n * sizeof *work);
    return accepted(count, taken);
}

uint64_t peer_panel(const uint16_t *tails, size_t tails_len, const uint16_t *heads, size_t heads_len, const uint32_t *weights,
                    size_t weights_len, const int32_t *xs, size_t xs_len, const int32_t *ys, size_t ys_len, const uint16_t *sites,
                    size_t sites_len, size_t n, size_t m, size_t s, size_t query, uint32_t *work, size_t work_len, uint16_t *listed,
                    size_t listed_len, uint32_t *lengths, size_t lengths_len, uint16_t *ends, size_t ends_len, uint16_t *routes,
                    size_t routes_len) {
    return peer_search(tails, tails_len, heads, heads_len, weights, weights_len, xs, xs_len, ys, ys_len, sites, sites_len, n, m, s, query,
                       PANEL_K, work, work_len, listed, listed_len, lengths, lengths_len, ends, ends_len, routes, routes_len);
}
