#include "packs.h"

#include <stdarg.h>
#include <stdio.h>
#include <stdlib.h>

size_t draw(uint64_t *seed, size_t below) {
    uint64_t z = *seed += 0x9E3779B97F4A7C15u;
    z = (z ^ z >> 30) * 0xBF58476D1CE4E5B9u;
    z = (z ^ z >> 27) * 0x94D049BB133111EBu;
    return (size_t)((z ^ z >> 31) % below);
}

/* The numbers 1 to n in no order. */
static void shuffled(uint16_t *numbers, size_t n, uint64_t *seed) {
    for (size_t i = 0; i < n; i++) {
        size_t j = draw(seed, i + 1);
        numbers[i] = numbers[j];
        numbers[j] = (uint16_t)(i + 1);
    }
}

/* The least weight that an arc from u to v may have. */
static uint32_t least_weight(const struct pack *p, size_t u, size_t v) {
    int64_t dx = (int64_t)p->xs[u - 1] - p->xs[v - 1], dy = (int64_t)p->ys[u - 1] - p->ys[v - 1], w = 1;
    while (w * w < dx * dx + dy * dy) w++;
    return (uint32_t)w;
}

static void add_arc(struct pack *p, size_t u, size_t v, uint32_t weight) {
    p->tails[p->m] = (uint16_t)u;
    p->heads[p->m] = (uint16_t)v;
    p->weights[p->m] = weight;
    p->m++;
}

/* A street: up to four tenths longer than the straight line, and as long in both directions. */
static void add_street(struct pack *p, size_t u, size_t v, uint64_t *seed) {
    uint32_t w = least_weight(p, u, v);
    w += (uint32_t)draw(seed, w * 4 / 10 + 1);
    add_arc(p, u, v, w);
    add_arc(p, v, u, w);
}

void make_town(struct pack *p, size_t width, size_t height, uint64_t seed) {
    uint16_t number[NODES];
    p->n = width * height;
    p->m = p->s = 0;
    shuffled(number, p->n, &seed);
    for (size_t i = 0; i < p->n; i++) {
        size_t v = number[i] - 1u;
        p->xs[v] = (int32_t)(i % width * 200 + draw(&seed, 121)) - 3200;
        p->ys[v] = (int32_t)(i / width * 200 + draw(&seed, 121)) - 3200;
    }
    for (size_t i = 0; i < p->n; i++) {
        if (i % width + 1 < width) add_street(p, number[i], number[i + 1], &seed);
        if (i / width + 1 < height) add_street(p, number[i], number[i + width], &seed);
    }
    while (p->m < 4 * p->n) {
        size_t row = draw(&seed, height - 1), column = draw(&seed, width - 1), i = row * width + column;
        add_street(p, number[i], number[i + width + 1], &seed);
    }
}

void put_sites(struct pack *p, size_t s, uint64_t seed) {
    uint16_t number[NODES];
    shuffled(number, p->n, &seed);
    for (size_t i = 0; i < s; i++) p->sites[i] = number[i];
    p->s = s;
}

void cut_off(struct pack *p, uint16_t v) {
    for (size_t i = 0; i < p->m; i++) {
        if (p->heads[i] != v) continue;
        p->heads[i] = p->tails[i];
        for (size_t j = 0; j < p->m; j++) {
            if (p->tails[j] != p->tails[i] || p->heads[j] == v || p->heads[j] == p->tails[i]) continue;
            p->heads[i] = p->heads[j];
            p->weights[i] = p->weights[j] + 1;
            break;
        }
    }
}

struct arc {
    uint16_t tail, head;
    uint32_t weight;
};

static int by_ends(const void *a, const void *b) {
    const struct arc *x = a, *y = b;
    if (x->tail != y->tail) return x->tail < y->tail ? -1 : 1;
    if (x->head != y->head) return x->head < y->head ? -1 : 1;
    return x->weight < y->weight ? -1 : x->weight > y->weight;
}

void group_arcs(struct pack *p) {
    static struct arc arcs[ARCS];
    for (size_t i = 0; i < p->m; i++) arcs[i] = (struct arc){p->tails[i], p->heads[i], p->weights[i]};
    qsort(arcs, p->m, sizeof *arcs, by_ends);
    for (size_t i = 0; i < p->m; i++) {
        p->tails[i] = arcs[i].tail;
        p->heads[i] = arcs[i].head;
        p->weights[i] = arcs[i].weight;
    }
}

void shuffle_arcs(struct pack *p, uint64_t seed) {
    for (size_t i = p->m; i > 1; i--) {
        size_t j = draw(&seed, i), l = i - 1;
        struct arc a = {p->tails[j], p->heads[j], p->weights[j]};
        p->tails[j] = p->tails[l];
        p->heads[j] = p->heads[l];
        p->weights[j] = p->weights[l];
        p->tails[l] = a.tail;
        p->heads[l] = a.head;
        p->weights[l] = a.weight;
    }
}

void make_crossing(struct pack *p, uint64_t *seed) {
    size_t arcs, sites, wide = 1 + draw(seed, 6), longer = 1 + draw(seed, 4);
    p->n = 1 + draw(seed, 14);
    p->m = 0;
    arcs = draw(seed, 4 * p->n + 1);
    for (size_t v = 0; v < p->n; v++) {
        p->xs[v] = (int32_t)draw(seed, wide) - 2;
        p->ys[v] = (int32_t)draw(seed, wide) - 2;
    }
    while (p->m < arcs) {
        size_t u = 1 + draw(seed, p->n), v = 1 + draw(seed, p->n);
        add_arc(p, u, v, least_weight(p, u, v) + (uint32_t)draw(seed, longer));
    }
    sites = draw(seed, p->n + 1);
    put_sites(p, sites, *seed);
}

static void say(struct text *t, const char *format, ...) {
    va_list values;
    va_start(values, format);
    if (t->len <= TEXT) t->len += (size_t)vsnprintf((char *)t->bytes + t->len, sizeof t->bytes - t->len, format, values);
    va_end(values);
}

int write_texts(struct pack *p, uint64_t seed) {
    uint16_t number[NODES];
    shuffled(number, p->n, &seed);
    p->graph.len = p->coordinates.len = p->site_list.len = 0;
    say(&p->graph, "p sp %zu %zu\n", p->n, p->m);
    for (size_t i = 0; i < p->m; i++) say(&p->graph, "a %d %d %d\n", p->tails[i], p->heads[i], (int)p->weights[i]);
    say(&p->coordinates, "p aux sp co %zu\n", p->n);
    for (size_t i = 0; i < p->n; i++) say(&p->coordinates, "v %d %d %d\n", number[i], (int)p->xs[number[i] - 1], (int)p->ys[number[i] - 1]);
    say(&p->site_list, "p aux sp ss %zu\n", p->s);
    for (size_t i = 0; i < p->s; i++) say(&p->site_list, "s %d\n", p->sites[i]);
    return p->graph.len <= TEXT && p->coordinates.len <= TEXT && p->site_list.len <= TEXT;
}
