/* The peer on the paper's cases A to K, with what stands in every buffer afterwards; and the readers on the cases of crates/cases.
 *
 *   cases                   runs A to K, and says which one fails
 *   cases readers           runs the readers on the cases of its standard input, and prints what the crate `cases` prints
 */
#include "peer.h"

#include <stdio.h>
#include <stdlib.h>
#include <string.h>

struct region {
    size_t n, m, s;
    uint16_t tails[8], heads[8];
    uint32_t weights[8];
    int32_t xs[6], ys[6];
    uint16_t sites[3];
};

static const struct region worked = {6, 8, 3, {1, 2, 1, 4, 1, 3, 2, 5}, {2, 3, 4, 3, 5, 5, 1, 6}, {5, 5, 6, 7, 10, 9, 5, 9},
                                     {0, 3, 6, 0, 10, 3}, {0, 4, 8, 5, 0, -4}, {5, 3, 6}};
static const struct region one_place = {4, 4, 1, {1, 1, 2, 3}, {2, 3, 4, 4}, {2, 1, 1, 2}, {0}, {0}, {4}};

/* The list that is wanted, or a refusal. */
struct want {
    size_t number, place, count, taken;
    uint16_t listed[3];
    uint32_t lengths[3];
    uint16_t ends[3], routes[9];
};

static int failures;

static void fail(const char *name, const char *what) {
    printf("case %s: %s\n", name, what);
    failures++;
}

static void run(const char *name, const struct region *r, size_t query, size_t k, const struct want *w) {
    uint32_t work[30], lengths[40], work_want[30], lengths_want[40];
    uint16_t listed[40], ends[40], routes[200], listed_want[40], ends_want[40], routes_want[200];
    size_t used = w->count > 0 ? w->ends[w->count - 1] : 0;
    memset(work, 7, sizeof work);
    memset(lengths, 7, sizeof lengths);
    memset(listed, 7, sizeof listed);
    memset(ends, 7, sizeof ends);
    memset(routes, 7, sizeof routes);
    memcpy(work_want, work, sizeof work);
    memcpy(lengths_want, lengths, sizeof lengths);
    memcpy(listed_want, listed, sizeof listed);
    memcpy(ends_want, ends, sizeof ends);
    memcpy(routes_want, routes, sizeof routes);
    if (w->number == 0) {
        memset(work_want, 0, 4 * r->n * sizeof *work);
        memcpy(lengths_want, w->lengths, w->count * sizeof *lengths);
        memcpy(listed_want, w->listed, w->count * sizeof *listed);
        memcpy(ends_want, w->ends, w->count * sizeof *ends);
        memcpy(routes_want, w->routes, used * sizeof *routes);
    }
    uint64_t said = peer_search(r->tails, 8, r->heads, 8, r->weights, 8, r->xs, 6, r->ys, 6, r->sites, 3, r->n, r->m, r->s, query, k, work,
                                30, listed, 40, lengths, 40, ends, 40, routes, 200);
    uint64_t right = w->number == 0 ? (uint64_t)w->count << 28 | w->taken : ((uint64_t)w->number << 28 | w->place) << 28;
    if (said != right) fail(name, "another answer");
    if (memcmp(listed, listed_want, sizeof listed) != 0) fail(name, "another list");
    if (memcmp(lengths, lengths_want, sizeof lengths) != 0) fail(name, "other lengths");
    if (memcmp(ends, ends_want, sizeof ends) != 0) fail(name, "other ends");
    if (memcmp(routes, routes_want, sizeof routes) != 0) fail(name, "other routes");
    if (memcmp(work, work_want, sizeof work) != 0) fail(name, "the work memory differs");
}

static int marked_cases(void) {
    struct region short_arc = worked;
    short_arc.weights[3] = 6;
    run("A", &worked, 1, 1, &(struct want){0, 0, 1, 3, {3}, {10}, {3}, {1, 2, 3}});
    run("B", &worked, 1, 2, &(struct want){0, 0, 2, 4, {3, 5}, {10, 10}, {3, 5}, {1, 2, 3, 1, 5}});
    run("C", &worked, 1, 3, &(struct want){0, 0, 3, 6, {3, 5, 6}, {10, 10, 19}, {3, 5, 8}, {1, 2, 3, 1, 5, 1, 5, 6}});
    run("D", &worked, 1, 32, &(struct want){0, 0, 3, 6, {3, 5, 6}, {10, 10, 19}, {3, 5, 8}, {1, 2, 3, 1, 5, 1, 5, 6}});
    run("E", &worked, 6, 2, &(struct want){0, 0, 1, 1, {6}, {0}, {1}, {6}});
    run("F", &worked, 4, 1, &(struct want){0, 0, 1, 2, {3}, {7}, {2}, {4, 3}});
    run("G", &worked, 3, 1, &(struct want){0, 0, 1, 1, {3}, {0}, {1}, {3}});
    run("H, k 0", &worked, 1, 0, &(struct want){12, 0, 0, 0, {0}, {0}, {0}, {0}});
    run("H, k 33", &worked, 1, 33, &(struct want){12, 0, 0, 0, {0}, {0}, {0}, {0}});
    run("I, query 0", &worked, 0, 1, &(struct want){11, 0, 0, 0, {0}, {0}, {0}, {0}});
    run("I, query 7", &worked, 7, 1, &(struct want){11, 0, 0, 0, {0}, {0}, {0}, {0}});
    run("J", &short_arc, 1, 1, &(struct want){10, 4, 0, 0, {0}, {0}, {0}, {0}});
    run("K", &one_place, 1, 1, &(struct want){0, 0, 1, 4, {4}, {3}, {3}, {1, 2, 4}});
    if (failures == 0) printf("the peer gives the paper's answers to cases A to K\n");
    return failures != 0;
}

/* A digest as the crate `cases` makes it. */
static uint64_t mixed(uint64_t sum, uint64_t value) { return (sum * 31 + value % 1000003) % 1000003; }

static void digest(const uint16_t *t, size_t len) {
    uint64_t sum = 0;
    for (size_t i = 0; i < len; i++) sum = mixed(sum, t[i]);
    printf(" %d", (int)sum);
}

static void digest_wide(const uint32_t *t, size_t len) {
    uint64_t sum = 0;
    for (size_t i = 0; i < len; i++) sum = mixed(sum, t[i]);
    printf(" %d", (int)sum);
}

static void digest_signed(const int32_t *t, size_t len) {
    uint64_t sum = 0;
    for (size_t i = 0; i < len; i++) sum = mixed(sum, t[i] < 0 ? 500000000u - (uint64_t)t[i] : (uint64_t)t[i]);
    printf(" %d", (int)sum);
}

static void show(uint64_t answer) {
    int number = (int)(answer >> 56), first = (int)(answer >> 28 & 0xFFFFFFF), second = (int)(answer & 0xFFFFFFF);
    if (number != 0) printf("x %d %d", number, first);
    else printf("= %d %d", first, second);
}

static int reader_cases(void) {
    static uint8_t text[100000];
    static uint16_t tails[4096], heads[4096];
    static uint32_t weights[4096];
    static int32_t xs[1024], ys[1024];
    char first[21] = {0}, kind;
    unsigned nodes, room, len;
    while (fread(first, 1, 20, stdin) == 20) {
        if (sscanf(first, "%c %u %u %u", &kind, &nodes, &room, &len) != 4) return 2;
        if (nodes > 4096 || room > 4096 || len > 99999 || fread(text, 1, len + 1, stdin) != len + 1) return 2;
        for (size_t i = 0; i < 4096; i++) tails[i] = heads[i] = 7, weights[i] = 7;
        for (size_t i = 0; i < 1024; i++) xs[i] = ys[i] = 7;
        if (kind == 'g') {
            show(peer_read_graph(text, len, tails, room, heads, room, weights, nodes));
            digest(tails, room);
            digest(heads, room);
            digest_wide(weights, nodes);
        } else if (kind == 'c') {
            show(peer_read_coordinates(text, len, nodes, xs, room, ys, room));
            digest_signed(xs, room);
            digest_signed(ys, room);
        } else {
            show(peer_read_sites(text, len, nodes, tails, room));
            digest(tails, room);
        }
        printf("\n");
    }
    return 0;
}

int main(int argc, char **argv) {
    if (argc == 2 && strcmp(argv[1], "readers") == 0) return reader_cases();
    return marked_cases();
}
