/* Runs the library's archive and the peer on the same packs, checks that they agree, and prints what each costs.
 *
 *   driver [ROUNDS]
 *
 * A cost is the least over the rounds, and the two sides take turns within each round, so that a busy machine troubles both alike. The time
 * is that of the processor, not of the clock.
 */
#define _POSIX_C_SOURCE 200112L
#include "sides.h"

#include <stdio.h>
#include <stdlib.h>
#include <time.h>

enum { QUERIES = 128, K = WICK_PANEL_K };

static unsigned rounds = 15;

static double seconds(void) {
    struct timespec t;
    clock_gettime(CLOCK_PROCESS_CPUTIME_ID, &t);
    return (double)t.tv_sec + (double)t.tv_nsec / 1e9;
}

/* Something to be done again and again: its seconds for one time, and what it takes to do it. */
struct job {
    void (*once)(const struct side *, const struct job *);
    const struct pack *pack;
    size_t k, count;
    uint16_t queries[QUERIES];
};

static double timed(const struct side *side, const struct job *job, unsigned times) {
    double from = seconds();
    for (unsigned i = 0; i < times; i++) job->once(side, job);
    return (seconds() - from) / times;
}

/* How often a job is to be done for some ten milliseconds. */
static unsigned times_for(const struct side *side, const struct job *job) {
    unsigned times = 1;
    while (timed(side, job, times) * times < 0.01) times *= 2;
    return times;
}

struct cost {
    double library, peer;
};

static struct cost measure(const struct job *job) {
    unsigned of_library = times_for(&library, job), of_peer = times_for(&peer, job);
    struct cost least = {1e9, 1e9};
    for (unsigned i = 0; i < rounds; i++) {
        double x = timed(&library, job, of_library), y = timed(&peer, job, of_peer);
        if (x < least.library) least.library = x;
        if (y < least.peer) least.peer = y;
    }
    return least;
}

static void search_once(const struct side *side, const struct job *job) {
    static struct rooms to;
    for (size_t i = 0; i < job->count; i++) {
        struct ask a = ask_of(job->pack, job->queries[i], job->k);
        search(side, job->pack, &a, &to);
    }
}

/* Nodes of the pack spread over its numbers, and the mean of the nodes that a search from them takes. Sites that no arc leads to are
 * left out: a search from one would have it in its list. */
static double choose_queries(struct job *job) {
    static struct rooms to;
    const struct pack *p = job->pack;
    size_t taken = 0, step = p->n / QUERIES > 0 ? p->n / QUERIES : 1;
    job->count = 0;
    for (size_t v = 1; v <= p->n && job->count < QUERIES; v += step) {
        int reached = 0, site = 0;
        for (size_t i = 0; i < p->m; i++) reached |= p->heads[i] == v;
        for (size_t j = 0; j < p->s; j++) site |= p->sites[j] == v;
        if (site && !reached) continue;
        job->queries[job->count++] = (uint16_t)v;
    }
    for (size_t i = 0; i < job->count; i++) {
        struct ask a = ask_of(p, job->queries[i], job->k);
        taken += wick_taken(search(&library, p, &a, &to));
    }
    return (double)taken / (double)job->count;
}

/* Microseconds a query. */
static struct cost cost_of_search(const struct pack *p, size_t k, double *taken) {
    struct job job = {.once = search_once, .pack = p, .k = k};
    *taken = choose_queries(&job);
    struct cost c = measure(&job);
    double scale = 1e6 / (double)job.count;
    return (struct cost){c.library * scale, c.peer * scale};
}

static void graph_once(const struct side *side, const struct job *job) {
    static uint16_t tails[ARCS], heads[ARCS];
    static uint32_t weights[ARCS];
    side->read_graph(job->pack->graph.bytes, job->pack->graph.len, tails, ARCS, heads, ARCS, weights, ARCS);
}

static void coordinates_once(const struct side *side, const struct job *job) {
    static int32_t xs[NODES], ys[NODES];
    side->read_coordinates(job->pack->coordinates.bytes, job->pack->coordinates.len, job->pack->n, xs, NODES, ys, NODES);
}

static void sites_once(const struct side *side, const struct job *job) {
    static uint16_t sites[SITES];
    side->read_sites(job->pack->site_list.bytes, job->pack->site_list.len, job->pack->n, sites, SITES);
}

static void show_reading(const char *name, const struct pack *p, void (*once)(const struct side *, const struct job *), size_t bytes) {
    struct job job = {.once = once, .pack = p};
    struct cost c = measure(&job);
    double scale = 1e9 / (double)bytes;
    printf("| %s | %zu | %.2f | %.2f | %.2f |\n", name, bytes, c.library * scale, c.peer * scale, c.library / c.peer);
}

static void show_search(const char *name, const char *arcs, const struct pack *p, size_t k) {
    double taken;
    struct cost c = cost_of_search(p, k, &taken);
    printf("| %s | %s | %zu | %.1f | %.1f | %.1f | %.1f |\n", name, arcs, k, taken, c.library, c.peer, c.library / c.peer);
    fflush(stdout);
}

/* The packs: a town, the same with few sites, and with a site that can't be reached, so that every node that can be is taken. The last is
 * the hardest that the limits allow: 32 sites asked for, 31 within reach, and 97 more to be estimated. */
enum shape { TOWN, SPARSE, WORST, HARDEST };

static struct pack town_of(size_t width, size_t height, enum shape shape) {
    static struct pack p;
    make_town(&p, width, height, 1);
    put_sites(&p, shape == SPARSE ? 3 : shape == WORST ? 1 : p.n / 8, 2);
    for (size_t j = shape == WORST ? 0 : 31; shape >= WORST && j < p.s; j++) cut_off(&p, p.sites[j]);
    group_arcs(&p);
    if (!write_texts(&p, 3)) {
        printf("a text of the pack is too long\n");
        exit(2);
    }
    return p;
}

static const struct {
    const char *name;
    size_t k;
} shapes[] = {{"town", K}, {"sparse", K}, {"worst", K}, {"hardest", LIST}};

/* A pack's arcs in no order, and its texts anew. */
static struct pack shuffled(struct pack p) {
    shuffle_arcs(&p, 4);
    write_texts(&p, 3);
    return p;
}

static int agreed(void) {
    for (enum shape shape = TOWN; shape <= HARDEST; shape++) {
        static struct pack p;
        p = town_of(32, 32, shape);
        agree_on_pack(&p, shapes[shape].k);
        agree_on_damage(&p, 300, (uint64_t)shape);
        p = shuffled(p);
        agree_on_pack(&p, shapes[shape].k);
        agree_on_damage(&p, 300, (uint64_t)shape + 10);
    }
    agree_on_crossings(4000, 5);
    return tell();
}

static void show_growth(enum shape shape) {
    static const size_t width[] = {8, 8, 16, 16, 32}, height[] = {8, 16, 16, 32, 32};
    printf("\nGrowth of %s: M = 4N, S = %s, k = %zu; microseconds a query, and how many times those of half the nodes\n\n",
           shapes[shape].name, shape == TOWN ? "N/8" : "1", shapes[shape].k);
    printf("| N | arcs | taken | library | times | peer | times | ratio |\n|---|---|---|---|---|---|---|---|\n");
    for (size_t i = 0; i < 10; i++) {
        static struct pack p;
        static struct cost before;
        double taken;
        p = town_of(width[i % 5], height[i % 5], shape);
        if (i >= 5) p = shuffled(p);
        struct cost c = cost_of_search(&p, shapes[shape].k, &taken);
        printf("| %zu | %s | %.1f | %.2f | ", p.n, i < 5 ? "by tail" : "shuffled", taken, c.library);
        if (i % 5 > 0) printf("%.1f", c.library / before.library);
        printf(" | %.2f | ", c.peer);
        if (i % 5 > 0) printf("%.1f", c.peer / before.peer);
        printf(" | %.1f |\n", c.library / c.peer);
        fflush(stdout);
        before = c;
    }
}

int main(int argc, char **argv) {
    static struct pack p;
    if (argc > 1) rounds = (unsigned)atoi(argv[1]);
    if (!agreed()) return 1;
    fflush(stdout);

    printf("\nSearch: 1,024 nodes, 4,096 arcs; mean nodes taken, and microseconds a query\n\n");
    printf("| pack | arcs | k | taken | library | peer | ratio |\n|---|---|---|---|---|---|---|\n");
    for (enum shape shape = TOWN; shape <= HARDEST; shape++) {
        p = town_of(32, 32, shape);
        show_search(shapes[shape].name, "by tail", &p, shapes[shape].k);
        p = shuffled(p);
        show_search(shapes[shape].name, "shuffled", &p, shapes[shape].k);
    }

    printf("\nReading: the texts of the pack town; nanoseconds a byte\n\n");
    printf("| text | bytes | library | peer | ratio |\n|---|---|---|---|---|\n");
    p = town_of(32, 32, TOWN);
    show_reading("graph, by tail", &p, graph_once, p.graph.len);
    show_reading("coordinates", &p, coordinates_once, p.coordinates.len);
    show_reading("sites", &p, sites_once, p.site_list.len);
    p = shuffled(p);
    show_reading("graph, shuffled", &p, graph_once, p.graph.len);

    show_growth(TOWN);
    show_growth(WORST);
    return 0;
}
