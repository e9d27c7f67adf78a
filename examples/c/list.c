/* The list program through the header: list [FOLDER] reads map.gr, map.co, sites.ss and ask.ss there (or where it is run), puts each
 * query through the panel call, and prints its list. It allocates nothing: all memory that the library is lent stands here. */
#include "wickswarm.h"

#include <inttypes.h>
#include <stdio.h>

static uint8_t text[WICK_TEXT_ENTRIES];

/* the region */
static uint16_t tails[WICK_ARCS_MOST];
static uint16_t heads[WICK_ARCS_MOST];
static uint32_t weights[WICK_ARCS_MOST];
static int32_t xs[WICK_NODES_MOST];
static int32_t ys[WICK_NODES_MOST];
static uint16_t sites[WICK_SITES_MOST];
static uint16_t asked[WICK_SITES_MOST];

/* the rooms of a panel call */
static uint32_t work[WICK_WORK_ENTRIES(WICK_NODES_MOST)];
static uint16_t listed[WICK_LIST_ENTRIES(WICK_PANEL_K)];
static uint32_t lengths[WICK_LIST_ENTRIES(WICK_PANEL_K)];
static uint16_t ends[WICK_LIST_ENTRIES(WICK_PANEL_K)];
static uint16_t routes[WICK_ROUTE_ENTRIES(WICK_NODES_MOST, WICK_PANEL_K)];

#define ENTRIES(a) (sizeof(a) / sizeof(a)[0])

/* The bytes of a file; none where it can't be opened or read. */
static size_t load(const char *folder, const char *name) {
    char path[4096];
    FILE *file;
    size_t got;
    int length = snprintf(path, sizeof path, "%s/%s", folder, name);
    if (length < 0 || (size_t)length >= sizeof path) return 0;
    file = fopen(path, "rb");
    if (!file) return 0;
    got = fread(text, 1, sizeof text, file);
    if (ferror(file)) got = 0;
    fclose(file);
    return got;
}

static int refused(wick_answer a) {
    if (wick_accepted(a)) return 0;
    printf("x %u %" PRIu32 "\n", wick_number(a), wick_place(a));
    return 1;
}

static void line(uint32_t i, uint32_t count) {
    wick_answer route = wick_route(routes, ENTRIES(routes), ends, count, i + 1);
    uint32_t at = wick_offset(route), end = at + wick_size(route);
    printf("r %" PRIu32 " %u %" PRIu32, i + 1, listed[i], lengths[i]);
    for (; at < end; at++) printf(" %u", routes[at]);
    printf("\n");
}

int main(int argc, char **argv) {
    const char *folder = argc > 1 ? argv[1] : ".";
    uint32_t n, m, s, count, i, q;
    wick_answer a;

    a = wick_read_graph(text, load(folder, "map.gr"), tails, ENTRIES(tails), heads, ENTRIES(heads), weights, ENTRIES(weights));
    if (refused(a)) return 0;
    n = wick_nodes(a);
    m = wick_rows(a);

    a = wick_read_coordinates(text, load(folder, "map.co"), n, xs, ENTRIES(xs), ys, ENTRIES(ys));
    if (refused(a)) return 0;

    a = wick_read_sites(text, load(folder, "sites.ss"), n, sites, ENTRIES(sites));
    if (refused(a)) return 0;
    s = wick_rows(a);

    a = wick_read_sites(text, load(folder, "ask.ss"), n, asked, ENTRIES(asked));
    if (refused(a)) return 0;
    count = wick_rows(a);

    for (q = 0; q < count; q++) {
        a = wick_panel(tails, ENTRIES(tails), heads, ENTRIES(heads), weights, ENTRIES(weights), xs, ENTRIES(xs), ys, ENTRIES(ys),
                       sites, ENTRIES(sites), n, m, s, asked[q], work, ENTRIES(work), listed, ENTRIES(listed), lengths,
                       ENTRIES(lengths), ends, ENTRIES(ends), routes, ENTRIES(routes));
        if (refused(a)) return 0;
        printf("q %u %" PRIu32 " %" PRIu32 "\n", asked[q], wick_listed(a), wick_taken(a));
        for (i = 0; i < wick_listed(a); i++) line(i, wick_listed(a));
    }
    return 0;
}
