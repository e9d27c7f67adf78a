#include "sides.h"

#include "peer.h"

#include <stdio.h>
#include <string.h>

const struct side library = {wick_read_graph, wick_read_coordinates, wick_read_sites, wick_search, wick_panel};
const struct side peer = {peer_read_graph, peer_read_coordinates, peer_read_sites, peer_search, peer_panel};

struct ask ask_of(const struct pack *p, size_t query, size_t k) {
    return (struct ask){.n = p->n,
                        .m = p->m,
                        .s = p->s,
                        .query = query,
                        .k = k,
                        .tails = ARCS,
                        .heads = ARCS,
                        .weights = ARCS,
                        .xs = NODES,
                        .ys = NODES,
                        .sites = SITES,
                        .work = 4 * NODES + 8,
                        .listed = LIST + 4,
                        .lengths = LIST + 4,
                        .ends = LIST + 4,
                        .routes = LIST * NODES + 8};
}

uint64_t search(const struct side *side, const struct pack *p, const struct ask *a, struct rooms *to) {
    if (a->by_panel)
        return side->panel(p->tails, a->tails, p->heads, a->heads, p->weights, a->weights, p->xs, a->xs, p->ys, a->ys, p->sites, a->sites,
                           a->n, a->m, a->s, a->query, to->work, a->work, to->listed, a->listed, to->lengths, a->lengths, to->ends,
                           a->ends, to->routes, a->routes);
    return side->search(p->tails, a->tails, p->heads, a->heads, p->weights, a->weights, p->xs, a->xs, p->ys, a->ys, p->sites, a->sites,
                        a->n, a->m, a->s, a->query, a->k, to->work, a->work, to->listed, a->listed, to->lengths, a->lengths, to->ends,
                        a->ends, to->routes, a->routes);
}

/* How many calls each answer's number was given to, and how many calls differed. */
static unsigned long met[14], differences;

static void count(uint64_t of_library, uint64_t of_peer, int alike, const char *call) {
    if (of_library == of_peer && alike) {
        met[wick_number(of_library) % 14]++;
        return;
    }
    if (differences++ < 10)
        printf("%s: the library %u %d %d, the peer %u %d %d%s\n", call, wick_number(of_library), (int)wick_first(of_library),
               (int)wick_second(of_library), wick_number(of_peer), (int)wick_first(of_peer), (int)wick_second(of_peer),
               alike ? "" : ", and the buffers differ");
}

int tell(void) {
    unsigned long calls = 0;
    for (int i = 0; i < 14; i++) calls += met[i];
    printf("Alike in answer and in every entry of every buffer: %lu calls, %lu accepted; refused by number", calls, met[0]);
    for (int i = 1; i < 14; i++) printf(" %d: %lu%s", i, met[i], i < 13 ? "," : "");
    printf(". Different: %lu.\n", differences);
    return differences == 0;
}

/* What the buffers hold before a call; another value at each. */
static int filling(void) {
    static unsigned calls;
    return (int)(++calls % 255 + 1);
}

static void agree_on_search(const struct pack *p, const struct ask *a) {
    static struct rooms one, two;
    int fill = filling();
    memset(&one, fill, sizeof one);
    memset(&two, fill, sizeof two);
    uint64_t x = search(&library, p, a, &one), y = search(&peer, p, a, &two);
    count(x, y, memcmp(&one, &two, sizeof one) == 0, a->by_panel ? "panel" : "search");
}

enum kind { GRAPH, COORDINATES, SITE_LIST };

/* The tables that a reader is lent. */
struct tables {
    uint16_t tails[ARCS + 4], heads[ARCS + 4], sites[SITES + 4];
    uint32_t weights[ARCS + 4];
    int32_t xs[NODES + 4], ys[NODES + 4];
};

/* The two rooms are those of the first columns and of the last one. */
static uint64_t reading(const struct side *side, enum kind kind, const struct text *t, size_t n, size_t room, size_t last, struct tables *to) {
    if (kind == GRAPH) return side->read_graph(t->bytes, t->len, to->tails, room, to->heads, room, to->weights, last);
    if (kind == COORDINATES) return side->read_coordinates(t->bytes, t->len, n, to->xs, room, to->ys, last);
    return side->read_sites(t->bytes, t->len, n, to->sites, room);
}

static void agree_on_reading(enum kind kind, const struct text *t, size_t n, size_t room, size_t last) {
    static struct tables one, two;
    int fill = filling();
    memset(&one, fill, sizeof one);
    memset(&two, fill, sizeof two);
    uint64_t x = reading(&library, kind, t, n, room, last, &one), y = reading(&peer, kind, t, n, room, last, &two);
    count(x, y, memcmp(&one, &two, sizeof one) == 0, kind == GRAPH ? "graph" : kind == COORDINATES ? "coordinates" : "sites");
}

static const struct text *text_of(const struct pack *p, enum kind kind) {
    return kind == GRAPH ? &p->graph : kind == COORDINATES ? &p->coordinates : &p->site_list;
}

static size_t room_of(enum kind kind) { return kind == GRAPH ? ARCS : kind == COORDINATES ? NODES : SITES; }

void agree_on_pack(const struct pack *p, size_t k) {
    struct ask a;
    for (size_t query = 1; query <= p->n; query++) {
        a = ask_of(p, query, k);
        agree_on_search(p, &a);
        if (query % 16 != 0) continue;
        a.k = query % 32 == 0 ? 1 : LIST;
        agree_on_search(p, &a);
        a.by_panel = 1;
        agree_on_search(p, &a);
    }
    for (enum kind kind = GRAPH; kind <= SITE_LIST; kind++) agree_on_reading(kind, text_of(p, kind), p->n, room_of(kind), room_of(kind));
}

static size_t one_of(const size_t *values, size_t count, uint64_t *seed) { return values[draw(seed, count)]; }

#define ONE_OF(seed, ...) one_of((const size_t[]){__VA_ARGS__}, sizeof((const size_t[]){__VA_ARGS__}) / sizeof(size_t), seed)

/* A length just enough or one too few, and never more than there is. */
static size_t about(size_t wanted, size_t whole, uint64_t *seed) {
    wanted -= draw(seed, 2);
    return wanted < whole ? wanted : whole;
}

/* Shortens one of the tables and buffers that a search is lent. */
static void shorten(struct ask *a, uint64_t *seed) {
    switch (draw(seed, 11)) {
    case 0: a->tails = about(a->m, ARCS, seed); break;
    case 1: a->heads = about(a->m, ARCS, seed); break;
    case 2: a->weights = about(a->m, ARCS, seed); break;
    case 3: a->xs = about(a->n, NODES, seed); break;
    case 4: a->ys = about(a->n, NODES, seed); break;
    case 5: a->sites = about(a->s, SITES, seed); break;
    case 6: a->work = about(4 * a->n, a->work, seed); break;
    case 7: a->listed = about(a->k, a->listed, seed); break;
    case 8: a->lengths = about(a->k, a->lengths, seed); break;
    case 9: a->ends = about(a->k, a->ends, seed); break;
    default: a->routes = about(a->k * a->n, a->routes, seed);
    }
}

/* Changes one thing that a search is handed. */
static void damage(struct pack *p, struct ask *a, uint64_t *seed) {
    size_t i = draw(seed, p->m + 1) % ARCS, v = draw(seed, p->n), j = draw(seed, p->s + 1) % SITES, far = 200000000;
    int32_t *place = draw(seed, 2) ? p->xs : p->ys;
    uint16_t *end = draw(seed, 2) ? p->tails : p->heads;
    switch (draw(seed, 11)) {
    case 0: a->n = ONE_OF(seed, 0, 1, p->n - 1, NODES, NODES + 1, (size_t)-1); break;
    case 1: a->m = ONE_OF(seed, 0, p->m / 2, ARCS, ARCS + 1, (size_t)-1); break;
    case 2: a->s = ONE_OF(seed, 0, 1, p->s / 2, SITES, SITES + 1, (size_t)-1); break;
    case 3: a->query = ONE_OF(seed, 0, 1, p->n, p->n + 1, (size_t)-1); break;
    case 4: a->k = ONE_OF(seed, 0, 1, LIST, LIST + 1, (size_t)-1); break;
    case 5: shorten(a, seed); break;
    case 6: place[v] = (int32_t)ONE_OF(seed, far, far + 1, -far, -far - 1, (size_t)1 << 31); break;
    case 7: end[i] = (uint16_t)ONE_OF(seed, 0, 1, p->n, p->n + 1, 65535); break;
    case 8: p->weights[i] = (uint32_t)ONE_OF(seed, 0, 1, p->weights[i] - 1, 1000000, 1000001, (size_t)-1); break;
    case 9: p->sites[j] = (uint16_t)ONE_OF(seed, 0, 1, p->n, p->n + 1, 65535); break;
    default: p->sites[j] = p->sites[draw(seed, p->s + 1) % SITES];
    }
}

static void insert(struct text *t, size_t at, const char *bytes, size_t len) {
    if (t->len + len > TEXT + 1) return;
    memmove(t->bytes + at + len, t->bytes + at, t->len - at);
    memcpy(t->bytes + at, bytes, len);
    t->len += len;
}

static void cut(struct text *t, size_t at, size_t len) {
    memmove(t->bytes + at, t->bytes + at + len, t->len - at - len);
    t->len -= len;
}

/* Where the line that holds a position starts, and where the next one does. */
static size_t line_start(const struct text *t, size_t at) {
    while (at > 0 && t->bytes[at - 1] != '\n') at--;
    return at;
}

static size_t line_end(const struct text *t, size_t at) {
    while (at < t->len && t->bytes[at] != '\n') at++;
    return at + (at < t->len);
}

/* Changes one thing in a text: a byte, a field, or a line. */
static void damage_text(struct text *t, uint64_t *seed) {
    static const char *const words[] = {"p",    "sp",    "aux",  "co",      "ss",      "a",         "v",          "s",         "c",         "0",
                                        "1",    "-1",    "-0",   "1024",    "1025",    "4096",      "4097",       "128",       "129",       "1000000",
                                        "1000001", "-200000000", "200000001", "999999999", "1000000000", "000000007", "-", "c\r", "\n", "\r\n"};
    static const char bytes[] = " \t\r\n-+0123456789pacvs\0x";
    const char *word = words[draw(seed, sizeof words / sizeof *words)];
    size_t at = draw(seed, t->len + 1), start, end;
    if (draw(seed, 4) == 0) at = draw(seed, t->len < 30 ? t->len + 1 : 30);
    switch (draw(seed, 7)) {
    case 0: insert(t, at, &bytes[draw(seed, sizeof bytes - 1)], 1); break;
    case 1: if (at < t->len) t->bytes[at] = (uint8_t)bytes[draw(seed, sizeof bytes - 1)]; break;
    case 2: if (at < t->len) cut(t, at, 1); break;
    case 3:
        while (at < t->len && t->bytes[at] != ' ' && t->bytes[at] != '\n') at++;
        start = at;
        while (start > 0 && t->bytes[start - 1] != ' ' && t->bytes[start - 1] != '\n') start--;
        cut(t, start, at - start);
        insert(t, start, word, strlen(word));
        break;
    case 4:
        start = line_start(t, at);
        cut(t, start, line_end(t, at) - start);
        break;
    case 5: {
        char line[64];
        start = line_start(t, at);
        end = line_end(t, at);
        if (end - start > sizeof line) break;
        memcpy(line, t->bytes + start, end - start);
        insert(t, line_start(t, draw(seed, t->len + 1)), line, end - start);
        break;
    }
    default: t->len = at;
    }
}

void agree_on_damage(const struct pack *p, size_t times, uint64_t seed) {
    static struct pack bad;
    static struct text text;
    for (size_t i = 0; i < times; i++) {
        bad = *p;
        size_t query = 1 + draw(&seed, p->n), k = 1 + draw(&seed, LIST);
        struct ask a = ask_of(p, query, k);
        a.by_panel = draw(&seed, 8) == 0;
        for (size_t more = 1 + draw(&seed, 2); more > 0; more--) damage(&bad, &a, &seed);
        agree_on_search(&bad, &a);
        enum kind kind = (enum kind)draw(&seed, 3);
        size_t n = draw(&seed, 8) ? p->n : ONE_OF(&seed, 0, p->n + 1, NODES, NODES + 1, (size_t)-1);
        size_t rows = kind == GRAPH ? p->m : kind == COORDINATES ? p->n : p->s;
        size_t room = draw(&seed, 8) ? room_of(kind) : about(rows, room_of(kind), &seed);
        size_t last = draw(&seed, 8) ? room_of(kind) : about(rows, room_of(kind), &seed);
        text = *text_of(p, kind);
        for (size_t more = draw(&seed, 4); more > 0; more--) damage_text(&text, &seed);
        if (draw(&seed, 64) == 0) {
            memset(text.bytes + text.len, 'c', TEXT + 1 - text.len);
            text.len = TEXT + draw(&seed, 2);
        }
        agree_on_reading(kind, &text, n, room, last);
    }
}

void agree_on_crossings(size_t times, uint64_t seed) {
    static struct pack p;
    for (size_t i = 0; i < times; i++) {
        make_crossing(&p, &seed);
        if (i % 2 == 0) group_arcs(&p);
        for (size_t query = 1; query <= p.n; query++) {
            struct ask a = ask_of(&p, query, 1 + draw(&seed, 6));
            agree_on_search(&p, &a);
        }
        if (i % 7 != 0) continue;
        write_texts(&p, seed);
        agree_on_pack(&p, 2);
        agree_on_damage(&p, 8, seed);
    }
}
