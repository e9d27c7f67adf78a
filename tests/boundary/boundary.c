/* boundary [CALLS] [SEED]: drives the library through include/wickswarm.h with random and hostile arguments.
 *
 * What each call must answer and leave behind is worked out here from the paper, by code that shares nothing with the library: texts
 * are split and judged, tables checked, shortest lengths found by Bellman-Ford, the taking rule followed as it is written. Each lent
 * buffer lies in pages of its own between two pages that can't be touched, against one of them, and the rest of its pages holds
 * random bytes. After the call the whole of those pages is compared with what they must hold: what was there before, or that with
 * exactly the entries changed that an accepted call writes. A touched guard page ends the run as a failure.
 */
#define _DEFAULT_SOURCE
#include "wickswarm.h"

#include <inttypes.h>
#include <signal.h>
#include <stdio.h>
#include <stdlib.h>
#include <string.h>
#include <sys/mman.h>
#include <ucontext.h>
#include <unistd.h>

/* ---- chance: splitmix64 */

static uint64_t seed_now;

static uint64_t draw(void) {
    uint64_t z = (seed_now += UINT64_C(0x9E3779B97F4A7C15));
    z = (z ^ (z >> 30)) * UINT64_C(0xBF58476D1CE4E5B9);
    z = (z ^ (z >> 27)) * UINT64_C(0x94D049BB133111EB);
    return z ^ (z >> 31);
}

/* 0 to n - 1 */
static size_t below(size_t n) { return (size_t)(draw() % n); }

/* once in n */
static int once_in(size_t n) { return below(n) == 0; }

static size_t least(size_t a, size_t b) { return a < b ? a : b; }

/* ---- lent memory */

struct lent {
    uint8_t *base;   /* the pages, with a guard page on either side */
    size_t room;     /* their bytes */
    uint8_t *want;   /* what they must hold after the call */
    size_t at;       /* where the lent entries begin */
    size_t entries;  /* how many are lent */
    size_t size;     /* the bytes of one */
    const char *name;
};

enum { TEXT, TAILS, HEADS, WEIGHTS, XS, YS, SITES, WORK, LISTED, LENGTHS, ENDS, ROUTES, BUFFERS };

static const char *const names[BUFFERS] = {"text", "tails", "heads", "weights", "xs", "ys", "sites", "work", "listed", "lengths", "ends", "routes"};
static const size_t sizes[BUFFERS] = {1, 2, 2, 4, 4, 4, 2, 4, 2, 4, 2, 2};

/* one page each for most calls, and pages enough for the largest */
static struct lent small[BUFFERS], large[BUFFERS];
static const size_t most[BUFFERS] = {WICK_TEXT_MOST + 64, 4200, 4200, 4200, 1100, 1100, 200, 4200, 64, 64, 64, 33000};
static struct lent *lent;

static size_t page;

static void map(struct lent *b, int i, size_t bytes) {
    uint8_t *all;
    b->room = (bytes + page - 1) / page * page;
    all = mmap(NULL, b->room + 2 * page, PROT_NONE, MAP_PRIVATE | MAP_ANONYMOUS, -1, 0);
    b->want = malloc(b->room);
    if (all == MAP_FAILED || !b->want || mprotect(all + page, b->room, PROT_READ | PROT_WRITE)) {
        perror("boundary");
        exit(2);
    }
    b->base = all + page;
    b->size = sizes[i];
    b->name = names[i];
}

/* Random bytes everywhere, and that many entries against one of the guard pages. */
static void lay(int i, size_t entries) {
    struct lent *b = &lent[i];
    size_t j;
    if (entries * b->size > b->room) {
        fprintf(stderr, "boundary: %zu entries do not fit the pages of %s\n", entries, b->name);
        exit(2);
    }
    for (j = 0; j < b->room; j += 8) {
        uint64_t r = draw();
        memcpy(b->base + j, &r, 8);
    }
    b->entries = entries;
    b->at = once_in(2) ? 0 : b->room - entries * b->size;
}

/* What is there before the call must be there after it, unless a want says otherwise. */
static void keep(int i) { memcpy(lent[i].want, lent[i].base, lent[i].room); }

/* the lent entries; those of an empty buffer at no address now and then */
static void *entries(int i) { return lent[i].entries == 0 && once_in(2) ? NULL : lent[i].base + lent[i].at; }

static void put16(int i, size_t j, uint16_t v) { memcpy(lent[i].base + lent[i].at + 2 * j, &v, 2); }
static void put32(int i, size_t j, uint32_t v) { memcpy(lent[i].base + lent[i].at + 4 * j, &v, 4); }
static void want16(int i, size_t j, uint16_t v) { memcpy(lent[i].want + lent[i].at + 2 * j, &v, 2); }
static void want32(int i, size_t j, uint32_t v) { memcpy(lent[i].want + lent[i].at + 4 * j, &v, 4); }
static uint16_t get16(int i, size_t j) {
    uint16_t v;
    memcpy(&v, lent[i].base + lent[i].at + 2 * j, 2);
    return v;
}
static uint32_t get32(int i, size_t j) {
    uint32_t v;
    memcpy(&v, lent[i].base + lent[i].at + 4 * j, 4);
    return v;
}
static int32_t gets32(int i, size_t j) { return (int32_t)get32(i, j); }

/* ---- the tally */

enum { GRAPH, COORDINATES, SITE_TEXT, SEARCH, PANEL, ROUTE, KINDS };

static const char *const calls[KINDS] = {"wick_read_graph", "wick_read_coordinates", "wick_read_sites", "wick_search", "wick_panel", "wick_route"};
/* the refusals that each call can give, as bits */
static const unsigned can[KINDS] = {0x2FE, 0x3FE, 0x3BE, 0x3F70, 0x2F70, 0};

static uint64_t seen[KINDS][16];
static uint64_t done, failed;
static uint64_t first_seed;
static int kind_now;

static void fail(const char *what, uint64_t got, uint64_t want) {
    failed++;
    if (failed <= 20) printf("FAILED: call %" PRIu64 " (%s, seed %" PRIu64 "): %s: %" PRIx64 ", and it should be %" PRIx64 "\n", done + 1, calls[kind_now], first_seed, what, got, want);
}

static void hurt(int signal_number) {
    static char line[256];
    int n = snprintf(line, sizeof line, "FAILED: call %" PRIu64 " (%s, seed %" PRIu64 "): signal %d: memory was touched that was not lent\n%" PRIu64 " passed, %" PRIu64 " failed\n",
                     done + 1, calls[kind_now], first_seed, signal_number, done - failed, failed + 1);
    fflush(stdout);
    if (n > 0 && write(1, line, (size_t)n) < 0) _exit(3);
    _exit(1);
}

static uint64_t code(unsigned number, size_t first, size_t second) { return (uint64_t)number * 72057594037927936u + (uint64_t)first * 268435456u + second; }

/* The call is over: its answer, and every buffer that it was lent, whole. */
static void judge(uint64_t got, uint64_t want, const int *used, size_t count) {
    uint64_t before = failed;
    size_t i;
    if (got != want) fail("answer", got, want);
    if (code(wick_number(got), wick_first(got), wick_second(got)) != got) fail("parts", got, got);
    for (i = 0; i < count; i++) {
        struct lent *b = &lent[used[i]];
        if (memcmp(b->base, b->want, b->room)) {
            size_t j = 0;
            while (b->base[j] == b->want[j]) j++;
            fail(b->name, j, b->at);
        }
    }
    seen[kind_now][wick_number(want)]++;
    done++;
    if (failed > before) failed = before + 1;
}

/* ---- texts */

/* a text in the making: lines, each without its end */
#define LINES 4400
#define WIDE 96
static char line[LINES][WIDE];
static size_t lines;
static uint8_t made[WICK_TEXT_MOST + 64];
static size_t made_len;

static void blank(char *to) {
    size_t n = once_in(12) ? 1 + below(3) : 1;
    while (n--) strcat(to, once_in(8) ? "\t" : " ");
}

static void digits(char *to, long v) {
    char t[40];
    if (v >= 0 && v < 1000000 && once_in(24)) snprintf(t, sizeof t, "%0*ld", (int)(1 + below(9)), v);
    else snprintf(t, sizeof t, "%ld", v);
    strcat(to, t);
}

static char *next_line(void) {
    if (lines == LINES) {
        fprintf(stderr, "boundary: too many lines\n");
        exit(2);
    }
    line[lines][0] = 0;
    return line[lines++];
}

/* a word and numbers, with blanks between, and now and then before and after */
static void say(const char *words, const long *numbers, size_t count) {
    char *to = next_line();
    size_t i;
    if (once_in(40)) blank(to);
    strcat(to, words);
    for (i = 0; i < count; i++) {
        blank(to);
        digits(to, numbers[i]);
    }
    if (once_in(40)) blank(to);
}

static void aside(void) {
    static const char *const asides[] = {"", "c", "c a comment", "c\tp sp 3 3", "   ", " \t", " c", "c c"};
    strcpy(next_line(), asides[below(8)]);
}

/* numbers and words that a line may be spoilt with */
static const char *const odd[] = {"0", "1", "-0", "-1", "+1", "1024", "1025", "4096", "4097", "128", "129", "999999999", "1000000000", "0000000001", "000000001", "1000000", "1000001",
                                  "200000000", "200000001", "-200000000", "-200000001", "--1", "-", "1.0", "0x1", "p", "sp", "aux", "co", "ss", "a", "v", "s", "c", "P", "pp", "\r", "\x80", "1 ", "x"};

/* one field of a line, from its number, replaced */
static void spoil(char *l) {
    char t[WIDE];
    size_t fields = 0, pick, i, at = 0;
    int in = 0;
    for (i = 0; l[i]; i++) {
        int ink = l[i] != ' ' && l[i] != '\t';
        if (ink && !in) fields++;
        in = ink;
    }
    if (fields == 0) return;
    pick = 1 + below(fields);
    in = 0;
    fields = 0;
    t[0] = 0;
    for (i = 0; l[i]; i++) {
        int ink = l[i] != ' ' && l[i] != '\t';
        if (ink && !in) {
            fields++;
            if (fields == pick) {
                const char *w = odd[below(sizeof odd / sizeof odd[0])];
                memcpy(t + at, w, strlen(w));
                at += strlen(w);
            }
        }
        in = ink;
        if (!(ink && fields == pick)) t[at++] = l[i];
        if (at > WIDE - 24) break;
    }
    t[at] = 0;
    strcpy(l, t);
}

static void harm_lines(void) {
    size_t a, b, i;
    if (lines == 0) return;
    a = below(lines);
    b = below(lines);
    switch (below(5)) {
    case 0: spoil(line[a]); break;
    case 1: spoil(line[a]); break;
    case 2: /* one line more */
        if (lines < LINES) strcpy(line[lines++], line[a]);
        break;
    case 3: /* one line less */
        lines--;
        memmove(line[a], line[a + 1], (lines - a) * WIDE);
        break;
    default: /* two lines change places */
        for (i = 0; i < WIDE; i++) {
            char t = line[a][i];
            line[a][i] = line[b][i];
            line[b][i] = t;
        }
    }
}

static void join_lines(void) {
    size_t i, crs = below(3);
    made_len = 0;
    for (i = 0; i < lines; i++) {
        size_t n = strlen(line[i]);
        if (made_len + n + 2 > sizeof made) break;
        memcpy(made + made_len, line[i], n);
        made_len += n;
        if (i + 1 < lines || !once_in(3)) {
            if (crs == 1 || (crs == 2 && once_in(8))) made[made_len++] = '\r';
            made[made_len++] = '\n';
        } else if (crs == 1) {
            made[made_len++] = '\r';
        }
    }
}

static void harm_bytes(void) {
    static const char bytes[] = "\n\r\t  -+0123456789psauxcov";
    size_t at = made_len ? below(made_len) : 0;
    uint8_t b = once_in(3) ? (uint8_t)draw() : (uint8_t)bytes[below(sizeof bytes - 1)];
    switch (below(4)) {
    case 0:
        if (made_len) made[at] = b;
        break;
    case 1:
        if (made_len) {
            memmove(made + at, made + at + 1, made_len - at - 1);
            made_len--;
        }
        break;
    case 2:
        if (made_len < sizeof made) {
            memmove(made + at + 1, made + at, made_len - at);
            made[at] = b;
            made_len++;
        }
        break;
    default:
        if (once_in(4)) made_len = at;
    }
}

/* A text of just that many bytes; now and then of as many lines, the last of them not permitted. */
static void stretch_to(size_t bytes) {
    if (once_in(3)) {
        memset(made, '\n', bytes);
        made[bytes - 1] = 'x';
        made_len = bytes;
        return;
    }
    if (made_len > bytes) made_len = bytes;
    if (made_len && made[made_len - 1] != '\n' && made_len < bytes) made[made_len++] = '\n';
    while (made_len < bytes) made[made_len++] = once_in(60) ? '\n' : ' ';
}

/* a count that its problem line is to say: the true one, mostly */
static long told(size_t count) {
    static const long odds[] = {0, 1, 128, 129, 1024, 1025, 4096, 4097, 999999999};
    if (once_in(14)) return odds[below(9)];
    if (once_in(14)) return (long)count + 1;
    if (once_in(14) && count) return (long)count - 1;
    return (long)count;
}

static long node_of(size_t n) { return once_in(90) ? (once_in(2) ? 0 : (long)n + 1) : (long)(1 + below(n)); }

static long coordinate(void) {
    static const long edges[] = {200000000, -200000000, 200000001, -200000001, 999999999, -999999999};
    if (once_in(200)) return edges[below(6)];
    if (once_in(40)) return edges[below(2)];
    return (long)below(2001) - 1000;
}

/* A text of that kind: right as far as it goes, mostly, and then harmed, often. */
static void write_text(int kind, size_t n, size_t rows) {
    static size_t order[WICK_NODES_MOST + 1];
    size_t i;
    long v[4];
    lines = 0;
    if (once_in(6)) aside();
    if (kind == GRAPH) {
        v[0] = told(n);
        v[1] = told(rows);
        if (v[0] > 0 && v[0] < (long)n) n = (size_t)v[0];
        say("p sp", v, 2);
        for (i = 0; i < rows; i++) {
            if (once_in(30)) aside();
            v[0] = node_of(n);
            v[1] = node_of(n);
            v[2] = once_in(90) ? (once_in(2) ? 0 : 1000001) : once_in(10) ? 1000000 : (long)(1 + below(99));
            say("a", v, 3);
        }
    } else {
        v[0] = told(rows);
        say(kind == COORDINATES ? "p aux sp co" : "p aux sp ss", v, 1);
        for (i = 0; i < n; i++) order[i] = i + 1;
        for (i = n; i > 1; i--) {
            size_t j = below(i), t = order[i - 1];
            order[i - 1] = order[j];
            order[j] = t;
        }
        for (i = 0; i < rows; i++) {
            if (once_in(30)) aside();
            v[0] = once_in(90) ? node_of(n) : (long)order[i % n];
            v[1] = coordinate();
            v[2] = coordinate();
            say(kind == COORDINATES ? "v" : "s", v, kind == COORDINATES ? 3 : 1);
        }
    }
    if (once_in(6)) aside();
    if (once_in(3)) {
        size_t h = 1 + below(2);
        while (h--) harm_lines();
    }
    join_lines();
    if (once_in(5)) {
        size_t h = 1 + below(3);
        while (h--) harm_bytes();
    }
}

/* ---- what a reader must answer */

struct field {
    const uint8_t *at;
    size_t len;
};

static int is_word(struct field f, const char *word) { return f.len == strlen(word) && memcmp(f.at, word, f.len) == 0; }

/* 1 to 9 digits; -1 where it is no number */
static long number_of(struct field f) {
    long v = 0;
    size_t i;
    if (f.len < 1 || f.len > 9) return -1;
    for (i = 0; i < f.len; i++) {
        if (f.at[i] < '0' || f.at[i] > '9') return -1;
        v = v * 10 + (f.at[i] - '0');
    }
    return v;
}

static int signed_of(struct field f, long *v) {
    int minus = f.len > 0 && f.at[0] == '-';
    if (minus) {
        f.at++;
        f.len--;
    }
    *v = number_of(f);
    if (*v < 0) return 0;
    if (minus) *v = -*v;
    return 1;
}

struct reading {
    unsigned number;
    size_t place, nodes, rows;
    size_t count;
    long entry[WICK_ARCS_MOST][3];
};

static struct reading read_as;

/* the reading ends */
static int refuse(unsigned number, size_t place) {
    read_as.number = number;
    read_as.place = place;
    return 0;
}

/* a problem line's counts: 1 where it has the form */
static int problem_form(int kind, struct field *f, size_t fields, size_t given, long *n, long *rows) {
    if (kind == GRAPH) {
        if (fields != 4 || !is_word(f[1], "sp")) return 0;
        *n = number_of(f[2]);
        *rows = number_of(f[3]);
        return *n >= 0 && *rows >= 0;
    }
    if (fields != 5 || !is_word(f[1], "aux") || !is_word(f[2], "sp") || !is_word(f[3], kind == COORDINATES ? "co" : "ss")) return 0;
    *rows = number_of(f[4]);
    *n = kind == COORDINATES ? *rows : (long)given;
    return *rows >= 0;
}

static int data_form(int kind, struct field *f, size_t fields, long *v) {
    v[0] = v[1] = v[2] = 0;
    if (kind == GRAPH) {
        if (fields != 4 || !is_word(f[0], "a")) return 0;
        v[0] = number_of(f[1]);
        v[1] = number_of(f[2]);
        v[2] = number_of(f[3]);
        return v[0] >= 0 && v[1] >= 0 && v[2] >= 0;
    }
    if (kind == COORDINATES) {
        if (fields != 4 || !is_word(f[0], "v")) return 0;
        v[0] = number_of(f[1]);
        return v[0] >= 0 && signed_of(f[2], &v[1]) && signed_of(f[3], &v[2]);
    }
    if (fields != 2 || !is_word(f[0], "s")) return 0;
    v[0] = number_of(f[1]);
    return v[0] >= 0;
}

static int far(long c) { return c < -WICK_COORDINATE_MOST || c > WICK_COORDINATE_MOST; }

/* one entry's 5, 6, 8, or 0 */
static unsigned entry_fault(int kind, const long *v, long n) {
    size_t i;
    if (v[0] < 1 || v[0] > n) return 5;
    if (kind == GRAPH) {
        if (v[1] < 1 || v[1] > n) return 5;
        return v[2] < 1 || v[2] > WICK_WEIGHT_MOST ? 6 : 0;
    }
    if (kind == COORDINATES && (far(v[1]) || far(v[2]))) return 6;
    for (i = 0; i < read_as.count; i++)
        if (read_as.entry[i][0] == v[0]) return 8;
    return 0;
}

/* one line that is not empty and no comment; 0 where the reading ends */
static int read_line(int kind, struct field *f, size_t fields, size_t given, size_t room, size_t at, int *begun) {
    if (is_word(f[0], "p")) {
        long n, rows;
        if (!problem_form(kind, f, fields, given, &n, &rows)) return refuse(2, at);
        if (*begun) return refuse(3, at);
        if (n < 1 || n > WICK_NODES_MOST) return refuse(4, at);
        if (kind == COORDINATES && n != (long)given) return refuse(4, at);
        if (rows > (kind == GRAPH ? WICK_ARCS_MOST : kind == COORDINATES ? WICK_NODES_MOST : WICK_SITES_MOST)) return refuse(4, at);
        if ((size_t)rows > room) return refuse(9, at);
        read_as.nodes = (size_t)n;
        read_as.rows = (size_t)rows;
        *begun = 1;
    } else {
        long v[3];
        unsigned fault;
        if (!data_form(kind, f, fields, v)) return refuse(2, at);
        if (!*begun) return refuse(3, at);
        if (read_as.count == read_as.rows) return refuse(7, at);
        fault = entry_fault(kind, v, (long)read_as.nodes);
        if (fault) return refuse(fault, at);
        memcpy(read_as.entry[read_as.count++], v, sizeof v);
    }
    return 1;
}

static void read_text(int kind, size_t given, size_t room) {
    size_t at = 0, number = 0;
    int begun = 0;
    read_as.number = 0;
    read_as.place = read_as.nodes = read_as.rows = read_as.count = 0;
    if (made_len > WICK_TEXT_MOST) {
        refuse(1, 0);
        return;
    }
    if (kind != GRAPH && (given < 1 || given > WICK_NODES_MOST)) {
        refuse(4, 0);
        return;
    }
    while (at < made_len) {
        struct field f[6];
        size_t end = at, stop, fields = 0, i;
        while (end < made_len && made[end] != '\n') end++;
        stop = end > at && made[end - 1] == '\r' ? end - 1 : end;
        number++;
        for (i = at; i < stop;) {
            size_t from;
            while (i < stop && (made[i] == ' ' || made[i] == '\t')) i++;
            from = i;
            while (i < stop && made[i] != ' ' && made[i] != '\t') i++;
            if (i > from) {
                if (fields < 6) {
                    f[fields].at = made + from;
                    f[fields].len = i - from;
                }
                fields++;
            }
        }
        at = end + 1;
        if (fields == 0 || is_word(f[0], "c")) continue;
        if (!read_line(kind, f, fields, given, room, number, &begun)) return;
    }
    if (!begun) refuse(3, 0);
    else if (read_as.count != read_as.rows) refuse(7, 0);
}

static uint64_t reading_code(void) { return read_as.number ? code(read_as.number, read_as.place, 0) : code(0, read_as.nodes, read_as.rows); }

/* ---- reader calls */

static size_t table_for(size_t rows, size_t room) {
    if (once_in(12)) return below(rows + 1);
    if (once_in(40)) return 0;
    return once_in(3) ? rows : least(rows + below(9), room);
}

static size_t nodes_for(size_t n) {
    static const size_t odds[] = {0, 1, 1024, 1025, 65536, (size_t)-1};
    if (once_in(16)) return odds[below(6)];
    if (once_in(16)) return n + 1;
    if (once_in(40)) return n + 65536;
    return n;
}

static void lay_text(void) {
    lay(TEXT, made_len);
    memcpy(lent[TEXT].base + lent[TEXT].at, made, made_len);
    keep(TEXT);
}

static void call_reader(int kind) {
    size_t n, rows, given = 0, i;
    int big = once_in(600);
    uint64_t got;
    kind_now = kind;
    lent = big ? large : small;
    if (big) {
        n = kind == GRAPH ? 1 + below(200) : 1 + below(WICK_NODES_MOST);
        rows = kind == GRAPH ? below(WICK_ARCS_MOST + 1) : kind == COORDINATES ? n : below(least(n, WICK_SITES_MOST) + 1);
    } else {
        n = 1 + below(once_in(4) ? 40 : 8);
        rows = kind == GRAPH ? below(3 * n + 1) : kind == COORDINATES ? n : below(n + 1);
    }
    write_text(kind, n, rows);
    if (once_in(900)) {
        lent = large;
        stretch_to(WICK_TEXT_MOST + below(3));
    } else if (made_len > small[TEXT].room) {
        lent = large;
    }
    if (once_in(300)) made_len = 0;
    lay_text();
    if (kind == GRAPH) {
        int used[] = {TEXT, TAILS, HEADS, WEIGHTS};
        for (i = 1; i < 4; i++) {
            lay(used[i], table_for(rows, lent[used[i]].room / sizes[used[i]]));
            keep(used[i]);
        }
        read_text(kind, 0, least(lent[TAILS].entries, least(lent[HEADS].entries, lent[WEIGHTS].entries)));
        if (!read_as.number)
            for (i = 0; i < read_as.rows; i++) {
                want16(TAILS, i, (uint16_t)read_as.entry[i][0]);
                want16(HEADS, i, (uint16_t)read_as.entry[i][1]);
                want32(WEIGHTS, i, (uint32_t)read_as.entry[i][2]);
            }
        got = wick_read_graph(entries(TEXT), made_len, entries(TAILS), lent[TAILS].entries, entries(HEADS), lent[HEADS].entries, entries(WEIGHTS), lent[WEIGHTS].entries);
        judge(got, reading_code(), used, 4);
    } else if (kind == COORDINATES) {
        int used[] = {TEXT, XS, YS};
        given = nodes_for(n);
        for (i = 1; i < 3; i++) {
            lay(used[i], table_for(rows, lent[used[i]].room / sizes[used[i]]));
            keep(used[i]);
        }
        read_text(kind, given, least(lent[XS].entries, lent[YS].entries));
        if (!read_as.number)
            for (i = 0; i < read_as.rows; i++) {
                want32(XS, (size_t)read_as.entry[i][0] - 1, (uint32_t)(int32_t)read_as.entry[i][1]);
                want32(YS, (size_t)read_as.entry[i][0] - 1, (uint32_t)(int32_t)read_as.entry[i][2]);
            }
        got = wick_read_coordinates(entries(TEXT), made_len, given, entries(XS), lent[XS].entries, entries(YS), lent[YS].entries);
        judge(got, reading_code(), used, 3);
    } else {
        int used[] = {TEXT, SITES};
        given = nodes_for(n);
        lay(SITES, table_for(rows, lent[SITES].room / 2));
        keep(SITES);
        read_text(kind, given, lent[SITES].entries);
        if (!read_as.number)
            for (i = 0; i < read_as.rows; i++) want16(SITES, i, (uint16_t)read_as.entry[i][0]);
        got = wick_read_sites(entries(TEXT), made_len, given, entries(SITES), lent[SITES].entries);
        judge(got, reading_code(), used, 2);
    }
}

/* ---- a region */

static size_t n, m, s, query, k;

static uint64_t squares(size_t u, size_t v) {
    int64_t dx = (int64_t)gets32(XS, u) - gets32(XS, v), dy = (int64_t)gets32(YS, u) - gets32(YS, v);
    return (uint64_t)(dx * dx) + (uint64_t)(dy * dy);
}

/* the largest whole number whose square is at most a, bit by bit */
static uint64_t root(uint64_t a) {
    uint64_t r = 0, bit = UINT64_C(1) << 31;
    for (; bit; bit >>= 1)
        if ((r | bit) * (r | bit) <= a) r |= bit;
    return r;
}

/* the least weight that an arc from u to v may have */
static uint64_t least_weight(size_t u, size_t v) {
    uint64_t d = squares(u, v), r = root(d);
    if (r * r < d) r++;
    return r ? r : 1;
}

static size_t wide_of(int i, size_t need) {
    size_t room = lent[i].room / sizes[i];
    return once_in(2) ? need : least(need + below(12), room);
}

/* tables and rooms of a region that passes the checks */
static void make_region(int big) {
    size_t i;
    int32_t spread = once_in(10) ? 400000001 : once_in(3) ? 7 : 61;
    lent = big ? large : small;
    n = big ? 1 + below(WICK_NODES_MOST) : 1 + below(once_in(4) ? 28 : 9);
    m = big ? below(WICK_ARCS_MOST + 1) : below(4 * n + 1);
    s = below(least(n, big ? WICK_SITES_MOST : 9) + 1);
    query = 1 + below(n);
    k = kind_now == PANEL ? WICK_PANEL_K : 1 + below(once_in(3) ? 32 : 6);
    if (big) spread = 400;
    lay(XS, wide_of(XS, n));
    lay(YS, wide_of(YS, n));
    for (i = 0; i < n; i++) {
        put32(XS, i, (uint32_t)((int32_t)below((size_t)spread) - spread / 2));
        put32(YS, i, (uint32_t)((int32_t)below((size_t)spread) - spread / 2));
    }
    lay(TAILS, wide_of(TAILS, m));
    lay(HEADS, wide_of(HEADS, m));
    lay(WEIGHTS, wide_of(WEIGHTS, m));
    for (i = 0; i < m; i++) {
        size_t u = below(n), v = big ? (u + 1 + below(40)) % n : below(n);
        uint64_t w = least_weight(u, v);
        if (w > WICK_WEIGHT_MOST) {
            v = u;
            w = 1;
        }
        w += once_in(2) ? 0 : below(once_in(6) ? 60 : 3);
        if (w > WICK_WEIGHT_MOST) w = WICK_WEIGHT_MOST;
        put16(TAILS, i, (uint16_t)(u + 1));
        put16(HEADS, i, (uint16_t)(v + 1));
        put32(WEIGHTS, i, (uint32_t)w);
    }
    lay(SITES, wide_of(SITES, s));
    for (i = 0; i < s; i++) {
        size_t v, j;
        do {
            v = 1 + below(n);
            for (j = 0; j < i && get16(SITES, j) != v; j++) {}
        } while (j < i);
        put16(SITES, i, (uint16_t)v);
    }
    lay(WORK, wide_of(WORK, WICK_WORK_ENTRIES(n)));
    lay(LISTED, wide_of(LISTED, k));
    lay(LENGTHS, wide_of(LENGTHS, k));
    lay(ENDS, wide_of(ENDS, k));
    lay(ROUTES, wide_of(ROUTES, WICK_ROUTE_ENTRIES(n, k)));
}

/* fewer entries of a buffer are lent, with the same first ones */
static void shorten(int i, size_t entries_left) {
    struct lent *b = &lent[i];
    if (entries_left >= b->entries) return;
    if (b->at) {
        size_t at = b->room - entries_left * b->size;
        memmove(b->base + at, b->base + b->at, entries_left * b->size);
        b->at = at;
    }
    b->entries = entries_left;
}

static void harm_region(void) {
    static const size_t far_off[] = {0, 1025, 4097, 129, 65536, (size_t)1 << 32, (size_t)-1, 1024, 4096, 128};
    static const uint32_t values[] = {200000001u, (uint32_t)-200000001, 0x80000000u, 0x7FFFFFFFu};
    static const uint32_t weights[] = {0, 1000001, 0xFFFFFFFFu, 65536u * 16u};
    static const int tables[] = {TAILS, HEADS, WEIGHTS, XS, YS, SITES, WORK, LISTED, LENGTHS, ENDS, ROUTES};
    size_t needs[] = {m, m, m, n, n, s, WICK_WORK_ENTRIES(n), k, k, k, WICK_ROUTE_ENTRIES(n, k)};
    size_t i, j;
    switch (below(13)) {
    case 0: n = once_in(3) ? n + 1 : far_off[below(10)]; break;
    case 1: m = once_in(3) ? m + 1 : far_off[below(10)]; break;
    case 2: s = once_in(3) ? s + 1 : far_off[below(10)]; break;
    case 3:
    case 4:
        i = below(11);
        if (needs[i] > 0 && needs[i] <= lent[tables[i]].entries) shorten(tables[i], once_in(2) ? needs[i] - 1 : below(needs[i]));
        break;
    case 5: query = once_in(3) ? n + 1 : once_in(2) ? query + 65536 : far_off[below(10)]; break;
    case 6: k = once_in(3) ? 33 : once_in(2) ? k + 256 : far_off[below(10)]; break;
    case 7:
        i = once_in(2) ? XS : YS;
        if (lent[i].entries) put32((int)i, below(lent[i].entries), values[below(4)]);
        break;
    case 8:
        i = once_in(2) ? TAILS : HEADS;
        if (lent[i].entries) put16((int)i, below(lent[i].entries), once_in(2) ? 0 : once_in(2) ? (uint16_t)(n + 1) : 65535);
        break;
    case 9:
        if (lent[WEIGHTS].entries) put32(WEIGHTS, below(lent[WEIGHTS].entries), weights[below(4)]);
        break;
    case 10:
        if (lent[WEIGHTS].entries && lent[TAILS].entries && lent[HEADS].entries && m) {
            j = below(least(m, least(lent[WEIGHTS].entries, least(lent[TAILS].entries, lent[HEADS].entries))));
            i = get32(WEIGHTS, j);
            put32(WEIGHTS, j, (uint32_t)(once_in(2) || i < 2 ? i - 1 : 1 + below(i)));
        }
        break;
    case 11:
        if (lent[SITES].entries) put16(SITES, below(lent[SITES].entries), once_in(2) ? 0 : once_in(2) ? (uint16_t)(n + 1) : 65535);
        break;
    default:
        if (lent[SITES].entries > 1) put16(SITES, below(lent[SITES].entries), get16(SITES, below(lent[SITES].entries)));
    }
}

/* ---- what a search must answer */

static struct {
    unsigned number;
    size_t place;
} verdict;

static int deny(unsigned number, size_t place) {
    verdict.number = number;
    verdict.place = place;
    return number == 0;
}

static int no_coordinate(int32_t c) { return c < -WICK_COORDINATE_MOST || c > WICK_COORDINATE_MOST; }

/* whether the tables and rooms pass the checks; where they don't, the first that fails */
static int inspect(void) {
    size_t i, j;
    if (n < 1 || n > WICK_NODES_MOST || m > WICK_ARCS_MOST || s > WICK_SITES_MOST) return deny(4, 0);
    if (lent[TAILS].entries < m || lent[HEADS].entries < m || lent[WEIGHTS].entries < m || lent[XS].entries < n || lent[YS].entries < n || lent[SITES].entries < s) return deny(9, 0);
    if (query < 1 || query > n) return deny(11, 0);
    if (k < 1 || k > WICK_K_MOST) return deny(12, 0);
    if (lent[WORK].entries < 4 * n || lent[LISTED].entries < k || lent[LENGTHS].entries < k || lent[ENDS].entries < k || lent[ROUTES].entries < k * n) return deny(13, 0);
    for (i = 0; i < n; i++)
        if (no_coordinate(gets32(XS, i)) || no_coordinate(gets32(YS, i))) return deny(6, i + 1);
    for (i = 0; i < m; i++) {
        size_t u = get16(TAILS, i), v = get16(HEADS, i);
        uint64_t w = get32(WEIGHTS, i);
        if (u < 1 || u > n || v < 1 || v > n) return deny(5, i + 1);
        if (w < 1 || w > WICK_WEIGHT_MOST) return deny(6, i + 1);
        if (w * w < squares(u - 1, v - 1)) return deny(10, i + 1);
    }
    for (i = 0; i < s; i++) {
        size_t v = get16(SITES, i);
        if (v < 1 || v > n) return deny(5, i + 1);
        for (j = 0; j < i; j++)
            if (get16(SITES, j) == v) return deny(8, i + 1);
    }
    return deny(0, 0);
}

#define UNREACHED UINT64_MAX
static uint64_t shortest[WICK_NODES_MOST];
static uint8_t is_site[WICK_NODES_MOST];
static uint64_t line_to[WICK_NODES_MOST][WICK_SITES_MOST];

/* shortest lengths, by Bellman-Ford */
static void measure(void) {
    size_t i;
    int again = 1;
    for (i = 0; i < n; i++) shortest[i] = UNREACHED;
    shortest[query - 1] = 0;
    while (again) {
        again = 0;
        for (i = 0; i < m; i++) {
            size_t u = get16(TAILS, i) - 1u, v = get16(HEADS, i) - 1u;
            uint64_t w = get32(WEIGHTS, i);
            if (shortest[u] != UNREACHED && shortest[u] + w < shortest[v]) {
                shortest[v] = shortest[u] + w;
                again = 1;
            }
        }
    }
}

/* The taken count: the taking rule as it is written, every total anew at each step. */
static size_t count_taken(void) {
    static uint64_t best[WICK_NODES_MOST];
    static uint8_t taken[WICK_NODES_MOST];
    size_t i, j, sites_taken = 0, count = 0;
    for (i = 0; i < n; i++) {
        best[i] = UNREACHED;
        taken[i] = 0;
        for (j = 0; j < s; j++) line_to[i][j] = root(squares(i, get16(SITES, j) - 1u));
    }
    best[query - 1] = 0;
    while (sites_taken < k && sites_taken < s) {
        size_t u = n;
        uint64_t least_total = 0;
        for (i = 0; i < n; i++) {
            uint64_t total, aim = UNREACHED;
            if (taken[i] || best[i] == UNREACHED) continue;
            for (j = 0; j < s; j++)
                if (!taken[get16(SITES, j) - 1] && line_to[i][j] < aim) aim = line_to[i][j];
            total = best[i] + aim;
            if (u == n || total < least_total || (total == least_total && is_site[u] && !is_site[i])) {
                u = i;
                least_total = total;
            }
        }
        if (u == n) break;
        taken[u] = 1;
        count++;
        sites_taken += is_site[u];
        for (i = 0; i < m; i++)
            if (get16(TAILS, i) == u + 1) {
                size_t v = get16(HEADS, i) - 1u;
                uint64_t d = best[u] + get32(WEIGHTS, i);
                if (!taken[v] && d < best[v]) best[v] = d;
            }
    }
    return count;
}

/* the route to a node, backwards: the lowest predecessor on a shortest way at each step; its nodes, and how many */
static size_t way_to(size_t v, size_t *way) {
    size_t count = 0;
    way[count++] = v;
    while (v != query - 1) {
        size_t i, u = n;
        for (i = 0; i < m; i++) {
            size_t t = get16(TAILS, i) - 1u;
            if (get16(HEADS, i) == v + 1 && shortest[t] != UNREACHED && shortest[t] + get32(WEIGHTS, i) == shortest[v] && t < u) u = t;
        }
        v = u;
        way[count++] = v;
    }
    return count;
}

/* what an accepted search leaves in the rooms; its answer */
static uint64_t answer_region(void) {
    static size_t way[WICK_NODES_MOST + 1];
    size_t i, listed = 0, used = 0, taken;
    memset(is_site, 0, n);
    for (i = 0; i < s; i++) is_site[get16(SITES, i) - 1] = 1;
    measure();
    taken = count_taken();
    for (i = 0; i < 4 * n; i++) want32(WORK, i, 0);
    while (listed < k) {
        static uint8_t gone[WICK_NODES_MOST];
        size_t v = n, w;
        if (listed == 0) memset(gone, 0, n);
        for (i = 0; i < n; i++)
            if (is_site[i] && !gone[i] && shortest[i] != UNREACHED && (v == n || shortest[i] < shortest[v])) v = i;
        if (v == n) break;
        gone[v] = 1;
        w = way_to(v, way);
        while (w) want16(ROUTES, used++, (uint16_t)(way[--w] + 1));
        want16(LISTED, listed, (uint16_t)(v + 1));
        want32(LENGTHS, listed, (uint32_t)shortest[v]);
        want16(ENDS, listed, (uint16_t)used);
        listed++;
    }
    return code(0, listed, taken);
}

/* ---- search calls */

static uint64_t stretch_code(size_t rank) {
    size_t a, e;
    if (rank < 1 || rank > lent[ENDS].entries) return 0;
    a = rank == 1 ? 0 : get16(ENDS, rank - 2);
    e = get16(ENDS, rank - 1);
    if (a >= e || e > lent[ROUTES].entries) return 0;
    return code(0, a, e - a);
}

static void call_route(size_t rank) {
    static const int used[] = {ROUTES, ENDS};
    uint64_t got;
    kind_now = ROUTE;
    got = wick_route(entries(ROUTES), lent[ROUTES].entries, entries(ENDS), lent[ENDS].entries, rank);
    judge(got, stretch_code(rank), used, 2);
}

static void call_search(int kind) {
    static const int used[] = {TAILS, HEADS, WEIGHTS, XS, YS, SITES, WORK, LISTED, LENGTHS, ENDS, ROUTES};
    uint64_t got, want;
    size_t i, rank;
    kind_now = kind;
    make_region(once_in(400));
    if (once_in(2)) {
        size_t h = 1 + (once_in(3) ? 1 + below(3) : 0);
        while (h--) harm_region();
    }
    if (kind == PANEL) k = WICK_PANEL_K;
    for (i = 0; i < 11; i++) keep(used[i]);
    want = inspect() ? answer_region() : code(verdict.number, verdict.place, 0);
#define TABLE(b) entries(b), lent[b].entries
    if (kind == SEARCH)
        got = wick_search(TABLE(TAILS), TABLE(HEADS), TABLE(WEIGHTS), TABLE(XS), TABLE(YS), TABLE(SITES), n, m, s, query, k, TABLE(WORK), TABLE(LISTED), TABLE(LENGTHS), TABLE(ENDS), TABLE(ROUTES));
    else
        got = wick_panel(TABLE(TAILS), TABLE(HEADS), TABLE(WEIGHTS), TABLE(XS), TABLE(YS), TABLE(SITES), n, m, s, query, TABLE(WORK), TABLE(LISTED), TABLE(LENGTHS), TABLE(ENDS), TABLE(ROUTES));
    judge(got, want, used, 11);
    if (!verdict.number && once_in(4)) {
        shorten(ENDS, wick_listed(got));
        keep(ENDS);
        for (rank = 0; rank <= wick_listed(got) + 1; rank++) call_route(rank);
    }
}

static void call_stretch(void) {
    static const size_t odds[] = {0, 33, 65536, (size_t)-1, (size_t)1 << 32};
    size_t count = below(9), i;
    lent = small;
    lay(ENDS, count);
    lay(ROUTES, below(60));
    for (i = 0; i < count; i++)
        if (!once_in(12)) put16(ENDS, i, (uint16_t)(once_in(6) ? below(70) : i * 7 + below(9)));
    keep(ENDS);
    keep(ROUTES);
    call_route(once_in(8) ? odds[below(5)] : below(count + 2));
}

/* ---- how much stack a call takes: it is run on one that is painted */

#define STACK 262144
static uint8_t stack[STACK];
static ucontext_t here, there;
static int deep;

static void enter(void) {
    if (deep < 3) {
        static const char *const texts[] = {"p sp 2 1\na 1 2 5\n", "p aux sp co 2\nv 1 0 0\nv 2 3 4\n", "p aux sp ss 1\ns 2\n"};
        const uint8_t *text = (const uint8_t *)texts[deep];
        size_t len = strlen(texts[deep]);
        if (deep == 0) wick_read_graph(text, len, entries(TAILS), lent[TAILS].entries, entries(HEADS), lent[HEADS].entries, entries(WEIGHTS), lent[WEIGHTS].entries);
        if (deep == 1) wick_read_coordinates(text, len, 2, entries(XS), lent[XS].entries, entries(YS), lent[YS].entries);
        if (deep == 2) wick_read_sites(text, len, 2, entries(SITES), lent[SITES].entries);
    } else {
        wick_search(TABLE(TAILS), TABLE(HEADS), TABLE(WEIGHTS), TABLE(XS), TABLE(YS), TABLE(SITES), n, m, s, query, k, TABLE(WORK), TABLE(LISTED), TABLE(LENGTHS), TABLE(ENDS), TABLE(ROUTES));
    }
}

static size_t stack_of(int which) {
    size_t i = 0;
    deep = which;
    memset(stack, 0xA5, sizeof stack);
    if (getcontext(&there)) exit(2);
    there.uc_stack.ss_sp = stack;
    there.uc_stack.ss_size = sizeof stack;
    there.uc_link = &here;
    makecontext(&there, enter, 0);
    if (swapcontext(&here, &there)) exit(2);
    while (i < sizeof stack && stack[i] == 0xA5) i++;
    return sizeof stack - i;
}

/* ---- the run */

int main(int argc, char **argv) {
    uint64_t asked = argc > 1 ? strtoull(argv[1], NULL, 10) : 100000;
    size_t i, j;
    struct sigaction on_hurt;
    first_seed = argc > 2 ? strtoull(argv[2], NULL, 10) : 9;
    seed_now = first_seed;
    page = (size_t)sysconf(_SC_PAGESIZE);
    memset(&on_hurt, 0, sizeof on_hurt);
    on_hurt.sa_handler = hurt;
    sigaction(SIGSEGV, &on_hurt, NULL);
    sigaction(SIGBUS, &on_hurt, NULL);
    sigaction(SIGILL, &on_hurt, NULL);
    for (i = 0; i < BUFFERS; i++) {
        map(&small[i], (int)i, page);
        map(&large[i], (int)i, most[i] * sizes[i]);
    }
    while (done < asked) {
        switch (below(20)) {
        case 0: case 1: case 2: call_reader(GRAPH); break;
        case 3: case 4: case 5: call_reader(COORDINATES); break;
        case 6: case 7: case 8: call_reader(SITE_TEXT); break;
        case 9: case 10: case 11: case 12: case 13: call_search(SEARCH); break;
        case 14: case 15: case 16: case 17: call_search(PANEL); break;
        default: call_stretch();
        }
    }
    printf("%-22s %9s", "answers by number", "accepted");
    for (j = 1; j < 14; j++) printf(" %6zu", j);
    printf("\n");
    for (i = 0; i < KINDS; i++) {
        printf("%-22s %9" PRIu64, calls[i], seen[i][0]);
        for (j = 1; j < 14; j++) {
            if (can[i] >> j & 1) printf(" %6" PRIu64, seen[i][j]);
            else printf(" %6s", seen[i][j] ? "?" : "-");
            if ((can[i] >> j & 1) != (seen[i][j] > 0) && asked >= 100000) {
                failed++;
                printf("!");
            }
        }
        printf("\n");
    }
    kind_now = SEARCH;
    make_region(1);
    printf("stack in bytes, with the frame of the caller: wick_read_graph %zu, wick_read_coordinates %zu, wick_read_sites %zu, wick_search %zu\n", stack_of(0), stack_of(1), stack_of(2), stack_of(3));
    printf("%" PRIu64 " passed, %" PRIu64 " failed\n", done - (failed < done ? failed : done), failed);
    return failed != 0;
}
