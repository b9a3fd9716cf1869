/* Holds the library and the fast search in C to the plain one on random rows: the same bound, start and waits. The rows are nested, of all
 * shapes, with no group or up to 31; often flows share a path; servers just carry their flows or much more; bursts, rates and latencies are
 * small or large; now and then the mode is 1.
 *   random [ROWS [SEED [POINTS]]]     so many rows from this seed, each of at most so many points; 200000, 1 and 4096 where it is not said
 * Prints one line; on the first difference which row it is and its sheet in hex, and exits with 1. */
#include "../include/gullbiscuit.h"
#include "../tests/c/beside.h"
#include "../tests/c/plain.h"
#include "search.h"

#include <stdio.h>
#include <stdlib.h>

enum { MOST_FLOWS = 48, MOST_RATE = 1000000, MOST_POINTS = 65536, TRIES = 400 };

/* Where paths lie: anywhere, from server 1 on, over at most three servers, or from the first half on. */
enum shape { ANYWHERE, CHAIN, SHORT, FRONT };

/* A flow as on a sheet: its servers are counted from 1. */
struct flow {
    uint32_t first, last, burst, rate;
};

/* A row that is being made. The first flows have a path each, so many as there are groups; those behind them take one of these. */
struct made {
    uint32_t servers, groups, flows, mode, grid;
    uint32_t rate[MOST_SERVERS], latency[MOST_SERVERS];
    struct flow flow[MOST_FLOWS], watched;
};

/* The mode and the grid, and how many groups to aim at: fewer steps or fewer groups until there are at most so many points. */
static uint32_t make_grid(struct made *m, uint64_t most)
{
    m->mode = rnd() % 16 == 0;
    m->grid = between(2, 9);
    uint32_t groups = between(0, m->mode == 1 ? MOST_GROUPS : 16);
    for (;;) {
        uint64_t points = 1;
        for (uint32_t k = 0; m->mode == 0 && k < groups && points <= most; k++)
            points *= m->grid;
        if (points <= most)
            break;
        if (m->grid > 2 && rnd() % 2 == 0)
            m->grid--;
        else
            groups--;
    }
    if (m->grid == 3 && rnd() % 2 == 0)
        m->grid = 0;
    return groups;
}

static void make_path(const struct made *m, enum shape shape, struct flow *x)
{
    uint32_t n = m->servers;
    x->first = shape == CHAIN ? 1 : between(1, shape == FRONT ? (n + 1) / 2 : n);
    x->last = between(x->first, shape == SHORT && x->first + 2 < n ? x->first + 2 : n);
}

/* Whether a group has this path, or one that crosses it. */
static int clashes(const struct made *m, const struct flow *x)
{
    for (uint32_t k = 0; k < m->groups; k++) {
        const struct flow *y = &m->flow[k];
        if ((x->first == y->first && x->last == y->last) || (x->first < y->first && y->first <= x->last && x->last < y->last)
            || (y->first < x->first && x->first <= y->last && y->last < x->last))
            return 1;
    }
    return 0;
}

/* Nested paths, as many as asked for where so many are found. */
static void make_paths(struct made *m, uint32_t groups)
{
    enum shape shape = rnd() % 4;
    m->groups = 0;
    for (int t = 0; t < TRIES && m->groups < groups; t++) {
        make_path(m, shape, &m->flow[m->groups]);
        m->groups += !clashes(m, &m->flow[m->groups]);
    }
    m->flows = m->groups > 0 && rnd() % 4 == 0 ? between(m->groups, MOST_FLOWS) : m->groups;
    for (uint32_t f = m->groups; f < m->flows; f++)
        m->flow[f] = m->flow[between(0, m->groups - 1)];
}

/* Buckets up to tops that are small as often as large. Every other watched flow is slow with a large burst: there extras often pay. */
static void make_buckets(struct made *m)
{
    static const uint32_t bursts[] = {0, 1, 3, 10, 60, 300, 2000, 20000, 65535}, rates[] = {1, 2, 5, 20, 100, 1000, 8000, 65535};
    uint32_t burst = bursts[rnd() % 9], rate = rates[rnd() % 8];
    int slow = rnd() % 2 == 0;
    for (uint32_t f = 0; f < m->flows; f++) {
        m->flow[f].burst = rnd() % 6 == 0 ? 0 : between(0, burst);
        m->flow[f].rate = between(1, rate);
    }
    m->watched.burst = between(0, slow ? 65535 : bursts[rnd() % 9]);
    m->watched.rate = between(1, slow ? (rate + 3) / 4 : rate);
}

/* Servers that carry their flows; 0 where one would be too fast for a sheet. */
static int make_servers(struct made *m)
{
    static const uint32_t mores[] = {0, 3, 50, 3000, 100000}, latencies[] = {0, 0, 0, 3, 3, 1000};
    uint32_t more = mores[rnd() % 5], latency = latencies[rnd() % 6];
    for (uint32_t j = 0; j < m->servers; j++) {
        m->rate[j] = m->watched.rate + between(0, more);
        for (uint32_t f = 0; f < m->flows; f++)
            if (m->flow[f].first <= j + 1 && j + 1 <= m->flow[f].last)
                m->rate[j] += m->flow[f].rate;
        if (m->rate[j] > MOST_RATE)
            return 0;
        m->latency[j] = between(0, latency);
    }
    return 1;
}

static void make(struct made *m, uint64_t most)
{
    do {
        m->servers = rnd() % 4 == 0 ? between(1, 4) : between(2, 16);
        make_paths(m, make_grid(m, most));
        make_buckets(m);
    } while (!make_servers(m));
}

/* The sheet of a row; gives its length. */
static size_t spell(const struct made *m, uint8_t *sheet)
{
    uint32_t numbers[GULLBISCUIT_MOST_NUMBERS], *to = numbers;
    *to++ = 1;
    *to++ = m->servers;
    for (uint32_t j = 0; j < m->servers; j++) {
        *to++ = m->rate[j];
        *to++ = m->latency[j];
    }
    *to++ = m->flows;
    for (uint32_t f = 0; f < m->flows; f++) {
        *to++ = m->flow[f].first;
        *to++ = m->flow[f].last;
        *to++ = m->flow[f].burst;
        *to++ = m->flow[f].rate;
    }
    *to++ = m->watched.burst;
    *to++ = m->watched.rate;
    *to++ = m->mode;
    *to++ = m->grid;
    return plain_write_sheet(numbers, (size_t)(to - numbers), sheet, GULLBISCUIT_MOST_BYTES);
}

int main(int argc, char **argv)
{
    unsigned long long rows = argc > 1 ? strtoull(argv[1], NULL, 10) : 200000, lower = 0;
    uint64_t most = argc > 3 ? strtoull(argv[3], NULL, 10) : 4096;
    state = argc > 2 ? strtoull(argv[2], NULL, 10) : 1;
    if (argc > 4 || rows == 0 || most == 0 || most > MOST_POINTS) {
        puts("random: asks for at least one row, and for 1 to 65536 points");
        return 2;
    }
    for (unsigned long long i = 1; i <= rows; i++) {
        struct made m;
        struct row row;
        struct answer plain;
        uint8_t sheet[GULLBISCUIT_MOST_BYTES];
        make(&m, most);
        size_t len = spell(&m, sheet);
        const char *wrong = "does not pass the checks";
        if (len <= sizeof sheet && row_of_sheet(sheet, len, &row))
            wrong = compare_answers(sheet, len, &row, &plain);
        if (wrong != NULL) {
            printf("random: row %llu: %s\n", i, wrong);
            show("sheet", sheet, len <= sizeof sheet ? len : 0);
            return 1;
        }
        lower += plain.bound < plain.start;
    }
    printf("%llu rows, %llu of them with a bound below start: proved, plain and best have the same bound, start and waits on each\n", rows,
           lower);
    return 0;
}
