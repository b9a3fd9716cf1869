/* An example of a planning program for the listing desk: composes the sheet of a row, has it analysed, and prints the listing or the refusal.
 *
 *   ./gullbiscuit install PREFIX
 *   cc -std=c99 examples/plan.c $(PKG_CONFIG_PATH=PREFIX/lib/pkgconfig pkg-config --cflags --libs gullbiscuit) -o plan
 *   ./plan
 *
 * The rows are P7, P8, P9 and P10 of document 01, and one with a burst that no sheet can hold. A listing has the lines of the report: bound
 * and start in slots, the grid used, then each group's first and last server and its wait in slots. */
#include <gullbiscuit.h>

#include <stdio.h>

/* A server: its rate in bytes a slot, its latency in slots. */
struct server {
    uint32_t rate, latency;
};

/* A cross flow: its first and last server, counted from 1, and its token bucket. The watched flow has only the bucket. */
struct flow {
    uint32_t first, last, burst, rate;
};

/* A row as this program plans it. */
struct row {
    const char *name;
    uint32_t servers;
    struct server server[16];
    uint32_t flows;
    struct flow flow[48];
    struct flow watched;
    uint32_t mode, g;
};

/* The row's numbers in sheet order; gives how many. */
static size_t numbers_of(const struct row *row, uint32_t *numbers)
{
    size_t n = 0;
    numbers[n++] = 1; /* edition */
    numbers[n++] = row->servers;
    for (uint32_t j = 0; j < row->servers; j++) {
        numbers[n++] = row->server[j].rate;
        numbers[n++] = row->server[j].latency;
    }
    numbers[n++] = row->flows;
    for (uint32_t f = 0; f < row->flows; f++) {
        numbers[n++] = row->flow[f].first;
        numbers[n++] = row->flow[f].last;
        numbers[n++] = row->flow[f].burst;
        numbers[n++] = row->flow[f].rate;
    }
    numbers[n++] = row->watched.burst;
    numbers[n++] = row->watched.rate;
    numbers[n++] = row->mode;
    numbers[n++] = row->g;
    return n;
}

/* Takes the next number off an answer record: groups of seven bits, lowest first; a set top bit says that another group follows. */
static uint32_t take(const uint8_t **record)
{
    uint32_t x = 0;
    unsigned shift = 0;
    while (**record >= 128) {
        x |= (uint32_t)(*(*record)++ & 127) << shift;
        shift += 7;
    }
    return x | (uint32_t)*(*record)++ << shift;
}

/* Whether a cross flow has this path. */
static int has_path(const struct row *row, uint32_t first, uint32_t last)
{
    for (uint32_t f = 0; f < row->flows; f++)
        if (row->flow[f].first == first && row->flow[f].last == last)
            return 1;
    return 0;
}

/* Prints the listing of an answer record: bound, start, g, number of groups, each group's wait. Cross flows with one path form one group; the
 * groups stand in order of first server, then longer path first, so the paths in this order are those of the waits. */
static void print_listing(const struct row *row, const uint8_t *record)
{
    printf("bound %u\n", (unsigned)take(&record));
    printf("start %u\n", (unsigned)take(&record));
    printf("grid %u\n", (unsigned)take(&record));
    uint32_t groups = take(&record);
    for (uint32_t first = 1; first <= row->servers; first++)
        for (uint32_t last = row->servers; last >= first && groups > 0; last--)
            if (has_path(row, first, last)) {
                printf("group %u %u wait %u\n", (unsigned)first, (unsigned)last, (unsigned)take(&record));
                groups--;
            }
}

/* Prints a refusal: its number and detail, and what they mean to a planner. The refusals of a composed sheet are these: of the writer 4 and
 * 5, whose detail counts numbers, of the analysis 6, 7 and 8, and 10 where the answer buffer is too short. */
static void print_refusal(uint64_t answer)
{
    unsigned detail = gullbiscuit_detail(answer);
    printf("refused %u at %u: ", (unsigned)gullbiscuit_refusal(answer), detail);
    switch (gullbiscuit_refusal(answer)) {
    case GULLBISCUIT_OUTSIDE:
    case GULLBISCUIT_OFF_PATH: printf("number %u of the sheet, counted from 0, is outside its range\n", detail); break;
    case GULLBISCUIT_NOT_NESTED: printf("two paths cross\n"); break;
    case GULLBISCUIT_OVERLOADED: printf("the flows of server %u are together faster than it is\n", detail); break;
    case GULLBISCUIT_TOO_MANY_POINTS: printf("the grid has too many points for %u groups\n", detail); break;
    case GULLBISCUIT_SHORT: printf("the answer takes %u bytes\n", detail); break;
    default: printf("this program has composed a wrong sheet\n"); break;
    }
}

/* Composes the row's sheet, has it analysed into an answer buffer of so many bytes, at most GULLBISCUIT_MOST_ANSWER, and prints the outcome. */
static void plan(const struct row *row, size_t answer_len)
{
    uint32_t numbers[GULLBISCUIT_MOST_NUMBERS];
    uint8_t sheet[GULLBISCUIT_MOST_BYTES], record[GULLBISCUIT_MOST_ANSWER];
    printf("%s\n", row->name);
    uint64_t written = gullbiscuit_write_sheet(numbers, numbers_of(row, numbers), sheet, sizeof sheet);
    if (gullbiscuit_refusal(written) != GULLBISCUIT_DONE) {
        print_refusal(written);
        return;
    }
    uint64_t answer = gullbiscuit_analyse(sheet, gullbiscuit_detail(written), record, answer_len);
    if (gullbiscuit_refusal(answer) != GULLBISCUIT_DONE) {
        print_refusal(answer);
        return;
    }
    print_listing(row, record);
}

int main(void)
{
    static const struct row p7 = {
        "P7: one cross flow on one server",
        1, {{10, 0}},
        1, {{1, 1, 10, 6}},
        {0, 0, 12, 4}, 0, 4,
    };
    static const struct row p8 = {
        "P8: three groups on three servers",
        3, {{10, 1}, {10, 1}, {10, 1}},
        3, {{1, 1, 4, 2}, {2, 3, 4, 2}, {3, 3, 4, 2}},
        {0, 0, 6, 2}, 0, 2,
    };
    static const struct row p9 = {
        "P9: paths that cross",
        3, {{10, 0}, {10, 0}, {10, 0}},
        2, {{1, 2, 1, 1}, {2, 3, 1, 1}},
        {0, 0, 1, 1}, 0, 3,
    };
    static const struct row p10 = {
        "P10: rates 6 and 5 on a server of rate 10",
        1, {{10, 0}},
        1, {{1, 1, 1, 6}},
        {0, 0, 1, 5}, 0, 3,
    };
    static const struct row large = {
        "a burst of 70,000 bytes",
        1, {{10, 0}},
        1, {{1, 1, 70000, 1}},
        {0, 0, 1, 1}, 0, 3,
    };
    plan(&p7, GULLBISCUIT_MOST_ANSWER);
    plan(&p8, GULLBISCUIT_MOST_ANSWER);
    plan(&p9, GULLBISCUIT_MOST_ANSWER);
    plan(&p10, GULLBISCUIT_MOST_ANSWER);
    plan(&large, GULLBISCUIT_MOST_ANSWER);
    plan(&p7, 4); /* too short by one byte */
    return 0;
}
