/* Measures the analysis of rows near the limits beside C. Each row is made as a sheet. The programs are
 *   proved   the library's entry on the sheet: reading, checks, search and answer record
 *   plain    C on a row that has been read: every point, and the whole tree at each
 *   best     C on a row that has been read: as fast as we know how
 *   reading  C on the sheet: reading and checks, and no search
 * and this one is started as
 *   run compare    holds the answers of proved, plain and best together on every row; ends with 1 where they differ
 *   run time       a line for each row: name, points, nanoseconds of proved, plain, best, reading; each the least of several rounds
 *   run count      under callgrind: one call of each in that order on every row, each counted for itself; of plain one point in EVERY
 *   run stack      the most bytes of stack that the library's entry takes on a row, on a painted stack; and the row's name */
#define _DEFAULT_SOURCE
#include "../include/gullbiscuit.h"
#include "../tests/c/plain.h"
#include "search.h"

#include <pthread.h>
#include <stdio.h>
#include <stdlib.h>
#include <string.h>
#include <time.h>

#if __has_include(<valgrind/callgrind.h>)
#include <valgrind/callgrind.h>
#else
#define CALLGRIND_ZERO_STATS
#define CALLGRIND_DUMP_STATS
#endif

enum { ROUNDS = 9, EVERY = 16, PIECES = 16, SMALL = 4096, STACK = 1 << 20, PAINT = 0xa5 };

/* How the groups stand: one behind the other; each inside the one before, from server 1; or each, from the whole row on, split in two. */
enum shape { FLAT, CHAIN, BALANCED };

/* A row of sixteen servers. With latencies the servers are fast; with none the rates are small, and the fewest points are passed over. */
struct kind {
    const char *name;
    unsigned grid, groups, flows;
    enum shape shape;
    int latencies;
    uint32_t bursts, watched; /* the largest burst of a cross flow, and of the watched flow */
    unsigned mode;
    uint64_t seed;
};

static const struct kind kinds[] = {
    {"g 2, 16 groups, flat, latencies", 2, 16, 16, FLAT, 1, 60000, 60000, 0, 1},
    {"g 2, 16 groups, chain, latencies", 2, 16, 16, CHAIN, 1, 60000, 60000, 0, 2},
    {"g 2, 16 groups, balanced, latencies", 2, 16, 16, BALANCED, 1, 60000, 60000, 0, 3},
    {"g 4, 8 groups, flat, latencies", 4, 8, 8, FLAT, 1, 60000, 60000, 0, 4},
    {"g 4, 8 groups, chain, latencies", 4, 8, 8, CHAIN, 1, 60000, 60000, 0, 5},
    {"g 4, 8 groups, balanced, latencies", 4, 8, 8, BALANCED, 1, 60000, 60000, 0, 6},
    {"g 9, 5 groups, flat, latencies", 9, 5, 5, FLAT, 1, 60000, 60000, 0, 7},
    {"g 9, 5 groups, chain, latencies", 9, 5, 5, CHAIN, 1, 60000, 60000, 0, 8},
    {"g 9, 5 groups, balanced, latencies", 9, 5, 5, BALANCED, 1, 60000, 60000, 0, 9},
    {"g 2, 16 groups, flat", 2, 16, 16, FLAT, 0, 60000, 60000, 0, 11},
    {"g 2, 16 groups, chain", 2, 16, 16, CHAIN, 0, 60000, 60000, 0, 12},
    {"g 2, 16 groups, balanced", 2, 16, 16, BALANCED, 0, 60000, 60000, 0, 13},
    {"g 2, 16 groups of 48 flows, balanced", 2, 16, 48, BALANCED, 0, 60000, 60000, 0, 13},
    {"g 4, 8 groups, flat", 4, 8, 8, FLAT, 0, 60000, 60000, 0, 14},
    {"g 4, 8 groups, chain", 4, 8, 8, CHAIN, 0, 60000, 60000, 0, 15},
    {"g 4, 8 groups, balanced", 4, 8, 8, BALANCED, 0, 60000, 60000, 0, 16},
    {"g 9, 5 groups, flat", 9, 5, 5, FLAT, 0, 60000, 60000, 0, 17},
    {"g 9, 5 groups, chain, bound below start", 9, 5, 5, CHAIN, 0, 60000, 60000, 0, 22},
    {"g 9, 5 groups, balanced, bound below start", 9, 5, 5, BALANCED, 0, 60000, 60000, 0, 57},
    /* of all rows with g 9 and five groups, those with start 15 let the fewest points be passed over by their extras alone */
    {"g 9, 5 groups, flat, start 15", 9, 5, 5, FLAT, 0, 21000, 21000, 0, 17},
    {"g 9, 5 groups, chain, start 15", 9, 5, 5, CHAIN, 0, 22000, 22000, 0, 8},
    {"g 9, 5 groups, balanced, start 15", 9, 5, 5, BALANCED, 0, 22000, 22000, 0, 2},
    /* no group has to wait: the slots before the watched flow's are extras alone */
    {"g 9, 5 groups, flat, no cross bursts", 9, 5, 5, FLAT, 0, 0, 65535, 0, 52},
    {"g 9, 5 groups, balanced, no cross bursts", 9, 5, 5, BALANCED, 0, 0, 65535, 0, 52},
    /* eight of the nine steps are equal */
    {"g 9, 5 groups, flat, start 1", 9, 5, 5, FLAT, 0, 0, 9001, 0, 5},
    {"g 9, 5 groups, chain, start 1", 9, 5, 5, CHAIN, 0, 0, 9001, 0, 5},
    /* the most groups that g 3 allows: of many seeds and sizes of bursts, flat and chain among those that leave the most steps to a search
     * from the last group to the first, and balanced with a bound below start; where no group has to wait, a chain leaves the most */
    {"g 3, 10 groups, flat", 3, 10, 10, FLAT, 0, 50000, 30000, 0, 778},
    {"g 3, 10 groups, chain", 3, 10, 10, CHAIN, 0, 100, 15000, 0, 653},
    {"g 3, 10 groups, balanced, bound below start", 3, 10, 10, BALANCED, 0, 1000, 50000, 0, 1353},
    {"g 3, 10 groups, chain, no cross bursts", 3, 10, 10, CHAIN, 0, 0, 60000, 0, 1422},
    /* the most groups that g 6 allows, with the most steps where groups have bursts, and on the chain with a bound below start */
    {"g 6, 6 groups, flat", 6, 6, 6, FLAT, 0, 10000, 30000, 0, 1154},
    {"g 6, 6 groups, chain", 6, 6, 6, CHAIN, 0, 2000, 50000, 0, 45},
    /* of three thousand seeds and 256 sizes of bursts, the rows that leave the most steps to a search from the last group to the first */
    {"g 6, 6 groups, chain, no cross bursts", 6, 6, 6, CHAIN, 0, 0, 65535, 0, 1871},
    {"g 9, 5 groups, chain, most steps", 9, 5, 5, CHAIN, 0, 50000, 50000, 0, 10},
    {"quick, 31 groups of 48 flows, balanced", 9, 31, 48, BALANCED, 0, 60000, 60000, 1, 19},
};

enum { ROWS = sizeof kinds / sizeof *kinds };

struct sheet {
    uint8_t bytes[GULLBISCUIT_MOST_BYTES];
    size_t len;
};

static struct sheet sheets[ROWS];
static struct row rows[ROWS];

static _Noreturn void stop(const char *what, const char *why)
{
    printf("run: %s: %s\n", what, why);
    exit(1);
}

static uint64_t seed;

/* A number from a to b. */
static uint32_t draw(uint32_t a, uint32_t b)
{
    seed ^= seed << 13;
    seed ^= seed >> 7;
    seed ^= seed << 17;
    return a + (uint32_t)(seed % (b - a + 1));
}

/* The first and last server of group k, counted from 1. */
static void path(const struct kind *x, unsigned k, uint32_t *first, uint32_t *last)
{
    if (x->shape == FLAT) {
        *first = k * 16 / x->groups + 1;
        *last = (k + 1) * 16 / x->groups;
    } else if (x->shape == CHAIN) {
        *first = 1;
        *last = 16 - k;
    } else {
        unsigned level = 0;
        while ((k + 1) >> (level + 1) != 0)
            level++;
        *first = (k + 1 - (1u << level)) * (16 >> level) + 1;
        *last = *first + (16 >> level) - 1;
    }
}

static void make(const struct kind *x, struct sheet *sheet)
{
    uint32_t numbers[GULLBISCUIT_MOST_NUMBERS], *to = numbers, most_rate = x->latencies ? 1000 : 60;
    seed = x->seed;
    *to++ = 1;
    *to++ = 16;
    for (unsigned j = 0; j < 16; j++) {
        *to++ = x->latencies ? draw(60000, 150000) : draw(6000, 9000);
        *to++ = x->latencies ? draw(1, 20) : 0;
    }
    *to++ = x->flows;
    for (unsigned f = 0; f < x->flows; f++, to += 4) {
        path(x, f % x->groups, &to[0], &to[1]);
        to[2] = draw(x->bursts / 20, x->bursts);
        to[3] = draw(1, most_rate);
    }
    *to++ = draw(x->watched / 20, x->watched);
    *to++ = draw(1, most_rate);
    *to++ = x->mode;
    *to++ = x->grid;
    sheet->len = plain_write_sheet(numbers, (size_t)(to - numbers), sheet->bytes, sizeof sheet->bytes);
    if (sheet->len > sizeof sheet->bytes)
        stop(x->name, "is no sheet");
}

static uint8_t record[GULLBISCUIT_MOST_ANSWER];

/* The library's entry on a sheet: every measurement of the proved analysis is of this call. */
static uint64_t entry(const struct sheet *sheet)
{
    return gullbiscuit_analyse(sheet->bytes, sheet->len, record, sizeof record);
}

static void compare(void)
{
    unsigned lower = 0;
    for (unsigned i = 0; i < ROWS; i++) {
        struct answer plain;
        const char *wrong = compare_answers(sheets[i].bytes, sheets[i].len, &rows[i], &plain);
        if (wrong != NULL)
            stop(kinds[i].name, wrong);
        lower += plain.bound < plain.start;
    }
    printf("%u rows, on %u of them a bound below start: proved, plain and best have the same bound, start and waits on each\n", ROWS, lower);
}

static struct answer scratch;
static struct row scratch_row;

/* The programs, each called once on row i. */
static void call_proved(unsigned i)
{
    entry(&sheets[i]);
}

static void call_plain(unsigned i)
{
    plain_search(&rows[i], &scratch);
}

static void call_best(unsigned i)
{
    best_search(&rows[i], &scratch);
}

static void call_reading(unsigned i)
{
    row_of_sheet(sheets[i].bytes, sheets[i].len, &scratch_row);
}

typedef void call(unsigned);
static call *const calls[] = {call_proved, call_plain, call_best, call_reading};
enum { CALLS = sizeof calls / sizeof *calls };

/* The processor's time, so that a neighbour's turn does not count. */
static double seconds(call *f, unsigned i, size_t times)
{
    struct timespec a, b;
    clock_gettime(CLOCK_PROCESS_CPUTIME_ID, &a);
    for (size_t n = 0; n < times; n++)
        f(i);
    clock_gettime(CLOCK_PROCESS_CPUTIME_ID, &b);
    return (double)(b.tv_sec - a.tv_sec) + 1e-9 * (double)(b.tv_nsec - a.tv_nsec);
}

/* All programs by turns, so that a slow moment falls on all; a round of a short one is many calls. */
static void time_all(void)
{
    for (unsigned i = 0; i < ROWS; i++) {
        size_t times[CALLS];
        double least[CALLS];
        for (unsigned c = 0; c < CALLS; c++) {
            least[c] = seconds(calls[c], i, 1);
            times[c] = 1 + (size_t)(5e-4 / (least[c] + 1e-9));
        }
        for (unsigned r = 0; r < ROUNDS; r++)
            for (unsigned c = 0; c < CALLS; c++) {
                double s = seconds(calls[c], i, times[c]) / (double)times[c];
                least[c] = s < least[c] ? s : least[c];
            }
        printf("%s|%llu", kinds[i].name, (unsigned long long)points_of(&rows[i]));
        for (unsigned c = 0; c < CALLS; c++)
            printf("|%.0f", 1e9 * least[c]);
        printf("\n");
    }
}

/* One call, counted for itself: the tool writes a file that has its count. */
static void count(call *f, unsigned i)
{
    CALLGRIND_ZERO_STATS;
    f(i);
    CALLGRIND_DUMP_STATS;
}

/* Of plain's points one in EVERY, in PIECES that are spread over the grid; of a small grid all. */
static void call_part(unsigned i)
{
    uint64_t points = points_of(&rows[i]);
    if (points < SMALL) {
        plain_search(&rows[i], &scratch);
        return;
    }
    for (unsigned p = 0; p < PIECES; p++) {
        uint64_t from = points * p / PIECES;
        plain_part(&rows[i], from, from + points / PIECES / EVERY, &scratch);
    }
}

static void count_all(void)
{
    for (unsigned i = 0; i < ROWS; i++) {
        count(call_proved, i);
        best_search(&rows[i], &scratch);
        count(call_part, i);
        count(call_best, i);
        count(call_reading, i);
    }
}

static uint8_t stack[STACK] __attribute__((aligned(4096)));
static size_t used[ROWS];

/* The bytes that a call writes below the stack pointer it is made at, down to the lowest. The first of two calls binds what the linker left
 * to be bound. */
static __attribute__((noinline)) size_t depth(unsigned i)
{
    uint8_t *here = NULL;
    for (int turn = 0; turn < 2; turn++) {
#ifdef __x86_64__
        __asm__ volatile("mov %%rsp, %0" : "=r"(here));
#else
        __asm__ volatile("mov %0, sp" : "=r"(here));
#endif
        for (volatile uint8_t *p = stack; p < here; p++)
            *p = PAINT;
        entry(&sheets[i]);
    }
    const uint8_t *p = stack;
    while (p < here && *p == PAINT)
        p++;
    return (size_t)(here - p);
}

static void *measure(void *unused)
{
    (void)unused;
    for (unsigned i = 0; i < ROWS; i++)
        used[i] = depth(i);
    return NULL;
}

static void show_stack(void)
{
    pthread_attr_t attr;
    pthread_t thread;
    if (pthread_attr_init(&attr) != 0 || pthread_attr_setstack(&attr, stack, STACK) != 0 || pthread_create(&thread, &attr, measure, NULL) != 0
        || pthread_join(thread, NULL) != 0)
        stop("stack", "no thread on a painted stack");
    unsigned most = 0;
    for (unsigned i = 1; i < ROWS; i++)
        most = used[most] < used[i] ? i : most;
    printf("%zu|%s\n", used[most], kinds[most].name);
}

int main(int argc, char **argv)
{
    for (unsigned i = 0; i < ROWS; i++) {
        make(&kinds[i], &sheets[i]);
        if (!row_of_sheet(sheets[i].bytes, sheets[i].len, &rows[i]))
            stop(kinds[i].name, "does not pass the checks");
    }
    if (argc == 2 && strcmp(argv[1], "compare") == 0)
        compare();
    else if (argc == 2 && strcmp(argv[1], "time") == 0)
        time_all();
    else if (argc == 2 && strcmp(argv[1], "count") == 0)
        count_all();
    else if (argc == 2 && strcmp(argv[1], "stack") == 0)
        show_stack();
    else
        return 2;
    return 0;
}
