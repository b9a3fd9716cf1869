/* The search of a row in C, written from document 01 for measurements only: no part of the product. The row is read from a sheet; `plain`
 * works out the whole tree at every point; `best` is as fast as we know how. Both give the library's answer. */
#ifndef SEARCH_H
#define SEARCH_H

#include <stddef.h>
#include <stdint.h>

enum { MOST_SERVERS = 16, MOST_GROUPS = 31, MOST_STEPS = 9 };

struct server {
    uint64_t rate, latency;
};

/* A group, or the watched flow: its first and last server, counted from 0, and its bucket. */
struct group {
    unsigned first, last;
    uint64_t burst, rate;
};

struct row {
    unsigned servers, groups, mode, grid;
    struct server server[MOST_SERVERS];
    struct group group[MOST_GROUPS];
    struct group watched;
};

struct answer {
    uint64_t bound, start;
    unsigned groups;
    uint64_t wait[MOST_GROUPS];
};

/* The row of a sheet that passes every check; gives 0 where it is refused. */
int row_of_sheet(const uint8_t *sheet, size_t len, struct row *row);

/* How many points the grid of a row has; 1 in mode 1. */
uint64_t points_of(const struct row *row);

/* The search of a row: every point, the whole tree at each. */
void plain_search(const struct row *row, struct answer *a);

/* The part of it from one point to before another, over what `a` holds of the points before: for counting a part of a long search. */
void plain_part(const struct row *row, uint64_t from, uint64_t to, struct answer *a);

/* The search of a row: from the last group to the first, and nothing behind a choice that cannot be better. */
void best_search(const struct row *row, struct answer *a);

/* The answers of the library, plain and best on a sheet and on the row that was read from it. Gives NULL where all have the same bound,
 * start and waits, which `plain` then has; else says what is wrong. */
const char *compare_answers(const uint8_t *sheet, size_t len, const struct row *row, struct answer *plain);

#endif
