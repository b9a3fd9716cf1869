/* The row of a sheet: its fields, the flows of one path put together, the groups in order, and the checks 6 to 8. */
#include "search.h"
#include "../tests/c/plain.h"

enum { MOST_NUMBERS = 231, MOST_POINTS = 65536 };

uint64_t points_of(const struct row *row)
{
    uint64_t points = 1;
    for (unsigned k = 0; row->mode == 0 && k < row->groups && points <= MOST_POINTS; k++)
        points *= row->grid;
    return points;
}

/* The group's place in the order: first server, then longer path first. */
static unsigned place(const struct group *g)
{
    return g->first * MOST_SERVERS + (MOST_SERVERS - 1 - g->last);
}

/* Puts a flow to the group of its path, or in order as a new one; 0 where there is no room. */
static int add(struct row *row, const struct group *flow)
{
    unsigned k = row->groups;
    while (k > 0 && place(flow) < place(&row->group[k - 1]))
        k--;
    if (k > 0 && place(flow) == place(&row->group[k - 1])) {
        row->group[k - 1].burst += flow->burst;
        row->group[k - 1].rate += flow->rate;
        return 1;
    }
    if (row->groups == MOST_GROUPS)
        return 0;
    for (unsigned i = row->groups++; i > k; i--)
        row->group[i] = row->group[i - 1];
    row->group[k] = *flow;
    return 1;
}

static int is_nested(const struct row *row)
{
    for (unsigned k = 0; k < row->groups; k++)
        for (unsigned d = k + 1; d < row->groups; d++) {
            const struct group *a = &row->group[k], *b = &row->group[d];
            if (a->first < b->first && b->first <= a->last && a->last < b->last)
                return 0;
        }
    return 1;
}

static int is_crowded(const struct row *row)
{
    uint64_t sum[MOST_SERVERS] = {0};
    for (unsigned k = 0; k < row->groups; k++)
        for (unsigned j = row->group[k].first; j <= row->group[k].last; j++)
            sum[j] += row->group[k].rate;
    for (unsigned j = 0; j < row->servers; j++)
        if (row->server[j].rate < sum[j] + row->watched.rate)
            return 1;
    return 0;
}

int row_of_sheet(const uint8_t *sheet, size_t len, struct row *row)
{
    uint32_t numbers[MOST_NUMBERS];
    if (plain_read_sheet(sheet, len, numbers, MOST_NUMBERS) >> 32 != 0)
        return 0;
    const uint32_t *x = numbers + 1;
    row->servers = *x++;
    row->groups = 0;
    for (unsigned j = 0; j < row->servers; j++, x += 2)
        row->server[j] = (struct server){.rate = x[0], .latency = x[1]};
    unsigned flows = *x++;
    for (unsigned f = 0; f < flows; f++, x += 4)
        if (!add(row, &(struct group){.first = x[0] - 1, .last = x[1] - 1, .burst = x[2], .rate = x[3]}))
            return 0;
    row->watched = (struct group){.first = 0, .last = row->servers - 1, .burst = x[0], .rate = x[1]};
    row->mode = x[2];
    row->grid = x[3] == 0 ? 3 : x[3];
    return is_nested(row) && !is_crowded(row) && points_of(row) <= MOST_POINTS;
}
