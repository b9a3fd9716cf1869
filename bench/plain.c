/* The search as one would first write it in C: every point of the grid in order, and at each the curve of every node from its servers and
 * from the nodes inside it. Curves are handed on by pointer and changed in place. */
#include "search.h"

#include <string.h>

struct stage {
    uint64_t burst, rate;
};

struct curve {
    uint64_t offset;
    unsigned count;
    struct stage stage[MOST_SERVERS];
};

static void add_server(struct curve *c, const struct server *s)
{
    c->offset += s->latency;
    c->stage[c->count++] = (struct stage){.burst = 0, .rate = s->rate};
}

static void join(struct curve *c, const struct curve *other)
{
    c->offset += other->offset;
    for (unsigned i = 0; i < other->count; i++)
        c->stage[c->count++] = other->stage[i];
}

/* The slots after the offset until every stage has `bytes`. */
static uint64_t catch_up(const struct curve *c, uint64_t bytes)
{
    uint64_t most = 0;
    for (unsigned i = 0; i < c->count; i++) {
        const struct stage *s = &c->stage[i];
        if (s->burst < bytes) {
            uint64_t slots = (bytes - s->burst + s->rate - 1) / s->rate;
            if (most < slots)
                most = slots;
        }
    }
    return most;
}

static void leave(struct curve *c, const struct group *g, uint64_t gap)
{
    c->offset += gap;
    for (unsigned i = 0; i < c->count; i++) {
        struct stage *s = &c->stage[i];
        s->burst = s->burst + s->rate * gap - g->burst;
        s->rate -= g->rate;
    }
}

/* The curve of a path: its servers, and what the groups from d on that stand directly inside it leave. */
static void node(const struct row *row, const struct curve *left, unsigned d, const struct group *g, struct curve *c)
{
    c->offset = 0;
    c->count = 0;
    for (unsigned j = g->first; j <= g->last;) {
        while (d < row->groups && row->group[d].first < j)
            d++;
        if (d < row->groups && row->group[d].first == j) {
            join(c, &left[d]);
            j = row->group[d].last + 1;
        } else {
            add_server(c, &row->server[j++]);
        }
    }
}

/* The delay at a point, and each group's wait. */
static uint64_t delay_at(const struct row *row, const uint64_t *extra, uint64_t *wait)
{
    struct curve left[MOST_GROUPS], root;
    for (unsigned k = row->groups; k-- > 0;) {
        const struct group *g = &row->group[k];
        node(row, left, k + 1, g, &left[k]);
        leave(&left[k], g, catch_up(&left[k], g->burst) + extra[k]);
        wait[k] = left[k].offset;
    }
    node(row, left, 0, &row->watched, &root);
    uint64_t slots = catch_up(&root, row->watched.burst + row->watched.rate);
    return root.offset + (slots == 0 ? 0 : slots - 1);
}

void plain_part(const struct row *row, uint64_t from, uint64_t to, struct answer *a)
{
    uint64_t step[MOST_STEPS], extra[MOST_GROUPS], wait[MOST_GROUPS];
    unsigned digit[MOST_GROUPS];
    for (unsigned i = 0; i < row->grid; i++)
        step[i] = i * a->start / (row->grid - 1);
    uint64_t p = from;
    for (unsigned k = row->groups; k-- > 0; p /= row->grid) {
        digit[k] = (unsigned)(p % row->grid);
        extra[k] = step[digit[k]];
    }
    for (p = from; p < to; p++) {
        uint64_t delay = delay_at(row, extra, wait);
        if (delay < a->bound) {
            a->bound = delay;
            memcpy(a->wait, wait, row->groups * sizeof *wait);
        }
        for (unsigned k = row->groups; k-- > 0;) {
            digit[k] = digit[k] + 1 == row->grid ? 0 : digit[k] + 1;
            extra[k] = step[digit[k]];
            if (digit[k] != 0)
                break;
        }
    }
}

void plain_search(const struct row *row, struct answer *a)
{
    uint64_t none[MOST_GROUPS] = {0};
    a->groups = row->groups;
    a->start = a->bound = delay_at(row, none, a->wait);
    plain_part(row, 1, points_of(row), a);
}
