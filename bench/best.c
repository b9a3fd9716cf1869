/* The search as fast as we know how to write it in C. Groups are chosen from the last to the first, as a point is worked out: a group's lag
 * is known when its extra is chosen, and a step costs the servers of one path. What is sought is the least key, delay * 2^16 + the point's
 * number in document 01's order: no order of visit changes it, so that the first point with the least delay comes out. A branch ends where
 * the slots so far reach the best key, and where a server can no longer give, at its rate now and in the slots left below the best, what
 * the groups to come and the watched flow take from it; a server beside the group's path ends the longer steps too. A server is one number,
 * the bytes it has given: a step adds to it, what was added is taken back behind the last step, and nothing is copied. Equal steps are
 * taken once; those too long for any group, not at all. */
#include "search.h"

#include <string.h>

/* A group, or the watched flow, over the servers of its path. */
struct node {
    unsigned first, last;
    uint64_t rate[MOST_SERVERS]; /* before it is taken out */
    uint64_t want[MOST_SERVERS]; /* what is given by then: its own burst and those of the groups taken out before it */
};

struct search {
    unsigned groups, servers, grid, steps;
    struct node node[MOST_GROUPS + 1];            /* the watched flow stands last, as node `groups` */
    uint64_t rate[MOST_GROUPS][MOST_SERVERS];     /* of every server, with the groups from k on taken out */
    uint64_t step[MOST_STEPS], digit[MOST_STEPS]; /* the steps to take, and the first digit of each */
    uint64_t given[MOST_SERVERS];
    uint64_t gap[MOST_GROUPS], kept[MOST_GROUPS]; /* each group's lag and extra: of the point at hand, and of the best one */
    uint64_t best;
};

/* The slots until a server has given what is wanted, and no fewer than `most`: divides only where these are too few. */
static inline uint64_t longer(uint64_t most, uint64_t given, uint64_t rate, uint64_t want)
{
    return given + most * rate < want ? (want - given + rate - 1) / rate : most;
}

/* The slots until every server of the path has given what is wanted. */
static inline uint64_t lag_of(const struct node *x, const uint64_t *given)
{
    uint64_t lag = 0;
    for (unsigned j = x->first; j <= x->last; j++)
        lag = longer(lag, given[j], x->rate[j], x->want[j]);
    return lag;
}

/* The servers of the path give for so many slots; for fewer than none they take back, as the numbers wrap round. */
static inline void give(const struct node *x, uint64_t *given, uint64_t slots)
{
    for (unsigned j = x->first; j <= x->last; j++)
        given[j] += x->rate[j] * slots;
}

/* The watched flow's delay, with so many slots before its own lag. */
static inline uint64_t delay_of(uint64_t slots, uint64_t lag)
{
    return slots + (lag == 0 ? 0 : lag - 1);
}

/* Whether in so many slots, with the groups from k on taken out, every server from `from` up to before `to` can give all that is wanted. */
static inline int can_give(const struct search *s, unsigned k, unsigned from, unsigned to, uint64_t slots)
{
    const uint64_t *want = s->node[s->groups].want;
    for (unsigned j = from; j < to; j++)
        if (s->given[j] + s->rate[k][j] * slots < want[j])
            return 0;
    return 1;
}

/* The nodes, and on the way the point with every extra 0, as the best so far; `slots` are the latencies. */
static void plant(struct search *s, const struct row *row, uint64_t slots)
{
    uint64_t rate[MOST_SERVERS], want[MOST_SERVERS], given[MOST_SERVERS], lag;
    s->groups = row->groups;
    s->servers = row->servers;
    s->grid = row->grid;
    for (unsigned j = 0; j < row->servers; j++) {
        rate[j] = row->server[j].rate;
        want[j] = given[j] = 0;
    }
    for (unsigned k = row->groups; k-- > 0;) {
        const struct group *g = &row->group[k];
        struct node *x = &s->node[k];
        x->first = g->first;
        x->last = g->last;
        lag = 0;
        for (unsigned j = g->first; j <= g->last; j++) {
            x->rate[j] = rate[j];
            x->want[j] = want[j] += g->burst;
            lag = longer(lag, given[j], rate[j], want[j]);
            rate[j] -= g->rate;
        }
        give(x, given, lag);
        s->kept[k] = lag;
        slots += lag;
    }
    struct node *root = &s->node[row->groups];
    root->first = 0;
    root->last = row->servers - 1;
    lag = 0;
    for (unsigned j = 0; j < row->servers; j++) {
        root->rate[j] = rate[j];
        root->want[j] = want[j] + row->watched.burst + row->watched.rate;
        lag = longer(lag, given[j], rate[j], root->want[j]);
    }
    s->best = delay_of(slots, lag) << 16;
}

/* The steps that differ; none that reaches start behind `least` slots, which every point has. */
static void list_steps(struct search *s, uint64_t start, uint64_t least)
{
    s->steps = 1;
    s->step[0] = s->digit[0] = 0;
    for (unsigned i = 1; i < s->grid; i++) {
        uint64_t e = i * start / (s->grid - 1);
        if (least + e >= start)
            break;
        if (e != s->step[s->steps - 1]) {
            s->step[s->steps] = e;
            s->digit[s->steps++] = i;
        }
    }
}

static void list_rates(struct search *s, const struct row *row)
{
    uint64_t rate[MOST_SERVERS];
    for (unsigned j = 0; j < row->servers; j++)
        rate[j] = row->server[j].rate;
    for (unsigned k = row->groups; k-- > 0;) {
        for (unsigned j = row->group[k].first; j <= row->group[k].last; j++)
            rate[j] -= row->group[k].rate;
        memcpy(s->rate[k], rate, row->servers * sizeof *rate);
    }
}

/* The best of the points that have the groups from k on as they stand, with the slots and the number so far and the next digit's weight. */
static void choose(struct search *s, unsigned k, uint64_t slots, uint64_t number, uint64_t weight)
{
    if (k == 0) {
        uint64_t key = delay_of(slots, lag_of(&s->node[s->groups], s->given)) << 16 | number;
        if (key < s->best) {
            s->best = key;
            memcpy(s->kept, s->gap, s->groups * sizeof *s->gap);
        }
        return;
    }
    const struct node *x = &s->node[--k];
    uint64_t lag = lag_of(x, s->given), done = 0;
    for (unsigned i = 0; i < s->steps; i++) {
        uint64_t gap = lag + s->step[i], now = slots + gap, here = number + s->digit[i] * weight;
        if ((now << 16 | here) >= s->best)
            break;
        /* from here a point is better up to this delay, and a delay of d takes d + 1 slots */
        uint64_t delay = (s->best - 1 - here) >> 16, left = delay + 1 - now;
        if (!can_give(s, k, 0, x->first, left) || !can_give(s, k, x->last + 1, s->servers, left))
            break;
        give(x, s->given, gap - done);
        s->gap[k] = done = gap;
        if (can_give(s, k, x->first, x->last + 1, left))
            choose(s, k, now, here, weight * s->grid);
    }
    give(x, s->given, -done);
}

/* The points behind the first; the last group's lag is the same at all of them. */
static void climb(struct search *s, const struct row *row, uint64_t slots)
{
    list_steps(s, s->best >> 16, slots + s->kept[row->groups - 1]);
    if (s->steps == 1)
        return;
    list_rates(s, row);
    memset(s->given, 0, sizeof s->given);
    choose(s, row->groups, slots, 0, 1);
}

void best_search(const struct row *row, struct answer *a)
{
    struct search s;
    uint64_t latency[MOST_SERVERS + 1]; /* of the servers before j together */
    latency[0] = 0;
    for (unsigned j = 0; j < row->servers; j++)
        latency[j + 1] = latency[j] + row->server[j].latency;
    plant(&s, row, latency[row->servers]);
    a->groups = row->groups;
    a->start = s.best >> 16;
    if (row->mode == 0 && row->groups > 0)
        climb(&s, row, latency[row->servers]);
    a->bound = s.best >> 16;
    for (unsigned k = 0; k < row->groups; k++) {
        const struct group *g = &row->group[k];
        uint64_t wait = latency[g->last + 1] - latency[g->first] + s.kept[k];
        for (unsigned d = k + 1; d < row->groups && row->group[d].first <= g->last; d++)
            wait += s.kept[d];
        a->wait[k] = wait;
    }
}
