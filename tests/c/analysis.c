/* The analysis in plain C, written from document 01: groups by path, the nesting tree with each group's parent looked up, every node's curve
 * worked out anew from its children at every point of the grid, and no point passed over. */
#include "analysis.h"
#include "plain.h"

#include <string.h>

enum { MOST_SERVERS = 16, MOST_FLOWS = 48, MOST_NUMBERS = 231, MOST_POINTS = 65536 };

/* A path with the bucket of all that crosses it: a flow, a group or the watched flow. */
struct flow {
    uint32_t first, last;
    int64_t burst, rate;
};

/* The row of a sheet. Servers are counted from 1. */
struct row {
    uint32_t servers, flows, mode, g;
    int64_t rate[MOST_SERVERS + 1], latency[MOST_SERVERS + 1];
    struct flow flow[MOST_FLOWS];
    struct flow watched;
};

/* The nesting tree: nodes 0..groups - 1 are the groups in order, and node `groups` is the root, the watched flow. */
struct tree {
    const struct row *row;
    uint32_t groups;
    struct flow node[PLAIN_MOST_GROUPS + 1];
    uint32_t parent[PLAIN_MOST_GROUPS];
};

/* A curve: 0 for t <= offset, otherwise the least of b + r * (t - offset). */
struct curve {
    int64_t offset;
    size_t stages;
    struct { int64_t b, r; } stage[MOST_SERVERS];
};

static uint64_t refusal(uint64_t why, uint64_t detail)
{
    return why << 32 | detail;
}

/* Whether an offset, stage, wait or delay has passed 2^63 - 1. */
static int too_large;

static int64_t sum(int64_t a, int64_t b)
{
    int64_t x;
    if (__builtin_add_overflow(a, b, &x)) {
        too_large = 1;
        return 0;
    }
    return x;
}

static int64_t product(int64_t a, int64_t b)
{
    int64_t x;
    if (__builtin_mul_overflow(a, b, &x)) {
        too_large = 1;
        return 0;
    }
    return x;
}

/* ceil(max(0, a) / b) */
static int64_t ceiling(int64_t a, int64_t b)
{
    return a <= 0 ? 0 : (a - 1) / b + 1;
}

/* The row of a sheet's numbers. */
static void lay_out(const uint32_t *number, struct row *row)
{
    number++;
    row->servers = *number++;
    for (uint32_t j = 1; j <= row->servers; j++) {
        row->rate[j] = *number++;
        row->latency[j] = *number++;
    }
    row->flows = *number++;
    for (uint32_t f = 0; f < row->flows; f++) {
        row->flow[f].first = *number++;
        row->flow[f].last = *number++;
        row->flow[f].burst = *number++;
        row->flow[f].rate = *number++;
    }
    row->watched.first = 1;
    row->watched.last = row->servers;
    row->watched.burst = *number++;
    row->watched.rate = *number++;
    row->mode = *number++;
    row->g = *number++;
    if (row->g == 0)
        row->g = 3;
}

/* "A row is nested if no two paths (i, j), (h, k) have i < h <= j < k." */
static int nested(const struct row *row)
{
    for (uint32_t a = 0; a < row->flows; a++)
        for (uint32_t b = 0; b < row->flows; b++) {
            uint32_t i = row->flow[a].first, j = row->flow[a].last, h = row->flow[b].first, k = row->flow[b].last;
            if (i < h && h <= j && j < k)
                return 0;
        }
    return 1;
}

/* The lowest server at which the rates, the watched flow's included, sum above R; 0 where there is none. */
static uint32_t overloaded(const struct row *row)
{
    for (uint32_t j = 1; j <= row->servers; j++) {
        int64_t rates = row->watched.rate;
        for (uint32_t f = 0; f < row->flows; f++)
            if (row->flow[f].first <= j && j <= row->flow[f].last)
                rates += row->flow[f].rate;
        if (rates > row->rate[j])
            return j;
    }
    return 0;
}

static int contains(const struct flow *outer, const struct flow *inner)
{
    return outer->first <= inner->first && inner->last <= outer->last;
}

/* The groups of all paths in order of first server, then longer path first; and each group's parent: the smallest group whose path contains
 * its own, else the root. */
static void plant(const struct row *row, struct tree *tree)
{
    tree->row = row;
    tree->groups = 0;
    for (uint32_t first = 1; first <= row->servers; first++)
        for (uint32_t last = row->servers; last >= first; last--) {
            struct flow group = {first, last, 0, 0};
            int any = 0;
            for (uint32_t f = 0; f < row->flows; f++)
                if (row->flow[f].first == first && row->flow[f].last == last) {
                    group.burst += row->flow[f].burst;
                    group.rate += row->flow[f].rate;
                    any = 1;
                }
            if (any)
                tree->node[tree->groups++] = group;
        }
    tree->node[tree->groups] = row->watched;
    for (uint32_t k = 0; k < tree->groups; k++) {
        uint32_t parent = tree->groups, least = row->servers + 1;
        for (uint32_t p = 0; p < tree->groups; p++) {
            uint32_t length = tree->node[p].last - tree->node[p].first + 1;
            if (p != k && contains(&tree->node[p], &tree->node[k]) && length < least) {
                parent = p;
                least = length;
            }
        }
        tree->parent[k] = parent;
    }
}

/* Whether a child of the node crosses the server. */
static int crossed(const struct tree *tree, uint32_t node, uint32_t server)
{
    for (uint32_t k = 0; k < tree->groups; k++)
        if (tree->parent[k] == node && tree->node[k].first <= server && server <= tree->node[k].last)
            return 1;
    return 0;
}

/* Two curves in series: the sum of the offsets and the stages of both, none dropped. */
static void join(struct curve *c, const struct curve *d)
{
    c->offset = sum(c->offset, d->offset);
    for (size_t i = 0; i < d->stages; i++)
        c->stage[c->stages++] = d->stage[i];
}

/* h = D + the greatest over the stages of ceil(max(0, burst - b) / r). */
static int64_t least_wait(const struct curve *c, int64_t burst)
{
    int64_t most = 0;
    for (size_t i = 0; i < c->stages; i++) {
        int64_t x = ceiling(burst - c->stage[i].b, c->stage[i].r);
        if (x > most)
            most = x;
    }
    return sum(c->offset, most);
}

/* What is left after a group with a wait of at least h: offset wait, each stage (b + r * (wait - D) - burst, r - rate). */
static void remain(struct curve *c, const struct flow *group, int64_t wait)
{
    for (size_t i = 0; i < c->stages; i++) {
        c->stage[i].b = sum(c->stage[i].b, product(c->stage[i].r, wait - c->offset)) - group->burst;
        c->stage[i].r -= group->rate;
    }
    c->offset = wait;
}

/* The delay of a bucket over a curve: D + the greatest of ceil(max(0, burst + rate - b - r) / r). */
static int64_t delay(const struct curve *c, const struct flow *flow)
{
    int64_t most = 0;
    for (size_t i = 0; i < c->stages; i++) {
        int64_t x = ceiling(flow->burst + flow->rate - c->stage[i].b - c->stage[i].r, c->stage[i].r);
        if (x > most)
            most = x;
    }
    return sum(c->offset, most);
}

/* A node's curve: the servers of its path that no child crosses, and each child's curve after that child's group has been taken out, with
 * its h and this point's extra as its wait. */
static struct curve curve_of(const struct tree *tree, uint32_t node, const int64_t *extra, int64_t *wait)
{
    struct curve c = {.offset = 0, .stages = 0};
    for (uint32_t j = tree->node[node].first; j <= tree->node[node].last; j++)
        if (!crossed(tree, node, j)) {
            struct curve server = {.offset = tree->row->latency[j], .stages = 1, .stage = {{0, tree->row->rate[j]}}};
            join(&c, &server);
        }
    for (uint32_t k = 0; k < tree->groups; k++)
        if (tree->parent[k] == node) {
            struct curve child = curve_of(tree, k, extra, wait);
            wait[k] = sum(least_wait(&child, tree->node[k].burst), extra[k]);
            remain(&child, &tree->node[k], wait[k]);
            join(&c, &child);
        }
    return c;
}

/* The watched flow's delay at a point, and each group's wait there. */
static int64_t at_point(const struct tree *tree, const int64_t *extra, int64_t *wait)
{
    struct curve c = curve_of(tree, tree->groups, extra, wait);
    return delay(&c, &tree->node[tree->groups]);
}

/* Every point of the grid in order, counted from 0: the i of each group are the digits of the count to the base g, the last group's the
 * lowest. The first point with the least delay stands. */
static void search(const struct tree *tree, uint32_t points, struct plain_verdict *v)
{
    int64_t extra[PLAIN_MOST_GROUPS], wait[PLAIN_MOST_GROUPS] = {0};
    for (uint32_t point = 0; point < points; point++) {
        uint32_t digits = point;
        for (uint32_t k = tree->groups; k-- > 0; digits /= v->g)
            extra[k] = digits % v->g * v->start / (v->g - 1);
        int64_t d = at_point(tree, extra, wait);
        if (point == 0 || d < v->bound) {
            v->bound = d;
            memcpy(v->wait, wait, sizeof wait);
        }
    }
}

/* A number of the record, at most five bytes. */
static void put(struct plain_verdict *v, int64_t x)
{
    v->len += plain_put((uint32_t)x, v->record + v->len);
}

void plain_analyse(const uint8_t *sheet, size_t sheet_len, struct plain_verdict *v)
{
    uint32_t number[MOST_NUMBERS];
    struct row row;
    struct tree tree;
    memset(v, 0, sizeof *v);
    uint64_t read = plain_read_sheet(sheet, sheet_len, number, MOST_NUMBERS);
    if (read >> 32 != 0) {
        v->refused = read;
        return;
    }
    lay_out(number, &row);
    if (!nested(&row)) {
        v->refused = refusal(6, 0);
        return;
    }
    uint32_t server = overloaded(&row);
    if (server != 0) {
        v->refused = refusal(7, server);
        return;
    }
    plant(&row, &tree);
    v->g = row.g;
    v->groups = tree.groups;
    uint32_t points = 1;
    for (uint32_t k = 0; k < tree.groups && points <= MOST_POINTS; k++)
        points *= row.g;
    if (row.mode == 0 && points > MOST_POINTS) {
        v->refused = refusal(8, tree.groups);
        return;
    }
    too_large = 0;
    static const int64_t none[PLAIN_MOST_GROUPS];
    v->start = v->bound = at_point(&tree, none, v->wait);
    if (row.mode == 0)
        search(&tree, points, v);
    if (too_large) {
        v->refused = refusal(9, 0);
        return;
    }
    put(v, v->bound);
    put(v, v->start);
    put(v, v->g);
    put(v, v->groups);
    for (uint32_t k = 0; k < v->groups; k++)
        put(v, v->wait[k]);
}

uint64_t plain_answer(const struct plain_verdict *v, uint8_t *answer, size_t answer_len)
{
    if (v->refused != 0)
        return v->refused;
    if (answer_len < v->len)
        return refusal(10, v->len);
    memcpy(answer, v->record, v->len);
    return v->len;
}

/* A node's curve by its values at slots 0..slots. */
static void values_of(const struct tree *tree, uint32_t node, const int64_t *wait, size_t slots, int64_t *value)
{
    const int64_t never = INT64_MAX / 4;
    int64_t next[PLAIN_MOST_SLOTS + 1], joined[PLAIN_MOST_SLOTS + 1];
    for (size_t t = 0; t <= slots; t++)
        value[t] = t == 0 ? 0 : never;
    uint32_t server = tree->node[node].first;
    while (server <= tree->node[node].last) {
        uint32_t k = 0;
        while (k < tree->groups && !(tree->parent[k] == node && tree->node[k].first == server))
            k++;
        if (k < tree->groups) {
            const struct flow *group = &tree->node[k];
            values_of(tree, k, wait, slots, next);
            for (size_t t = 0; t <= slots; t++) {
                int64_t left = next[t] - group->burst - group->rate * ((int64_t)t - wait[k]);
                next[t] = (int64_t)t <= wait[k] || left < 0 ? 0 : left;
            }
            server = group->last + 1;
        } else {
            int64_t rate = tree->row->rate[server], latency = tree->row->latency[server];
            for (size_t t = 0; t <= slots; t++)
                next[t] = (int64_t)t <= latency ? 0 : rate * ((int64_t)t - latency);
            server++;
        }
        for (size_t t = 0; t <= slots; t++) {
            joined[t] = never;
            for (size_t s = 0; s <= t; s++)
                if (value[t - s] + next[s] < joined[t])
                    joined[t] = value[t - s] + next[s];
        }
        memcpy(value, joined, (slots + 1) * sizeof value[0]);
    }
}

int64_t plain_delay_by_slots(const uint8_t *sheet, size_t sheet_len, const int64_t *wait, size_t slots)
{
    uint32_t number[MOST_NUMBERS];
    struct row row;
    struct tree tree;
    int64_t value[PLAIN_MOST_SLOTS + 1];
    plain_read_sheet(sheet, sheet_len, number, MOST_NUMBERS);
    lay_out(number, &row);
    plant(&row, &tree);
    values_of(&tree, tree.groups, wait, slots, value);
    for (size_t d = 0;; d++) {
        int holds = 1;
        for (size_t s = 0; s + d <= slots && holds; s++)
            holds = (s == 0 ? 0 : row.watched.burst + row.watched.rate * (int64_t)s) <= value[s + d];
        if (holds)
            return (int64_t)d;
    }
}
