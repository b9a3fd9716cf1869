/* Holds the analysis beside an implementation of document 01 in plain C: over the vectors of an independent oracle, in the file that is the
 * program's argument, and over generated sheets from a fixed seed. The sheet stands right before memory that may not be touched; the answer
 * buffer stands between guards, in a pattern of its own for each case. Small rows are worked out once more slot by slot.
 * Prints one line; on the first disagreement the sheet in hex with both answers, and exits with 1.
 *   analyse VECTORS [SEED [TIMES]]     other sheets, and so many times as many */
#include "../../include/gullbiscuit.h"
#include "analysis.h"
#include "beside.h"
#include "plain.h"

#include <stdio.h>
#include <stdlib.h>
#include <string.h>

/* One call of the entry, beside what plain C says of the sheet. */
static uint64_t answer_case(const uint8_t *bytes, size_t n, const struct plain_verdict *verdict, size_t room)
{
    uint8_t *input = lay(bytes, n);
    fill(room);
    uint64_t got = gullbiscuit_analyse(input, n, buf.theirs + GUARD, room);
    uint64_t want = plain_answer(verdict, buf.plain + GUARD, room);
    compare("gullbiscuit_analyse", input, bytes, n, room, 1, got, want);
    return got;
}

/* A sheet with one large answer buffer. */
static void analyse_case(const uint8_t *bytes, size_t n)
{
    struct plain_verdict verdict;
    plain_analyse(bytes, n, &verdict);
    answer_case(bytes, n, &verdict, GULLBISCUIT_MOST_ANSWER);
}

/* The bound and the waits of a small accepted row from the definitions alone. */
static void check_slots(const uint8_t *bytes, size_t n, const struct plain_verdict *verdict)
{
    enum { PAST = 24 };
    if (verdict->refused != 0 || verdict->bound + PAST > PLAIN_MOST_SLOTS)
        return;
    int64_t delay = plain_delay_by_slots(bytes, n, verdict->wait, (size_t)verdict->bound + PAST);
    if (delay != verdict->bound)
        show("sheet", bytes, n);
    expect(delay == verdict->bound, "the bound is not the delay that the slots show");
}

/* A sheet with every room around the one that is needed. */
static void analyse_rooms(const uint8_t *bytes, size_t n, int slots)
{
    struct plain_verdict verdict;
    plain_analyse(bytes, n, &verdict);
    answer_case(bytes, n, &verdict, 0);
    if (verdict.len > 0)
        answer_case(bytes, n, &verdict, verdict.len - 1);
    answer_case(bytes, n, &verdict, verdict.len);
    answer_case(bytes, n, &verdict, verdict.len + 1);
    answer_case(bytes, n, &verdict, MOST_ROOM);
    if (slots)
        check_slots(bytes, n, &verdict);
}

/* A row that was made, and its sheet: the bytes, and where each number begins. */
struct made {
    uint32_t servers, flows, mode, g;
    uint32_t rate[17], latency[17];
    struct { uint32_t first, last, burst, rate; } flow[48], watched;
    size_t count, n;
    uint32_t value[GULLBISCUIT_MOST_NUMBERS];
    size_t begin[GULLBISCUIT_MOST_NUMBERS + 1];
    uint8_t bytes[GULLBISCUIT_MOST_BYTES];
};

static void spell_number(struct made *m, uint32_t x)
{
    m->value[m->count] = x;
    m->begin[m->count++] = m->n;
    m->n += plain_put(x, m->bytes + m->n);
}

static void spell(struct made *m)
{
    m->count = m->n = 0;
    spell_number(m, 1);
    spell_number(m, m->servers);
    for (uint32_t j = 1; j <= m->servers; j++) {
        spell_number(m, m->rate[j]);
        spell_number(m, m->latency[j]);
    }
    spell_number(m, m->flows);
    for (uint32_t f = 0; f < m->flows; f++) {
        spell_number(m, m->flow[f].first);
        spell_number(m, m->flow[f].last);
        spell_number(m, m->flow[f].burst);
        spell_number(m, m->flow[f].rate);
    }
    spell_number(m, m->watched.burst);
    spell_number(m, m->watched.rate);
    spell_number(m, m->mode);
    spell_number(m, m->g);
    m->begin[m->count] = m->n;
}

/* Whether a path would cross one of the first so many flows. */
static int would_cross(const struct made *m, uint32_t flows, uint32_t first, uint32_t last)
{
    for (uint32_t f = 0; f < flows; f++) {
        uint32_t i = m->flow[f].first, j = m->flow[f].last;
        if ((i < first && first <= j && j < last) || (first < i && i <= last && last < j))
            return 1;
    }
    return 0;
}

/* The number of paths. */
static uint32_t groups_in(const struct made *m)
{
    uint32_t groups = 0;
    for (uint32_t f = 0; f < m->flows; f++) {
        uint32_t e = 0;
        while (m->flow[e].first != m->flow[f].first || m->flow[e].last != m->flow[f].last)
            e++;
        groups += e == f;
    }
    return groups;
}

/* Nested paths: each new one that of a flow before, inside it, around it, or anywhere. */
static void make_paths(struct made *m)
{
    for (uint32_t f = 0; f < m->flows; f++) {
        uint32_t first = 0, last = 0;
        for (int tries = 0; tries < 20; tries++) {
            first = between(1, m->servers);
            last = between(first, m->servers);
            if (f > 0) {
                uint32_t e = between(0, f - 1), i = m->flow[e].first, j = m->flow[e].last;
                switch (rnd() % 8) {
                case 0: first = i, last = j; break;
                case 1: case 2: case 3: first = between(i, j), last = between(first, j); break;
                case 4: first = between(1, i), last = between(j, m->servers); break;
                default: break;
                }
            }
            if (!would_cross(m, f, first, last))
                break;
            first = f == 0 ? first : m->flow[0].first;
            last = f == 0 ? last : m->flow[0].last;
        }
        m->flow[f].first = first;
        m->flow[f].last = last;
    }
}

/* Bursts, rates and latencies up to these tops, with servers that carry their flows: often just, sometimes well. In a tight row they all
 * just do, and the watched flow is a slow one with a large burst: there an extra often pays. */
static void make_numbers(struct made *m, uint32_t burst, uint32_t rate, uint32_t latency)
{
    int tight = rnd() % 2 == 0;
    m->watched.burst = between(0, tight && burst <= 65535 / 4 ? 4 * burst : burst);
    m->watched.rate = between(1, tight ? (rate + 3) / 4 : rate);
    for (uint32_t f = 0; f < m->flows; f++) {
        m->flow[f].burst = between(0, burst);
        m->flow[f].rate = between(tight ? (rate + 1) / 2 : 1, rate);
    }
    for (uint32_t j = 1; j <= m->servers; j++) {
        uint32_t sum = m->watched.rate;
        for (uint32_t f = 0; f < m->flows; f++)
            if (m->flow[f].first <= j && j <= m->flow[f].last)
                sum += m->flow[f].rate;
        switch (tight ? rnd() % 2 : rnd() % 5) {
        case 0: break;
        case 1: sum += between(1, 3); break;
        case 2: sum += between(0, sum); break;
        case 3: sum += between(0, burst); break;
        default: sum += between(0, 8 * rate); break;
        }
        m->rate[j] = sum < 1000000 ? sum : 1000000;
        m->latency[j] = between(0, latency);
    }
}

/* A grid: mode 0 with at most so many points where there is such a g, and now and then mode 1. */
static void make_grid(struct made *m, uint32_t most)
{
    uint32_t groups = groups_in(m), tries = 0;
    uint64_t points;
    m->mode = rnd() % 8 == 0;
    do {
        m->g = between(1, 9);
        if (m->g == 1)
            m->g = 0;
        points = 1;
        for (uint32_t k = 0; k < groups && points <= most; k++)
            points *= m->g == 0 ? 3 : m->g;
        if (++tries > 20)
            m->mode = 1;
    } while (m->mode == 0 && points > most);
}

/* A nested row that its servers can carry, with so many servers and flows and a small grid. */
static void make(struct made *m, uint32_t servers, uint32_t flows, uint32_t most)
{
    static const uint32_t bursts[] = {3, 12, 40, 1000, 65535}, rates[] = {1, 4, 20, 1000, 20000}, latencies[] = {0, 2, 5, 1000};
    m->servers = servers;
    m->flows = flows;
    make_paths(m);
    make_numbers(m, bursts[rnd() % 5], rates[rnd() % 5], latencies[rnd() % 4]);
    make_grid(m, most);
    spell(m);
}

/* The usual row: few groups, so that every point of its grid can be worked out. */
static void make_usual(struct made *m)
{
    make(m, between(1, rnd() % 4 == 0 ? 16 : 5), between(0, rnd() % 4 == 0 ? 6 : 4), rnd() % 8 == 0 ? 256 : 32);
}

/* A row so small that its slots can be looked at. */
static void make_small(struct made *m)
{
    m->servers = between(1, 5);
    m->flows = between(0, 5);
    make_paths(m);
    make_numbers(m, between(0, 20), between(1, 12), between(0, 2));
    make_grid(m, 32);
    spell(m);
}

/* A row with just so many groups, at most 31: until then there is always one more path that crosses none. */
static void make_groups(struct made *m, uint32_t groups, uint32_t mode, uint32_t g)
{
    m->servers = 16;
    m->flows = 0;
    while (m->flows < groups) {
        uint32_t first = between(1, 16), last = rnd() % 2 ? first : between(first, 16), f = 0;
        while (f < m->flows && (m->flow[f].first != first || m->flow[f].last != last))
            f++;
        if (f == m->flows && !would_cross(m, f, first, last)) {
            m->flow[f].first = first;
            m->flow[f].last = last;
            m->flows++;
        }
    }
    make_numbers(m, 20, 4, 2);
    m->mode = mode;
    m->g = g;
    spell(m);
}

/* A tree of 31 groups: every server, pairs of servers, pairs of pairs and so on up to the watched flow's own path. */
static void make_largest(struct made *m, uint32_t burst, uint32_t rate, uint32_t latency)
{
    m->servers = 16;
    m->flows = 0;
    for (uint32_t length = 1; length <= 16; length *= 2)
        for (uint32_t first = 1; first <= 16; first += length) {
            m->flow[m->flows].first = first;
            m->flow[m->flows++].last = first + length - 1;
        }
    make_numbers(m, burst, rate, latency);
    m->mode = 1;
    m->g = 9;
    spell(m);
}

/* Sheets that are mostly accepted, each with every room around the needed one. */
static void check_accepted(int times)
{
    struct made m;
    for (int t = 0; t < 6000 * times; t++) {
        make_usual(&m);
        analyse_rooms(m.bytes, m.n, 0);
    }
    for (int t = 0; t < 2500 * times; t++) {
        make_small(&m);
        analyse_rooms(m.bytes, m.n, 1);
    }
    for (int t = 0; t < 200 * times; t++) {
        make(&m, between(1, 16), between(20, 48), 32);
        analyse_rooms(m.bytes, m.n, 0);
        make_largest(&m, t % 2 ? 65535 : 20, t % 4 < 2 ? 1 : 300, t % 8 < 4 ? 0 : 1000);
        analyse_rooms(m.bytes, m.n, 0);
    }
    for (int t = 0; t < 100 * times; t++) {
        make_usual(&m);
        struct plain_verdict verdict;
        plain_analyse(m.bytes, m.n, &verdict);
        for (size_t room = 0; room < verdict.len + 8; room++)
            answer_case(m.bytes, m.n, &verdict, room);
    }
}

/* Paths that cross, servers that are overloaded, grids with too many points, and two or three of these at once. */
static void check_refused(int times)
{
    struct made m;
    for (int t = 0; t < 4000 * times; t++) {
        if (t % 2)
            make_usual(&m);
        else
            make(&m, between(2, 16), between(2, 48), 32);
        if (t % 3 != 0 && m.flows > 1) {
            uint32_t f = between(0, m.flows - 1);
            m.flow[f].first = between(1, m.servers);
            m.flow[f].last = between(m.flow[f].first, m.servers);
        }
        if (t % 5 > 1) {
            uint32_t j = between(1, m.servers);
            if (m.rate[j] > 1)
                m.rate[j]--;
        }
        if (t % 7 > 1 && groups_in(&m) > 4) {
            m.mode = 0;
            m.g = 9;
            if (groups_in(&m) == 5)
                m.mode = 1;
        }
        spell(&m);
        analyse_rooms(m.bytes, m.n, 0);
    }
    /* the greatest number of groups with which each g is accepted, and the same with one group more, up to 31 */
    static const uint32_t greatest[] = {10, 0, 16, 10, 8, 6, 6, 5, 5, 5};
    for (uint32_t g = 0; g < 10; g++)
        for (uint32_t groups = greatest[g] + 1; g != 1 && groups <= 31; groups++) {
            make_groups(&m, groups, 0, g);
            struct plain_verdict verdict;
            plain_analyse(m.bytes, m.n, &verdict);
            expect(verdict.refused == ((uint64_t)8 << 32 | groups), "a row with too many points is not refused with 8");
            answer_case(m.bytes, m.n, &verdict, GULLBISCUIT_MOST_ANSWER);
            answer_case(m.bytes, m.n, &verdict, 0);
            make_groups(&m, groups, 1, g);
            analyse_case(m.bytes, m.n);
        }
    for (uint32_t g = 5; g < 10; g++) {
        make_groups(&m, greatest[g] - (g != 9), 0, g);
        analyse_case(m.bytes, m.n);
    }
}

/* The sheet's bytes with those of number i replaced. */
static size_t replaced(const struct made *m, size_t i, const uint8_t *with, size_t n, uint8_t *to)
{
    size_t rest = m->n - m->begin[i + 1];
    memcpy(to, m->bytes, m->begin[i]);
    memcpy(to + m->begin[i], with, n);
    memcpy(to + m->begin[i] + n, m->bytes + m->begin[i + 1], rest);
    return m->begin[i] + n + rest;
}

/* Sheets that are damaged: cut off, with bytes left over, a byte changed, a number in a longer form, a field another number; and bytes that
 * never were a sheet. */
static void check_damaged(int times)
{
    struct made m;
    uint8_t bytes[GULLBISCUIT_MOST_BYTES + 600] = {0};
    analyse_rooms(bytes, 0, 0);
    for (int t = 0; t < 60 * times; t++) {
        make(&m, between(1, 5), between(0, 3), 32);
        for (size_t n = 0; n < m.n; n++)
            analyse_case(m.bytes, n);
        memcpy(bytes, m.bytes, m.n);
        size_t more = between(1, 9);
        for (size_t i = 0; i < more; i++)
            bytes[m.n + i] = (uint8_t)rnd();
        analyse_rooms(bytes, m.n + more, 0);
        for (size_t i = 0; i < m.n; i++) {
            memcpy(bytes, m.bytes, m.n);
            for (int bit = 0; bit < 8; bit++) {
                bytes[i] = m.bytes[i] ^ (uint8_t)(1 << bit);
                analyse_case(bytes, m.n);
            }
            bytes[i] = (uint8_t)rnd();
            analyse_case(bytes, m.n);
        }
        for (size_t i = 0; i < m.count; i++) {
            uint8_t put[16];
            size_t width = plain_put(m.value[i], put);
            for (size_t pad = 1; pad <= 5; pad++) {
                put[width + pad - 2] |= 128;
                put[width + pad - 1] = 0;
                analyse_case(bytes, replaced(&m, i, put, width + pad, bytes));
            }
            const uint32_t other[] = {m.value[i] - 1, m.value[i] + 1, 0, 1, m.servers, m.servers + 1, 65535, 65536, 1000001, UINT32_MAX,
                                      (uint32_t)rnd()};
            for (size_t k = 0; k < sizeof other / sizeof other[0]; k++)
                analyse_case(bytes, replaced(&m, i, put, plain_put(other[k], put), bytes));
        }
    }
    for (int t = 0; t < 10000 * times; t++) {
        size_t n = 0;
        if (t % 2 == 1) {
            make_usual(&m);
            n = rnd() % m.n;
            memcpy(bytes, m.bytes, n);
        }
        size_t end = n + rnd() % 300;
        unsigned top = t % 3 == 0 ? 255 : t % 3 == 1 ? 3 : 17;
        for (; n < end; n++)
            bytes[n] = (uint8_t)between(0, top);
        analyse_case(bytes, n);
    }
    uint8_t *large = malloc(MOST_INPUT);
    expect(large != NULL, "no memory for the large inputs");
    memset(large, 0x80, MOST_INPUT);
    analyse_rooms(large, MOST_INPUT, 0);
    memset(large, 0, MOST_INPUT);
    analyse_rooms(large, MOST_INPUT, 0);
    make_largest(&m, 65535, 1, 1000);
    memcpy(large, m.bytes, m.n);
    analyse_rooms(large, MOST_INPUT, 0);
    free(large);
}

/* The bytes of a word of hex digits, none for `-`; gives how many. */
static size_t unhex(const char *word, uint8_t *to)
{
    size_t n = 0;
    unsigned x;
    if (strcmp(word, "-") == 0)
        return 0;
    for (; sscanf(word + 2 * n, "%2x", &x) == 1; n++)
        to[n] = (uint8_t)x;
    expect(strlen(word) == 2 * n, "a vector has a word that is not hex");
    return n;
}

/* The oracle's vectors, a case a line: `analyse`, `room=N`, the sheet, and `code X RECORD` or `code X refused R DETAIL`. The entry and plain C
 * must both give them; a sheet with several rooms is worked out once in plain C. */
static void check_vectors(const char *name)
{
    static char line[8192], sheet[4096], known[4096], found[4096];
    static uint8_t bytes[2048], record[2048];
    struct plain_verdict verdict;
    FILE *file = fopen(name, "r");
    expect(file != NULL, "the vectors cannot be opened");
    uint64_t lines = 0;
    while (fgets(line, sizeof line, file) != NULL) {
        unsigned long long code;
        unsigned why, detail;
        size_t room, len = 0, n;
        lines++;
        int words = sscanf(line, "analyse room=%zu %4095s code %llu %4095s %u %u", &room, sheet, &code, found, &why, &detail);
        int refused = words == 6 && strcmp(found, "refused") == 0;
        expect((words == 4 || refused) && room <= MOST_ROOM, "a vector is not in the form of the vectors");
        n = unhex(sheet, bytes);
        if (refused)
            expect(code == ((uint64_t)why << 32 | detail), "a vector has two answers");
        else
            len = unhex(found, record);
        if (strcmp(sheet, known) != 0)
            plain_analyse(bytes, n, &verdict);
        strcpy(known, sheet);
        uint64_t got = answer_case(bytes, n, &verdict, room);
        if (got != code || (!refused && len != got) || memcmp(buf.theirs + GUARD, record, len) != 0) {
            printf("vector %llu: %s", (unsigned long long)lines, line);
            show("the entry and plain C", buf.theirs + GUARD, gullbiscuit_refusal(got) ? 0 : gullbiscuit_detail(got));
            expect(0, "the entry does not give what the vector says");
        }
    }
    fclose(file);
    expect(lines > 0, "there are no vectors");
}

int main(int argc, char **argv)
{
    begin("analyse");
    expect(argc > 1, "the vectors are to be the argument");
    if (argc > 2)
        state = strtoull(argv[2], NULL, 10);
    int times = argc > 3 ? atoi(argv[3]) : 1;
    check_vectors(argv[1]);
    check_accepted(times);
    check_refused(times);
    check_damaged(times);
    printf("analyse: %llu cases agree (%llu accepted)\n", (unsigned long long)cases, (unsigned long long)accepted);
    return 0;
}
