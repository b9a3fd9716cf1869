/* The answers on one sheet held together: the library's, out of its record, and those of both searches in C. */
#include "../include/gullbiscuit.h"
#include "search.h"

#include <string.h>

/* An answer record, and the place in it. */
struct record {
    uint8_t bytes[GULLBISCUIT_MOST_ANSWER];
    size_t len, at;
};

/* The number at the place; one that is not whole puts the place past the end. */
static uint64_t field(struct record *r)
{
    uint64_t x = 0;
    for (unsigned shift = 0; r->at < r->len && shift < 35; shift += 7) {
        uint8_t byte = r->bytes[r->at++];
        x |= (uint64_t)(byte & 127) << shift;
        if (byte < 128)
            return x;
    }
    r->at = r->len + 1;
    return x;
}

/* What the library's entry answers; gives NULL, or what is wrong with it. */
static const char *library_answer(const uint8_t *sheet, size_t len, const struct row *row, struct answer *a)
{
    struct record r = {.at = 0};
    uint64_t gives = gullbiscuit_analyse(sheet, len, r.bytes, sizeof r.bytes);
    if (gullbiscuit_refusal(gives) != GULLBISCUIT_DONE)
        return "the library refuses it";
    r.len = gullbiscuit_detail(gives);
    if (r.len > sizeof r.bytes)
        return "the answer record is longer than its buffer";
    a->bound = field(&r);
    a->start = field(&r);
    if (field(&r) != row->grid)
        return "another grid in the answer record";
    a->groups = row->groups;
    if (field(&r) != row->groups)
        return "another number of groups in the answer record";
    for (unsigned k = 0; k < row->groups; k++)
        a->wait[k] = field(&r);
    return r.at == r.len ? NULL : r.at < r.len ? "the answer record goes on" : "the answer record ends early";
}

static int is_same(const struct answer *a, const struct answer *b)
{
    return a->bound == b->bound && a->start == b->start && a->groups == b->groups
        && memcmp(a->wait, b->wait, a->groups * sizeof *a->wait) == 0;
}

const char *compare_answers(const uint8_t *sheet, size_t len, const struct row *row, struct answer *plain)
{
    struct answer proved, best;
    const char *wrong = library_answer(sheet, len, row, &proved);
    if (wrong != NULL)
        return wrong;
    plain_search(row, plain);
    best_search(row, &best);
    if (!is_same(&proved, plain))
        return "the proved analysis and plain C differ";
    if (!is_same(&best, plain))
        return "best C and plain C differ";
    return NULL;
}
