/* The sheet reader and writer in plain C, written from document 01: the fields of a sheet one after the other. */
#include "plain.h"

#define INLINE static inline __attribute__((always_inline))

enum { MOST_NUMBERS = 16 * 2 + 48 * 4 + 7 };

/* What is read from: bytes, or a list of numbers; where it stands; what it gave so far; and why it is refused, if it is. */
struct source {
    const uint8_t *bytes;
    const uint32_t *list;
    size_t len;
    size_t at;
    size_t count;
    uint64_t refused;
    uint32_t values[MOST_NUMBERS];
};

typedef int take(struct source *s, uint32_t *x);

static uint64_t answer(uint64_t refusal, uint64_t detail)
{
    return refusal << 32 | detail;
}

INLINE int refuse(struct source *s, uint64_t refusal, size_t at)
{
    s->refused = answer(refusal, at);
    return 0;
}

/* The number in groups of seven bits at the place. */
INLINE int take_bytes(struct source *s, uint32_t *x)
{
    uint64_t value = 0;
    for (size_t k = 0; k < 5; k++) {
        if (s->len - s->at <= k)
            return refuse(s, 1, s->at);
        uint64_t group = s->bytes[s->at + k];
        value |= (group & 127) << (7 * k);
        if (group < 128) {
            if (value > UINT32_MAX || (group == 0 && k > 0))
                return refuse(s, 2, s->at);
            s->at += k + 1;
            *x = (uint32_t)value;
            return 1;
        }
    }
    return refuse(s, 2, s->at);
}

/* The number at the place of a list. */
INLINE int take_entry(struct source *s, uint32_t *x)
{
    if (s->at == s->len)
        return refuse(s, 1, s->at);
    *x = s->list[s->at++];
    return 1;
}

/* A field with a range, refused with `why` outside it. */
INLINE int field(struct source *s, take *take, uint32_t low, uint32_t high, uint64_t why, uint32_t *x)
{
    size_t at = s->at;
    if (!take(s, x))
        return 0;
    if (*x < low || high < *x)
        return refuse(s, why, at);
    s->values[s->count++] = *x;
    return 1;
}

/* All fields of a sheet, and nothing behind them. */
INLINE int fields(struct source *s, take *take)
{
    uint32_t edition, servers, flows, first, x;
    if (!field(s, take, 1, 1, 4, &edition) || !field(s, take, 1, 16, 4, &servers))
        return 0;
    for (uint32_t j = 0; j < servers; j++)
        if (!field(s, take, 1, 1000000, 4, &x) || !field(s, take, 0, 1000, 4, &x))
            return 0;
    if (!field(s, take, 0, 48, 4, &flows))
        return 0;
    for (uint32_t f = 0; f < flows; f++)
        if (!field(s, take, 1, servers, 5, &first) || !field(s, take, first, servers, 5, &x) || !field(s, take, 0, 65535, 4, &x)
            || !field(s, take, 1, 65535, 4, &x))
            return 0;
    if (!field(s, take, 0, 65535, 4, &x) || !field(s, take, 1, 65535, 4, &x) || !field(s, take, 0, 1, 4, &x))
        return 0;
    size_t g_at = s->at;
    if (!field(s, take, 0, 9, 4, &x))
        return 0;
    if (x == 1)
        return refuse(s, 4, g_at);
    if (s->at < s->len)
        return refuse(s, 3, s->at);
    return 1;
}

uint64_t plain_read_sheet(const uint8_t *sheet, size_t sheet_len, uint32_t *numbers, size_t numbers_len)
{
    struct source s;
    s.bytes = sheet;
    s.len = sheet_len;
    s.at = s.count = 0;
    if (!fields(&s, take_bytes))
        return s.refused;
    if (numbers_len < s.count)
        return answer(10, s.count);
    for (size_t i = 0; i < s.count; i++)
        numbers[i] = s.values[i];
    return answer(0, s.count);
}

size_t plain_put(uint32_t x, uint8_t *to)
{
    size_t n = 0;
    for (; x > 127; x >>= 7)
        to[n++] = (uint8_t)(x | 128);
    to[n++] = (uint8_t)x;
    return n;
}

uint64_t plain_write_sheet(const uint32_t *numbers, size_t numbers_len, uint8_t *sheet, size_t sheet_len)
{
    struct source s;
    s.list = numbers;
    s.len = numbers_len;
    s.at = s.count = 0;
    if (!fields(&s, take_entry))
        return s.refused;
    uint8_t bytes[5 * MOST_NUMBERS];
    size_t n = 0;
    for (size_t i = 0; i < s.count; i++)
        n += plain_put(s.values[i], bytes + n);
    if (sheet_len < n)
        return answer(10, n);
    for (size_t i = 0; i < n; i++)
        sheet[i] = bytes[i];
    return answer(0, n);
}
