/* Holds the reader and the writer beside an implementation of document 01 in plain C, over generated inputs from a fixed seed.
 * Input stands right before memory that may not be touched; a buffer stands between guards, in a pattern of its own for each case.
 * Prints one line; on the first disagreement the input in hex with both answers, and exits with 1. */
#include "../../include/gullbiscuit.h"
#include "beside.h"
#include "plain.h"

#include <stdio.h>
#include <stdlib.h>
#include <string.h>

static uint64_t read_case(const uint8_t *bytes, size_t n, size_t room)
{
    uint8_t *input = lay(bytes, n);
    fill(room * 4);
    uint64_t got = gullbiscuit_read_sheet(input, n, (uint32_t *)(void *)(buf.theirs + GUARD), room);
    uint64_t want = plain_read_sheet(bytes, n, (uint32_t *)(void *)(buf.plain + GUARD), room);
    compare("gullbiscuit_read_sheet", input, bytes, n, room, 4, got, want);
    return got;
}

static uint64_t write_case(const uint32_t *list, size_t n, size_t room)
{
    uint8_t *input = lay((const uint8_t *)list, 4 * n);
    fill(room);
    uint64_t got = gullbiscuit_write_sheet((const uint32_t *)(void *)input, n, buf.theirs + GUARD, room);
    uint64_t want = plain_write_sheet(list, n, buf.plain + GUARD, room);
    compare("gullbiscuit_write_sheet", input, (const uint8_t *)list, 4 * n, room, 1, got, want);
    return got;
}

/* Every room around the one that is needed. */
static void read_rooms(const uint8_t *bytes, size_t n, size_t needed)
{
    read_case(bytes, n, 0);
    if (needed > 0)
        read_case(bytes, n, needed - 1);
    read_case(bytes, n, needed);
    read_case(bytes, n, needed + 1);
    read_case(bytes, n, GULLBISCUIT_MOST_NUMBERS);
    read_case(bytes, n, MOST_ROOM / 4);
}

static void write_rooms(const uint32_t *list, size_t n, size_t needed)
{
    write_case(list, n, 0);
    if (needed > 0)
        write_case(list, n, needed - 1);
    write_case(list, n, needed);
    write_case(list, n, needed + 1);
    write_case(list, n, GULLBISCUIT_MOST_BYTES);
    write_case(list, n, MOST_ROOM);
}

/* A sheet that was made: its numbers with their ranges, its bytes, and where each number begins. */
struct sheet {
    size_t count;
    uint32_t value[256];
    uint32_t low[256];
    uint32_t high[256];
    size_t n;
    size_t begin[257];
    uint8_t bytes[2048];
};

static void spell(struct sheet *s)
{
    s->n = 0;
    for (size_t i = 0; i < s->count; i++) {
        s->begin[i] = s->n;
        s->n += plain_put(s->value[i], s->bytes + s->n);
    }
    s->begin[s->count] = s->n;
}

/* A number of a range, often at its ends or where its width changes. */
static uint32_t pick(uint32_t low, uint32_t high)
{
    static const uint32_t edge[] = {0, 1, 127, 128, 16383, 16384, 65535, 1000000};
    uint32_t x = edge[rnd() % 8];
    switch (rnd() % 5) {
    case 0: return low;
    case 1: return high;
    case 2: return x < low || high < x ? high : x;
    default: return between(low, high);
    }
}

static uint32_t add(struct sheet *s, uint32_t low, uint32_t high, uint32_t x)
{
    s->low[s->count] = low;
    s->high[s->count] = high;
    s->value[s->count] = x;
    s->count++;
    return x;
}

static void make(struct sheet *s, uint32_t servers, uint32_t flows, int tops)
{
    s->count = 0;
#define FIELD(low, high) add(s, low, high, tops ? (high) : pick(low, high))
    FIELD(1, 1);
    add(s, 1, 16, servers);
    for (uint32_t j = 0; j < servers; j++) {
        FIELD(1, 1000000);
        FIELD(0, 1000);
    }
    add(s, 0, 48, flows);
    for (uint32_t f = 0; f < flows; f++) {
        uint32_t first = FIELD(1, servers);
        FIELD(first, servers);
        FIELD(0, 65535);
        FIELD(1, 65535);
    }
    FIELD(0, 65535);
    FIELD(1, 65535);
    FIELD(0, 1);
    uint32_t g = FIELD(0, 9);
    if (g == 1)
        s->value[s->count - 1] = 2;
#undef FIELD
    spell(s);
}

static void make_random(struct sheet *s)
{
    uint32_t servers = rnd() % 4 == 0 ? 16 : between(1, 6);
    uint32_t flows = rnd() % 4 == 0 ? 48 : between(0, 8);
    make(s, servers, flows, 0);
}

/* The sheet's bytes with those of number i replaced. */
static size_t replaced(const struct sheet *s, size_t i, const uint8_t *with, size_t n, uint8_t *to)
{
    size_t rest = s->n - s->begin[i + 1];
    memcpy(to, s->bytes, s->begin[i]);
    memcpy(to + s->begin[i], with, n);
    memcpy(to + s->begin[i] + n, s->bytes + s->begin[i + 1], rest);
    return s->begin[i] + n + rest;
}

/* Values around a field's range, and far outside. */
static size_t around(const struct sheet *s, size_t i, uint32_t *x)
{
    size_t n = 0;
    x[n++] = s->low[i] - 1;
    x[n++] = s->low[i];
    x[n++] = s->high[i];
    x[n++] = s->high[i] + 1;
    x[n++] = 0;
    x[n++] = 1;
    x[n++] = 2;
    x[n++] = 255;
    x[n++] = 0x80000000u;
    x[n++] = UINT32_MAX;
    x[n++] = (uint32_t)rnd();
    return n;
}

/* A field that is written in a way it must not be, or outside its range, one at a time. */
static void spoil_read(const struct sheet *s)
{
    static const struct { size_t n; uint8_t bytes[6]; } bad[] = {
        {5, {0x80, 0x80, 0x80, 0x80, 0x10}}, {5, {0xff, 0xff, 0xff, 0xff, 0x0f}}, {5, {0xff, 0xff, 0xff, 0xff, 0x1f}},
        {5, {0xff, 0xff, 0xff, 0xff, 0x7f}}, {5, {0x80, 0x80, 0x80, 0x80, 0x80}}, {6, {0x81, 0x80, 0x80, 0x80, 0x80, 0x00}},
        {6, {0xff, 0xff, 0xff, 0xff, 0xff, 0x01}}, {5, {0x80, 0x80, 0x80, 0x80, 0x00}}, {2, {0x80, 0x00}}, {5, {0x80, 0x80, 0x80, 0x80, 0x01}},
    };
    uint8_t bytes[2048 + 16];
    for (size_t i = 0; i < s->count; i++) {
        for (size_t b = 0; b < sizeof bad / sizeof bad[0]; b++) {
            size_t n = replaced(s, i, bad[b].bytes, bad[b].n, bytes);
            read_case(bytes, n, s->count);
            read_case(bytes, s->begin[i] + bad[b].n, s->count);
        }
        uint8_t padded[16];
        size_t w = plain_put(s->value[i], padded);
        for (size_t more = 1; more <= 5; more++) {
            padded[w + more - 2] |= 128;
            padded[w + more - 1] = 0;
            size_t n = replaced(s, i, padded, w + more, bytes);
            read_case(bytes, n, s->count);
        }
        uint32_t x[16];
        size_t many = around(s, i, x);
        for (size_t k = 0; k < many; k++) {
            uint8_t put[5];
            size_t n = replaced(s, i, put, plain_put(x[k], put), bytes);
            read_case(bytes, n, s->count);
            read_case(bytes, n, 0);
        }
    }
}

static void spoil_write(const struct sheet *s)
{
    uint32_t list[256];
    memcpy(list, s->value, s->count * 4);
    for (size_t i = 0; i < s->count; i++) {
        uint32_t x[16];
        size_t many = around(s, i, x);
        for (size_t k = 0; k < many; k++) {
            list[i] = x[k];
            write_case(list, s->count, s->n + 5);
            write_case(list, s->count, s->n);
            write_case(list, i + 1, s->n);
        }
        list[i] = s->value[i];
    }
}

static void check_read(void)
{
    struct sheet s;
    uint8_t bytes[2048 + 16] = {0};

    read_rooms(bytes, 0, 1);
    for (unsigned a = 0; a < 256; a++) {
        bytes[0] = (uint8_t)a;
        read_rooms(bytes, 1, 1);
        for (unsigned b = 0; b < 256; b++) {
            bytes[1] = (uint8_t)b;
            read_case(bytes, 2, 2);
        }
    }

    for (int t = 0; t < 2000; t++) {
        make_random(&s);
        uint64_t got = read_case(s.bytes, s.n, s.count);
        expect(got == s.count, "a sheet that was made to be valid is refused");
        expect(memcmp(buf.theirs + GUARD, s.value, 4 * s.count) == 0, "a sheet that was made gives other numbers");
        read_rooms(s.bytes, s.n, s.count);
        size_t more = between(1, 8);
        memcpy(bytes, s.bytes, s.n);
        for (size_t i = 0; i < more; i++)
            bytes[s.n + i] = (uint8_t)rnd();
        read_rooms(bytes, s.n + more, s.count);
    }

    for (int t = 0; t < 150; t++) {
        make_random(&s);
        for (size_t n = 0; n <= s.n; n++) {
            read_case(s.bytes, n, s.count);
            read_case(s.bytes, n, 0);
        }
    }

    for (int t = 0; t < 6; t++) {
        make_random(&s);
        if (t == 0)
            make(&s, 16, 48, 1);
        for (size_t i = 0; i < s.n; i++) {
            uint8_t was = s.bytes[i];
            for (unsigned x = 1; x < 256; x++) {
                s.bytes[i] = (uint8_t)(was + x);
                read_case(s.bytes, s.n, GULLBISCUIT_MOST_NUMBERS);
            }
            s.bytes[i] = was;
        }
    }

    for (int t = 0; t < 20; t++) {
        make_random(&s);
        spoil_read(&s);
    }

    for (int t = 0; t < 30000; t++) {
        size_t n = 0;
        if (t % 2 == 1) {
            make_random(&s);
            n = rnd() % (s.n + 1);
            memcpy(bytes, s.bytes, n);
        }
        size_t end = n + rnd() % 600;
        unsigned top = t % 3 == 0 ? 255 : t % 3 == 1 ? 17 : 127;
        for (; n < end; n++)
            bytes[n] = (uint8_t)between(0, top);
        read_case(bytes, n, rnd() % 2 ? GULLBISCUIT_MOST_NUMBERS : rnd() % 240);
    }

    make(&s, 16, 48, 1);
    expect(s.n == GULLBISCUIT_MOST_BYTES && s.count == GULLBISCUIT_MOST_NUMBERS, "the largest sheet has another size");
    read_rooms(s.bytes, s.n, s.count);

    uint8_t *large = malloc(MOST_INPUT);
    expect(large != NULL, "no memory for the large inputs");
    memset(large, 0x80, MOST_INPUT);
    read_rooms(large, MOST_INPUT, 0);
    memset(large, 0, MOST_INPUT);
    read_rooms(large, MOST_INPUT, 0);
    memset(large, 0xff, MOST_INPUT);
    memcpy(large, s.bytes, s.n);
    read_rooms(large, MOST_INPUT, s.count);
    large[s.n - 1] = 0x80;
    read_rooms(large, MOST_INPUT, s.count);
    free(large);
}

static void check_write(void)
{
    struct sheet s;
    uint32_t list[1024] = {0};

    write_rooms(list, 0, 1);
    for (uint32_t a = 0; a < 300; a++) {
        list[0] = a;
        write_rooms(list, 1, 1);
        list[0] = 1;
        list[1] = a;
        write_rooms(list, 2, 2);
    }

    for (int t = 0; t < 2000; t++) {
        make_random(&s);
        uint64_t got = write_case(s.value, s.count, s.n);
        expect(got == s.n, "a list that was made to be valid is refused");
        expect(memcmp(buf.theirs + GUARD, s.bytes, s.n) == 0, "a list that was made gives other bytes");
        write_rooms(s.value, s.count, s.n);
        size_t more = between(1, 8);
        memcpy(list, s.value, 4 * s.count);
        for (size_t i = 0; i < more; i++)
            list[s.count + i] = (uint32_t)rnd();
        write_rooms(list, s.count + more, s.n);
    }

    for (int t = 0; t < 150; t++) {
        make_random(&s);
        for (size_t n = 0; n <= s.count; n++) {
            write_case(s.value, n, s.n);
            write_case(s.value, n, 0);
        }
    }

    for (int t = 0; t < 25; t++) {
        make_random(&s);
        spoil_write(&s);
    }

    for (int t = 0; t < 30000; t++) {
        size_t n = 0;
        if (t % 2 == 1) {
            make_random(&s);
            n = rnd() % (s.count + 1);
            memcpy(list, s.value, 4 * n);
        }
        size_t end = n + rnd() % 300;
        uint32_t top = t % 3 == 0 ? UINT32_MAX : t % 3 == 1 ? 17 : 65535;
        for (; n < end; n++)
            list[n] = between(0, top);
        write_case(list, n, rnd() % 2 ? GULLBISCUIT_MOST_BYTES : rnd() % 500);
    }

    make(&s, 16, 48, 1);
    write_rooms(s.value, s.count, s.n);

    uint32_t *large = calloc(MOST_INPUT / 4, 4);
    expect(large != NULL, "no memory for the large lists");
    write_rooms(large, MOST_INPUT / 4, 0);
    memcpy(large, s.value, 4 * s.count);
    write_rooms(large, MOST_INPUT / 4, s.n);
    free(large);
}

int main(void)
{
    begin("check");
    check_read();
    uint64_t reads = cases;
    check_write();
    printf("check: %llu cases agree (%llu of the reader, %llu of the writer)\n", (unsigned long long)cases, (unsigned long long)reads,
           (unsigned long long)(cases - reads));
    return 0;
}
