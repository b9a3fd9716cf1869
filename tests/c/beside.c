/* What the tests of the entries share: generated numbers from a fixed seed, inputs and buffers between guards, and the comparison of an
 * entry with plain C. */
#define _DEFAULT_SOURCE
#include "beside.h"
#include "../../include/gullbiscuit.h"

#include <stdio.h>
#include <stdlib.h>
#include <string.h>
#include <sys/mman.h>
#include <unistd.h>

uint64_t cases, accepted;
uint64_t state = 20231115;
_Alignas(64) struct buffer buf;

static const char *program;

/* Memory of which the bytes just before its end may be touched and those behind may not. */
static uint8_t *fence_end;

/* What stands in the guard in front of an input. */
static uint8_t front[GUARD];

uint64_t rnd(void)
{
    uint64_t z = (state += 0x9e3779b97f4a7c15u);
    z = (z ^ (z >> 30)) * 0xbf58476d1ce4e5b9u;
    z = (z ^ (z >> 27)) * 0x94d049bb133111ebu;
    return z ^ (z >> 31);
}

uint32_t between(uint32_t low, uint32_t high)
{
    return low + (uint32_t)(rnd() % ((uint64_t)high - low + 1));
}

void begin(const char *name)
{
    program = name;
    size_t page = (size_t)sysconf(_SC_PAGESIZE);
    size_t size = ((MOST_INPUT + GUARD) / page + 2) * page;
    uint8_t *p = mmap(NULL, size + page, PROT_READ | PROT_WRITE, MAP_PRIVATE | MAP_ANONYMOUS, -1, 0);
    if (p == MAP_FAILED || mprotect(p + size, page, PROT_NONE) != 0) {
        printf("%s: no memory for the inputs\n", name);
        exit(2);
    }
    fence_end = p + size;
}

static void pattern(uint8_t *to, size_t n, uint64_t x)
{
    for (size_t i = 0; i < n; i += 8) {
        memcpy(to + i, &x, n - i < 8 ? n - i : 8);
        x = x * 6364136223846793005u + 1442695040888963407u;
    }
}

void fill(size_t room)
{
    buf.size = 2 * GUARD + room;
    pattern(buf.before, buf.size, rnd() | 1);
    memcpy(buf.theirs, buf.before, buf.size);
    memcpy(buf.plain, buf.before, buf.size);
}

uint8_t *lay(const uint8_t *bytes, size_t n)
{
    uint8_t *input = fence_end - n;
    pattern(front, GUARD, cases);
    memcpy(input - GUARD, front, GUARD);
    memcpy(input, bytes, n);
    return input;
}

void show(const char *what, const uint8_t *bytes, size_t n)
{
    printf("%s (%zu bytes):", what, n);
    for (size_t i = 0; i < n && i < 2048; i++)
        printf(" %02x", bytes[i]);
    printf(n > 2048 ? " ..\n" : "\n");
}

static void disagree(const char *entry, const char *why, const uint8_t *input, size_t n, size_t room, uint64_t got, uint64_t want)
{
    printf("%s: case %llu: %s: %s\n", program, (unsigned long long)cases, entry, why);
    show("input", input, n);
    printf("room: %zu\n", room);
    printf("the entry:  refusal %u detail %u\n", gullbiscuit_refusal(got), gullbiscuit_detail(got));
    printf("plain C:    refusal %u detail %u\n", gullbiscuit_refusal(want), gullbiscuit_detail(want));
    show("before", buf.before, buf.size);
    show("the entry", buf.theirs, buf.size);
    show("plain C", buf.plain, buf.size);
    exit(1);
}

void compare(const char *entry, const uint8_t *input, const uint8_t *kept, size_t n, size_t room, size_t unit, uint64_t got, uint64_t want)
{
    cases++;
    const char *why = NULL;
    int done = gullbiscuit_refusal(got) == GULLBISCUIT_DONE;
    size_t written = done ? gullbiscuit_detail(got) * unit : 0;
    if (got != want)
        why = "the answers differ";
    else if (memcmp(input, kept, n) != 0)
        why = "the input was changed";
    else if (memcmp(input - GUARD, front, GUARD) != 0)
        why = "bytes in front of the input were changed";
    else if (memcmp(buf.theirs, buf.plain, buf.size) != 0)
        why = "the buffers differ";
    else if (written > room * unit)
        why = "more was written than there is room for";
    else if (memcmp(buf.theirs, buf.before, GUARD) != 0)
        why = "bytes in front of the buffer were changed";
    else if (memcmp(buf.theirs + GUARD + written, buf.before + GUARD + written, buf.size - GUARD - written) != 0)
        why = "bytes past the length were changed";
    if (why != NULL)
        disagree(entry, why, kept, n, room, got, want);
    if (done)
        accepted++;
}

void expect(int holds, const char *what)
{
    if (!holds) {
        printf("%s: %s\n", program, what);
        exit(1);
    }
}
