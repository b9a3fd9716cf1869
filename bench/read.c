/* Measures the reader on the largest valid sheet (475 bytes, 231 numbers) beside plain C, and the stack that a read and a write take.
 *   read time             nanoseconds a call of each reader, the best of several rounds
 *   read stack            bytes of stack that a call takes, on a painted stack
 *   read calls WHICH N    only makes N calls of a reader, `entry` or `plain`: for a tool that counts instructions */
#define _DEFAULT_SOURCE
#include "../include/gullbiscuit.h"
#include "../tests/c/plain.h"

#include <pthread.h>
#include <stdio.h>
#include <stdlib.h>
#include <string.h>
#include <time.h>

enum { ROUNDS = 9, STACK = 1 << 18, PAINT = 0xa5 };

static uint32_t numbers[GULLBISCUIT_MOST_NUMBERS];
static uint8_t bytes[GULLBISCUIT_MOST_BYTES];

typedef uint64_t reader(const uint8_t *, size_t, uint32_t *, size_t);

/* The largest sheet: sixteen servers, forty-eight flows, every field at the top of its range, where it takes the most bytes. */
static void make(void)
{
    size_t n = 0;
    numbers[n++] = 1;
    numbers[n++] = 16;
    for (int j = 0; j < 16; j++) {
        numbers[n++] = 1000000;
        numbers[n++] = 1000;
    }
    numbers[n++] = 48;
    for (int f = 0; f < 48; f++) {
        numbers[n++] = 16;
        numbers[n++] = 16;
        numbers[n++] = 65535;
        numbers[n++] = 65535;
    }
    numbers[n++] = 65535;
    numbers[n++] = 65535;
    numbers[n++] = 1;
    numbers[n++] = 9;
    if (n != GULLBISCUIT_MOST_NUMBERS || gullbiscuit_write_sheet(numbers, n, bytes, sizeof bytes) != sizeof bytes) {
        puts("read: the largest sheet is not written");
        exit(1);
    }
}

static void call(reader *read, size_t times)
{
    for (size_t i = 0; i < times; i++)
        if (read(bytes, sizeof bytes, numbers, GULLBISCUIT_MOST_NUMBERS) != GULLBISCUIT_MOST_NUMBERS) {
            puts("read: the largest sheet is not read");
            exit(1);
        }
}

static double seconds(reader *read, size_t times)
{
    struct timespec a, b;
    clock_gettime(CLOCK_MONOTONIC, &a);
    call(read, times);
    clock_gettime(CLOCK_MONOTONIC, &b);
    return (double)(b.tv_sec - a.tv_sec) + 1e-9 * (double)(b.tv_nsec - a.tv_nsec);
}

/* Both readers by turns, so that a slow moment falls on both. */
static void time_both(void)
{
    size_t times = 1000;
    while (seconds(plain_read_sheet, times) < 0.02)
        times *= 2;
    double entry = 1e9, plain = 1e9;
    for (int r = 0; r < ROUNDS; r++) {
        double e = seconds(gullbiscuit_read_sheet, times), p = seconds(plain_read_sheet, times);
        entry = e < entry ? e : entry;
        plain = p < plain ? p : plain;
    }
    entry *= 1e9 / (double)times;
    plain *= 1e9 / (double)times;
    printf("nanoseconds a read: %.0f (goal: below 5000); plain C: %.0f; ratio %.2f\n", entry, plain, entry / plain);
}

static uint8_t stack[STACK] __attribute__((aligned(4096)));

/* The bytes that a call writes below the stack pointer it is made at, down to the lowest. The first of two calls binds what the linker left
 * to be bound. */
static __attribute__((noinline)) size_t depth(int writes)
{
    uint8_t *here = NULL;
    for (int turn = 0; turn < 2; turn++) {
#ifdef __x86_64__
        __asm__ volatile("mov %%rsp, %0" : "=r"(here));
#else
        __asm__ volatile("mov %0, sp" : "=r"(here));
#endif
        for (volatile uint8_t *p = stack; p < here; p++)
            *p = PAINT;
        if (writes)
            gullbiscuit_write_sheet(numbers, GULLBISCUIT_MOST_NUMBERS, bytes, sizeof bytes);
        else
            gullbiscuit_read_sheet(bytes, sizeof bytes, numbers, GULLBISCUIT_MOST_NUMBERS);
    }
    const uint8_t *p = stack;
    while (p < here && *p == PAINT)
        p++;
    return (size_t)(here - p);
}

static size_t used[2];

static void *measure(void *unused)
{
    (void)unused;
    used[0] = depth(0);
    used[1] = depth(1);
    return NULL;
}

static void show_stack(void)
{
    pthread_attr_t attr;
    pthread_t thread;
    if (pthread_attr_init(&attr) != 0 || pthread_attr_setstack(&attr, stack, STACK) != 0 || pthread_create(&thread, &attr, measure, NULL) != 0
        || pthread_join(thread, NULL) != 0) {
        puts("read: no thread on a painted stack");
        exit(1);
    }
    printf("bytes of stack: a read %zu, a write %zu (goal: below 8192)\n", used[0], used[1]);
}

int main(int argc, char **argv)
{
    make();
    if (argc == 2 && strcmp(argv[1], "time") == 0)
        time_both();
    else if (argc == 2 && strcmp(argv[1], "stack") == 0)
        show_stack();
    else if (argc == 4 && strcmp(argv[1], "calls") == 0)
        call(strcmp(argv[2], "plain") == 0 ? plain_read_sheet : gullbiscuit_read_sheet, strtoul(argv[3], NULL, 10));
    else
        return 2;
    return 0;
}
