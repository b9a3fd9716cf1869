/* What the tests of the entries share: generated numbers from a fixed seed, inputs and buffers between guards, and the comparison of an
 * entry with plain C. */
#ifndef BESIDE_H
#define BESIDE_H

#include <stddef.h>
#include <stdint.h>

enum { GUARD = 64, MOST_ROOM = 4096, MOST_INPUT = 1 << 20 };

/* The cases compared so far, and those of them that were not refused. */
extern uint64_t cases, accepted;

/* The generator: splitmix64 from this state. */
extern uint64_t state;
uint64_t rnd(void);

/* A number of a range, its ends among them. */
uint32_t between(uint32_t low, uint32_t high);

/* One call's buffer: what it held before, what the entry made of it and what plain C did. The lent bytes stand between two guards. */
struct buffer {
    uint8_t before[2 * GUARD + MOST_ROOM];
    uint8_t theirs[2 * GUARD + MOST_ROOM];
    uint8_t plain[2 * GUARD + MOST_ROOM];
    size_t size;
};

extern struct buffer buf;

/* Sets the program's name, and makes the memory for the inputs. */
void begin(const char *name);

/* Fills the buffer, for so many bytes lent, in a pattern of this case's own. */
void fill(size_t room);

/* The input as the entry gets it: behind a guard, and right before memory that may not be touched. */
uint8_t *lay(const uint8_t *bytes, size_t n);

/* What both calls gave and left: the same; nothing changed on refusal; nothing but the written front changed on success. Else the program
 * prints the input in hex with both answers, and exits with 1. An entry's room and lengths count units of so many bytes. */
void compare(const char *entry, const uint8_t *input, const uint8_t *kept, size_t n, size_t room, size_t unit, uint64_t got, uint64_t want);

/* Bytes in hex, as one line. */
void show(const char *what, const uint8_t *bytes, size_t n);

/* Exits with 1 where this does not hold. */
void expect(int holds, const char *what);

#endif
