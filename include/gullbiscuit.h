/* Gullbiscuit for programs in C and C++: sheets analysed, read and written, with every input answered.
 *
 * Link with libgullbiscuit.a (`./gullbiscuit install PREFIX` puts it under a folder, with this header and a file for pkg-config). Each
 * function gives one number, refusal * 2^32 + detail:
 * gullbiscuit_refusal and gullbiscuit_detail take it apart. On success the refusal is 0 and the detail is the count or the length.
 *
 * No function allocates, keeps a pointer or calls back. A pointer is never NULL, even where its length is 0; a list is aligned as
 * uint32_t is; and a buffer does not overlap the input. Nothing else is asked of a caller: every content and every length is answered.
 */
#ifndef GULLBISCUIT_H
#define GULLBISCUIT_H

#include <stddef.h>
#include <stdint.h>

#ifdef __cplusplus
extern "C" {
#endif

/* A sheet has at most so many numbers and bytes: a list and a buffer of these lengths are never too short. */
#define GULLBISCUIT_MOST_NUMBERS 231
#define GULLBISCUIT_MOST_BYTES 475

/* An answer record is at most four numbers and 31 waits of at most five bytes each: an answer buffer of this length is never too short. */
#define GULLBISCUIT_MOST_ANSWER 175

/* Why a sheet is refused, and what the detail then is. The writer's offsets count numbers, all others count bytes. */
enum gullbiscuit_why {
    GULLBISCUIT_DONE = 0,            /* not refused; the count or the length */
    GULLBISCUIT_ENDS = 1,            /* the bytes (writer: the numbers) end before the last field does; where the unfinished number begins */
    GULLBISCUIT_BAD_NUMBER = 2,      /* a number not shortest, with a fifth group that continues, or above 4,294,967,295; its offset */
    GULLBISCUIT_LEFT_OVER = 3,       /* bytes (numbers) left over; offset of the first */
    GULLBISCUIT_OUTSIDE = 4,         /* a field other than first, last is outside its range; its offset */
    GULLBISCUIT_OFF_PATH = 5,        /* first or last outside its range; its offset */
    GULLBISCUIT_NOT_NESTED = 6,      /* the row is not nested; 0 */
    GULLBISCUIT_OVERLOADED = 7,      /* the rates at a server, the watched flow's included, sum above R; lowest such server */
    GULLBISCUIT_TOO_MANY_POINTS = 8, /* mode 0 and g to the power of the number of groups is above 65,536; number of groups */
    GULLBISCUIT_TOO_LARGE = 9,       /* an offset, stage, wait or delay would pass 2^63 - 1; 0 */
    GULLBISCUIT_SHORT = 10           /* the buffer is too short; length needed */
};

/* The refusal of an answer, GULLBISCUIT_DONE where there is none. */
static inline uint32_t gullbiscuit_refusal(uint64_t answer)
{
    return (uint32_t)(answer >> 32);
}

/* The detail of an answer. */
static inline uint32_t gullbiscuit_detail(uint64_t answer)
{
    return (uint32_t)answer;
}

/* Analyses a sheet and writes the answer record over the front of a buffer: bound, start, g (0 replaced by its meaning), number of groups,
 * each group's wait, as seven-bit numbers; gives its length. Bytes past it stay. The bound holds for every byte of the watched flow.
 * Refused with 1 to 8, or with 10 where the buffer is too short; then the whole buffer stays as it was. 9 is never given. */
uint64_t gullbiscuit_analyse(const uint8_t *sheet, size_t sheet_len, uint8_t *answer, size_t answer_len);

/* Reads a sheet's bytes and writes its numbers, in sheet order, over the front of a list; gives their count. Entries past them stay.
 * Refused with 1 to 5, or with 10 where the list is too short; then the whole list stays as it was. */
uint64_t gullbiscuit_read_sheet(const uint8_t *sheet, size_t sheet_len, uint32_t *numbers, size_t numbers_len);

/* Writes the bytes of a list of numbers in sheet order over the front of a buffer; gives their length. Bytes past them stay.
 * Refused with 1, 3, 4, 5, or with 10 where the buffer is too short; then the whole buffer stays as it was. */
uint64_t gullbiscuit_write_sheet(const uint32_t *numbers, size_t numbers_len, uint8_t *sheet, size_t sheet_len);

#ifdef __cplusplus
}
#endif

#endif
