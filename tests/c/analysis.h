/* The analysis in plain C, written from document 01 for tests only: no part of the product. */
#ifndef ANALYSIS_H
#define ANALYSIS_H

#include <stddef.h>
#include <stdint.h>

enum { PLAIN_MOST_GROUPS = 48, PLAIN_MOST_SLOTS = 256 };

/* What the analysis says of a sheet before the room is judged: why it is refused, or what is found. */
struct plain_verdict {
    uint64_t refused;                /* refusal * 2^32 + detail, 0 where there is none */
    int64_t bound, start;            /* the least delay of the grid; the delay with every extra 0 */
    uint32_t g, groups;              /* the grid, 0 replaced by its meaning; the number of groups */
    int64_t wait[PLAIN_MOST_GROUPS]; /* each group's wait at the first point with the least delay */
    size_t len;                      /* the answer record */
    uint8_t record[(4 + PLAIN_MOST_GROUPS) * 5];
};

void plain_analyse(const uint8_t *sheet, size_t sheet_len, struct plain_verdict *verdict);

/* The answer as the entry packs it: the record over the front of a buffer, or a refusal, the last of which is 10. */
uint64_t plain_answer(const struct plain_verdict *verdict, uint8_t *answer, size_t answer_len);

/* The watched flow's delay at these waits from the definitions alone: every curve by its values at slots 0..slots, every join by the
 * min-plus convolution, and the delay by its definition over these slots, which are to reach past it. The sheet is an accepted one. */
int64_t plain_delay_by_slots(const uint8_t *sheet, size_t sheet_len, const int64_t *wait, size_t slots);

#endif
