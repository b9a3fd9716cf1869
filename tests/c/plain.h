/* The sheet reader and writer in plain C, written from document 01 for tests and measurements only: no part of the product. */
#ifndef PLAIN_H
#define PLAIN_H

#include <stddef.h>
#include <stdint.h>

/* The answer as the entries pack it: refusal * 2^32 + detail. */
uint64_t plain_read_sheet(const uint8_t *sheet, size_t sheet_len, uint32_t *numbers, size_t numbers_len);
uint64_t plain_write_sheet(const uint32_t *numbers, size_t numbers_len, uint8_t *sheet, size_t sheet_len);

/* The bytes of a number, at most five; gives how many. */
size_t plain_put(uint32_t x, uint8_t *to);

#endif
