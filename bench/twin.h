/* The twin: the same calls as include/small.h, in C as one writes it by hand, with nothing proved. */
#ifndef TWIN_H
#define TWIN_H

#include "../include/small.h"

struct small_checked twin_check(const uint8_t *table, size_t table_length);
struct small_checked twin_open(const uint8_t *sheet, size_t sheet_length);
struct small_written twin_sheet(const uint8_t *table, size_t table_length, uint8_t *memory, size_t memory_length);
struct small_outcome twin_run_text(const uint8_t *table, size_t table_length,
                                   const struct small_sample *samples, size_t sample_count,
                                   uint8_t *text, size_t text_length, uint32_t fuel);
struct small_outcome twin_run_data(const uint8_t *table, size_t table_length,
                                   const struct small_sample *samples, size_t sample_count,
                                   struct small_datum *memory, size_t datum_count, uint32_t fuel);

#endif
