/* The sequencer of Small for C. Link crates/foreign/out/libforeign.a (`rt lib` in crates/foreign); it needs memcpy and memset of
   the C library and nothing else, and takes no heap.

   A buffer is a pointer and a length, in that order; the length counts elements. A pointer is never null and is aligned for its
   element, also where the length is 0. A buffer that a call writes overlaps with no other buffer of that call. A call keeps no
   pointer. Each takes up to 320 KB of stack. Calls may be made from several threads at once, on different buffers.

   Refusals (numbers and nodes) are those of docs/CALLS.md, ends those of docs/MACHINE.md, tables those of docs/LANGUAGE.md,
   sheets those of docs/SHEET.md. A refusal number of 0 means that the call is accepted. A refused call writes nothing. */
#ifndef SMALL_H
#define SMALL_H

#include <stdbool.h>
#include <stddef.h>
#include <stdint.h>

#ifdef __cplusplus
extern "C" {
#endif

/* What was recorded at one moment: a reading where code is 0, and else the fault of that code (reading then counts for nothing). */
struct small_sample {
    uint8_t code;
    int32_t reading;
};

/* A value that a program put: sort 0 is a number; sort 1 is a truth, and number is then 0 (false) or 1 (true). */
struct small_datum {
    uint8_t sort;
    int32_t number;
};

/* Accepted (0, 0), or the number of the refusal and the node at fault, which is 0 where no node is. */
struct small_checked {
    uint8_t refusal;
    uint16_t node;
};

/* The same, and the length of the sheet that was written, which is 0 where the call is refused. */
struct small_written {
    uint8_t refusal;
    uint16_t node;
    size_t length;
};

/* How a take stands.
   refusal  0, or 2 to 9 (the table), or 10 (fuel over 1,000,000,000); then ended, end, code and steps are 0
   ended    whether the take has ended; where it has not, all fuel was used, and end, code and node are 0
   end      0 (done), or 31 to 38
   code     the code of the feed's fault at end 37, and 0 at any other
   node     the node of the refusal, or of the end
   steps    the steps carried out; the one that ends the take counts
   left     the samples that were not taken
   filled   the bytes or data that are filled, from the start of the buffer; beyond them the buffer is as it was */
struct small_outcome {
    uint8_t refusal;
    bool ended;
    uint8_t end;
    uint8_t code;
    uint16_t node;
    uint32_t steps;
    size_t left;
    size_t filled;
};

/* Checks a table. Refusals 2 to 9. */
struct small_checked small_check(const uint8_t *table, size_t table_length);

/* Checks a sheet: header, table and code. Refusals 14, then 2 to 9, then 15. */
struct small_checked small_open(const uint8_t *sheet, size_t sheet_length);

/* Writes the sheet of a table at the start of memory; what lies beyond it stays. Refusals 2 to 9, then 12 (memory is too short). */
struct small_written small_sheet(const uint8_t *table, size_t table_length, uint8_t *memory, size_t memory_length);

/* Carries out a table from its beginning, for at most this many steps, and puts values as lines of text. Refusals 2 to 9, then 10. */
struct small_outcome small_run_text(const uint8_t *table, size_t table_length,
                                    const struct small_sample *samples, size_t sample_count,
                                    uint8_t *text, size_t text_length, uint32_t fuel);

/* The same, with values put as data. */
struct small_outcome small_run_data(const uint8_t *table, size_t table_length,
                                    const struct small_sample *samples, size_t sample_count,
                                    struct small_datum *memory, size_t datum_count, uint32_t fuel);

#ifdef __cplusplus
}
#endif

#endif
