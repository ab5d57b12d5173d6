/* The listing in plain C, to measure against: see README.md. */
#ifndef TWIN_H
#define TWIN_H

#include <stddef.h>
#include <stdint.h>

enum { BOARDS = 16, CELLS = 512, RECORDS = 4096, RECORD = 9, HEAD = 9, LONGEST_FILE = HEAD + 4 * CELLS + RECORD * RECORDS, LONGEST_LISTING = 94232 };

/* A table of `boards` boards and `cells` cells in its three slices. */
struct twin_table {
    unsigned rule, boards, cells;
    uint32_t main[CELLS], copies[CELLS * BOARDS];
    uint16_t masks[3 * CELLS];
};

struct twin_action {
    uint8_t code, p, q;
    uint16_t cell;
    uint32_t value;
};

struct twin_answer {
    unsigned number;
    uint32_t value;
};

/* Every copy and every mask 0; main is left to the caller. */
void twin_fresh(struct twin_table *table, unsigned rule, unsigned boards, unsigned cells);

struct twin_answer twin_step(struct twin_table *table, struct twin_action action);

/* As `tramusquet_list`. */
size_t twin_list(const uint8_t *file, size_t file_length, uint8_t *out, size_t out_length);

#endif
