/* Calls of the archive, each held to the reference and to the bytes around what it was lent. */
#ifndef HELD_H
#define HELD_H

#include "reference.h"

#include <stddef.h>
#include <stdint.h>

enum {
    LONGEST = 65536 + 12, /* the longest frame or buffer */
    NUMBERS = 10          /* numbers given back are below this */
};

extern unsigned long failures;
extern unsigned long reads[NUMBERS], writes[NUMBERS]; /* how often a number was expected */

/* chance: the same row of numbers after the same seed */
void start_chance(uint64_t seed);
uint64_t chance(void);
unsigned below(unsigned n);
void fill(uint8_t *bytes, size_t n);

/* a difference is a failure; the first few are printed, with why it was expected */
void expect_reading(const char *why, const uint8_t *frame, size_t len, struct reading want,
                    struct reading got);
void expect_number(const char *why, size_t len, struct fields f, uint8_t want, uint8_t got);

/* reads; what is accepted is written again, and must have the same bytes */
struct reading check_read(const uint8_t *frame, size_t len);

/* writes; what is written must read back */
uint8_t check_write(size_t len, struct fields f);

#endif
