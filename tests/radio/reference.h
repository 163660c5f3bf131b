/* Frames once more, written from document 01 alone: what the archive is held to. */
#ifndef REFERENCE_H
#define REFERENCE_H

#include <stddef.h>
#include <stdint.h>

struct fields {
    uint8_t feeder, kind, sender;
    uint32_t counter;
};

struct reading {
    uint8_t number;
    struct fields fields;
};

/* what reading these bytes gives */
struct reading ref_read(const uint8_t *frame, size_t len);

/* the number that writing these fields to len bytes gives */
uint8_t ref_write(size_t len, struct fields f);

/* the 12 bytes of these fields, in range or not */
void ref_frame(uint8_t *frame, struct fields f);

#endif
