/* The record, field by field in document 01's order: ONE(name, bits), or MANY(name, bits, how many). The C
   struct, the bytes in a block and what reads and writes them, in C and in Rattle, are made from these lists,
   so that a new field is one line. Nothing but macros stands here: the C preprocessor makes the Rattle side,
   block.rattle, from it too. */
#ifndef FIELDS_H
#define FIELDS_H

#define POSTS 16
#define SLOTS 62

#define BEFORE_SLOTS(ONE, MANY) \
    ONE(posts, 8)               \
    ONE(own, 8)                 \
    ONE(feeder, 8)              \
    ONE(places, 8)              \
    ONE(clock, 32)              \
    MANY(last, 32, POSTS)       \
    ONE(waits, 8)

/* a slot */
#define MESSAGE(ONE) \
    ONE(kind, 8)     \
    ONE(sender, 8)   \
    ONE(counter, 32)

#define AFTER_SLOTS(ONE, MANY) \
    ONE(takes, 64)             \
    ONE(returns, 64)           \
    ONE(phase, 8)              \
    ONE(order, 64)

/* Bytes, with no gap between fields. */
#define BYTES(name, bits) +bits / 8
#define BYTES_OF_MANY(name, bits, n) +n * bits / 8
#define BYTES_BEFORE_SLOTS (0 BEFORE_SLOTS(BYTES, BYTES_OF_MANY))
#define BYTES_OF_SLOT (0 MESSAGE(BYTES))
#define BYTES_AFTER_SLOTS (0 AFTER_SLOTS(BYTES, BYTES_OF_MANY))
#define RECORD (BYTES_BEFORE_SLOTS + SLOTS * BYTES_OF_SLOT + BYTES_AFTER_SLOTS)

/* A block: call, how often, frame length, buffer length, frame, record. */
#define LENT 16
#define BLOCK (4 + LENT + RECORD)

/* What is written: number, wrote, granted, value, set, count, buffer, record. */
#define RESULT (3 + 8 + 2 + 4 + LENT + RECORD)

#endif
