/* What a measured program reads and writes: blocks of one length, so that a program's own work is the
   same for every record. Numbers are high byte first. */
#ifndef BLOCK_H
#define BLOCK_H

#include "post.h"

#include <string.h>

enum { RECEIVE, TAKES, RETURNS, VALUE, MISSING, SOUND, CALLS };

static inline uint8_t *put(uint8_t *at, uint64_t n, int width)
{
    for (int i = 0; i < width; i++)
        at[i] = (uint8_t)(n >> 8 * (width - 1 - i));
    return at + width;
}

static inline uint64_t get(const uint8_t **at, int width)
{
    uint64_t n = 0;
    for (int i = 0; i < width; i++)
        n = n << 8 | *(*at)++;
    return n;
}

/* The frame of a message, and the message of a frame that a post wrote. */
static inline void put_frame(uint8_t *frame, uint8_t feeder, struct message m)
{
    memcpy(frame, "FPM\0\1", 5);
    frame[5] = feeder;
    frame[6] = m.kind;
    frame[7] = m.sender;
    put(frame + 8, m.counter, 4);
}

static inline struct message get_frame(const uint8_t *frame)
{
    const uint8_t *counter = frame + 8;
    return (struct message){ frame[6], frame[7], (uint32_t)get(&counter, 4) };
}

#define PUT(name, bits) at = put(at, from->name, bits / 8);
#define PUT_MANY(name, bits, n)   \
    for (int i = 0; i < (n); i++) \
        at = put(at, from->name[i], bits / 8);

static inline uint8_t *put_message(uint8_t *at, const struct message *from)
{
    MESSAGE(PUT)
    return at;
}

static inline void put_post(uint8_t *at, const struct post *from)
{
    BEFORE_SLOTS(PUT, PUT_MANY)
    for (int i = 0; i < SLOTS; i++)
        at = put_message(at, &from->slots[i]);
    AFTER_SLOTS(PUT, PUT_MANY)
}

#define GET(name, bits) to->name = (uint##bits##_t)get(&at, bits / 8);
#define GET_MANY(name, bits, n)   \
    for (int i = 0; i < (n); i++) \
        to->name[i] = (uint##bits##_t)get(&at, bits / 8);

static inline const uint8_t *get_message(const uint8_t *at, struct message *to)
{
    MESSAGE(GET)
    return at;
}

static inline void get_post(const uint8_t *at, struct post *to)
{
    BEFORE_SLOTS(GET, GET_MANY)
    for (int i = 0; i < SLOTS; i++)
        at = get_message(at, &to->slots[i]);
    AFTER_SLOTS(GET, GET_MANY)
}

#endif
