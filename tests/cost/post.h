/* The post's record in plain C: document 01's fields, soundness, calls and numbers.
   It stands beside the Rattle post to compare costs, and nothing else uses it. */
#ifndef POST_H
#define POST_H

#include "fields.h"

#include <stdbool.h>
#include <stddef.h>
#include <stdint.h>

enum { WAITING = 4, FRAME = 12 };
enum { TAKE = 1, RETURN = 2, ACK = 3 };

#define FIELD(name, bits) uint##bits##_t name;
#define FIELD_OF_MANY(name, bits, n) uint##bits##_t name[n];

struct message {
    MESSAGE(FIELD)
};

struct post {
    BEFORE_SLOTS(FIELD, FIELD_OF_MANY)
    struct message slots[SLOTS];
    AFTER_SLOTS(FIELD, FIELD_OF_MANY)
};

struct marks {
    bool wrote;
    bool granted;
};

struct answer {
    struct post post;
    uint8_t number;
    bool wrote;
    bool granted;
};

struct value {
    uint8_t number;
    int64_t value;
};

struct missing {
    uint8_t number;
    uint16_t set;
    uint32_t count;
};

/* In place: the record is altered where it stands, and the number is given back. */
uint8_t post_start(struct post *p, uint8_t posts, uint8_t own, uint8_t feeder, uint8_t places);
uint8_t post_take(struct post *p, uint8_t *buf, size_t size, struct marks *marks);
uint8_t post_return(struct post *p, uint8_t *buf, size_t size, struct marks *marks);
uint8_t post_receive(struct post *p, const uint8_t *frame, size_t len, uint8_t *buf, size_t size,
                     struct marks *marks);
uint8_t post_value(const struct post *p, int64_t *value);
uint8_t post_missing(const struct post *p, uint16_t *set, uint32_t *count);
bool post_sound(const struct post *p);

/* By value: the record comes and goes by value, as it does in Rattle. */
struct answer value_take(struct post p, uint8_t *buf, size_t size);
struct answer value_return(struct post p, uint8_t *buf, size_t size);
struct answer value_receive(struct post p, const uint8_t *frame, size_t len, uint8_t *buf, size_t size);
struct value value_value(struct post p);
struct missing value_missing(struct post p);
bool value_sound(struct post p);

#endif
