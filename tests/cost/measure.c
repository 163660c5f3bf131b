/* Reads blocks, makes each block's call so often as it says, and writes what came of it: the calls by
   value, in place with -DIN_PLACE, or the Rattle post's, which measure.rattle makes, with -DRATTLE. */
#include "block.h"

#include <string.h>
#include <unistd.h>

#ifdef RATTLE
/* A slice comes as a pointer and a length. */
void measure_turn(const uint8_t *block, size_t length, uint8_t *out, size_t size);

static void turn(const uint8_t block[BLOCK], uint8_t out[RESULT])
{
    measure_turn(block, BLOCK, out, RESULT);
}
#else
static void turn(const uint8_t block[BLOCK], uint8_t out[RESULT])
{
    const uint8_t call = block[0], times = block[1], len = block[2], size = block[3];
    const uint8_t *frame = block + 4;
    uint8_t buf[LENT] = { 0 };
    struct answer a = { .number = 0 };
    struct value v = { 0, 0 };
    struct missing m = { 0, 0, 0 };
    bool sound = false;
#ifdef IN_PLACE
    struct marks marks = { false, false };
    get_post(block + 4 + LENT, &a.post);
    for (uint8_t i = 0; i < times; i++) {
        switch (call) {
        case RECEIVE: a.number = post_receive(&a.post, frame, len, buf, size, &marks); break;
        case TAKES: a.number = post_take(&a.post, buf, size, &marks); break;
        case RETURNS: a.number = post_return(&a.post, buf, size, &marks); break;
        case VALUE: v.number = post_value(&a.post, &v.value); break;
        case MISSING: m.number = post_missing(&a.post, &m.set, &m.count); break;
        default: sound = post_sound(&a.post);
        }
    }
    a.wrote = marks.wrote;
    a.granted = marks.granted;
#else
    struct post p;
    get_post(block + 4 + LENT, &p);
    a.post = p;
    for (uint8_t i = 0; i < times; i++) {
        switch (call) {
        case RECEIVE: a = value_receive(p, frame, len, buf, size); break;
        case TAKES: a = value_take(p, buf, size); break;
        case RETURNS: a = value_return(p, buf, size); break;
        case VALUE: v = value_value(p); break;
        case MISSING: m = value_missing(p); break;
        default: sound = value_sound(p);
        }
    }
#endif
    out = put(out, (uint8_t)(a.number + v.number + m.number + sound), 1);
    out = put(out, a.wrote, 1);
    out = put(out, a.granted, 1);
    out = put(out, (uint64_t)v.value, 8);
    out = put(out, m.set, 2);
    out = put(out, m.count, 4);
    memcpy(out, buf, LENT);
    put_post(out + LENT, &a.post);
}
#endif

int main(void)
{
    static uint8_t block[BLOCK], out[RESULT];
    while (read(0, block, BLOCK) == BLOCK) {
        turn(block, out);
        if (write(1, out, RESULT) != RESULT)
            return 1;
    }
    return 0;
}
