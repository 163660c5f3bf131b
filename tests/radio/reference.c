#include "reference.h"

/* the numbers that reading and writing share */
static uint8_t refusal(struct fields f)
{
    if (f.kind != 1 && f.kind != 2 && f.kind != 3)
        return 7;
    if (f.sender > 15)
        return 8;
    if (f.counter == 0)
        return 9;
    return 0;
}

struct reading ref_read(const uint8_t *frame, size_t len)
{
    const struct fields zeros = {0, 0, 0, 0};
    struct reading r = {0, zeros};

    if (len != 12) {
        r.number = 3;
    } else if (frame[0] != 'F' || frame[1] != 'P' || frame[2] != 'M') {
        r.number = 4;
    } else if (frame[3] != 0 || frame[4] != 1) {
        r.number = 5;
    } else {
        r.fields.feeder = frame[5];
        r.fields.kind = frame[6];
        r.fields.sender = frame[7];
        for (int i = 8; i < 12; i++)
            r.fields.counter = r.fields.counter * 256 + frame[i];
        r.number = refusal(r.fields);
        if (r.number != 0)
            r.fields = zeros;
    }
    return r;
}

uint8_t ref_write(size_t len, struct fields f)
{
    return len < 12 ? 2 : refusal(f);
}

void ref_frame(uint8_t *frame, struct fields f)
{
    const uint8_t head[] = {0x46, 0x50, 0x4D, 0, 1, f.feeder, f.kind, f.sender};

    for (int i = 0; i < 8; i++)
        frame[i] = head[i];
    for (int i = 11; i >= 8; i--) {
        frame[i] = f.counter % 256;
        f.counter /= 256;
    }
}
