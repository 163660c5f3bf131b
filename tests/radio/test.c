/* fpm_read and fpm_write on chosen input, and then on random input. */
#include "fpm.h"

#include "held.h"

#include <stdio.h>
#include <string.h>

enum {
    LENGTHS = 32,   /* every length up to here */
    TRIES = 1000000 /* random frames, and random writes */
};

static const uint64_t seed = 1981;
static const uint32_t counters[] = {0, 1, 255, 256, 65535, 65536, 2147483648, 4294967295};
static const size_t counters_len = sizeof counters / sizeof counters[0];
static const struct fields zeros = {0, 0, 0, 0};
static const struct fields plain = {7, FPM_TAKE, 0, 1};
static const struct fields varied = {0xA5, FPM_ACK, 15, 0x01020304};

/* ---- chosen input */

/* worked out by hand: these hold the reference and the header's names too */
static void known_frames(void)
{
    static const struct {
        uint8_t frame[FPM_FRAME_LEN];
        struct reading want;
    } known[] = {
        {{0x46, 0x50, 0x4D, 0, 1, 7, 1, 0, 0, 0, 0, 1}, {FPM_DONE, {7, FPM_TAKE, 0, 1}}},
        {{0x46, 0x50, 0x4D, 0, 1, 0, 2, 9, 1, 2, 3, 4}, {FPM_DONE, {0, FPM_RETURN, 9, 16909060}}},
        {{0x46, 0x50, 0x4D, 0, 1, 255, 3, 15, 255, 255, 255, 255},
         {FPM_DONE, {255, FPM_ACK, 15, 4294967295}}},
        {{0x4D, 0x50, 0x46, 0, 1, 7, 1, 0, 0, 0, 0, 1}, {FPM_MARK, {0, 0, 0, 0}}},
        {{0x46, 0x50, 0x4D, 1, 0, 7, 1, 0, 0, 0, 0, 1}, {FPM_VERSION, {0, 0, 0, 0}}},
        {{0x46, 0x50, 0x4D, 0, 1, 7, 0, 0, 0, 0, 0, 1}, {FPM_KIND, {0, 0, 0, 0}}},
        {{0x46, 0x50, 0x4D, 0, 1, 7, 4, 0, 0, 0, 0, 1}, {FPM_KIND, {0, 0, 0, 0}}},
        {{0x46, 0x50, 0x4D, 0, 1, 7, 1, 16, 0, 0, 0, 1}, {FPM_SENDER, {0, 0, 0, 0}}},
        {{0x46, 0x50, 0x4D, 0, 1, 7, 1, 0, 0, 0, 0, 0}, {FPM_COUNTER, {0, 0, 0, 0}}},
    };

    for (size_t i = 0; i < sizeof known / sizeof known[0]; i++)
        expect_reading("known frame", known[i].frame, FPM_FRAME_LEN, known[i].want,
                       check_read(known[i].frame, FPM_FRAME_LEN));
}

/* the number of the first fault; bit i of faults is the fault that gets numbers[i] */
static uint8_t first_fault(const uint8_t *numbers, unsigned faults)
{
    unsigned i = 0;

    if (faults == 0)
        return FPM_DONE;
    while (!(faults >> i & 1))
        i++;
    return numbers[i];
}

/* every set of faults */
static void order_of_reading(void)
{
    static const uint8_t order[] = {FPM_LENGTH, FPM_MARK,   FPM_VERSION,
                                    FPM_KIND,   FPM_SENDER, FPM_COUNTER};

    for (unsigned faults = 0; faults < 64; faults++) {
        const size_t len = faults & 1 ? 11 : 12;
        uint8_t frame[FPM_FRAME_LEN];
        ref_frame(frame, plain);
        frame[2] = faults & 2 ? 'N' : 'M';
        frame[4] = faults & 4 ? 2 : 1;
        frame[6] = faults & 8 ? 4 : FPM_TAKE;
        frame[7] = faults & 16 ? 16 : 0;
        frame[11] = faults & 32 ? 0 : 1;
        const struct reading want = {first_fault(order, faults), faults ? zeros : plain};
        expect_reading("order", frame, len, want, check_read(frame, len));
    }
}

static void order_of_writing(void)
{
    static const uint8_t order[] = {FPM_BUFFER_SHORT, FPM_KIND, FPM_SENDER, FPM_COUNTER};

    for (unsigned faults = 0; faults < 16; faults++) {
        const size_t len = faults & 1 ? 11 : 12;
        const struct fields f = {7, faults & 2 ? 4 : 3, faults & 4 ? 16 : 15, faults & 8 ? 0 : 1};
        expect_number("order", len, f, first_fault(order, faults), check_write(len, f));
    }
}

static void every_byte(struct fields f)
{
    for (int at = 0; at < FPM_FRAME_LEN; at++) {
        uint8_t frame[FPM_FRAME_LEN];
        ref_frame(frame, f);
        for (int value = 0; value < 256; value++) {
            frame[at] = (uint8_t)value;
            check_read(frame, FPM_FRAME_LEN);
        }
    }
}

static void every_version(void)
{
    uint8_t frame[FPM_FRAME_LEN];

    ref_frame(frame, varied);
    for (unsigned version = 0; version < 65536; version++) {
        frame[3] = (uint8_t)(version >> 8);
        frame[4] = (uint8_t)version;
        check_read(frame, FPM_FRAME_LEN);
    }
}

/* and some whose low bytes are another length */
static void every_length(struct fields f)
{
    static const size_t more[] = {256, 256 + 12, 65536, LONGEST};
    static uint8_t frame[LONGEST];

    ref_frame(frame, f);
    for (size_t len = 0; len <= LENGTHS; len++) {
        check_read(frame, len);
        check_write(len, f);
    }
    for (size_t i = 0; i < sizeof more / sizeof more[0]; i++) {
        check_read(frame, more[i]);
        check_write(more[i], f);
    }
}

static void every_counter(struct fields f)
{
    uint8_t frame[FPM_FRAME_LEN];

    for (size_t i = 0; i < counters_len; i++) {
        f.counter = counters[i];
        ref_frame(frame, f);
        check_read(frame, FPM_FRAME_LEN);
        check_write(FPM_FRAME_LEN, f);
    }
}

static void every_kind_and_sender(struct fields f)
{
    for (unsigned pair = 0; pair < 65536; pair++) {
        f.kind = (uint8_t)(pair >> 8);
        f.sender = (uint8_t)pair;
        check_write(FPM_FRAME_LEN, f);
    }
}

static void chosen(void)
{
    known_frames();
    order_of_reading();
    order_of_writing();
    every_byte(plain);
    every_byte(varied);
    every_version();
    every_length(plain);
    every_length(varied);
    every_length(zeros);
    every_counter(plain);
    every_counter(varied);
    every_kind_and_sender(varied);
}

/* ---- random input */

/* of every size, and the chosen ones */
static uint32_t some_counter(void)
{
    const unsigned shift = below(32);

    if (below(4) == 0)
        return counters[below((unsigned)counters_len)];
    return (uint32_t)chance() >> shift;
}

static struct fields good_fields(void)
{
    struct fields f;

    f.feeder = (uint8_t)chance();
    f.kind = (uint8_t)(1 + below(3));
    f.sender = (uint8_t)below(16);
    f.counter = some_counter();
    if (f.counter == 0)
        f.counter = 1;
    return f;
}

/* good, but kind, sender or counter may be anything */
static struct fields spoilt_fields(void)
{
    struct fields f = good_fields();
    const unsigned which = 1 + below(7);

    if (which & 1)
        f.kind = (uint8_t)(below(2) ? below(6) : chance());
    if (which & 2)
        f.sender = (uint8_t)(below(2) ? below(20) : chance());
    if (which & 4)
        f.counter = below(2) ? 0 : some_counter();
    return f;
}

static struct fields some_fields(void)
{
    return below(2) ? good_fields() : spoilt_fields();
}

/* changes one byte */
static void damage(uint8_t *frame)
{
    const unsigned at = below(FPM_FRAME_LEN);

    frame[at] ^= (uint8_t)(below(2) ? 1u << below(8) : 1 + below(255));
}

static void random_frame(void)
{
    uint8_t frame[LENGTHS];
    size_t len = FPM_FRAME_LEN;

    fill(frame, LENGTHS); /* and one in five stays junk */
    switch (below(5)) {
    case 0:
        ref_frame(frame, good_fields());
        break;
    case 1:
        ref_frame(frame, good_fields());
        for (unsigned n = 1 + below(3); n > 0; n--)
            damage(frame);
        break;
    case 2:
        ref_frame(frame, spoilt_fields());
        break;
    case 3:
        ref_frame(frame, some_fields());
        len = below(LENGTHS + 1);
        break;
    }
    check_read(frame, len);
}

static void random_write(void)
{
    const size_t len = below(2) ? 12 + below(LENGTHS - 12 + 1) : below(LENGTHS + 1);

    check_write(len, some_fields());
}

/* ---- the whole */

static const uint8_t read_numbers[] = {0, 3, 4, 5, 7, 8, 9}, write_numbers[] = {0, 2, 7, 8, 9};

/* input that never calls for some number shows nothing of it */
static void came_up(const char *what, const unsigned long *often, const uint8_t *numbers, size_t n)
{
    for (size_t i = 0; i < n; i++) {
        if (often[numbers[i]] == 0) {
            fprintf(stderr, "%s never called for number %u\n", what, numbers[i]);
            failures++;
        }
    }
}

static void print_numbers(const unsigned long *often, const uint8_t *numbers, size_t n)
{
    for (size_t i = 0; i < n; i++)
        printf("%s%u:%lu", i == 0 ? "" : " ", numbers[i], often[numbers[i]]);
}

int main(void)
{
    start_chance(seed);
    chosen();
    came_up("chosen frames", reads, read_numbers, sizeof read_numbers);
    came_up("chosen writes", writes, write_numbers, sizeof write_numbers);

    memset(reads, 0, sizeof reads);
    memset(writes, 0, sizeof writes);
    for (int i = 0; i < TRIES; i++) {
        random_frame();
        random_write();
    }
    came_up("random frames", reads, read_numbers, sizeof read_numbers);
    came_up("random writes", writes, write_numbers, sizeof write_numbers);

    if (failures != 0) {
        fprintf(stderr, "%lu failures, seed %lu\n", failures, (unsigned long)seed);
        return 1;
    }
    printf("%d random frames (", TRIES);
    print_numbers(reads, read_numbers, sizeof read_numbers);
    printf(") and %d random writes (", TRIES);
    print_numbers(writes, write_numbers, sizeof write_numbers);
    printf(") as the reference has them, seed %lu\n", (unsigned long)seed);
    return 0;
}
