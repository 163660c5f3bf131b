#include "fpm.h"

#include "held.h"

#include <stdbool.h>
#include <stdio.h>
#include <string.h>

enum {
    SHOWN = 5,  /* failures that are printed, and */
    BYTES = 32, /* bytes of a frame that are */
    GUARD = 16, /* at least so many watched bytes on either side */
    AREA = GUARD + 8 + LONGEST + GUARD
};

unsigned long failures;
unsigned long reads[NUMBERS], writes[NUMBERS];

/* ---- chance: splitmix64 */

static uint64_t state;

void start_chance(uint64_t seed)
{
    state = seed;
}

uint64_t chance(void)
{
    uint64_t z = (state += 0x9E3779B97F4A7C15);

    z = (z ^ (z >> 30)) * 0xBF58476D1CE4E5B9;
    z = (z ^ (z >> 27)) * 0x94D049BB133111EB;
    return z ^ (z >> 31);
}

unsigned below(unsigned n)
{
    return (unsigned)(chance() % n);
}

void fill(uint8_t *bytes, size_t n)
{
    while (n > 0) {
        const uint64_t z = chance();
        const size_t part = n < 8 ? n : 8;
        memcpy(bytes, &z, part);
        bytes += part;
        n -= part;
    }
}

/* ---- failures */

/* counts a failure; says whether to print it */
static bool failing(void)
{
    return failures++ < SHOWN;
}

static void show_fields(struct fields f)
{
    fprintf(stderr, " feeder %u kind %u sender %u counter %lu", f.feeder, f.kind, f.sender,
            (unsigned long)f.counter);
}

static void show_read(const char *why, const uint8_t *frame, size_t len)
{
    fprintf(stderr, "%s: reading %zu bytes", why, len);
    for (size_t i = 0; i < len && i < BYTES; i++)
        fprintf(stderr, " %02X", frame[i]);
}

static void show_write(const char *why, size_t len, struct fields f)
{
    fprintf(stderr, "%s: writing to %zu bytes", why, len);
    show_fields(f);
}

/* the first byte that differs, counted from the start of what was lent */
static void show_difference(const uint8_t *want, const uint8_t *got, size_t start)
{
    size_t i = 0;

    while (want[i] == got[i])
        i++;
    fprintf(stderr, ": at offset %d expected %02X, got %02X\n", (int)i - (int)start, want[i],
            got[i]);
}

static bool same_fields(struct fields a, struct fields b)
{
    return a.feeder == b.feeder && a.kind == b.kind && a.sender == b.sender &&
           a.counter == b.counter;
}

void expect_reading(const char *why, const uint8_t *frame, size_t len, struct reading want,
                    struct reading got)
{
    if ((want.number == got.number && same_fields(want.fields, got.fields)) || !failing())
        return;
    show_read(why, frame, len);
    fprintf(stderr, ": expected %u", want.number);
    show_fields(want.fields);
    fprintf(stderr, ", got %u", got.number);
    show_fields(got.fields);
    fprintf(stderr, "\n");
}

void expect_number(const char *why, size_t len, struct fields f, uint8_t want, uint8_t got)
{
    if (want == got || !failing())
        return;
    show_write(why, len, f);
    fprintf(stderr, ": expected %u, got %u\n", want, got);
}

/* ---- one call in an area of junk */

/* the four results, with watched bytes around each */
struct results {
    uint8_t before[4], feeder, second[4], kind, third[4], sender, fourth[5];
    uint32_t counter;
    uint8_t after[4];
};
_Static_assert(sizeof(struct results) == 28, "no padding");

/* how much of an area is watched around len bytes that begin at GUARD to GUARD + 7 */
static size_t watched(size_t len)
{
    return GUARD + 8 + len + GUARD;
}

static struct reading held_read(const uint8_t *frame, size_t len)
{
    const size_t size = watched(len), at = GUARD + below(8);
    uint8_t area[AREA], was[AREA];
    struct results left, should;
    struct reading got;

    fill(area, size);
    memcpy(area + at, frame, len);
    memcpy(was, area, size);
    fill((uint8_t *)&left, sizeof left);
    memcpy(&should, &left, sizeof left);

    got.number = fpm_read(area + at, len, &left.feeder, &left.kind, &left.sender, &left.counter);

    got.fields.feeder = should.feeder = left.feeder;
    got.fields.kind = should.kind = left.kind;
    got.fields.sender = should.sender = left.sender;
    got.fields.counter = should.counter = left.counter;
    expect_reading("reference", frame, len, ref_read(frame, len), got);
    if (memcmp(was, area, size) != 0 && failing()) {
        show_read("bytes of and around the frame", frame, len);
        show_difference(was, area, at);
    }
    if (memcmp(&should, &left, sizeof left) != 0 && failing()) {
        show_read("bytes between the results", frame, len);
        show_difference((const uint8_t *)&should, (const uint8_t *)&left, 0);
    }
    return got;
}

/* first: the first 12 bytes after writing */
static uint8_t held_write(size_t len, struct fields f, uint8_t *first)
{
    const size_t size = watched(len), at = GUARD + below(8);
    const uint8_t want = ref_write(len, f);
    uint8_t area[AREA], should[AREA], got;

    fill(area, size);
    memcpy(should, area, size);
    if (want == FPM_DONE)
        ref_frame(should + at, f);

    got = fpm_write(area + at, len, f.feeder, f.kind, f.sender, f.counter);

    expect_number("reference", len, f, want, got);
    if (memcmp(should, area, size) != 0 && failing()) {
        show_write("bytes of and around the buffer", len, f);
        show_difference(should, area, at);
    }
    memcpy(first, area + at, FPM_FRAME_LEN);
    return got;
}

struct reading check_read(const uint8_t *frame, size_t len)
{
    const struct reading got = held_read(frame, len);
    uint8_t again[FPM_FRAME_LEN];

    reads[ref_read(frame, len).number]++;
    if (got.number == FPM_DONE) {
        held_write(FPM_FRAME_LEN + below(21), got.fields, again);
        if (memcmp(frame, again, FPM_FRAME_LEN) != 0 && failing()) {
            show_read("written again", frame, len);
            show_difference(frame, again, 0);
        }
    }
    return got;
}

uint8_t check_write(size_t len, struct fields f)
{
    uint8_t frame[FPM_FRAME_LEN];
    const uint8_t got = held_write(len, f, frame);
    const struct reading want = {FPM_DONE, f};

    writes[ref_write(len, f)]++;
    if (got == FPM_DONE)
        expect_reading("read back", frame, FPM_FRAME_LEN, want, held_read(frame, FPM_FRAME_LEN));
    return got;
}
