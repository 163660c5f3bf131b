/*
 * A feeder's frames on the command line: how a program in C uses include/fpm.h.
 *
 *   frames read [FILE]                        tells each frame of FILE, or of standard input
 *   frames write FEEDER KIND SENDER COUNTER   writes one frame to standard output
 *
 * Status: 0 done, 1 a frame was refused, 2 bad words, or a file could not be read or written.
 * README.md beside this file says how to build it.
 */
#include "fpm.h"

#include <errno.h>
#include <inttypes.h>
#include <stdbool.h>
#include <stdio.h>
#include <string.h>

enum { DONE = 0, REFUSED = 1, FAILED = 2 };

/* ---- words for numbers */

static const char *kind_in_words(uint8_t kind)
{
    switch (kind) {
    case FPM_TAKE:
        return "take";
    case FPM_RETURN:
        return "return";
    case FPM_ACK:
        return "acknowledgment";
    default:
        return "no kind"; /* fpm_read accepts no other */
    }
}

static const char *refusal_in_words(uint8_t number)
{
    switch (number) {
    case FPM_BUFFER_SHORT:
        return "buffer shorter than 12";
    case FPM_LENGTH:
        return "frame length not 12";
    case FPM_MARK:
        return "mark wrong";
    case FPM_VERSION:
        return "version not 1";
    case FPM_KIND:
        return "kind not 1 to 3";
    case FPM_SENDER:
        return "sender above 15";
    case FPM_COUNTER:
        return "counter 0";
    default:
        return "no refusal"; /* neither function gives another number */
    }
}

/* ---- reading */

/* prints the line of the len bytes at frame; whether they are a frame */
static bool tell(uint64_t offset, const uint8_t *frame, size_t len)
{
    uint8_t feeder, kind, sender;
    uint32_t counter;
    const uint8_t number = fpm_read(frame, len, &feeder, &kind, &sender, &counter);

    printf("offset %" PRIu64 ": ", offset);
    if (number == FPM_DONE)
        printf("feeder %u, %s, post %u, counter %" PRIu32 "\n", feeder, kind_in_words(kind), sender,
               counter);
    else if (number == FPM_LENGTH)
        printf("refused with %u, %s; bytes left: %zu\n", number, refusal_in_words(number), len);
    else
        printf("refused with %u, %s\n", number, refusal_in_words(number));
    return number == FPM_DONE;
}

/* A refused frame does not move the next one: frames stand at every twelfth byte. */
static int tell_all(FILE *in)
{
    uint8_t frame[FPM_FRAME_LEN];
    uint64_t offset = 0;
    int status = DONE;
    size_t len;

    do {
        len = fread(frame, 1, sizeof frame, in);
        if (ferror(in))
            return FAILED;
        if (len > 0 && !tell(offset, frame, len))
            status = REFUSED;
        offset += len;
    } while (len == sizeof frame);
    return status;
}

static int failed(const char *what, const char *name)
{
    fprintf(stderr, "frames: cannot %s %s: %s\n", what, name, strerror(errno));
    return FAILED;
}

static int read_frames(const char *name)
{
    FILE *in = name ? fopen(name, "rb") : stdin;
    int status;

    if (!name)
        name = "standard input";
    if (!in)
        return failed("open", name);
    status = tell_all(in);
    if (status == FAILED)
        failed("read", name);
    if (in != stdin)
        fclose(in);
    return status;
}

/* ---- writing */

/* a decimal number, digits alone, up to most */
static bool number_of(const char *what, const char *text, uint32_t most, uint32_t *number)
{
    const size_t len = strlen(text);
    uint64_t n = 0;
    bool good = len > 0 && strspn(text, "0123456789") == len;

    for (size_t i = 0; good && i < len; i++) {
        n = n * 10 + (uint64_t)(text[i] - '0');
        good = n <= most;
    }
    if (!good)
        fprintf(stderr, "frames: %s is a number from 0 to %" PRIu32 ", not '%s'\n", what, most,
                text);
    *number = (uint32_t)n;
    return good;
}

/* The archive refuses what has room in a frame and may not stand there; what has no room does not
 * come so far. */
static int write_frame(char *const *words)
{
    uint8_t frame[FPM_FRAME_LEN];
    uint32_t feeder, kind, sender, counter;
    uint8_t number;

    if (!number_of("FEEDER", words[0], UINT8_MAX, &feeder) ||
        !number_of("KIND", words[1], UINT8_MAX, &kind) ||
        !number_of("SENDER", words[2], UINT8_MAX, &sender) ||
        !number_of("COUNTER", words[3], UINT32_MAX, &counter))
        return FAILED;

    number = fpm_write(frame, sizeof frame, (uint8_t)feeder, (uint8_t)kind, (uint8_t)sender, counter);
    if (number != FPM_DONE) {
        fprintf(stderr, "frames: refused with %u, %s\n", number, refusal_in_words(number));
        return REFUSED;
    }
    fwrite(frame, 1, sizeof frame, stdout);
    return DONE;
}

/* ---- the two commands */

static int usage(void)
{
    fputs("usage: frames read [FILE] | frames write FEEDER KIND SENDER COUNTER\n", stderr);
    return FAILED;
}

int main(int argc, char **argv)
{
    int status;

    if (argc >= 2 && argc <= 3 && strcmp(argv[1], "read") == 0)
        status = read_frames(argv[2]); /* null if there is no FILE */
    else if (argc == 6 && strcmp(argv[1], "write") == 0)
        status = write_frame(argv + 2);
    else
        return usage();

    if (fflush(stdout) != 0 || ferror(stdout))
        return failed("write", "standard output");
    return status;
}
