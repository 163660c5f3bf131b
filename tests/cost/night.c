/* Document 01's bench over the plain C record, so that the stored nights say whether that record is right. */
#include "block.h"

#include <stdio.h>
#include <string.h>

static char text[1 << 20];
static struct post posts[POSTS];
static struct message sent[256];
static size_t count, next_of[POSTS][POSTS];

/* A decimal number without leading zeros that ends at `end`; -1 for anything else or above 16. */
static int number_in(const char *s, const char *end)
{
    int n = 0;
    if (s == end || (*s == '0' && end - s > 1))
        return -1;
    for (; s < end; s++) {
        if (*s < '0' || *s > '9')
            return -1;
        n = n * 10 + (*s - '0');
        if (n > 16)
            return -1;
    }
    return n;
}

/* Two numbers with one space between. */
static int two_in(const char *s, const char *end, int *a, int *b)
{
    const char *space = memchr(s, ' ', (size_t)(end - s));
    if (!space)
        return 0;
    *a = number_in(s, space);
    *b = number_in(space + 1, end);
    return *a >= 0 && *b >= 0;
}

static void keep(const uint8_t *buf, const struct marks *marks)
{
    if (marks->wrote && count < 256)
        sent[count++] = get_frame(buf);
}

static uint8_t deliver(int p, int q, struct marks *marks)
{
    uint8_t frame[FRAME], buf[FRAME];
    size_t i = next_of[p][q];
    while (i < count && sent[i].sender != p)
        i++;
    if (i == count)
        return 15;
    put_frame(frame, 0, sent[i]);
    uint8_t number = post_receive(&posts[q], frame, FRAME, buf, FRAME, marks);
    if (number == 0)
        next_of[p][q] = i + 1;
    keep(buf, marks);
    return number;
}

static void command(int line, const char *s, const char *end, int n)
{
    struct marks marks = { false, false };
    uint8_t buf[FRAME], number = 16;
    int p = -1, q = -1;
    if (end - s > 2 && s[1] == ' ') {
        if (s[0] == 'D') {
            if (two_in(s + 2, end, &p, &q) && p < n && q < n && p != q)
                number = deliver(p, q, &marks);
        } else if (s[0] == 'T' || s[0] == 'R') {
            p = number_in(s + 2, end);
            if (p >= 0 && p < n) {
                number = s[0] == 'T' ? post_take(&posts[p], buf, FRAME, &marks) : post_return(&posts[p], buf, FRAME, &marks);
                keep(buf, &marks);
            }
        }
    }
    if (number == 16)
        printf("%d ? 16 -\n", line);
    else
        printf("%d %.*s %d %c\n", line, (int)(end - s), s, number, marks.granted ? 'G' : '-');
}

int main(void)
{
    const char *s = text, *stop = text + fread(text, 1, sizeof text, stdin), *end;
    int n = 0, k = 0, held = 0, waiting = 0;
    end = memchr(s, '\n', (size_t)(stop - s));
    if (!end)
        end = stop;
    if (!two_in(s, end, &n, &k) || n < 1 || k < 1) {
        puts("bad header");
        return 0;
    }
    for (uint8_t q = 0; q < n; q++)
        post_start(&posts[q], (uint8_t)n, q, 0, (uint8_t)k);
    for (int line = 1; end < stop && end + 1 < stop; line++) {
        s = end + 1;
        if (line == 257) {
            puts("257 ? 17 -");
            break;
        }
        end = memchr(s, '\n', (size_t)(stop - s));
        if (!end)
            end = stop;
        command(line, s, end, n);
    }
    for (int q = 0; q < n; q++) {
        held += posts[q].phase == 3;
        waiting += posts[q].phase == 1 || posts[q].phase == 2;
    }
    printf("places %d held %d waiting %d\n", k, held, waiting);
    return 0;
}
