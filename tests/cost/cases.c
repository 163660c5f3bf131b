/* cases rows DIR          writes the measured blocks, DIR/0 with no call and DIR/1, DIR/2, .. with one,
                           and prints the row that each stands for
   cases sizes             prints the bytes of a block, of what comes of it, of its record, and of the
                           record in memory
   cases random SEED N M   makes N random calls on records of random feeders, good and bad, and writes the
                           block of every M-th */
#include "block.h"

#include <stdio.h>
#include <stdlib.h>
#include <string.h>

static const uint8_t feeder = 7;

static void block_of(uint8_t block[BLOCK], uint8_t call, uint8_t times, const uint8_t *frame, uint8_t len,
                     uint8_t size, const struct post *p)
{
    memset(block, 0, BLOCK);
    block[0] = call;
    block[1] = times;
    block[2] = len;
    block[3] = size;
    memcpy(block + 4, frame, LENT);
    put_post(block + 4 + LENT, p);
}

static void frame_of(uint8_t frame[LENT], uint8_t number, uint8_t kind, uint8_t sender, uint32_t counter)
{
    memset(frame, 0, LENT);
    put_frame(frame, number, (struct message){ kind, sender, counter });
}

/* ---- the rows */

static const char *folder;
static int rows;

static void save(const uint8_t block[BLOCK])
{
    char path[4096];
    snprintf(path, sizeof path, "%s/%d", folder, rows++);
    FILE *f = fopen(path, "wb");
    if (!f || fwrite(block, 1, BLOCK, f) != BLOCK || fclose(f) != 0) {
        perror(path);
        exit(1);
    }
}

static void row(const char *name, const struct post *p, uint8_t call, uint8_t len, uint8_t kind, uint8_t sender,
                uint32_t counter)
{
    uint8_t frame[LENT], block[BLOCK];
    frame_of(frame, p->feeder, kind, sender, counter);
    block_of(block, call, 1, frame, len, FRAME, p);
    if (!post_sound(p)) {
        fprintf(stderr, "cases: the record of '%d posts: %s' is not sound\n", p->posts, name);
        exit(1);
    }
    save(block);
    printf("%d posts, %d waiting: %s\n", p->posts, p->waits, name);
}

static void wait_for(struct post *p, uint8_t kind, uint8_t sender, uint32_t counter)
{
    p->slots[p->waits++] = (struct message){ kind, sender, counter };
}

static void in_phase(struct post *p, uint8_t phase)
{
    p->phase = phase;
    p->order = phase == 3 ? 1 : 0;
}

/* Four posts, post 3 silent, three waiting. */
static struct post small(uint8_t phase)
{
    struct post p = { .posts = 4, .own = 0, .feeder = feeder, .places = 2, .clock = 10, .last = { 10, 8, 9, 2 } };
    p.takes = 3;
    p.returns = 2;
    in_phase(&p, phase);
    if (phase == 1)
        wait_for(&p, TAKE, 0, 5);
    else
        wait_for(&p, TAKE, 1, 5);
    wait_for(&p, phase == 1 ? TAKE : RETURN, 1, 6);
    wait_for(&p, TAKE, 2, 7);
    return p;
}

/* Sixteen posts, post 15 silent, of every other four waiting, and of the own what the phase allows. */
static struct post full(uint8_t phase)
{
    struct post p = { .posts = 16, .own = 0, .feeder = feeder, .places = 16, .clock = 1001 };
    p.last[0] = 1001;
    for (uint8_t q = 1; q < 15; q++)
        p.last[q] = 1000;
    p.last[15] = 1;
    p.takes = 300;
    p.returns = 290;
    in_phase(&p, phase);
    for (uint32_t c = 10; c < 14; c++) {
        for (uint8_t q = 1; q < 15; q++)
            wait_for(&p, c % 2 == 0 ? TAKE : RETURN, q, q == 1 && c == 10 ? 5 : c);
    }
    if (phase <= 1)
        wait_for(&p, RETURN, 0, 20);
    if (phase == 1)
        wait_for(&p, TAKE, 0, 21);
    return p;
}

static void write_rows(void)
{
    uint8_t none[LENT] = { 0 }, block[BLOCK];
    struct post p = small(1);
    block_of(block, SOUND, 0, none, FRAME, FRAME, &p);
    save(block);

    row("acknowledgment accepted", &p, RECEIVE, FRAME, ACK, 1, 12);
    row("take accepted", &p, RECEIVE, FRAME, TAKE, 1, 12);
    row("acknowledgment that settles 3", &p, RECEIVE, FRAME, ACK, 3, 13);
    row("frame refused with 3", &p, RECEIVE, FRAME - 1, ACK, 1, 12);
    row("frame refused with 10", &p, RECEIVE, FRAME, ACK, 1, 8);
    row("value", &p, VALUE, FRAME, 0, 0, 0);
    row("missing", &p, MISSING, FRAME, 0, 0, 0);
    row("soundness alone", &p, SOUND, FRAME, 0, 0, 0);
    p = small(0);
    row("take", &p, TAKES, FRAME, 0, 0, 0);
    p = small(3);
    row("return", &p, RETURNS, FRAME, 0, 0, 0);

    p = full(1);
    row("acknowledgment accepted", &p, RECEIVE, FRAME, ACK, 3, 2000);
    row("take accepted, 58 shifted", &p, RECEIVE, FRAME, TAKE, 15, 2);
    row("acknowledgment that settles 1", &p, RECEIVE, FRAME, ACK, 15, 6);
    row("acknowledgment that settles 58", &p, RECEIVE, FRAME, ACK, 15, 2000);
    row("frame refused with 3", &p, RECEIVE, FRAME - 1, ACK, 3, 2000);
    row("frame refused with 10", &p, RECEIVE, FRAME, ACK, 3, 1000);
    row("frame refused with 12", &p, RECEIVE, FRAME, TAKE, 3, 2000);
    row("value", &p, VALUE, FRAME, 0, 0, 0);
    row("missing", &p, MISSING, FRAME, 0, 0, 0);
    row("soundness alone", &p, SOUND, FRAME, 0, 0, 0);
    p = full(0);
    row("take", &p, TAKES, FRAME, 0, 0, 0);
    p = full(3);
    row("return", &p, RETURNS, FRAME, 0, 0, 0);
}

/* ---- random blocks */

static uint64_t state;

static uint32_t below(uint32_t n)
{
    state = state * 6364136223846793005u + 1442695040888963407u;
    return (uint32_t)((state >> 33) % n);
}

enum { SENT = 4096 };

struct feeder {
    struct post posts[POSTS];
    struct message sent[SENT];
    int count;
    int next[POSTS][POSTS];
    uint8_t deaf[POSTS]; /* each post seldom hears one other, so that messages wait at it */
};

static void begin(struct feeder *f)
{
    uint8_t n = (uint8_t)(below(3) == 0 ? 16 : 1 + below(16)), k = (uint8_t)(1 + below(below(2) ? 3 : 16));
    const bool late = below(8) == 0;
    memset(f, 0, sizeof *f);
    for (uint8_t q = 0; q < n; q++) {
        post_start(&f->posts[q], n, q, feeder, k);
        if (late && below(4) == 0)
            f->posts[q].clock = UINT32_MAX - below(60);
        f->deaf[q] = (uint8_t)below(below(2) == 0 ? n : 32);
    }
}

/* The next message of p that q has not accepted; NULL where there is none. */
static const struct message *next_of(struct feeder *f, uint8_t p, uint8_t q)
{
    int i = f->next[p][q];
    while (i < f->count && f->sent[i].sender != p)
        i++;
    f->next[p][q] = i;
    return i < f->count ? &f->sent[i] : NULL;
}

static void spoil_byte(uint8_t record[RECORD], uint8_t waits)
{
    const uint32_t slots = BYTES_BEFORE_SLOTS, after = slots + SLOTS * BYTES_OF_SLOT;
    uint32_t at = below(3) == 0   ? below(slots)
                  : below(2) == 0 ? after + below(BYTES_AFTER_SLOTS)
                                  : slots + below(BYTES_OF_SLOT * (waits + 1u));
    switch (below(4)) {
    case 0: record[at] = (uint8_t)(record[at] + 1); break;
    case 1: record[at] = (uint8_t)(record[at] - 1); break;
    case 2: record[at] = 0; break;
    default: record[at] = (uint8_t)below(256);
    }
}

/* A change to where one of the rules of a sound record begins or ends to hold. */
static struct post at_an_edge(struct post p)
{
    struct message *m = &p.slots[below(p.waits + 1u) % SLOTS];
    uint64_t most = 0;
    for (int q = 0; q < POSTS; q++)
        most += p.last[q];
    switch (below(10)) {
    case 0: p.phase = (uint8_t)below(5); break;
    case 1: /* nothing waits, and the order number is near its bounds */
        memset(p.slots, 0, sizeof p.slots);
        p.waits = 0;
        for (int q = 0; q < p.posts; q++)
            p.last[q] = p.clock;
        p.places = (uint8_t)(1 + below(3));
        p.phase = (uint8_t)(2 + below(2));
        p.takes = below(5);
        p.returns = below(4);
        p.order = below(7);
        break;
    case 2: /* up to three own messages more */
        p.phase = (uint8_t)below(4);
        for (uint32_t n = below(4); n > 0 && p.waits < SLOTS && p.clock < UINT32_MAX; n--) {
            p.clock++;
            p.last[p.own] = p.clock;
            p.slots[p.waits++] = (struct message){ (uint8_t)(1 + below(2)), p.own, p.clock };
        }
        break;
    case 3: p.takes = most - p.returns - p.waits + below(2); break;
    case 4: p.returns = most - p.takes - p.waits + below(2); break;
    case 5: p.last[below(POSTS)] = p.clock + below(2); break;
    case 6: m->counter = p.last[m->sender % POSTS] + below(2); break;
    case 7: m->kind = (uint8_t)below(4); break;
    case 8: m->sender = (uint8_t)below(p.posts + 1u); break;
    default:
        if (p.waits > 1)
            p.slots[p.waits - 1] = p.slots[p.waits - 2];
    }
    return p;
}

static void spoil_frame(uint8_t frame[LENT], uint8_t *len)
{
    uint32_t at = below(14);
    if (at >= FRAME)
        *len = (uint8_t)below(LENT + 1);
    else
        frame[at] = (uint8_t)(below(3) == 0 ? below(256) : below(2) == 0 ? frame[at] + 1 : below(17));
}

static void write_random(long n, long every)
{
    static struct feeder f;
    uint8_t block[BLOCK], frame[LENT], buf[LENT];
    struct marks marks;

    begin(&f);
    for (long i = 0; i < n; i++) {
        if (f.count + 2 > SENT || below(1500) == 0)
            begin(&f);
        const uint8_t posts = f.posts[0].posts, q = (uint8_t)below(posts), p = (uint8_t)below(posts);
        const struct message *m = p == f.deaf[q] && below(100) != 0 ? NULL : next_of(&f, p, q);
        struct post *r = &f.posts[q];
        uint8_t call = (uint8_t)below(CALLS), len = FRAME, size = FRAME;
        if (m && p != q && below(4) != 0)
            call = RECEIVE;
        if (m)
            frame_of(frame, feeder, m->kind, m->sender, m->counter);
        else
            frame_of(frame, feeder, (uint8_t)(1 + below(3)), p, below(9) == 0 ? UINT32_MAX - below(2) : r->last[p] + below(3));
        if (below(8) == 0)
            spoil_frame(frame, &len);
        if (below(8) == 0)
            size = (uint8_t)below(LENT + 1);
        block_of(block, call, 1, frame, len, size, r);
        if (below(6) == 0) {
            struct post edge = at_an_edge(*r);
            put_post(block + 4 + LENT, &edge);
        }
        if (below(12) == 0)
            spoil_byte(block + 4 + LENT, r->waits);
        if (i % every == 0 && fwrite(block, 1, BLOCK, stdout) != BLOCK)
            exit(1);

        /* The feeder goes on by the good call. */
        uint8_t number = 1;
        if (call == RECEIVE && m && p != q) {
            frame_of(frame, feeder, m->kind, m->sender, m->counter);
            number = post_receive(r, frame, FRAME, buf, FRAME, &marks);
            if (number == 0)
                f.next[p][q]++;
        } else if (call == TAKES) {
            number = post_take(r, buf, FRAME, &marks);
        } else if (call == RETURNS) {
            number = post_return(r, buf, FRAME, &marks);
        }
        if (number == 0 && marks.wrote)
            f.sent[f.count++] = get_frame(buf);
    }
}

int main(int argc, char **argv)
{
    if (argc == 3 && strcmp(argv[1], "rows") == 0) {
        folder = argv[2];
        write_rows();
    } else if (argc == 2 && strcmp(argv[1], "sizes") == 0) {
        printf("%d %d %d %zu\n", BLOCK, RESULT, RECORD, sizeof(struct post));
    } else if (argc == 5 && strcmp(argv[1], "random") == 0) {
        state = strtoull(argv[2], NULL, 10);
        write_random(strtol(argv[3], NULL, 10), strtol(argv[4], NULL, 10));
    } else {
        return 2;
    }
    return fflush(stdout) == 0 ? 0 : 1;
}
